"""Logs of version 2 in which one bit is flipped or one byte left out: each is refused, and stays as it is, or what was hit
stood behind all that was answered."""
from __future__ import annotations

import concurrent.futures
import os
import shutil

from gate_programs import AT_ONCE, Fault
from site_misuse import CHANGED_HEAD, OTHERS, damaged, refuses
from site_model import END, ChangedHead, Log, NoLog, Text, sum_line
from site_program import SHOP, Program, Site, files_of

# What each start of site 0 is asked: four records a start, its restart's among them, in two batches.
STARTS = (
    "0 begin\n0 escrow 1.1 stock -2\n0 commit 1.1\n0 give 1 stock lower 1\n0 tighten stock raise 1\n",
    "0 accept 1 0 stock lower 4\n0 begin\n0 escrow 2.1 stock 3\n0 commit 2.1\n0 accept 1 0 stock raise 2\n",
    "0 begin\n0 escrow 3.1 stock -9\n0 escrow 3.1 stock -1\n0 commit 3.1\n0 give 1 stock lower 1\n0 tighten stock lower 1\n",
    "0 begin\n0 escrow 4.1 stock -1\n0 commit 4.1\n0 begin\n0 escrow 4.2 stock 12\n0 commit 4.2\n0 give 1 stock raise 4\n",
    "0 accept 1 0 stock lower 5\n0 begin\n0 escrow 5.1 stock -4\n0 commit 5.1\n0 begin\n0 escrow 5.2 stock -2\n"
    "0 commit 5.2\n",
)
GIFTS = "1 give 0 stock lower 4\n1 give 0 stock raise 2\n1 give 0 stock lower 1\n"
KEPT = ("1.1", "2.1", "3.1", "4.1", "4.2", "5.1", "5.2")
TORN = b"C 5 3 0 -1\nG 1 0 r 5\n"
# Every so many damaged logs one is served, too.
SAMPLE = 61


def grown(program: Program, name: str) -> Site:
    """A site that sold, gave and was given to, in many batches."""
    giver = program.created(f"{name}_giver", SHOP, 1)
    site = program.created(name)
    for at, lines in ((giver, GIFTS), *((site, it) for it in STARTS)):
        status, out, err = program.run(["serve", at.folder], lines.encode())
        if status or err or "refused" in out or "bad line" in out:
            raise Fault(f"{at.folder}: {status}, {out!r}, {err!r}")
    if len(site.log().text.batches) != 2 * len(STARTS):
        raise Fault(f"{site.folder}: the log has these batches: {site.log().text.batches}")
    return site


def flipped(text: bytes, begin: int) -> list[bytes]:
    """The text with each one bit of its bytes from there on flipped."""
    return [
        text[:at] + bytes([text[at] ^ 1 << bit]) + text[at + 1 :] for at in range(begin, len(text)) for bit in range(8)
    ]


def shortened(text: bytes, begin: int) -> list[bytes]:
    """The text without each one byte of it from there on."""
    return [text[:at] + text[at + 1 :] for at in range(begin, len(text))]


def why_refused(text: bytes) -> str:
    """Why a start refuses this text as the log of site 0, or nothing where it stands."""
    try:
        _, head = SHOP.head_of(0, text)
    except NoLog as fault:
        return CHANGED_HEAD if isinstance(fault, ChangedHead) else OTHERS
    bad_line = Text.of(text[head:]).bad_line
    return damaged(bad_line) if bad_line else ""


def copied(program: Program, site: Site, number: int) -> Site:
    folder = f"{site.folder}_copy{number}"
    if not os.path.exists(folder):
        shutil.copytree(site.folder, folder)
    return Site(site.world, site.number, folder)


def put(site: Site, text: bytes) -> None:
    with open(f"{site.folder}/log", "wb") as file:
        file.write(text)


def shown(site: Site, text: bytes) -> str:
    lines = Log(site.world, site.number, text).shown()
    return "\n".join([f"site {site.number}", f"world {site.world.name()}", *lines, ""])


def show_each(program: Program, site: Site, texts: list[bytes]) -> None:
    """Each of these as the log of the site: it is shown as the model tells, or refused."""
    for text in texts:
        put(site, text)
        why = why_refused(text)
        told = f"{site.folder}/log: {why}" if why else ""
        program.ends(["show", site.folder], 3 if why else 0, "" if why else shown(site, text), told)
        if files_of(site.folder)["log"] != text:
            raise Fault(f"{site.folder}: shown, and changed: {text!r}")


def serve_each(program: Program, site: Site, texts: list[bytes]) -> None:
    """Each of these as the log of the site: it is served and has each commit that was answered, or it is refused."""
    asked = "".join(f"kept {it}\n" for it in KEPT)
    for text in texts:
        put(site, text)
        why = why_refused(text)
        if why:
            refuses(program, site, ["serve"], 3, f"{site.folder}/log: {why}")
            continue
        status, out, err = program.run(["serve", site.folder], asked.encode())
        if status or err or any(f"kept {it} -> yes\n" not in out for it in KEPT):
            raise Fault(f"{site.folder}: served over {text!r}: {status}, {out!r}, {err!r}")


def look_at_each(program: Program, site: Site, texts: list[bytes]) -> None:
    """Shows all of them, some at once, and serves a few."""
    copies = [copied(program, site, number) for number in range(AT_ONCE)]
    with concurrent.futures.ThreadPoolExecutor(AT_ONCE) as pool:
        asked = [pool.submit(show_each, program, it, texts[at::AT_ONCE]) for at, it in enumerate(copies)]
        for it in asked:
            it.result()
        few = texts[::SAMPLE]
        asked = [pool.submit(serve_each, program, it, few[at::AT_ONCE]) for at, it in enumerate(copies)]
        for it in asked:
            it.result()


def damage_whole_logs(program: Program) -> None:
    """Each bit and each byte of a log that ends with a closed batch, and of one that is ended: nothing is taken, but the log
    without its last byte, which is what a stop would leave."""
    site = grown(program, "damaged")
    log = files_of(site.folder)["log"]
    for text in (log, log + END):
        texts = flipped(text, 0) + shortened(text, 0)[:-1]
        if not all(map(why_refused, texts)) or why_refused(text[:-1]):
            raise Fault(f"the model takes a damaged log: {text!r}")
    ended = [*flipped(log + END, len(log)), *shortened(log + END, len(log))]
    look_at_each(program, site, flipped(log, 0) + shortened(log, 0)[:-1] + ended[:-1])
    print(f"escrow_site: {8 * len(log)} flipped bits of a log refused, and {len(log)} bytes left out", flush=True)


def damage_torn_ends(program: Program) -> None:
    """Each bit and each byte behind the last closed batch: it is cut off or refused, and no answered commit is lost."""
    site = grown(program, "damaged_end")
    log = files_of(site.folder)["log"]
    texts = []
    for torn in (TORN, TORN + sum_line(TORN)[:9], b"X\n", END[:-1]):
        texts += [log + torn, *flipped(log + torn, len(log)), *shortened(log + torn, len(log))]
    look_at_each(program, site, texts)


def refuse_damage_of_one(program: Program) -> None:
    """A damaged log beside a sound one: the whole world is refused, and no log is changed."""
    site = grown(program, "damaged_one")
    giver = Site(SHOP, 1, f"{site.folder}_giver")
    log = files_of(site.folder)["log"]
    for at in range(len(SHOP.log_head(0)), len(log), SAMPLE):
        put(site, log[:at] + bytes([log[at] ^ 1]) + log[at + 1 :])
        held = [files_of(it.folder) for it in (site, giver)]
        for words in (["check"], ["settle"], ["settle", "--dry-run"]):
            told = f"{site.folder}/log: {why_refused(held[0]['log'])}"
            program.ends([*words, giver.folder, site.folder], 3, "", told)
        if [files_of(it.folder) for it in (site, giver)] != held:
            raise Fault(f"{site.folder}: refused, and changed")


DAMAGES = (damage_whole_logs, damage_torn_ends, refuse_damage_of_one)
