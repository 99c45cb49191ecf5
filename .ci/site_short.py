"""Logs of version 3, written by the model (site_model.py), over the program escrow_site: what is told of them, each changed head
and base refused, and which starts may shorten a log."""
from __future__ import annotations

import concurrent.futures
import dataclasses
import errno
import os
import re
import shutil
import subprocess

from gate_programs import AT_ONCE, Fault
from site_damage import flipped, put
from site_damage import shortened as left_out
from site_folders import WORLDS
from site_keys import old_folder
from site_kills import Run, Shop, check_start, look_at_log, take_answers
from site_misuse import BEHIND, CHANGED_HEAD, LOST, NO_RECORD, NO_TRACE, OTHERS, refuses
from site_model import END, ChangedHead, Field, Gone, Log, NoLog, OtherLog, World, bounded, checked, sealed, settled
from site_program import ALONE, FIRST, SHOP, Program, Site, files_of
from site_settled import ENDED
from site_short_stops import READ, sales, unshortened
from site_stops import Stopper
from site_whole import Whole

PLAIN = "version 1 can't let go of its front: serve it without --keep, or settle its world into a new one"
# A world of three sites, one of whose fields has no width.
WORLD = World(3, (Field("stock", 0, 100, 40), Field("still", 7, 7, 7)), "short-2026")
GONE = Gone(16_000_123, 1_000_000, 7, 431, (12, 398))
# Site 0 had 14 of stock to lower and 20 to raise; it gave up 1 to raise. What it has behind that, gifts and acceptances make up.
BASE = "S 7 2 21 14 0 0 g 1 0 l 5 g 2 0 r 40 a 1 0 r 37 a 2 0 l 10 t 0 r 1"
BATCHES = (
    ("K 7 430 6F726465722D30", BASE, "C 7 430 0 -1"), ("C 7 432 0 -3 0 1",),
    ("K 7 398 6F726465722D31", "C 7 398 0 1", "G 1 0 l 6", "R 8", "C 8 1 0 2"),
)  # fmt: skip
KEPT = {
    "7.430": "yes", "7.432": "yes", "7.398": "yes", "8.1": "yes", "7.431": "forgotten", "7.1": "forgotten", "6.900000000": "forgotten",
    "1.1": "forgotten", "7.12": "no", "7.433": "no", "8.2": "no", "9.1": "no",
}  # fmt: skip
KEYS = {
    "order-0": "7.430", "order-0 since 7.431": "7.430", "order-1": "7.398", "order-1 since 0.0": "7.398", "order-2": "forgotten", "order-2 since 7.430": "forgotten",
    "order-2 since 6.999999999": "forgotten", "order-2 since 7.431": "no", "order-2 since 7.432": "no", "order-2 since 8.0": "no",
}  # fmt: skip




def lines(*records: str) -> bytes:
    return "".join(f"{it}\n" for it in records).encode()


TEXT = WORLD.log_text(0, *(lines(*it) for it in BATCHES), gone=GONE)
# What the other sites have, so that all rights are there.
OTHERS_GONE = Gone(40_000, 2_500, 3, 70)
OTHER_TEXTS = (
    WORLD.log_text(1, lines("S 3 2 1 0 0 0 g 0 0 r 37 a 0 0 l 5"), lines("R 4"), gone=OTHERS_GONE),
    WORLD.log_text(2, lines("S 3 2 20 43 0 0 g 0 0 l 10 a 0 0 r 40"), gone=OTHERS_GONE),
)


def made(program: Program, name: str, text: bytes = TEXT, number: int = 0) -> Site:
    site = program.created(name, WORLD, number)
    program.put(f"{name}/log", text)
    return site


def why_refused(text: bytes) -> str:
    """Why these bytes aren't taken as the log of site 0, or nothing where they are."""
    try:
        _, head = WORLD.head_of(0, text)
        Log(WORLD, 0, text)
    except OtherLog:
        return OTHERS
    except ChangedHead:
        return CHANGED_HEAD
    except NoLog as fault:
        if fault.line is None:
            raise Fault(f"{fault}, and no line is told") from fault
        if fault.is_damage:
            return f"line {text[:head].count(10) + fault.line}: the batch that begins there is damaged: put its own newest log back"
        return NO_RECORD.format(fault.line)
    return ""


def shown(text: bytes) -> str:
    return "\n".join(["site 0", f"world {WORLD.name()}", *Log(WORLD, 0, text).shown(), ""])


# ---- what is told of them


def tell_short_logs(program: Program) -> None:
    """A log of version 3 is shown, served, settled and closed."""
    site = made(program, "short")
    program.ends(["show", site.folder], 0, shown(TEXT), "")
    asked = [f"kept {it}" for it in KEPT] + [f"kept key {it}" for it in KEYS]
    told = [f"kept {it} -> {answer}" for it, answer in KEPT.items()] + [f"kept key {it} -> {answer}" for it, answer in KEYS.items()]
    text = TEXT
    for epoch, words in ((9, []), (10, ["--keep", "0"]), (11, ["--no-sync"]), (12, ["--keep", "0", "--no-sync"])):
        text += sealed(lines(f"R {epoch}"))
        length = Log(WORLD, 0, text).length
        out = f"ready 2 {epoch} {length}\n0 restart -> restarted {epoch} nothing\n" + "".join(f"{it}\n" for it in told)
        before = ["--not-before", str(epoch - 1), str(length - len(f"R {epoch}\n"))]
        program.ends(["serve", site.folder, *words, *before], 0, out, "", lines(*asked))
        if files_of(site.folder)["log"] != text:
            raise Fault(f"{site.folder}: the log is {files_of(site.folder)['log']!r}")
    early = f"{site.folder}/log: epoch 12, length {length}: older than --not-before: put the newest log back"
    refuses(program, site, ["serve", "--not-before", "12", str(length + 1)], 3, early)
    refuses(program, site, ["serve", "--keep", "0", "--not-before", "13", "0"], 3, early)


def sell_by_keys(program: Program) -> None:
    """A commit with a key is carried out where none with it can be gone, and is told else, and its transaction stays open."""
    for key, answer in KEYS.items():
        site = made(program, "short_" + key.replace(" ", "_"))
        name = key.split(" ")[0]
        asked = ["0 begin", "0 escrow 9.1 stock -1", f"0 commit 9.1 key {key}", f"kept key {name} since 9.1", "0 abort 9.1", "kept 9.1"]
        told = ["0 begin -> begun 9.1", "0 escrow 9.1 stock -1 -> granted"]
        if answer == "no":
            told += ["0 commit 9.1 -> committed", f"kept key {name} since 9.1 -> 9.1"]
            told += ["0 abort 9.1 -> refused 4 no transaction", "kept 9.1 -> yes"]
        else:
            now = "no" if answer == "forgotten" else answer
            told += [f"kept key {name} -> {answer}", f"kept key {name} since 9.1 -> {now}", "0 abort 9.1 -> aborted", "kept 9.1 -> no"]
        length = Log(WORLD, 0, TEXT).length + 4
        out = f"ready 2 9 {length}\n0 restart -> restarted 9 nothing\n" + "".join(f"{it}\n" for it in told)
        program.ends(["serve", site.folder], 0, out, "", lines(*asked))


def settle_short_logs(program: Program) -> None:
    """A world whose logs are all of version 3 is checked and settled, and its logs are closed."""
    sites = [made(program, f"short_world{number}", text, number) for number, text in enumerate((TEXT, *OTHER_TEXTS))]
    folders, logs = [it.folder for it in sites], [it.log() for it in sites]
    before = [files_of(it) for it in folders]
    program.ends(["check", *folders], 0, "\n".join([*checked(logs), ""]), "")
    program.ends(["settle", "--dry-run", *folders], 0, f"{settled(logs).header()}\n", "")
    program.ends(["settle", *folders[1:]], 3, "\n".join([*bounded(logs[1:]), ""]), LOST.format(0))
    if [files_of(it) for it in folders] != before:
        raise Fault(f"{folders}: looked at, and changed")
    program.ends(["settle", *folders], 0, f"{settled(logs).header()}\n", "")
    if [files_of(it)["log"] for it in folders] != [it["log"] + END for it in before]:
        raise Fault(f"{folders}: settled, and the logs are {[files_of(it)['log'] for it in folders]}")
    for site in sites:
        for words in ([], ["--keep", "0"]):
            refuses(program, site, ["serve", *words], 3, f"{site.folder}: {ENDED}")
    program.ends(["show", folders[0]], 0, shown(TEXT), "")
    program.ends(["settle", "--again", *folders], 0, f"{settled(logs).header()}\n", "")


# ---- heads and bases that are refused

OWNER = WORLD.owner(0)


def head(*told: str, version: int = 3, owner: str = OWNER) -> bytes:
    """A head of these lines, with their sum."""
    return sealed(f"escrow log {version}\n{owner}".encode() + lines(*told))


TOLD = GONE.told().decode().splitlines()
HORIZON = "horizon 7 431"
BAD_HEADS = (
    (head(*TOLD, version=4), OTHERS),
    (head(*TOLD, version=2), OTHERS),
    (head(*TOLD, owner=WORLD.owner(1)), OTHERS),
    (head(*TOLD, owner=SHOP.owner(0)), OTHERS),
    (head(*TOLD).replace(b"number 0", b"number 00"), OTHERS),
    (head(*TOLD)[:-22], CHANGED_HEAD),
    (head(*TOLD)[:-22] + lines("sum 0000000000000000"), CHANGED_HEAD),
    (head(*TOLD)[:-22] + head(*TOLD)[-22:].upper(), CHANGED_HEAD),
    (head(*TOLD)[:-1], CHANGED_HEAD),
    *((head(*TOLD).replace(*it), CHANGED_HEAD) for it in ((b"16000123", b"16000124"), (b"1000000\n", b"999999\n"), (b"7 431", b"7 432"),
                                                     (b"398", b"399"), (b" 12 398", b""), (b"horizon 7", b"horizon 8"))),
    *((head(*told), CHANGED_HEAD) for told in (
        [], TOLD[:1], TOLD[1:], TOLD[::-1], [*TOLD, TOLD[1]], [TOLD[0], "", TOLD[1]], ["head 0 0"],
        ["head 16000123", TOLD[1]], ["head 16000123 1000000 1", TOLD[1]], ["head 016000123 1000000", TOLD[1]],
        ["head 16000123  1000000", TOLD[1]], ["head 18446744073709551616 0", TOLD[1]], ["head 0 18446744073709551616", TOLD[1]],
        ["head -1 0", TOLD[1]], ["Head 0 0", TOLD[1]], ["head 0 0 ", TOLD[1]], ["head 0 x", TOLD[1]],
        [TOLD[0], "horizon 7"], [TOLD[0], "horizon 0 431"], [TOLD[0], "horizon 1000000001 431"], [TOLD[0], "horizon 7 1000000001"],
        [TOLD[0], f"{HORIZON} 0"], [TOLD[0], f"{HORIZON} 432"], [TOLD[0], f"{HORIZON} 398 12"], [TOLD[0], f"{HORIZON} 12 12"],
        [TOLD[0], f"{HORIZON} 012"], [TOLD[0], f"{HORIZON} "], [TOLD[0], " ".join([HORIZON, *map(str, range(1, 66))])],
        [TOLD[0], "horizon 4294967303 431"],
    )),
)  # fmt: skip
GOOD_HEADS = (
    Gone(0, 0, 1, 0), Gone(2**63, 2**63, 10**9, 10**9, (10**9,)), Gone(16_000_123, 1_000_000, 7, 431, tuple(range(368, 432))),
)  # fmt: skip


def refuse_heads(program: Program) -> None:
    """Each line of a head changed, and what is out of range."""
    site = made(program, "bad_heads")
    behind = TEXT[len(WORLD.log_head(0, GONE)) :]
    for text, told in BAD_HEADS:
        program.put("bad_heads/log", text + behind)
        if why_refused(text + behind) != told:
            raise Fault(f"the model takes {text!r}: {why_refused(text + behind)}")
        for words in (["serve"], ["serve", "--keep", "0"], ["show"], ["settle"], ["settle", "--dry-run"]):
            refuses(program, site, words, 3, f"{site.folder}/log: {told}")
    for gone in GOOD_HEADS:
        text = WORLD.log_head(0, gone) + behind
        program.put("bad_heads/log", text)
        program.ends(["show", site.folder], 0, shown(text), "")


BAD_BASES = (
    ("", 1),  # no base at all
    ("R 7", 1), ("C 7 430 0 -1", 1), ("HELLO", 1), (BASE.replace("S 7", "S 07"), 1), (BASE + " ", 1), (BASE.replace("S 7 2", "S 7 3"), 1),
    ("S 7 1 21 14 g 1 0 l 5 g 2 0 r 40 a 1 0 r 37 a 2 0 l 10 t 0 r 1", 1),
    ("S 7 2 14 20 0 0 g 2 0 l 0", 1),  # a total of 0
    ("S 7 2 14 20 0 0 t 0 r 0", 1),
    ("S 7 2 90 90 0 0 a 1 0 l 146", 1),  # above the width
    ("S 7 2 14 21 0 0", 1), ("S 7 2 14 19 0 0", 1), ("S 7 2 13 20 0 0", 1),  # out of balance
    ("S 7 2 14 20 0 0 g 1 1 l 5 a 1 1 l 5", 1),  # gifts on a field of no width
    ("S 7 2 14 20 1 0 a 1 1 l 1", 1),
    ("S 7 2 9 20 0 0 g 0 0 l 5", 1), ("S 7 2 9 20 0 0 g 3 0 l 5", 1), ("S 7 2 14 20 0 0 g 1 2 l 5", 1),  # no other site, no field
    ("S 7 2 9 20 0 0 g 2 0 l 3 g 1 0 l 2", 1), ("S 7 2 9 20 0 0 g 1 0 r 3 g 1 0 l 2", 1),  # out of order
    ("S 7 2 9 20 0 0 g 1 0 l 3 g 1 0 l 2", 1), ("S 7 2 14 20 0 0 a 1 0 l 5 g 1 0 l 5", 1),
    ("S 1000000001 2 14 20 0 0", 1), ("S 7 2 13 21 0 0\nR 7", 2), ("S 7 2 13 21 0 0\nC 6 1 0 -1", 2), ("S 7 2 13 21 0 0\nC 7 1 0 -14", 2),
    ("S 7 2 13 21 0 0\nC 7 1 0 -1\nS 7 2 13 21 0 0", 3), ("S 7 2 13 21 0 0\nG 1 0 l 4\nA 1 0 l 200", 3),
)  # fmt: skip


def changed_numbers(text: str) -> list[str]:
    """The text with each one number of it more or less by one."""
    found = [(it.start(), it.end(), int(it[0])) for it in re.finditer(r"\d+", text)]
    return [f"{text[:first]}{number + by}{text[end:]}" for first, end, number in found for by in (1, -1) if number + by >= 0]


def refuse_bases(program: Program) -> None:
    """Bases that no records lead to, and each number of one that is changed by one: what balances still is shown."""
    site = made(program, "bad_bases")
    top = WORLD.log_head(0, GONE)
    taken = 0
    held = [(top + (sealed(lines(text)) if text else b""), line) for text, line in BAD_BASES]
    for base in changed_numbers(BASE):
        batches = [lines(*(base if it == BASE else it for it in batch)) for batch in BATCHES]
        held.append((top + sealed(*batches), 0))
    for text, line in held:
        program.put("bad_bases/log", text)
        told = why_refused(text)
        if line and told != NO_RECORD.format(line):
            raise Fault(f"the model tells of {text!r}: {told}")
        if not told:
            taken += 1
            program.ends(["show", site.folder], 0, shown(text), "")
            continue
        for words in (["serve"], ["serve", "--keep", "0"], ["show"], ["settle"]):
            refuses(program, site, words, 3, f"{site.folder}/log: {told}")
    print(f"escrow_site: {len(held)} changed bases, {taken} of which balance; the others are refused", flush=True)


def show_each(program: Program, site: Site, texts: list[bytes]) -> None:
    for text in texts:
        put(site, text)
        why = why_refused(text)
        told = f"{site.folder}/log: {why}" if why else ""
        program.ends(["show", site.folder], 3 if why else 0, "" if why else shown(text), told)
        if files_of(site.folder)["log"] != text:
            raise Fault(f"{site.folder}: shown, and changed: {text!r}")


def damage_short_logs(program: Program) -> None:
    """Bits of a log of version 3 flipped, and each byte left out: none is taken but what a stop leaves."""
    sites = [made(program, f"short_damaged{number}") for number in range(AT_ONCE)]
    texts = flipped(TEXT, 0)[::3] + left_out(TEXT, 0)
    if [it for it in texts if not why_refused(it)] != [TEXT[:-1]]:
        raise Fault("the model takes a damaged log")
    with concurrent.futures.ThreadPoolExecutor(AT_ONCE) as pool:
        asked = [pool.submit(show_each, program, it, texts[at::AT_ONCE]) for at, it in enumerate(sites)]
        for it in asked:
            it.result()
    print(f"escrow_site: {len(texts) - 1} damaged logs of version 3 refused", flush=True)


# ---- which starts may shorten, and what they leave


def refuse_keeps(program: Program) -> None:
    """A log of version 1 can't be shortened."""
    site = old_folder(program, "keep_once", b"R 1\nC 1 1 0 -20\n")
    for words in (["--keep", "0"], ["--keep", "1048576", "--trace"], ["--keep", "0", "--no-sync"]):
        refuses(program, site, ["serve", *words], 3, f"{site.folder}/log: {PLAIN}")
    program.ends(["serve", site.folder], 0, FIRST.format(2, 20, 2), "", b"")
    for world in WORLDS[:2]:
        for folder in world.asked:
            path = shutil.copytree(os.path.join(world.kept(), folder), os.path.join(program.folder, f"keep_{folder}"))
            refuses(program, Site(SHOP, 0, path), ["serve", "--keep", "0", "--trace"], 3, f"{path}/log: {PLAIN}")


def refuse_short_traces(program: Program) -> None:
    """A trace beside a shortened log has an entry of each record, those that are gone too; none is begun there."""
    site = made(program, "short_untraced", WORLD.log_text(0, lines(BASE), gone=GONE))
    for words in (["serve", "--trace"], ["serve", "--trace", "--keep", "0"]):
        refuses(program, site, words, 3, f"{site.folder}/trace: {NO_TRACE}")
    site = program.created("short_traced", ALONE, 0, True)
    asked = sales(1, 1, 3_000)
    status, out, err = program.run(["serve", site.folder, "--trace", "--keep", "0"], lines(*asked))
    if (status, err) != (0, "") or site.log().gone is None or not out.endswith("0 commit 1.3000 -> committed\n"):
        raise Fault(f"{site.folder}: {status}, {err!r}, {site.log().gone}")
    with open(f"{site.folder}/trace", encoding="ascii") as file:
        trace = file.read()
    entries = trace.count("\n") - 3
    ahead = trace + "0 begin -> begun 1.3001\n0 escrow 1.3001 stock -1 -> granted\n0 commit 1.3001 -> committed\n0 be"
    behind = trace.replace("0 commit 1.5 -> committed\n", "")
    for text in (behind, trace.replace("0 commit 1.3000 -> committed\n", ""), trace[: len(ALONE.trace_name(0))]):
        program.file("short_traced/trace", text)
        for words in (["serve", "--trace"], ["serve", "--trace", "--keep", "0"], ["weave"], ["judge"]):
            refuses(program, site, words, 3, f"{site.folder}/trace: {BEHIND}")
    program.file("short_traced/trace", ahead)
    program.ends(["judge", site.folder], 0, f"legal {entries + 2}\n", "")
    length = site.log().length + 4
    started = f"ready 2 2 {length}\n0 restart -> restarted 2 nothing\n"
    program.ends(["serve", site.folder, "--trace"], 0, started, "", b"")
    program.ends(["judge", site.folder], 0, f"legal {entries + 3}\n", "")


def remove_new(program: Program) -> None:
    """What a stop left of a new log goes at the next start, whatever it holds, and nothing else looks at it."""
    for words in ([], ["--keep", "0"]):
        for held in (b"", b"garbage", TEXT, TEXT[:-5]):
            site = made(program, f"left{len(words)}_{len(held)}")
            program.put(f"{os.path.basename(site.folder)}/log.new", held)
            program.ends(["show", site.folder], 0, shown(TEXT), "")
            status, out, err = program.run(["serve", site.folder, *words])
            if (status, err) != (0, "") or files_of(site.folder).keys() != {"site", "log"}:
                raise Fault(f"{site.folder}: {status}, {out!r}, {err!r}, {files_of(site.folder).keys()}")
            if files_of(site.folder)["log"] != TEXT + sealed(b"R 9\n"):
                raise Fault(f"{site.folder}: the log is {files_of(site.folder)['log']!r}")


def shorten_behind_links(program: Program) -> None:
    """A log that lies elsewhere, behind a link, is shortened there: the link stays, and names the log."""
    site, there = program.created("linked", ALONE), os.path.join(program.folder, "other_disk")
    os.mkdir(there)
    os.rename(f"{site.folder}/log", f"{there}/linked.log")
    os.symlink(f"{there}/linked.log", f"{site.folder}/log")
    program.file("other_disk/linked.log.new", "garbage")
    for epoch in (1, 2):
        status, _, err = program.run(["serve", site.folder, "--keep", "0"], lines(*sales(epoch, 1, 3_000)))
        held = {"site", "log"} == set(files_of(site.folder)) and {"linked.log"} == set(files_of(there))
        if (status, err) != (0, "") or not held or not os.path.islink(f"{site.folder}/log") or not site.log().gone:
            raise Fault(f"{site.folder}: {status}, {err!r}, {sorted(files_of(site.folder))}, {sorted(files_of(there))}, {site.log().gone}")


def ask(served: subprocess.Popen[bytes], asked: list[str]) -> list[bytes]:
    """The answers to lines, some at a time, so that no pipe is full."""
    told: list[bytes] = []
    assert served.stdin and served.stdout
    for at in range(0, len(asked), 90):
        served.stdin.write(lines(*asked[at : at + 90]))
        served.stdin.flush()
        told += [served.stdout.readline() for _ in asked[at : at + 90]]
    return told


def spare_others(program: Program) -> None:
    """A link to a folder that is turned while the folder is served, and a folder that is moved and another one put in its place: the
    log goes on where it lies, whole, which is told, and the other site's folder stays as it is."""
    for is_link in (True, False):
        for words in ([], ["--archive"]):
            name = f"turned{int(is_link)}{len(words)}"
            site, other = program.created(name, ALONE), program.created(f"{name}_other", ALONE)
            there = os.path.join(program.folder, f"{name}_now")
            os.symlink(site.folder, there) if is_link else os.rename(site.folder, there)
            pipes = {"stdin": subprocess.PIPE, "stdout": subprocess.PIPE, "stderr": subprocess.PIPE}
            served = program.children.start([program.path, "serve", there, "--keep", "0", *words], env={}, **pipes)
            try:
                ask(served, sales(1, 1, 300))
                os.remove(there) if is_link else os.rename(there, site.folder)
                os.symlink(other.folder, there) if is_link else shutil.copytree(other.folder, there)
                before = files_of(there)
                ask(served, sales(1, 301, 3_000))
                _, err = served.communicate()
            finally:
                program.children.end(served)
            log, ending = site.log(), "GONE" if words else "new"
            told = unshortened(f"{there}/log", f"it was moved, or another has {there}/log.{ending}").encode()
            if (served.returncode, err) != (0, told) or files_of(there) != before or log.gone or len(log.commits) != 3_300:
                raise Fault(f"{there}: {served.returncode}, {err!r}, {sorted(files_of(there))}, {log.gone}, {len(log.commits)} commits")


def tell_unshortened(program: Program) -> None:
    """What stands in the way of a shortening is told once, and anew only once the log was shortened in between; where it may be told
    again and again, sixteen times in a run."""
    site = program.created("told", ALONE)
    folder, pipes = site.folder, {"stdin": subprocess.PIPE, "stdout": subprocess.PIPE, "stderr": subprocess.PIPE}
    served = program.children.start([program.path, "serve", folder, "--keep", "0", "--no-sync"], env={}, **pipes)
    why = f"make {folder}/log.new: {os.strerror(errno.EISDIR)} (os error {errno.EISDIR})"
    try:
        ask(served, sales(1, 1, 100))
        for turn in range(20):
            os.mkdir(f"{folder}/log.new")
            ask(served, sales(1, turn * 8_000 + 101, 4_000))
            gone = site.log().gone
            os.rmdir(f"{folder}/log.new")
            ask(served, sales(1, turn * 8_000 + 4_101, 4_000))
            if site.log().gone == gone:
                raise Fault(f"{folder}: not shortened in turn {turn}: {gone}")
        _, err = served.communicate()
    finally:
        program.children.end(served)
    if (served.returncode, err.decode()) != (0, unshortened(f"{folder}/log", why) * 16):
        raise Fault(f"{folder}: {served.returncode}, {err!r}")


def tell_unkept(program: Program) -> None:
    """So is what stands in the way of an archive: the log isn't shortened then."""
    site, asked = program.created("unkept", ALONE), lines(*sales(1, 1, 3_000))
    folder = shutil.copytree(site.folder, f"{site.folder}_before")
    program.run(["serve", folder, "--keep", "0", "--archive"], asked)
    parts = sorted(it for it in files_of(folder) if it.startswith("log."))
    os.mkdir(f"{site.folder}/{parts[0]}")
    status, _, err = program.run(["serve", site.folder, "--keep", "0", "--archive"], asked)
    log = site.log()
    why = f"keep {site.folder}/log.GONE: {os.strerror(errno.EISDIR)} (os error {errno.EISDIR})"
    if (status, err) != (0, unshortened(f"{site.folder}/log", why)) or log.gone or len(log.commits) != 3_000:
        raise Fault(f"{site.folder}: {status}, {err!r}, {log.gone}, {len(log.commits)} commits, {parts}")


def keep_parts(program: Program) -> None:
    """With --archive what a log lets go of is kept: verify tells all that a log has that lets go of nothing. A part that was
    changed, or isn't there, is named."""
    site, whole = program.created("parts", ALONE), program.created("parts_whole", ALONE)
    for epoch in (1, 2):
        for words in (["serve", site.folder, "--keep", "0", "--archive"], ["serve", whole.folder]):
            status, _, err = program.run(words, lines(*sales(epoch, 1, 3_000)))
            if (status, err) != (0, ""):
                raise Fault(f"{words}: {status}, {err!r}")
    log = whole.log()
    verified = f"verified {len([it for it in log.records if not it.startswith('S')])} {log.length}\n"
    for it in (site, whole):
        program.ends(["verify", it.folder], 0, verified, "")
    parts = sorted(it for it in files_of(site.folder) if it.startswith("log."))
    if len(parts) < 2:
        raise Fault(f"{site.folder}: {parts}")
    for name in parts:
        path, held = f"{site.folder}/{name}", files_of(site.folder)[name]
        program.put(f"parts/{name}", held[:-40] + bytes([held[-40] ^ 1]) + held[-39:])
        status, out, err = program.run(["verify", site.folder])
        if (status, out) != (3, "") or not err.startswith(f"escrow_site: {path}: line "):
            raise Fault(f"{path}, changed: {status}, {out!r}, {err!r}")
        os.remove(path)
        program.ends(["verify", site.folder], 3, "", f"{path}: isn't there: what is in front of it can't be verified")
        program.put(f"parts/{name}", held)
    program.ends(["verify", site.folder], 0, verified, "")


@dataclasses.dataclass
class Due:
    """When a log is looked at, and where it is let go, by how many bytes are to stay."""

    whole: Whole
    keep: int
    gone: int
    at: int = 0

    def __post_init__(self) -> None:
        self.set(min(self.held(), 6 * self.keep))

    def held(self) -> int:
        return len(self.whole.text) - self.gone

    def set(self, held: int) -> None:
        self.at = held + 2 * self.keep + 16_384

    def look(self) -> None:
        """Behind a release."""
        if self.held() < self.at:
            return
        starts = [it for it in self.whole.starts if it > self.gone]
        for at, behind in zip(starts[-2::-1], starts[:0:-1]):
            line = self.whole.text.index(b"\n", at) + 1
            if len(self.whole.text) - line >= self.keep and behind >= line:
                self.gone = at
                break
        self.set(self.held())


def batches(asked: list[str]) -> list[int]:
    """How many lines each read ends of so many bytes, where the input is a file."""
    ends, length, count = [], 0, 0
    for at, line in enumerate(asked):
        length += len(line) + 1
        while length > READ * (len(ends) + 1):
            ends.append(at)
    return [*ends, len(asked)]


def keep_as_much(program: Program) -> None:
    """What stays is what was asked for, to the byte: the log is looked at when it is due, and let go up to the last summary that
    may be; over starts of one folder."""
    stopper, shop = Stopper(program), Shop.of(program.created("kept_short", ALONE))
    starts = ((None, 4_000), (0, 1), (0, 2_500), (20_000, 7_000), (3_000, 300), (0, 4_500), (2**40, 3_000), (0, 3_000))
    olds: list[bytes] = []
    for epoch, (keep, count) in enumerate(starts, 1):
        olds.append(files_of(shop.site.folder)["log"])
        words = [] if keep is None else ["--keep", str(keep)]
        asked, before = sales(epoch, 1, count), shop.site.log()
        ended = stopper.run(["serve", shop.site.folder, *words], "".join(f"{it}\n" for it in asked), is_whole=True)
        told, run = shop.whole.gone.bytes if shop.whole.gone else 0, Run(shop, [shop])
        check_start(shop, words, before, ended.lines()[:2])
        due = Due(shop.whole, keep, told) if keep is not None else None
        at = 0
        for end in batches(asked):
            take_answers(run, asked[at:end], {}, [*ended.lines()[:2], *ended.lines()[2 + at : 2 + end]])
            at = end
            if due:
                due.look()
        held = shop.site.log()
        look_at_log(shop, held)
        is_right = ended.status == 0 and not shop.whole.lines_behind(shop.site.folder, held)
        if not is_right or (held.gone.bytes if held.gone else 0) != (due.gone if due else told):
            raise Fault(f"{ended.name}: {ended.status}, {ended.err!r}, {held.gone}, and not {due}")
    refuse_older(program, shop, olds)


def refuse_older(program: Program, shop: Shop, olds: list[bytes]) -> None:
    """Copies of the log, of before each of the starts: none has come as far as the log has now, shortened or not."""
    now = shop.site.log()
    for text in olds:
        put(shop.site, text)
        log = shop.site.log()
        told = f"{shop.site.folder}/log: epoch {log.epoch}, length {log.length}: older than --not-before: put the newest log back"
        for seen in ((now.epoch, now.length), (0, now.length), (now.epoch, 0)):
            refuses(program, shop.site, ["serve", "--keep", "0", "--not-before", *map(str, seen)], 3, told)


SHORT = (
    tell_short_logs, sell_by_keys, settle_short_logs, refuse_heads, refuse_bases, damage_short_logs, refuse_keeps,
    refuse_short_traces, remove_new, shorten_behind_links, spare_others, tell_unshortened, tell_unkept, keep_parts, keep_as_much,
)  # fmt: skip
