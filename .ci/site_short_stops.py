"""Stops and failures of `escrow_site serve --keep` at each call of the system of a shortening (.ci/stop_calls.c), and a start
between whose calls another process shortens the log.

Before the new log has the name of the log, a failure leaves all as it was, and the site goes on, and tells why; from there on the
sync of the folder alone ends it, status 5. However it ends, and however the machine stops then: what was told is there, in the old log or in
the new one, each whole."""
from __future__ import annotations

import copy
import os
import re
import shutil
import signal
import subprocess
import threading
import time

from gate_programs import Fault, preloaded, refusing
from site_kills import Shop, take_run
from site_model import LOWER, Log, check_world, checked
from site_program import ALONE, SHOP, Program, Site, files_of
from site_stops import KILL, TEAR, Call, Disk, Ended, Stopper, each

SHORT, NONE, WAIT = "short", "none", "wait"
KEEP = ["--keep", "0"]
MODES = 0o640
# So many bytes come in one read. A line that isn't a command fills it.
READ, FILLER = 65_536, "x" * 255 + "\n"
GROWS = "it grows on until that is mended\n"
WORDS = {"write": "write", "fsync": "sync", "fdatasync": "sync", "open": "rename", "rename": "rename"}
"""How a step of a shortening is told, by a call of it once something was written: before that the new log is made."""


def sales(epoch: int, first: int, count: int) -> list[str]:
    """So many transactions, by turns a sale and a return, each of which keeps a record."""
    lines = []
    for number in range(first, first + count):
        lines += ["0 begin", f"0 escrow {epoch}.{number} stock {1 - number % 2 * 2}", f"0 commit {epoch}.{number}"]
    return lines


# The first start: less than a summary's records, a key among them. The second one, in two batches: behind the first one the log is
# shortened, while a transaction is open whose number is below those of commits that go; the second one commits it.
ASKED_BEFORE = [*sales(1, 1, 900), "0 begin", "0 escrow 1.901 stock -1", "0 commit 1.901 key order-1"]
ASKED_FIRST = ["0 begin", "0 escrow 2.1 stock -2", *sales(2, 2, 1_250)]
ASKED_THEN = [
    "0 commit 2.1", "0 begin", "0 escrow 2.1252 stock -1", "0 commit 2.1252 key order-2 since 2.1251", "0 begin",
    "0 escrow 2.1253 stock -1", "0 commit 2.1253 key order-3 since 2.0", "0 give 1 stock lower 3", "0 tighten stock raise 1",
    "0 read stock", "kept 2.1", "kept 2.50", "kept 2.1200", "kept key order-2 since 2.1251", "kept key order-4 since 2.1253", "hello",
]  # fmt: skip


def given(first: list[str], then: list[str]) -> tuple[list[str], str]:
    """Lines that come in two batches, where each read brings as much as it has room for."""
    text = "".join(f"{it}\n" for it in first)
    fillers = (READ - len(text)) // len(FILLER) + 1
    lines = [*first, *[FILLER[:-1]] * fillers, *then]
    return lines, "".join(f"{it}\n" for it in lines)




def words_of(shop: Shop, *words: str) -> list[str]:
    return [*words, *(["--trace"] if shop.site.is_traced else [])]


def asks(program: Program, shop: Shop, shops: list[Shop], words: list[str], lines: list[str], wanted: dict[int, str]) -> None:
    """A run that nothing stops."""
    before, words = shop.site.log(), words_of(shop, *words)
    status, out, told = program.run(["serve", shop.site.folder, *words], "".join(f"{it}\n" for it in lines).encode())
    if (status, told) != (0, "") or len(out.splitlines()) != len(lines) + 2:
        raise Fault(f"{shop.site.folder}: {status}, {told!r}, {out[-300:]!r}")
    take_run(shop, shops, words, before, lines, wanted, out.splitlines())


def prepared(program: Program, name: str, is_traced: bool = True) -> list[Shop]:
    """A world of two sites, of which the first has sold; others mayn't read its logs."""
    shops = [Shop.of(program.created(f"{name}{number}", SHOP, number, is_traced)) for number in range(2)]
    for shop, lines in zip(shops, (ASKED_BEFORE, [])):
        asks(program, shop, shops, [], lines, {})
        os.chmod(f"{shop.site.folder}/log", MODES)
    return shops


def copied(shop: Shop, folder: str) -> Shop:
    """What is known of a site, over a copy of its folder that is there already."""
    site = shop.site
    return Shop(Site(site.world, site.number, folder, site.is_traced, [*site.told]), copy.deepcopy(shop.whole), [*shop.orders])


def copies(shops: list[Shop], name: str) -> list[Shop]:
    return [copied(it, shutil.copytree(it.site.folder, f"{it.site.folder}_{name}")) for it in shops]


# ---- a stop of the machine


class Swaps(Disk):
    """What is safe where one file takes the place of another."""

    def __init__(self, calls: list[Call]) -> None:
        self.old: dict[str, int | None] = {}  # so many bytes are safe of the file that was there before: None, all of them
        self.names: dict[str, str] = {}  # what a file is named now that is told by its first name
        super().__init__(calls)

    def take(self, call: Call, path: str) -> None:
        if call.name == "make":
            self.names.pop(path, None)
        path = self.names.get(path, path)
        if call.name == "unlink":
            self.sizes.pop(path, None)
        elif call.name == "rename":
            to = path.removesuffix(".new")
            self.old[to] = self.sizes.get(to)
            super().take(call, path)
            self.names[path] = to
        else:
            super().take(call, path)

    def left(self, folder: str, old: str) -> list[dict[str, bytes]]:
        """The files that the machine may find after a stop, where the log that was there first is still to be had under the name
        `old`: once the new one has its name, and the folder isn't synced, it is the one or the other."""
        at, files = os.path.realpath(folder), {}
        for name, held in files_of(folder).items():
            if os.path.join(at, name) not in self.made:
                files[name] = held[: self.sizes.get(os.path.join(at, name), len(held))]
        log = os.path.join(at, "log")
        if f"{log}.new" not in self.moved:
            return [files]
        with open(old, "rb") as file:
            return [files, {**files, "log": file.read()[: self.old[log]], "log.new": files["log"]}]


def put(folder: str, files: dict[str, bytes]) -> str:
    os.mkdir(folder)
    for name, held in files.items():
        with open(f"{folder}/{name}", "wb") as file:
            file.write(held)
    return folder


# ---- each call


def is_of_new(call: Call) -> bool:
    return call.path.endswith("/log.new")


def in_question(calls: list[Call]) -> list[tuple[int, str]]:
    """The calls of the shortening, and those right behind it, with the ways in which each is stopped."""
    told = next(at for at, call in enumerate(calls) if call.name == "write" and call.path == "stdout" and call.number > 1_000)
    first = next(at for at in range(told, len(calls)) if is_of_new(calls[at]))
    put_at = next(at for at in range(first, len(calls)) if calls[at].name == "rename")
    left = [at for at in range(told) if is_of_new(calls[at])]
    found = [(at + 1, how) for at in [*left, *range(first, put_at + 9)] for how in calls[at].ways()]
    writes = [at for at in range(first, put_at) if calls[at].name == "write" and is_of_new(calls[at])]
    return found + [(at + 1, how) for at in writes for how in (SHORT, NONE)]


def unshortened(log: str, why: str) -> str:
    return f"escrow_site: {log}: isn't shortened: {why}: {GROWS}"


def grows(ended: Ended, folder: str, call: Call, before: list[Call]) -> str:
    """What is told where this call of a shortening fails. Where it is looked whether the log is in its place still, right before it
    is replaced, a failure counts as a no."""
    log, new = f"{folder}/log", [it.name for it in before if is_of_new(it)]
    written = new[new.index("write") :] if "write" in new else []
    if call.name == "stat" and {"fsync", "fdatasync"} & {*written}:
        return unshortened(log, f"it was moved, or another has {log}.new")
    word = WORDS.get(call.name, "make") if written or call.name == "write" else "make"
    return unshortened(log, f"{word} {log}.new: {os.strerror(int(ended.how))} (os error {ended.how})")


def check_ended(ended: Ended, folder: str) -> None:
    """Of the steps of a shortening the sync of the folder alone ends the site, where the new log has its name."""
    call = ended.stopped()
    put_at = [at for at, it in enumerate(ended.calls) if it.name == "rename" and not it.is_stopped]
    at = ended.calls.index(call)
    is_told = any(it.path == "stdout" and it.number > 1_000 for it in ended.calls[:at])
    is_shortening = is_told and (not put_at or call.path == folder)
    if ended.how in (KILL, TEAR):
        wanted = (-9, [""])
    elif call.name == "close" or ended.how in (SHORT, NONE):
        wanted = (0, [""])
    elif is_shortening and not put_at:
        wanted = (0, [grows(ended, folder, call, ended.calls[:at])])
    elif call.path == "stdout" or call.path == "stdin":
        wanted = (1, [f"escrow_site: {'read' if call.path == 'stdin' else 'write'} fault\n"])
    else:
        why = f"{os.strerror(int(ended.how))} (os error {ended.how})"
        wanted = (5, [it for it in [ended.err] if why in it and it.startswith(f"escrow_site: {folder}")])
    if ended.status != wanted[0] or ended.err not in wanted[1]:
        raise Fault(f"{ended.name}, {call.name} of {call.path}: {ended.status}, {ended.err!r}")


def goes_on(stopper: Stopper, shops: list[Shop]) -> None:
    """The next start of the first site, asked what the stop left unanswered; the other one takes what it gave; all is checked,
    woven and judged."""
    program, (shop, other) = stopper.program, shops
    before = shop.site.log()
    ids = [*shop.unanswered[:100], "1.1", "1.900", "1.901", "1.902", "2.2", "2.50", "2.1200"]
    asked = [(f"kept {it}", before.kept(it)) for it in ids]
    keys = (("order-1", "1.900"), ("order-2", "2.1251"), ("order-3", "2.0"))
    asked += [(f"kept key {key} since {since}", before.kept_key(key, since)) for key, since in keys]
    lines, wanted = [line for line, _ in asked], {at: f"{line} -> {answer}" for at, (line, answer) in enumerate(asked, 1)}
    asks(program, shop, shops, KEEP, lines, wanted)
    if set(files_of(shop.site.folder)) != {"log", "site", *(["trace"] if shop.site.is_traced else [])}:
        raise Fault(f"{shop.site.folder}: served again, and it has {sorted(files_of(shop.site.folder))}")
    total = shop.whole.log.given[1, 0, LOWER]
    asks(program, other, shops, KEEP, [f"1 accept 0 1 stock lower {total}"] if total else [], {})
    logs, folders = [it.whole.log for it in shops], [it.site.folder for it in shops]
    check_world(logs)
    program.ends(["check", *folders], 0, "\n".join([*checked(logs), ""]), "")
    if not shop.site.is_traced:
        return
    status, woven, err = program.run(["weave", *folders])
    told = f"legal {woven.count(chr(10)) - 1}\n"
    judged = program.children.run("escrow audit", [stopper.escrow, "audit"], woven.encode(), env={})
    if (status, err) != (0, "") or judged != (0, told.encode(), b""):
        raise Fault(f"{shop.site.folder}: {status}, {err!r}, {judged}")
    program.ends(["judge", *folders], 0, told, "")


def stop_shortenings(program: Program, is_traced: bool = True) -> None:
    stopper, shops = Stopper(program), prepared(program, "stopped_short", is_traced)
    lines, text = given(ASKED_FIRST, ASKED_THEN)
    whole, words = copies(shops, "whole"), words_of(shops[0], *KEEP)
    ended = stopper.run(["serve", whole[0].site.folder, *words], text, is_whole=True)
    take_run(whole[0], whole, words, shops[0].site.log(), lines, {}, ended.lines())
    if ended.status or ended.err or whole[0].whole.gone is None:
        raise Fault(f"{ended.name}: {ended.status}, {ended.err!r}, {whole[0].whole.gone}")
    if whole[0].whole.gone.open_then != (1,):
        raise Fault(f"{ended.name}: {whole[0].whole.gone}, and 2.1 was open")

    def run(number: int, how: str) -> None:
        tried = copies(shops, f"{number}_{how}")
        folder, before = tried[0].site.folder, tried[0].site.log()
        os.link(f"{folder}/log", f"{folder}.log")
        ended = stopper.run(["serve", folder, *words], text, number, how, True)
        check_ended(ended, folder)
        if not {"log", "site", "trace", "log.new"}.issuperset(files_of(folder)):
            raise Fault(f"{ended.name}: it has {sorted(files_of(folder))}")
        if (modes := os.stat(f"{folder}/log").st_mode & 0o777) != MODES:
            raise Fault(f"{ended.name}: the log has the modes {modes:o}")
        left = [files_of(folder)]
        left += [it for it in Swaps(ended.calls).left(folder, f"{folder}.log") if it not in left]
        for at, files in enumerate(left):
            pair = [copied(tried[0], put(f"{folder}_{at}", files)), copies(tried[1:], f"{at}")[0]]
            try:
                take_run(pair[0], pair, words, before, lines, {}, ended.lines())
                goes_on(stopper, pair)
            except Fault as fault:
                raise Fault(f"{ended.name}, {ended.stopped()}, state {at}: {fault}") from fault
        for it in (folder, tried[1].site.folder):
            shutil.rmtree(it)

    count = each(in_question(ended.calls), run)
    print(f"escrow_site: {count} stops and failures of shortenings, nothing told was lost", flush=True)


# ---- what a shortening syncs, and whom it locks out


def sync_always(program: Program) -> None:
    """The new log is synced before it has its name, and the folder behind it, also where the site isn't synced."""
    stopper, shops = Stopper(program), prepared(program, "unsynced_short")
    folder, words = shops[0].site.folder, words_of(shops[0], *KEEP, "--no-sync")
    lines, text = given(ASKED_FIRST, ASKED_THEN)
    before = shops[0].site.log()
    ended = stopper.run(["serve", folder, *words], text, is_whole=True)
    take_run(shops[0], shops, words, before, lines, {}, ended.lines())
    put_at = next(at for at, call in enumerate(ended.calls) if call.name == "rename")
    before, behind = ended.calls[:put_at], ended.calls[put_at:]
    written = sum(call.number for call in before if call.name == "write" and is_of_new(call))
    synced = [call.number for call in before if call.name in ("fsync", "fdatasync") and is_of_new(call)]
    is_synced = synced[-1:] == [written] and [call.path for call in behind if call.name == "fsync"] == [folder]
    if ended.status or not is_synced:
        raise Fault(f"{ended.name}: {ended.status}, {ended.err!r}, {written} bytes, synced {synced}, {behind}")


def is_waiting(number: int) -> bool:
    """Whether the process was stopped by a signal."""
    with open(f"/proc/{number}/stat", encoding="ascii") as file:
        return file.read().rpartition(")")[2].split()[0] == "T"


def lock_out(program: Program) -> None:
    """A start that has opened the log, and hasn't locked it yet, while another process shortens it: it is refused, whether that
    serves it still or not. So is one that comes once the log was shortened."""
    stopper = Stopper(program)
    for is_served in (False, True):
        shops = prepared(program, f"locked_out{int(is_served)}")
        folder, lines = shops[0].site.folder, given(ASKED_FIRST, ASKED_THEN)[1]
        calls = stopper.calls(["serve", copies(shops, "whole")[0].site.folder, "--trace"], "")
        number = next(at for at, call in enumerate(calls, 1) if call.name == "flock" and call.path.endswith("/log"))
        env = {"LD_PRELOAD": stopper.library, "STOP_AT": str(number), "STOP_HOW": WAIT, "STOP_TELL": "-1"}
        pipes = {"stdin": subprocess.PIPE, "stdout": subprocess.PIPE, "stderr": subprocess.PIPE}
        late = program.children.start([program.path, "serve", folder, "--trace"], env=env, **pipes)
        while late.poll() is None and not is_waiting(late.pid):
            time.sleep(0.001)
        first = program.children.start([program.path, "serve", folder, *words_of(shops[0], *KEEP)], env={}, **{**pipes, "stderr": None})
        try:
            first.stdin.write(lines.encode())
            first.stdin.flush()
            told = b"".join(first.stdout.readline() for _ in range(lines.count("\n")))
            if is_served:
                program.ends(["serve", folder, "--trace"], 6, "", f"{folder}/log: in use: another process serves it", b"")
            else:
                told += first.communicate()[0]
            late.send_signal(signal.SIGCONT)
            out, err = late.communicate(timeout=60)
        finally:
            program.children.end(late)
            program.children.end(first)
        wanted = (6, b"", f"escrow_site: {folder}/log: in use: another process serves it\n".encode())
        if (late.returncode, out, err) != wanted or not shops[0].site.log().gone:
            raise Fault(f"{folder}: {late.returncode}, {out!r}, {err!r}, {shops[0].site.log().gone}, {told[-200:]!r}")


# ---- memory, and readers


def refuse_memory_of_shortenings(program: Program) -> None:
    """Each growth of memory refused in turn while a log is shortened: it is told, or the log isn't shortened then, or it was managed
    without; nothing is lost."""
    library, shops = preloaded(program.children, program.folder, "refuse"), prepared(program, "refused_short", False)
    lines = [*sales(2, 1, 1_250)]
    asks(program, shops[0], shops, [], lines, {})
    asked, counts = ["0 begin", "0 escrow 3.1 stock -1", "0 commit 3.1", "kept 2.1"], [0, 0, 0]
    given = "".join(f"{it}\n" for it in asked).encode()
    for number in range(1, 1_000):
        tried = copies(shops, str(number))
        folder, before = tried[0].site.folder, tried[0].site.log()
        words = [program.path, "serve", folder, *KEEP]
        name = f"serve --keep, growth {number} refused"
        status, out, err, is_refused = refusing(program.children, library, name, words, given, number, False)
        is_told = is_refused and (status, err) == (4, b"escrow_site: out of memory\n")
        is_unshortened = err == unshortened(f"{folder}/log", f"make {folder}/log.new: out of memory").encode()
        if not is_told and (status, err) != (0, b"") and (status, is_unshortened) != (0, True):
            raise Fault(f"{name}: {status}, {out[-300:]!r}, {err!r}")
        take_run(tried[0], tried, KEEP, before, asked, {}, out.decode().split("\n")[:-1])
        counts[0 if is_told else 1 if tried[0].whole.gone is None else 2] += 1
        asks(program, tried[0], tried, KEEP, ["kept 3.1"], {1: f"kept 3.1 -> {tried[0].whole.kept('3.1')}"})
        shutil.rmtree(folder)
        if not is_refused:
            print(f"escrow_site: {number - 1} growths of memory refused: {counts[0]} told, {counts[1]} without a shortening", flush=True)
            return
    raise Fault("serve --keep: a thousand growths")


def read_while_shortened(program: Program) -> None:
    """A log that is shown and copied again and again while it is shortened: each time it is one log or the other, whole."""
    shop = Shop.of(program.created("read_short", ALONE))
    folder, lines, copied_logs = shop.site.folder, sales(1, 1, 12_000), []
    how = {"stdin": subprocess.PIPE, "stdout": subprocess.PIPE, "env": {}}
    process = program.children.start([program.path, "serve", folder, *KEEP], **how)
    out: list[bytes] = []
    reader = threading.Thread(target=lambda: out.append(process.stdout.read()))
    try:
        out.append(process.stdout.readline())
        reader.start()
        writer = threading.Thread(target=write_all, args=(process, "".join(f"{it}\n" for it in lines).encode()))
        writer.start()
        last = (0, 0)
        while process.poll() is None:
            status, told, err = program.run(["show", folder])
            found = re.search(r"^epoch 1\nlength (\d+)\n(?:gone (\d+)\n)?field", told, re.M)
            now = (int(found[1]), int(found[2] or 0)) if found else (-1, -1)
            if (status, err) != (0, "") or now[0] < last[0] or not last[1] <= now[1] <= now[0]:
                raise Fault(f"{folder}: {status}, {told!r}, {err!r}, and before {last}")
            last = now
            with open(f"{folder}/log", "rb") as log:        # alone: what lies beside it comes and goes
                copied_logs.append(log.read())
        writer.join()
        reader.join()
    finally:
        program.children.end(process)
    take_run(shop, [shop], KEEP, Log(ALONE, 0, ALONE.log_head(0)), lines, {}, b"".join(out).decode().splitlines())
    for text in copied_logs:
        held = Log(ALONE, 0, text)
        place = held.gone.bytes if held.gone else 0
        if shop.whole.starts.get(place, 0) != (held.gone.records if held.gone else 0) or not shop.whole.text.startswith(
            "".join(f"{it}\n" for it in held.records).encode(), place
        ):
            raise Fault(f"{folder}: copied while it was served, and no front of its records: {held.gone}")
    count = len({Log(ALONE, 0, it).gone for it in copied_logs})
    print(f"escrow_site: {len(copied_logs)} looks at a log that is shortened, {count} different beginnings", flush=True)


def write_all(process: subprocess.Popen[bytes], text: bytes) -> None:
    process.stdin.write(text)
    process.stdin.close()


SHORT_STOPS = (stop_shortenings, sync_always, lock_out, refuse_memory_of_shortenings, read_while_shortened)
