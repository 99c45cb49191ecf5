"""Stops and failures of the program escrow_site at each of its calls of the system (.ci/stop_calls.c): of `create`, of
`serve`'s first start and its second over torn files, each with a batch, of `settle`, and of the commands that read.

Each call is stopped in turn: the process is killed before it, or in the midst of a write; or the call fails. The fault is
told, by the file at which it was. Then the folder is looked at as it was left, and once more as a stop of the machine would
have left it then, which takes what no sync made safe: nothing that was told is lost, nothing that wasn't asked is there,
and what is there goes on, by docs/FORMATS.md and docs/OPERATING.md."""
from __future__ import annotations

import concurrent.futures
import dataclasses
import errno
import os
import shutil
from collections.abc import Callable, Iterable

from gate_programs import AT_ONCE, Fault, as_file, built, preloaded
from site_model import END, Log, check_world, checked, settled
from site_program import FIRST, SHOP, Program, Site, files_of
from site_settled import AGAIN, ENDED

# What a start is asked: records of each kind, and answers that leave none.
ASKED = (
    "0 begin\n0 escrow {0}.1 stock -2\n0 commit {0}.1\n0 give 1 stock lower 3\n0 tighten stock raise 1\nkept {0}.1\n"
    "0 read stock\nhello\n"
)
# What stops leave behind a log and a trace: records that no sum closes, and their entries.
TORN_LOG = b"C 1 2 0 -1\nG 1 0 l 4\nsum 0000"
TORN_TRACE = (
    b"0 begin -> begun 1.2\n0 escrow 1.2 stock -1 -> granted\n0 commit 1.2 -> committed\n0 give 1 stock lower 1 -> given 4\n0 re"
)
KILL, TEAR = "kill", "tear"
STREAMS = ("/proc/self/fd/1", "/proc/self/fd/2")
NO_ROOM = ("make", "mkdir", "write", "fsync", "ftruncate")


@dataclasses.dataclass(frozen=True)
class Call:
    """A call of the system, as it was made, or as it was to be."""

    name: str
    path: str
    number: int
    is_stopped: bool

    @staticmethod
    def of(line: str) -> Call:
        words = line.removeprefix("! ").split(" ")
        return Call(words[0], " ".join(words[1:-1]), int(words[-1]), line.startswith("! "))

    def ways(self) -> list[str]:
        """How it is stopped: it fails for a fault of the device, or for want of room."""
        ways = [KILL, str(errno.EIO)]
        if self.name == "write":
            ways.append(TEAR)
        return ways + ([str(errno.ENOSPC)] if self.name in NO_ROOM else [])


@dataclasses.dataclass(frozen=True)
class Ended:
    """How a run ended, and its calls."""

    name: str
    status: int
    out: str
    err: str
    calls: list[Call]
    how: str

    def lines(self) -> list[str]:
        return self.out.split("\n")[:-1]

    def stopped(self) -> Call:
        for call in self.calls:
            if call.is_stopped:
                return call
        raise Fault(f"{self.name}: it has no such call")


class Stopper:
    """Runs the program, and stops it at a call."""

    def __init__(self, program: Program) -> None:
        self.program = program
        self.library = preloaded(program.children, program.folder, "stop_calls")
        self.escrow = built(program.children, "escrow", "--help")

    def run(self, words: list[str], given: str, number: int = 0, how: str = KILL, is_whole: bool = False) -> Ended:
        """How it ends where it is given these lines, in a file where each read is to bring as much as it has room for."""
        name = f"escrow_site {' '.join(words)}, call {number}: {how}"
        told = os.memfd_create("calls")
        env = {"LD_PRELOAD": self.library, "STOP_AT": str(number), "STOP_HOW": how, "STOP_TELL": str(told)}
        try:
            words = [self.program.path, *words]
            if is_whole:
                with as_file(given.encode()) as stdin:
                    ended = self.program.children.run(name, words, env=env, pass_fds=(told,), stdin=stdin)
            else:
                ended = self.program.children.run(name, words, given.encode(), env=env, pass_fds=(told,))
            lines = os.pread(told, os.fstat(told).st_size, 0).decode().splitlines()
        finally:
            os.close(told)
        status, out, err = ended
        return Ended(name, status, out.decode(), err.decode(), [Call.of(it) for it in lines], how)

    def calls(self, words: list[str], given: str) -> list[Call]:
        """The calls of a run that nothing stops."""
        ended = self.run(words, given)
        if ended.status or ended.err:
            raise Fault(f"{ended.name}: {ended.status}, {ended.err!r}")
        return ended.calls


def each(trials: Iterable[tuple[int, str]], run: Callable[[int, str], None]) -> int:
    """Runs the trials, some at once: how many there were."""
    with concurrent.futures.ThreadPoolExecutor(AT_ONCE) as pool:
        asked = [pool.submit(run, number, how) for number, how in trials]
        for it in asked:
            it.result()
    return len(asked)


def ways(calls: list[Call]) -> list[tuple[int, str]]:
    return [(number, how) for number, call in enumerate(calls, 1) for how in call.ways()]


# ---- what is told


def places(folder: str, path: str) -> list[str]:
    """The paths by which a fault at this path is told."""
    if path == folder:
        return [folder, f"{folder}/log", f"{folder}/trace"]
    return [f"{folder}/trace"] if path == f"{folder}/trace.new" else [path]


def check_told(ended: Ended, folders: list[str]) -> None:
    """A process that was killed tells nothing; a call that failed is told, but for a `close`, which changes nothing, and the
    question where a standard stream goes."""
    call = ended.stopped()
    if ended.how in (KILL, TEAR):
        is_right = (ended.status, ended.err) == (-9, "")
    elif call.name == "close" or call.path in STREAMS:
        is_right = (ended.status, ended.err) == (0, "")
    elif call.path in ("stdin", "stdout"):
        is_right = (ended.status, ended.err) == (1, f"escrow_site: {'read' if call.path == 'stdin' else 'write'} fault\n")
    else:
        paths = [it for folder in folders for it in places(folder, call.path)]
        why = f"{os.strerror(int(ended.how))} (os error {ended.how})"
        is_right = ended.status == (2 if call.path.endswith(".json") else 5) and why in ended.err
        is_right = is_right and any(ended.err.startswith(f"escrow_site: {it}: ") for it in paths)
    if not is_right:
        raise Fault(f"{ended.name}, {call.name} of {call.path}: {ended.status}, {ended.out!r}, {ended.err!r}")


# ---- a stop of the machine


class Disk:
    """What is safe of the files of some folders, by the calls that were made since all of it was."""

    def __init__(self, calls: list[Call]) -> None:
        self.sizes: dict[str, int] = {}  # of files that were made, or synced, since: so many bytes are safe
        self.made: list[str] = []  # names that aren't safe
        self.moved: list[str] = []
        for call in calls:
            if not call.is_stopped and call.number >= 0:
                self.take(call, os.path.realpath(call.path))

    def take(self, call: Call, path: str) -> None:
        if call.name == "make":
            self.sizes[path] = 0
            self.made.append(path)
        elif call.name == "mkdir":
            self.made.append(path)
        elif call.name == "rename":
            self.moved.append(path)
            self.sizes[path.removesuffix(".new")] = self.sizes.pop(path)
        elif call.name in ("fsync", "fdatasync"):
            self.sizes[path] = call.number
            self.made, self.moved = ([it for it in names if os.path.dirname(it) != path] for names in (self.made, self.moved))

    def stop(self, folder: str, copy: str) -> None:
        """Makes a copy of the folder, as the machine finds it after a stop."""
        if not os.path.exists(folder) or os.path.realpath(folder) in self.made:
            return
        os.mkdir(copy)
        for name, held in files_of(folder).items():
            path = os.path.join(os.path.realpath(folder), name)
            if f"{path}.new" in self.moved:
                name = f"{name}.new"
            elif path in self.made:
                continue
            with open(f"{copy}/{name}", "wb") as file:
                file.write(held[: self.sizes.get(path, len(held))])


# ---- create


def look_at_created(stopper: Stopper, folder: str, asked: list[str]) -> None:
    """A folder that `create` left half-way: it is served, or it never was one, and is created again."""
    program = stopper.program
    held = files_of(folder) if os.path.exists(folder) else {}
    head = SHOP.log_head(0)
    if not {"log", "site"}.issuperset(held) or not head.startswith(held.get("log", b"")):
        raise Fault(f"{folder}: it has {held}")
    if "site" in held and held.get("log") != head:
        raise Fault(f"{folder}: it has a site, and its log is {held.get('log')!r}")
    status, out, err = program.run(["show", folder])
    if status == 0:
        if "\nepoch 0\nlength 0\n" not in out:
            raise Fault(f"{folder}: {out!r}")
        serve_created(stopper, folder)
        return
    if status != 3 or not err.startswith(f"escrow_site: {folder}/site: "):
        raise Fault(f"{folder}: {status}, {err!r}")
    # (as docs/OPERATING.md has it asked before the folder is removed)
    if b"\nR" in held.get("log", b""):
        raise Fault(f"{folder}: its log is {held['log']!r}")
    shutil.rmtree(folder, ignore_errors=True)
    program.ends(["create", folder, *asked], 0, "", "")
    program.ends(["serve", folder], 0, FIRST.format(1, 4, 1), "", b"")


def serve_created(stopper: Stopper, folder: str) -> None:
    """What it answers is safe from a stop of the machine, with all that it stands on, whatever `create` left unsafe."""
    made = [Call("mkdir", folder, 0, False), *(Call("make", f"{folder}/{it}", 3, False) for it in ("log", "site"))]
    ended = stopper.run(["serve", folder], ASKED.format(1))
    if ended.status or ended.err or "0 commit 1.1 -> committed" not in ended.lines():
        raise Fault(f"{ended.name}: {ended.status}, {ended.out!r}, {ended.err!r}")
    copy = f"{folder}.stopped"
    Disk(made + ended.calls).stop(folder, copy)
    status, out, err = stopper.program.run(["serve", copy], b"kept 1.1\n")
    if status or err or not out.endswith("kept 1.1 -> yes\n"):
        raise Fault(f"{copy}: {status}, {out!r}, {err!r}")


def stop_create(program: Program) -> None:
    stopper = Stopper(program)
    schema = program.file("stops.json", f"{SHOP.header()}\n")
    asked = ["--schema", schema, "--site", "0", "--name", SHOP.own_name]
    calls = stopper.calls(["create", os.path.join(program.folder, "stopped_create"), *asked], "")

    def run(number: int, how: str) -> None:
        folder = os.path.join(program.folder, f"stopped_create_{number}_{how}")
        ended = stopper.run(["create", folder, *asked], "", number, how)
        check_told(ended, [folder])
        if ended.status == 0 and set(files_of(folder)) != {"log", "site"}:
            raise Fault(f"{ended.name}: {files_of(folder)}")
        Disk(ended.calls).stop(folder, f"{folder}_machine")
        for it in (folder, f"{folder}_machine"):
            look_at_created(stopper, it, asked)

    count = each(ways(calls), run)
    print(f"escrow_site: {count} stops and failures of create, none served that isn't safe", flush=True)


# ---- serve


def owed(name: str, log: Log, lines: list[str]) -> None:
    """What was told is in the log."""
    for line in lines:
        asked, _, reply = line.partition(" -> ")
        words, told = asked.split(" "), reply.split(" ")
        is_kept = {
            "ready 1": lambda: log.epoch >= int(words[2]) and log.length >= int(words[3]),
            "0 restart": lambda: log.epoch >= int(told[1]),
            "0 commit": lambda: log.commits.get(words[2]) == [(0, -2)],
            "0 give": lambda: log.given[1, 0, "lower"] >= int(told[1]),
            "0 tighten": lambda: log.cut[0, "raise"] >= int(told[1]),
        }.get(" ".join(words[:2]))
        if is_kept and not is_kept():
            raise Fault(f"{name}: told, and lost: {line}")


def goes_on(stopper: Stopper, sites: list[Site], asked: list[str]) -> None:
    """The next start of the first site; the other one takes what it gave; all is checked, woven and judged."""
    program, (site, other) = stopper.program, sites
    log = site.log()
    if not set(asked).issuperset(log.commits):
        raise Fault(f"{site.folder}: never asked for: {log.commits}")
    kept = "".join(f"kept {it} -> {'yes' if it in log.commits else 'no'}\n" for it in asked)
    length = log.length + len(f"R {log.epoch + 1}\n")
    given = "".join(f"kept {it}\n" for it in asked).encode()
    told = FIRST.format(log.epoch + 1, length, log.epoch + 1) + kept
    program.ends(["serve", site.folder, "--trace"], 0, told, "", given)
    if set(files_of(site.folder)) != {"log", "site", "trace"}:
        raise Fault(f"{site.folder}: served again, and it has {sorted(files_of(site.folder))}")
    total = log.given[1, 0, "lower"]
    line = f"1 accept 0 1 stock lower {total}\n" if total else ""
    status, out, err = program.run(["serve", other.folder, "--trace"], line.encode())
    if status or err or "refused" in out:
        raise Fault(f"{other.folder}: {status}, {out!r}, {err!r}")
    logs = [it.log() for it in sites]
    check_world(logs)
    folders = [it.folder for it in sites]
    program.ends(["check", *folders], 0, "\n".join([*checked(logs), ""]), "")
    status, woven, err = program.run(["weave", *folders])
    count = woven.count("\n") - 1
    judged = program.children.run("escrow audit", [stopper.escrow, "audit"], woven.encode(), env={})
    if (status, err) != (0, "") or judged != (0, f"legal {count}\n".encode(), b""):
        raise Fault(f"{site.folder}: {status}, {err!r}, {judged}")


def copies(sites: list[Site], name: str) -> list[Site]:
    """Copies of the folders, under this name."""
    return [Site(it.world, it.number, shutil.copytree(it.folder, f"{it.folder}_{name}")) for it in sites]


def stop_serve(program: Program, sites: list[Site], epoch: int, asked: list[str]) -> int:
    """Each call of a start of the first site, and of a batch, over copies of these folders."""
    stopper = Stopper(program)
    whole = copies(sites, "whole")
    calls = stopper.calls(["serve", whole[0].folder, "--trace"], ASKED.format(epoch))
    before = sites[0].log()

    def run(number: int, how: str) -> None:
        tried = copies(sites, f"{number}_{how}")
        folder = tried[0].folder
        ended = stopper.run(["serve", folder, "--trace"], ASKED.format(epoch), number, how)
        check_told(ended, [folder])
        if not {"log", "site", "trace", "trace.new"}.issuperset(files_of(folder)):
            raise Fault(f"{ended.name}: it has {sorted(files_of(folder))}")
        machine = [Site(SHOP, it.number, f"{it.folder}_machine") for it in tried]
        Disk(ended.calls).stop(folder, machine[0].folder)
        shutil.copytree(tried[1].folder, machine[1].folder)
        for those in (tried, machine):
            log = those[0].log()
            owed(ended.name, log, ended.lines())
            if any(it not in log.commits for it in before.commits):
                raise Fault(f"{ended.name}: {before.commits} before, and {log.commits} since")
            goes_on(stopper, those, asked)

    return each(ways(calls), run)


def stop_starts(program: Program) -> None:
    """The first start, and one over torn files: what was told before is there still."""
    sites = [program.created(f"stopped{number}", SHOP, number, True) for number in range(2)]
    program.ends(["serve", sites[1].folder, "--trace"], 0, FIRST.format(1, 4, 1).replace("0 r", "1 r"), "", b"")
    count = stop_serve(program, sites, 1, ["1.1"])
    again = copies(sites, "second")
    status, out, err = program.run(["serve", again[0].folder, "--trace"], ASKED.format(1).encode())
    if status or err or "refused" in out:
        raise Fault(f"{again[0].folder}: {status}, {out!r}, {err!r}")
    for name, torn in (("log", TORN_LOG), ("trace", TORN_TRACE)):
        with open(f"{again[0].folder}/{name}", "ab") as file:
            file.write(torn)
    count += stop_serve(program, again, 2, ["1.1", "2.1"])
    print(f"escrow_site: {count} stops and failures of served sites, nothing told was lost", flush=True)


# ---- settle


def sold(program: Program, name: str) -> list[Site]:
    """The two sites of a world, of which one has sold and given, and has let go of what its log had."""
    sites = [program.created(f"{name}{number}", SHOP, number, True) for number in range(2)]
    for site, asked in zip(sites, (ASKED.format(1), "1 accept 0 1 stock lower 3\n")):
        status, out, err = program.run(["serve", site.folder, "--trace"], asked.encode())
        if status or err or "refused" in out:
            raise Fault(f"{site.folder}: {status}, {out!r}, {err!r}")
    sites[0].let_go()
    return sites


def closes(stopper: Stopper, sites: list[Site], header: str, told: str, before: list[bytes]) -> None:
    """No folder is closed but where the header was told; the next `settle` closes all, and tells the same header."""
    program, folders = stopper.program, [it.folder for it in sites]
    ends = [files_of(it.folder)["log"] for it in sites]
    for end, log in zip(ends, before):
        if not (log + END).startswith(end) or not end.startswith(log) or end != log and told != header:
            raise Fault(f"{folders}: settled in part, told {told!r}, and a log is {end!r}")
    program.ends(["check", *folders], 0, "\n".join([*checked([it.log() for it in sites]), ""]), "")
    if ends == [it + END for it in before]:
        program.ends(["settle", *folders], 3, "", AGAIN)
        program.ends(["settle", "--again", *folders], 0, header, "")
    else:
        program.ends(["settle", *folders], 0, header, "")
    for site, log in zip(sites, before):
        if files_of(site.folder)["log"] != log + END:
            raise Fault(f"{site.folder}: settled, and its log is {files_of(site.folder)['log']!r}")
        program.ends(["serve", site.folder, "--trace"], 3, "", f"{site.folder}: {ENDED}", b"")


def stop_settle(program: Program) -> None:
    stopper, sites = Stopper(program), sold(program, "stopped_settle")
    before = [files_of(it.folder)["log"] for it in sites]
    header = f"{settled([it.log() for it in sites]).header()}\n"
    calls = stopper.calls(["settle", *(it.folder for it in copies(sites, "whole"))], "")

    def run(number: int, how: str) -> None:
        tried = copies(sites, f"{number}_{how}")
        folders = [it.folder for it in tried]
        ended = stopper.run(["settle", *folders], "", number, how)
        check_told(ended, folders)
        if not header.startswith(ended.out) or ended.status == 0 and ended.out != header:
            raise Fault(f"{ended.name}: {ended.status}, {ended.out!r}")
        machine = [Site(SHOP, it.number, f"{it.folder}_machine") for it in tried]
        for site, copy in zip(tried, machine):
            Disk(ended.calls).stop(site.folder, copy.folder)
        for those in (tried, machine):
            closes(stopper, those, header, ended.out, before)

    count = each(ways(calls), run)
    print(f"escrow_site: {count} stops and failures of settle, none closed of which no header was told", flush=True)


# ---- what reads alone


def stop_readers(program: Program) -> None:
    """`weave`, `judge`, `check` and `show`: they write a front of what they tell, and change nothing."""
    stopper, sites = Stopper(program), sold(program, "stopped_reader")
    folders = [it.folder for it in sites]
    held = [files_of(it) for it in folders]
    count = 0
    for words in (["weave", *folders], ["judge", *folders], ["check", *folders], ["show", folders[0]]):
        whole = stopper.run(words, "")
        if whole.status or whole.err:
            raise Fault(f"{whole.name}: {whole.status}, {whole.err!r}")

        def run(number: int, how: str, words: list[str] = words, out: str = whole.out) -> None:
            ended = stopper.run(words, "", number, how)
            check_told(ended, folders)
            if not out.startswith(ended.out) or ended.status == 0 and ended.out != out:
                raise Fault(f"{ended.name}: {ended.out!r}")

        count += each(ways(whole.calls), run)
    if [files_of(it) for it in folders] != held:
        raise Fault(f"{folders}: read, and changed")
    print(f"escrow_site: {count} stops and failures of weave, judge, check and show, nothing changed", flush=True)


STOPS = (stop_create, stop_starts, stop_settle, stop_readers)
