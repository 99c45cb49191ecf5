"""Worlds that are settled: each log ends so that no start takes it, whatever fails meanwhile."""
from __future__ import annotations

import os
import resource
import shutil
import subprocess

from gate_programs import Fault, limited
from site_folders import KEPT_FOLDERS
from site_misuse import LOST, refuses
from site_model import END, Field, World, sealed, settled
from site_program import COMMIT, FIRST, SHOP, SOLD, Program, Site, files_of

ENDED = "was settled: serve the sites of the world that goes on from there, and this folder never again"
AGAIN = "all folders were settled before, and the header was written then: --again writes it once more"
NOT_CLOSED = (
    "File too large (os error 27): the folder isn't closed: make room, and settle with --again before the header is used"
)


def logs_of(sites: list[Site]) -> list[bytes]:
    return [files_of(it.folder)["log"] for it in sites]


def sold(program: Program, name: str) -> list[Site]:
    """The two sites of a world, of which one has sold, always served with a trace."""
    sites = [program.created(f"{name}{number}", SHOP, number, True) for number in range(2)]
    program.ends(["serve", sites[0].folder, "--trace"], 0, FIRST.format(1, 4, 1) + SOLD, "", COMMIT)
    started = FIRST.format(1, 4, 1).replace("0 restart", "1 restart")
    program.ends(["serve", sites[1].folder, "--trace"], 0, started, "", b"")
    return sites


def looks(program: Program, sites: list[Site]) -> list[tuple[int, str, str]]:
    """What tells of the sites, and has to be so before and after."""
    folders = [it.folder for it in sites]
    return [program.run(words) for words in (*(["show", it] for it in folders), ["check", *folders], ["weave", *folders])]


def are_ended(program: Program, sites: list[Site], before: list[bytes]) -> None:
    """Each log has its end and nothing else more, no file is beside it, and no start takes it."""
    if logs_of(sites) != [it + END for it in before]:
        raise Fault(f"{sites[0].folder} and the others: settled, and their logs are {logs_of(sites)}")
    for site in sites:
        if set(files_of(site.folder)) != {"site", "log", "trace"}:
            raise Fault(f"{site.folder}: settled, and it has {sorted(files_of(site.folder))}")
        for how in ([], ["--trace"], ["--no-sync", "--trace"], ["--trace", "--not-before", "1", "4"]):
            refuses(program, site, ["serve", *how], 3, f"{site.folder}: {ENDED}")


def end_worlds(program: Program) -> None:
    """`settle` ends each log of the world, where its header was taken; a copy of what it ended is as closed."""
    sites = sold(program, "ended")
    folders, before, told = [it.folder for it in sites], logs_of(sites), looks(program, sites)
    header = f"{settled([it.log() for it in sites]).header()}\n"
    program.ends(["settle", "--dry-run", *folders], 0, header, "")
    with open("/dev/full", "wb") as full:
        program.ends(["settle", *folders], 1, "", "write fault", stdout=full)
    program.ends(["settle", folders[0]], 3, "field stock between 0 50\n", LOST.format(1))
    if logs_of(sites) != before:
        raise Fault(f"{folders}: not settled, and changed")
    program.ends(["settle", *folders], 0, header, "")
    are_ended(program, sites, before)
    if looks(program, sites) != told:
        raise Fault(f"{folders}: a settled world is told otherwise")
    program.ends(["settle", *folders], 3, "", AGAIN)
    program.ends(["settle", "--dry-run", *folders], 0, header, "")
    program.ends(["settle", "--again", *folders], 0, header, "")
    copy = shutil.copytree(folders[0], f"{folders[0]}.copy")
    refuses(program, Site(SHOP, 0, copy), ["serve", "--trace"], 3, f"{copy}: {ENDED}")
    are_ended(program, sites, before)


def end_no_served_world(program: Program) -> None:
    """A world of which a site is served isn't settled, and nothing of it is ended."""
    sites = sold(program, "served")
    folders, served = [it.folder for it in sites], ["serve", sites[1].folder, "--trace"]
    with subprocess.Popen([program.path, *served], stdin=subprocess.PIPE, stdout=subprocess.PIPE) as running:
        if running.stdout is None or running.stdout.readline() != b"ready 1 2 8\n":
            raise Fault(f"{folders[1]}: not served")
        before = logs_of(sites)
        program.ends(["settle", *folders], 6, "", f"{folders[1]}/log: in use: another process serves it")
        running.communicate(timeout=60)
    if logs_of(sites) != before:
        raise Fault(f"{folders}: not settled, and changed")
    program.ends(["serve", folders[0], "--trace"], 0, FIRST.format(2, 20, 2), "", b"")


def end_in_part(program: Program) -> None:
    """Where the second log can't take its end, or not all of it, it is told, and the next `settle` ends it."""
    for room in range(len(END)):
        sites = sold(program, f"full_end{room}_")
        for epoch in (2, 3, 4):
            started = FIRST.format(epoch, 4 * epoch, epoch).replace("0 restart", "1 restart")
            program.ends(["serve", sites[1].folder, "--trace"], 0, started, "", b"")
        folders, before = [it.folder for it in sites], logs_of(sites)
        header = f"{settled([it.log() for it in sites]).header()}\n"
        # (the first log is so short that its end finds room; the signal of a file past its limit stays ignored)
        how = {"preexec_fn": limited(resource.RLIMIT_FSIZE, len(before[1]) + room), "restore_signals": False}
        program.ends(["settle", *reversed(folders)], 5, header, f"{folders[1]}/log: {NOT_CLOSED}", **how)
        if logs_of(sites) != [before[0] + END, before[1] + END[:room]]:
            raise Fault(f"{folders}: settled in part, and their logs are {logs_of(sites)}")
        program.ends(["settle", *(["--again"] if room % 2 else []), *folders], 0, header, "")
        are_ended(program, sites, before)


def end_mixed_worlds(program: Program) -> None:
    """A world of which one site's log is of version 1: the one gets a file beside it, the other its end."""
    old = shutil.copytree(os.path.join(KEPT_FOLDERS, "named", "hall0"), os.path.join(program.folder, "mixed0"))
    world = World(2, (Field("seats", 0, 300, 240),), "hall-2026")
    new = program.created("mixed1", world, 1)
    asked = b"1 accept 0 1 seats lower 60\n1 begin\n1 escrow 1.1 seats -170\n1 commit 1.1\n"
    status, out, err = program.run(["serve", new.folder], asked)
    if status or err or "1 commit 1.1 -> committed\n" not in out:
        raise Fault(f"{new.folder}: {status}, {out!r}, {err!r}")
    value = f"world {world.name()}\nsites 2\nfield seats value 64 floor 0 ceiling 300\n"
    program.ends(["check", old, new.folder], 0, value, "")
    before = [files_of(old), files_of(new.folder)]
    if before[1]["log"] != world.log_text(1, b"R 1\n", b"A 0 0 l 60\nC 1 1 0 -170\n"):
        raise Fault(f"{new.folder}: the log is {before[1]['log']!r}")
    program.ends(["settle", old, new.folder], 0, f"{World(2, (Field('seats', 0, 300, 64),)).header()}\n", "")
    wanted = [{**before[0], "settled": b"escrow settled 1\n"}, {**before[1], "log": before[1]["log"] + sealed(b"X\n")}]
    if [files_of(old), files_of(new.folder)] != wanted:
        raise Fault(f"{old}, {new.folder}: settled, and they have {[files_of(old), files_of(new.folder)]}")
    for folder, number, how in ((old, 0, ["--trace"]), (new.folder, 1, [])):
        refuses(program, Site(world, number, folder), ["serve", *how], 3, f"{folder}: {ENDED}")
    program.ends(["check", old, new.folder], 0, value, "")


SETTLINGS = (end_worlds, end_no_served_world, end_in_part, end_mixed_worlds)
