"""Keys of callers over the program escrow_site, by docs/FORMATS.md: each line and each log byte for byte, in both versions of
logs, over starts and behind a stop; and what else reads a log leaves the notes of keys out."""
from __future__ import annotations

import os

from gate_programs import Fault
from site_misuse import NAME, NO_RECORD, refuses, site_text
from site_program import ALONE, FIRST, SHOP, Program, Site, files_of

SALE = "0 begin\n0 escrow {0} stock {1}\n"
BEGUN = "0 begin -> begun {0}\n0 escrow {0} stock {1} -> granted\n"
# One order that is sold, and asked for again.
ASKED = (
    SALE.format("1.1", -20) + "0 commit 1.1 key order-17\n" + SALE.format("1.2", -5)
    + "0 commit 1.2 key order-17\nkept key order-17\nkept key order-18\n0 abort 1.2\n0 read stock\n"
    + "0 commit 1.2 key bad key\n0 commit 1.2 key bad/key\n"
)  # fmt: skip
TOLD = (
    BEGUN.format("1.1", -20) + "0 commit 1.1 -> committed\n" + BEGUN.format("1.2", -5)
    + "kept key order-17 -> 1.1\nkept key order-17 -> 1.1\nkept key order-18 -> no\n0 abort 1.2 -> aborted\n"
    + "0 read stock -> between 20 20\nbad line 11 no command\nbad line 12 no command\n"
)  # fmt: skip
NOTED = b"K 1 1 6F726465722D3137\nC 1 1 0 -20\n"
# The same without keys.
PLAIN = SALE.format("1.1", -20) + "0 commit 1.1\n" + SALE.format("1.2", -5) + "0 abort 1.2\n0 read stock\n"
OLD_HEAD = f"escrow log 1\nnumber 0\nworld {NAME}\n".encode()


def holds(site: Site, text: bytes) -> None:
    held = files_of(site.folder)["log"]
    if held != text:
        raise Fault(f"{site.folder}: the log is {held!r}, and not {text!r}")


def old_folder(program: Program, name: str, records: bytes) -> Site:
    """A folder as programs made them once, whose log has no sums."""
    folder = os.path.join(program.folder, name)
    os.mkdir(folder)
    program.file(f"{name}/site", site_text())
    program.put(f"{name}/log", OLD_HEAD + records)
    return Site(SHOP, 0, folder)


def sell_once(program: Program) -> None:
    """The second commit of an order is told the first, in this start and in the next."""
    site = program.created("keyed", ALONE)
    program.ends(["serve", "--trace", site.folder], 0, FIRST.format(1, 4, 1) + TOLD, "", ASKED.encode())
    holds(site, ALONE.log_text(0, b"R 1\n", NOTED))
    again = SALE.format("2.1", -1) + "0 commit 2.1 key order-17\nkept key order-17\nkept 1.1\n"
    told = BEGUN.format("2.1", -1) + "kept key order-17 -> 1.1\nkept key order-17 -> 1.1\nkept 1.1 -> yes\n"
    program.ends(["serve", "--trace", site.folder], 0, FIRST.format(2, 20, 2) + told, "", again.encode())
    holds(site, ALONE.log_text(0, b"R 1\n", NOTED, b"R 2\n"))
    program.ends(["serve", "--trace", site.folder, "--not-before", "2", "20"], 0, FIRST.format(3, 24, 3), "")
    early = f"{site.folder}/log: epoch 3, length 24: older than --not-before: put the newest log back"
    refuses(program, site, ["serve", "--trace", "--not-before", "3", "25"], 3, early)


def leave_notes_out(program: Program) -> None:
    """Whatever reads a log with notes tells what it tells of one without."""
    keyed, plain = program.created("noted", ALONE), program.created("unnoted", ALONE)
    program.ends(["serve", "--trace", keyed.folder], 0, FIRST.format(1, 4, 1) + TOLD, "", ASKED.encode())
    status, _, told = program.run(["serve", "--trace", plain.folder], PLAIN.encode())
    if (status, told) != (0, ""):
        raise Fault(f"{plain.folder}: {status}, {told!r}")
    for words in (["show"], ["check"], ["weave"], ["judge"], ["settle", "--dry-run"], ["settle"], ["show"]):
        ended = [program.run([words[0], it.folder, *words[1:]]) for it in (keyed, plain)]
        if ended[0] != ended[1] or ended[0][0] != 0 or not ended[0][1]:
            raise Fault(f"escrow_site {' '.join(words)}: with notes of keys {ended[0]}, and without {ended[1]}")


def note_in_old_logs(program: Program) -> None:
    """A log of version 1 keeps notes too. One that a stop left without its commit tells nothing; and what begins as a note and
    is none is no record."""
    site = old_folder(program, "keyed_once", b"")
    asked = SALE.format("1.1", -20) + "0 commit 1.1 key order-17\n"
    told = BEGUN.format("1.1", -20) + "0 commit 1.1 -> committed\n"
    program.ends(["serve", site.folder], 0, FIRST.format(1, 4, 1) + told, "", asked.encode())
    holds(site, OLD_HEAD + b"R 1\n" + NOTED)
    program.put("keyed_once/log", OLD_HEAD + b"R 1\n" + NOTED + b"K 1 3 6162\nC 1 3 0 -1")
    told = "kept key ab -> no\nkept key order-17 -> 1.1\n"
    program.ends(["serve", site.folder], 0, FIRST.format(2, 20, 2) + told, "", b"kept key ab\nkept key order-17\n")
    holds(site, OLD_HEAD + b"R 1\n" + NOTED + b"K 1 3 6162\nR 2\n")
    for line in (b"K x\n", b"K 1 1 6f\n", b"K 1 1 6\n", b"K 01 1 6F\n", b"K 1 1 2F\n", b"K 1 1 \n"):
        program.put("keyed_once/log", OLD_HEAD + b"R 1\nK 1 1 6F\n" + line)
        refuses(program, site, ["show"], 3, f"{site.folder}/log: {NO_RECORD.format(2)}")
        program.ends(["serve", site.folder], 3, "", f"{site.folder}/log: {NO_RECORD.format(2)}")


def take_keys(program: Program) -> None:
    """A key has up to 64 bytes. One that is too long keeps nothing, and its transaction stays open."""
    site = program.created("long_keys", ALONE)
    key = "aZ0._-" + "k" * 58
    asked = SALE.format("1.1", -1) + f"0 commit 1.1 key {key}k\n0 commit 1.1 key {key}\nkept key {key}\n"
    told = BEGUN.format("1.1", -1) + f"bad line 3 no command\n0 commit 1.1 -> committed\nkept key {key} -> 1.1\n"
    program.ends(["serve", site.folder], 0, FIRST.format(1, 4, 1) + told, "", asked.encode())
    note = b"K 1 1 615A302E5F2D" + b"6B" * 58 + b"\nC 1 1 0 -1\n"
    holds(site, ALONE.log_text(0, b"R 1\n", note))


KEYS = (sell_once, leave_notes_out, note_in_old_logs, take_keys)
