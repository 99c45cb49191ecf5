"""Runs of the program `escrow_site` that end by themselves."""

from __future__ import annotations

import os
import shutil
import subprocess
from collections.abc import Sequence
from typing import NamedTuple, Optional, Union

from .errors import Busy, ProgramError
from .schema import Path, Schema, differs, header_fault
from .values import Interval, Kind, Mark, Share

NAMELESS = (
    "create() wants name=, the world's own, the same for all of its sites and no other world's: without it worlds of one "
    "schema are one world to carriers, and rights of the one would be spent in the other"
)
"""Why no world is made without a name."""


def find_program() -> str:
    """Where the program is: where `$ESCROW_SITE` says, or in the wheel that this package is of, or `escrow_site` on the path, or
    at the top of the repository that this file is in.

    Raises `FileNotFoundError` where it is in none of these.
    """
    packages = os.path.dirname(os.path.dirname(os.path.abspath(__file__)))
    own, top = os.path.join(packages, "escrow_programs", "bin"), os.path.join(packages, "..", "..")
    found = os.environ.get("ESCROW_SITE") or shutil.which("escrow_site", path=own) or shutil.which("escrow_site")
    found = found or shutil.which("escrow_site", path=os.path.abspath(top))
    if not found:
        raise FileNotFoundError("escrow_site isn't here: install the wheel that has it, which tools/wheel of the repository "
                                "makes, or name it by program= or by $ESCROW_SITE")
    return found


def run(
    program: Optional[Path], words: Sequence[str], given: Optional[str] = None, seconds: Optional[float] = None
) -> str:
    """What a run of the program printed. Raises `ProgramError` with its status and what it told, and `Busy` where it
    isn't done in so many seconds: it is ended then."""
    command = [os.fspath(program) if program else find_program(), *words]
    try:
        told = subprocess.run(command, input=given, capture_output=True, text=True, check=False, timeout=seconds,
                              restore_signals=False)  # fmt: skip
    except subprocess.TimeoutExpired as fault:
        raise Busy(f"{command[0]} {words[0]}: isn't done in time") from fault
    except OSError as fault:
        raise ProgramError(2, f"{command[0]}: {fault.strerror}") from fault
    if told.returncode != 0:
        raise ProgramError(told.returncode, told.stderr.strip())
    return told.stdout


def _path(path: Path) -> str:
    """A path as the program takes none for an option."""
    text = os.fsdecode(path)
    return os.path.join(os.curdir, text) if text.startswith("-") else text


def create(folder: Path, schema: Union[Schema, Path], number: int, program: Optional[Path] = None, *,
           name: Optional[str] = None) -> None:
    """Makes the folder of a site: once for each site of a world, and never again.

    `schema` is that of the world, or the path of a file that has its header, and `name` is the world's own: 1 to 64 of
    `a-z A-Z 0-9 . _ -`, the same for all of its sites, and no other world's. Raises `TypeError` where there is none, and
    `ProgramError`: with status 3 where something is at the path, with 2 where the schema or the name is refused or the
    world hasn't the site. Of a schema that is refused it tells which field breaks which rule.
    """
    if name is None:
        raise TypeError(NAMELESS)
    words = ["create", _path(folder), f"--name={name}", f"--site={number}", "--schema"]
    try:
        if isinstance(schema, Schema):
            run(program, [*words, "/dev/stdin"], schema.line() + "\n")
        else:
            run(program, [*words, _path(schema)])
    except ProgramError as fault:
        told = header_fault(schema) if ": header S" in str(fault) else ""
        raise ProgramError(fault.status, f"{fault}: {told}") if told else fault


def make_or_find(folder: Path, schema: Union[Schema, Path], number: int, program: Optional[Path],
                 name: Optional[str]) -> None:
    """As `create`, where the folder of this very site, of this world, may be there already. Raises `ProgramError` with
    status 3 where what is there is another's."""
    try:
        create(folder, schema, number, program, name=name)
    except ProgramError as fault:
        if fault.status != 3 or not os.path.exists(os.path.join(folder, "site")):
            raise
        why = differs(os.fsdecode(folder), schema, number, name or "")
        if why:
            raise ProgramError(3, f"{os.fsdecode(folder)}: is there already, and {why}") from fault


class Totals(NamedTuple):
    """A total by the other site, the field and the kind."""

    other: int
    field: str
    kind: Kind
    total: int


class ShownField(NamedTuple):
    """What a log stands for on one field: the interval, the share, and the rights given up so far, of each kind."""

    name: str
    interval: Interval
    share: Share
    tightened: Share


class Shown(NamedTuple):
    """What a log stands for: how far it has come, its fields in order, and the totals given and accepted above 0. Of the length
    of a log that was shortened `gone` bytes aren't held any more."""

    mark: Mark
    fields: dict[str, ShownField]
    given: tuple[Totals, ...]
    accepted: tuple[Totals, ...]
    gone: int = 0


def show(folder: Path, program: Optional[Path] = None, *, timeout: Optional[float] = None) -> Shown:
    """What the log in the folder stands for, also while the site is served: then it is a front of its records.

    Takes the time of a read of the whole log. Raises `ProgramError`, with status 3 where the folder or the log is
    refused; `Busy` where that takes longer than `timeout` seconds, where there is one.
    """
    lines = [line.split(" ") for line in run(program, ["show", _path(folder)], None, timeout).splitlines()]
    numbers = {words[0]: int(words[1]) for words in lines if words[0] in ("epoch", "length", "gone")}
    fields = {words[1]: _field(words) for words in lines if words[0] == "field"}
    mark, gone = Mark(numbers["epoch"], numbers["length"]), numbers.get("gone", 0)
    return Shown(mark, fields, _totals(lines, "given"), _totals(lines, "accepted"), gone)


def _totals(lines: Sequence[Sequence[str]], name: str) -> tuple[Totals, ...]:
    return tuple(Totals(int(it[1]), it[2], Kind(it[3]), int(it[4])) for it in lines if it[0] == name)


def _field(words: Sequence[str]) -> ShownField:
    lo, hi, lower, raise_, cut_lower, cut_raise = (int(words[at]) for at in (3, 4, 6, 7, 9, 10))
    return ShownField(words[1], Interval(lo, hi), Share(lower, raise_), Share(cut_lower, cut_raise))
