"""The mark that refused a log as an older copy, kept in the site's folder: so a later start is refused too, and before the
program writes anything. Else each refused start would append its restart to the log, until that has come as far as the mark."""

from __future__ import annotations

import hashlib
import os
import threading
from typing import BinaryIO, NamedTuple, Optional

from .errors import Down
from .numbers import U64
from .records import Records, more_than_starts
from .schema import unreadable
from .values import Mark

FILE = "not_before"
"""Of a site's folder: it holds `EPOCH LENGTH`, as the option `--not-before` has them, and where older copies had come so far a
line for each, `copy SIZE SHA256`."""
_OLDER = ": older than --not-before: "
PIECE = 1 << 20
"""Bytes of a log that are read together."""
_writing = threading.Lock()


class Copy(NamedTuple):
    """A log that was refused, by the size of its file and the SHA-256 of what it held."""

    size: int
    digest: str


class NotBefore(NamedTuple):
    """What the file holds: how far a log has to have come, and the older copies that had come so far by themselves, as by what
    they sold before they were refused: the mark alone wouldn't refuse them."""

    mark: Mark
    copies: tuple[Copy, ...] = ()


def reaches(log: Mark, mark: Mark) -> bool:
    """Whether a log that has come so far isn't older than this mark."""
    return log.epoch >= mark.epoch and log.length >= mark.length


def joined(first: Optional[Mark], second: Optional[Mark]) -> Optional[Mark]:
    """What refuses each log that one of these marks refuses."""
    if first is None or second is None:
        return first if second is None else second
    return Mark(max(first.epoch, second.epoch), max(first.length, second.length))


def wanted_mark(folder: str) -> Optional[Mark]:
    """How far the log in this folder has to have come; None where none was ever refused there. Raises `Down` where the file of
    it can't be read, or has no mark in it, and where the log is one of its copies."""
    kept = _read(folder)
    if kept is None:
        return None
    path = os.path.join(folder, "log")
    if any(_is_copy(path, copy) for copy in kept.copies):
        mark = kept.mark
        raise Down(f"{path}: older than its mark, epoch {mark.epoch}, length {mark.length}, though it was served beyond: put "
                   f"the newest log back{_told(folder, mark)}", 3)
    return kept.mark


def keep_mark(folder: str, mark: Mark) -> None:
    """From now on a log is refused here that hasn't come so far, or as far as was wanted before. Raises `OSError` where that
    can't be written, and `Down` where what is there has no mark in it."""
    with _writing:
        kept = _read(folder) or NotBefore(mark)
        _write(folder, NotBefore(joined(mark, kept.mark) or mark, kept.copies))


def keep_copy(folder: str, first: int, epoch: int) -> None:
    """From now on the log that was refused here, which went on with the epoch `first` and has ended in this one, is refused
    itself, where it has come as far as the mark by more than starts: with these alone the newest log may begin too. Raises as
    `keep_mark`."""
    if not more_than_starts(folder, first):
        return
    path = os.path.join(folder, "log")
    last = Mark(epoch, Records(path).length())
    with _writing:
        kept = _read(folder)
        if kept is None or not reaches(last, kept.mark):
            return
        with open(path, "rb") as log:
            size = os.fstat(log.fileno()).st_size
            copy = Copy(size, _digest(log, size))
        if copy not in kept.copies:
            _write(folder, NotBefore(kept.mark, (*kept.copies, copy)))


def advice(folder: str, told: str) -> str:
    """What there is to add to what the program told, where it refused a log by the mark of its folder; else nothing."""
    front, older, _ = told.partition(_OLDER)
    words = front.replace(",", "").split(" ")
    try:
        kept = _read(folder) if older else None
        log = Mark(int(words[-3]), int(words[-1]))
    except (Down, ValueError, IndexError):
        return ""
    return "" if kept is None or reaches(log, kept.mark) else _told(folder, kept.mark)


def _told(folder: str, mark: Mark) -> str:
    """Where the mark is that refused a log, and what to do."""
    path = os.path.join(folder, FILE)
    return (f": {path} holds the mark that refused it, epoch {mark.epoch}, length {mark.length}: the file may stay, a log that "
            "has come so far passes it; only where nothing was sold or given since, and the medium's mark was removed too, "
            "remove the file")


def _read(folder: str) -> Optional[NotBefore]:
    path = os.path.join(folder, FILE)
    try:
        with open(path, encoding="ascii", errors="replace") as file:
            first, *lines = file.read().rstrip().split("\n")
        epoch, length = first.split()
        copies = tuple(Copy(_number(size), digest) for size, digest in (line.removeprefix("copy ").split() for line in lines))
        return NotBefore(Mark(_number(epoch), _number(length)), copies)
    except FileNotFoundError:
        return None
    except OSError as fault:
        raise unreadable(path, fault) from fault
    except ValueError as fault:
        raise Down(f"{path}: isn't two numbers, the epoch and the length of the mark that refused an older log here: write "
                   "those that escrow_site show tells of the newest log", 3) from fault


def _number(word: str) -> int:
    number = int(word)
    if not 0 <= number <= U64:
        raise ValueError(word)
    return number


def _write(folder: str, kept: NotBefore) -> None:
    """Puts the file in place as a whole: it stays, whatever stops."""
    path = os.path.join(folder, FILE)
    lines = (f"{kept.mark.epoch} {kept.mark.length}", *(f"copy {copy.size} {copy.digest}" for copy in kept.copies))
    with open(f"{path}.new", "w", encoding="ascii") as file:
        file.write("".join(f"{line}\n" for line in lines))
        file.flush()
        os.fsync(file.fileno())
    os.replace(file.name, path)
    held = os.open(folder, os.O_RDONLY | os.O_DIRECTORY | os.O_CLOEXEC)
    try:
        os.fsync(held)
    finally:
        os.close(held)


def _is_copy(path: str, copy: Copy) -> bool:
    """Whether the log is that one, or goes on from it. False where it can't be read: the program tells why."""
    try:
        with open(path, "rb") as log:
            return os.fstat(log.fileno()).st_size >= copy.size and _digest(log, copy.size) == copy.digest
    except OSError:
        return False


def _digest(log: BinaryIO, size: int) -> str:
    found = hashlib.sha256()
    while size > 0 and (piece := log.read(min(size, PIECE))):
        found.update(piece)
        size -= len(piece)
    return found.hexdigest()
