"""The records in the file of a site's log, of each version, by docs/FORMATS.md: how far they have come, and who served the
site."""

from __future__ import annotations

import os
import re
import threading
from typing import BinaryIO, NamedTuple, Optional

from .errors import Down
from .values import Mark

HEADS = {b"escrow log 1\n": (1, 3), b"escrow log 2\n": (2, 5), b"escrow log 3\n": (3, 6)}
"""The version of a log, and how many lines it has in front of its records, by the first of them."""
_GONE = re.compile(rb"^head ([0-9]{1,20}) [0-9]{1,20}$", re.MULTILINE)
"""In version 3 this line tells how many bytes of records were let go of."""
SUM, SUM_LINE = b"sum ", 21
"""From version 2 on such a line, of so many bytes, closes each batch of records. No record has an `s`, so these stand nowhere
else."""
NOTE, _NOTES = b"K", re.compile(rb"^K [^\n]*\n", re.MULTILINE)
"""A line that begins so notes the key of a commit. It is no record, and its bytes don't count; no record begins so."""
WINDOW = 1 << 16
"""Bytes of a log that are looked at together."""


class Head(NamedTuple):
    """What a log begins with: its version, where in the file its records begin, and how many bytes of records were let go of in
    front of these."""

    version: int
    end: int
    gone: int


class Place(NamedTuple):
    """How far a log was looked through: `end` is where in the file, and `length` the bytes of records in front of it, also of
    those that were let go of."""

    end: int
    length: int


class Records:
    """How long the records of a log are. Each look reads on from where the last one ended; any thread may look."""

    def __init__(self, path: str) -> None:
        self.path, self._lock = path, threading.Lock()
        self._file = (0, 0)  # whose log was looked through: its device and number
        self._head, self._place = Head(1, 0, 0), Place(0, 0)

    def length(self) -> int:
        """The bytes of the records: in version 1 of all behind the head, also of a torn end; in others of the batches that a
        sum closes, and in version 3 of what was let go of too. Notes of keys aren't counted. Raises `OSError` where the log
        can't be looked at, and `Down` where it is none."""
        with self._lock, open(self.path, "rb") as log:
            told = os.fstat(log.fileno())
            file = told.st_dev, told.st_ino
            if file != self._file or told.st_size < self._place.end:  # another one was put in its place
                self._file, self._head = file, _head(log, self.path)
                self._place = Place(self._head.end, self._head.gone)
            self._place, torn = _looked(log, self._head.version, self._place, told.st_size)
            is_of_records = self._head.version == 1 and not torn.startswith(NOTE)
            return self._place.length + len(torn) * is_of_records


def length_before_start(path: str, epoch: int) -> Optional[int]:
    """The bytes of the records in front of that of the start that began this epoch; None where there is none, as where it was let
    go of. Raises as `Records.length`."""
    with open(path, "rb") as log:
        head = _head(log, path)
        start = find_last(log, b"\nR %d\n" % epoch, os.fstat(log.fileno()).st_size) + 1
        if start <= 0:
            return None
        place, rest = _looked(log, head.version, Place(head.end, head.gone), start)
        return place.length + len(rest) - _bytes_of_notes(rest)


def lacks_commit(path: str, epoch: int, number: int) -> bool:
    """Whether a log that lets go of nothing has no commit of the transaction `EPOCH.NUMBER`. False where it may have let go,
    and where it can't be looked at."""
    try:
        with open(path, "rb") as log:
            is_whole = _head(log, path).version < 3
            return is_whole and find_last(log, b"\nC %d %d " % (epoch, number), os.fstat(log.fileno()).st_size) < 0
    except (OSError, Down):
        return False


def served_between(folder: str, ours: Mark, now: Mark) -> bool:
    """Whether somebody else may have served the site between a run of ours and the one that has just begun.

    `ours` and `now` are the marks of both starts. A start that was stopped before it was ready leaves its restart in
    the log, and nothing else; whoever serves the site leaves more. Reads what was added since our run, where the epochs
    don't follow one another. What was let go of may have been anybody's.
    """
    return now.epoch != ours.epoch + 1 and more_than_starts(folder, ours.epoch + 1)


def more_than_starts(folder: str, epoch: int) -> bool:
    """Whether the log has more than starts from the one on that began this epoch; also where that isn't found, as where it was
    let go of."""
    try:
        with open(os.path.join(folder, "log"), "rb") as log:
            place = find_last(log, b"\nR %d\n" % epoch, os.fstat(log.fileno()).st_size) + 1
            log.seek(max(place, 0))
            return place <= 0 or any(line[:2] not in (b"R ", b"S ") for line in log if not line.startswith(SUM))
    except OSError:
        return True


def find_last(file: BinaryIO, wanted: bytes, end: int) -> int:
    """Where these bytes stand last before this end; -1 where they don't."""
    while end >= len(wanted):
        start = max(0, end - WINDOW)
        file.seek(start)
        at = file.read(end - start).rfind(wanted)
        if at >= 0:
            return start + at
        if start == 0:
            break
        end = start + len(wanted) - 1  # they may stand across the two windows
    return -1


def _head(log: BinaryIO, path: str) -> Head:
    log.seek(0)
    first = log.readline()
    if first not in HEADS:
        raise Down(f"{path}: isn't of escrow log 1, 2 or 3", 3)
    version, lines = HEADS[first]
    others = b"".join(log.readline() for _ in range(lines - 1))
    gone = _GONE.search(others) if version == 3 else None
    return Head(version, len(first) + len(others), int(gone[1]) if gone else 0)


def _looked(log: BinaryIO, version: int, place: Place, limit: int) -> tuple[Place, bytes]:
    """From an earlier place on the last one in front of this limit, and what stands between both: in version 1 it is behind
    the last whole line, in others behind the last batch that a sum closes."""
    log.seek(place.end)
    rest, left = b"", limit - place.end
    while left > 0 and (piece := log.read(min(WINDOW, left))):
        left -= len(piece)
        rest += piece
        end = rest.rfind(b"\n") + 1 if version == 1 else _end_of_last(rest)
        sums = 0 if version == 1 else rest.count(SUM, 0, end) * SUM_LINE
        place = Place(place.end + end, place.length + end - sums - _bytes_of_notes(rest[:end]))
        rest = rest[end:]
    return place, rest


def _bytes_of_notes(lines: bytes) -> int:
    """Of these whole lines the bytes of those that note a key."""
    return sum(map(len, _NOTES.findall(lines))) if NOTE in lines else 0


def _end_of_last(text: bytes) -> int:
    """Where the last whole line of a sum ends; 0 where there is none."""
    at = text.rfind(SUM)
    if at + SUM_LINE > len(text):
        at = text.rfind(SUM, 0, at + 1)
    return at + SUM_LINE if at >= 0 else 0
