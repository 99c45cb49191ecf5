"""By what an older copy of a log is known: how far the log had come when this process took it, how far it has come
since, and what somebody else told of it."""
from __future__ import annotations

import os
import threading
import weakref
from typing import Optional

from escrow import Down, Mark, Site
from escrow.records import length_before_start
from escrow.refused import reaches


class Marks:
    """The marks of one `Site`, of all its carriers: `start` is how far its log had come before its first start."""

    def __init__(self, site: Site) -> None:
        self.start = _before_first_start(site)
        self._lock = threading.Lock()
        self._told: Optional[tuple[Mark, Mark]] = None  # the first and the last that this process told

    def tell(self, mark: Mark) -> Mark:
        """What to tell, where the log has come so far: never less than before. From now on it is known as its own."""
        with self._lock:
            first, last = self._told or (mark, mark)
            self._told = first, mark if reaches(mark, last) else last
            return self._told[1]

    def is_newer(self, mark: Mark) -> bool:
        """Whether this tells of a log that had come further than this one, before its first start. What this process
        told itself doesn't."""
        told = self._told
        if told is not None and reaches(mark, told[0]) and reaches(told[1], mark):
            return False
        return not reaches(self.start, mark)

    def joined(self, mark: Mark) -> Mark:
        """What refuses both logs that are less than this mark, and than what was told here."""
        last = mark if self._told is None else self._told[1]
        return Mark(max(mark.epoch, last.epoch), max(mark.length, last.length))

    def refusal(self, folder: str, mark: Mark) -> Down:
        """What is raised where a mark is newer: as the program refuses a log that is older than `--not-before`."""
        return Down(f"{folder}/log: epoch {self.start.epoch}, length {self.start.length}: older than its mark, epoch "
                    f"{mark.epoch}, length {mark.length}: put the newest log back; if this world was "
                    "made anew with the header of an older one, empty the medium first", 3)


def marks_of(site: Site) -> Marks:
    """Those of this site: the same for all its carriers, one after another or at once."""
    with _lock:
        if site not in _marks:
            _marks[site] = Marks(site)
        return _marks[site]


_lock = threading.Lock()
_marks: weakref.WeakKeyDictionary[Site, Marks] = weakref.WeakKeyDictionary()


def _before_first_start(site: Site) -> Mark:
    """The epoch and the length before the record of its first start. Where its process was started again since, and
    others stopped before they were ready, a later start may be taken for the first: then less is seen."""
    starts, mark = site.counts.starts, site.mark        # in this order: a start between must not count alone
    first = mark.epoch - starts + 1
    length = length_before_start(os.path.join(site.folder, "log"), first)
    return Mark(first - 1, mark.length if length is None else length)
