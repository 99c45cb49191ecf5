"""Which transactions are open, and a warning of those that are held longer than told."""

from __future__ import annotations

import logging
from collections.abc import Callable
from threading import Lock
from time import monotonic
from typing import Optional

log = logging.getLogger("escrow")
Later = Callable[[float, Callable[[], object]], object]
"""Has something done so many seconds from now."""


class Holding:
    """The open transactions, as lines name them. Changed under the pipeline's lock alone."""

    def __init__(self, seconds: Optional[float] = None, later: Optional[Later] = None, name: str = "") -> None:
        """Each that is held for `seconds` is warned of once, where there is a `later`; `name` is the site's."""
        self._seconds, self._later, self._name = seconds, later, name
        self._since: dict[str, float] = {}
        self._warned: set[str] = set()
        self._is_asleep = later is not None and seconds is not None
        self.lock = Lock()
        """The pipeline's, under which it looks."""
        self.front = ""
        """What stands in front of ids."""

    def __contains__(self, id: str) -> bool:
        return id in self._since

    def add(self, id: str) -> None:
        """It is open from now on."""
        self._since[id] = monotonic()
        if self._is_asleep:
            assert self._seconds is not None and self._later is not None
            self._is_asleep = False
            self._later(self._seconds, self._look)

    def rename(self, id: str, told: str) -> None:
        """It is named so, where it is open."""
        if id in self._since:
            self._since[told] = self._since.pop(id)

    def discard(self, id: str) -> None:
        """It has ended."""
        self._since.pop(id, None)

    def clear(self) -> None:
        """None is open."""
        self._since.clear()
        self._warned.clear()

    def _look(self) -> None:
        with self.lock:
            late, most = self._find_late(), len(self._since)
        for id, seconds in late:
            log.warning("%s: transaction %s%s is held for %.1f seconds, and %d are open of 63 places: what is held for long is "
                        "committed, and its opposite later", self._name, self.front, id, seconds, most)

    def _find_late(self) -> list[tuple[str, float]]:
        """Those to warn of, and for how long each is held; it looks again where another will be."""
        assert self._seconds is not None and self._later is not None
        now = monotonic()
        self._warned &= self._since.keys()
        ages = [(id, now - since) for id, since in self._since.items() if id not in self._warned]
        late = [(id, age) for id, age in ages if age >= self._seconds]
        self._warned.update(id for id, _ in late)
        oldest = max((age for _, age in ages if age < self._seconds), default=None)
        self._is_asleep = oldest is None
        if oldest is not None:
            self._later(self._seconds - oldest, self._look)
        return late
