"""A thread for what isn't to hold up answers."""

from __future__ import annotations

import heapq
import itertools
import logging
import threading
import time
from collections import deque
from collections.abc import Callable
from typing import Optional

Act = Callable[[], object]
log = logging.getLogger("escrow")


MANY = 64
"""So many cancelled ones are kept at most, or as many as others."""


class Entry:
    """What is to be done at a time of `time.monotonic`; in order of time, and then of asking."""

    __slots__ = ("at", "order", "act")

    def __init__(self, at: float, order: int, act: Act) -> None:
        self.at, self.order = at, order
        self.act: Optional[Act] = act

    def __lt__(self, other: Entry) -> bool:
        return (self.at, self.order) < (other.at, other.order)


class Errands:
    """Does one thing after another in a thread of its own, which begins with the first one."""

    def __init__(self, name: str) -> None:
        self._name = name
        self._some = threading.Condition()
        self._now: deque[Act] = deque()
        self._later: list[Entry] = []
        self._cancelled = 0
        self._order = itertools.count()
        self._closing = False
        self._thread: Optional[threading.Thread] = None

    def soon(self, act: Act) -> None:
        """Has this done as soon as what came before it is done."""
        with self._some:
            self._now.append(act)
            self._notify()

    def after(self, seconds: float, act: Act) -> Entry:
        """Has this done so many seconds from now, unless it is cancelled."""
        with self._some:
            entry = Entry(time.monotonic() + seconds, next(self._order), act)
            heapq.heappush(self._later, entry)
            self._notify()
        return entry

    def cancel(self, entry: Entry) -> None:
        """Has it left."""
        with self._some:
            entry.act = None
            self._cancelled += 1
            if self._cancelled > MANY and 2 * self._cancelled > len(self._later):
                self._later = [it for it in self._later if it.act is not None]
                heapq.heapify(self._later)
                self._cancelled = 0

    def _notify(self) -> None:
        self._some.notify()
        if self._thread is None and not self._closing:
            thread = threading.Thread(target=self._run, name=self._name, daemon=True)
            thread.start()  # where there is none to be had the next one who asks tries again
            self._thread = thread

    def close(self, seconds: float) -> None:
        """Does what is left to do at once, leaves what is for later, and ends: it is waited for so many seconds."""
        with self._some:
            self._closing = True
            self._some.notify()
        if self._thread is not None and self._thread is not threading.current_thread():
            self._thread.join(seconds)

    def _run(self) -> None:
        while True:
            with self._some:
                act = self._next()
                if act is None and self._closing:
                    return
                if act is None:
                    self._some.wait(self._pause())
                    continue
            try:
                act()
            except Exception:
                log.exception("%s: a hook raised", self._name)

    def _next(self) -> Optional[Act]:
        while self._later and self._later[0].at <= time.monotonic():
            act = heapq.heappop(self._later).act
            if act is not None:
                return act
        return self._now.popleft() if self._now else None

    def _pause(self) -> Optional[float]:
        return max(0.0, self._later[0].at - time.monotonic()) if self._later else None
