"""Closes sites that were dropped open: in a thread of the process, since what is dropped may be so anywhere, under any lock."""

from __future__ import annotations

import logging
import os
import threading
from collections.abc import Callable
from queue import SimpleQueue

log = logging.getLogger("escrow")
Close = Callable[[], object]


class Closer:
    """The thread, which begins with the first site."""

    def __init__(self) -> None:
        self.begin()

    def begin(self) -> None:
        """There is no thread yet, as in a fork."""
        self._dropped: SimpleQueue[Close] = SimpleQueue()
        self._lock = threading.Lock()
        self._is_there = False

    def watch(self) -> None:
        """From now on there is the thread."""
        with self._lock:
            if not self._is_there:
                self._is_there = True
                threading.Thread(target=self._run, name="escrow dropped", daemon=True).start()

    def close(self, act: Close) -> None:
        """Has this done soon. Takes no lock that anybody may hold, so `__del__` may call it."""
        self._dropped.put(act)

    def _run(self) -> None:
        while True:
            try:
                self._dropped.get()()
            except Exception:
                log.exception("a site that was dropped open isn't closed")


closer = Closer()
os.register_at_fork(after_in_child=closer.begin)
