"""What a process tells on standard error: a warning as it comes, and all else at its end, as the text of its fault."""

from __future__ import annotations

import contextlib
import logging
import os
import threading
from typing import IO

UNSHORTENED = b": isn't shortened: "
"""Is in a line that warns of a log which grows on. The process serves on: it is no fault."""
MOST = 1 << 16
"""How many bytes of the text are kept, the last ones, and how many one read takes."""
LAST = 2.0
"""Seconds that the end of standard error is waited for behind that of the process: another process may hold it open."""


class Complaints:
    """Standard error of one process, read by a thread of its own while it runs: so a full pipe never stops the process."""

    def __init__(self, pipe: IO[bytes], log: logging.Logger) -> None:
        """The pipe is this one's from now on, and closed at its end. `log` is told the warnings."""
        self._pipe, self._log = pipe, log
        self._lock = threading.Lock()
        self._kept, self._line = bytearray(), b""  # whole lines, and the front of the next one
        self._thread = threading.Thread(target=self._read, name="escrow site errors", daemon=True)
        self._thread.start()

    def text(self) -> str:
        """What was told, but for warnings. Once the process has ended."""
        self._thread.join(LAST)
        self._take(b"\n")  # the last line may have none
        with self._lock:
            return self._kept.decode(errors="replace").strip()

    def _read(self) -> None:
        with self._pipe:
            while piece := os.read(self._pipe.fileno(), MOST):
                self._take(piece)

    def _take(self, piece: bytes) -> None:
        with self._lock:
            *lines, rest = (self._line + piece).split(b"\n")
            self._line = rest[-MOST:]
            for line in lines:
                if UNSHORTENED not in line:
                    self._kept += line + b"\n"
            del self._kept[:-MOST]
        for line in lines:
            if UNSHORTENED in line:
                with contextlib.suppress(Exception):  # whatever a handler raises: the process is read on
                    self._log.warning("%s", line.decode(errors="replace").strip())
