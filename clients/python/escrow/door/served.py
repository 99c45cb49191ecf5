"""One process of `escrow_site serve`, from its start to its end."""

from __future__ import annotations

import errno
import logging
import os
import select
import signal
import subprocess
from collections.abc import Sequence
from typing import NamedTuple, Optional

from ..complaints import Complaints
from ..device import device_fault
from ..room import has_room
from ..supervisor import DISK, Ready, read_ready
from ..values import Mark

log = logging.getLogger("escrow.door")


class Ended(NamedTuple):
    """How a process ended: its status, below 0 the signal, and what it told."""

    status: int
    told: str

    def is_full(self, folder: str) -> bool:
        """Whether that was for want of room on the disk."""
        if self.status != DISK:
            return False
        fault = device_fault(self.told)
        return fault.lacks_room if fault is not None else not has_room(folder)


class Served:
    """The process. Ends of its pipes are this one's own: they don't block."""

    def __init__(self, command: Sequence[str], mark: Optional[Mark]) -> None:
        """Starts it; with `mark` it refuses a log that is older. Raises `OSError`, also for want of a thread."""
        later = [] if mark is None else ["--not-before", str(mark.epoch), str(mark.length)]
        pipe = subprocess.PIPE
        self._process = subprocess.Popen([*command, *later], stdin=pipe, stdout=pipe, stderr=pipe, bufsize=0,
                                         start_new_session=True, restore_signals=False)  # fmt: skip
        assert self._process.stdin and self._process.stdout and self._process.stderr
        try:
            self._complaints = Complaints(self._process.stderr, log)
        except RuntimeError as fault:  # no thread is to be had
            with self._process:
                self.kill()
            raise OSError(errno.EAGAIN, str(fault)) from fault
        self.to, self.back = self._process.stdin.fileno(), self._process.stdout.fileno()
        os.set_blocking(self.to, False)

    @property
    def pid(self) -> int:
        """Its number."""
        return self._process.pid

    def ready(self, signalled: int) -> Optional[Ready]:
        """Waits for the two lines that it begins with: what the first one tells. None where it has ended before, or a signal
        has come. Raises `Down` where it is another program."""
        poll, told = select.poll(), b""
        poll.register(self.back, select.POLLIN)
        poll.register(signalled, select.POLLIN)
        while told.count(b"\n") < 2:
            if any(fd == signalled for fd, _ in poll.poll()):
                return None
            piece = os.read(self.back, 1 if b"\n" in told else 4096)
            if not piece:
                return None
            told += piece
        os.set_blocking(self.back, False)
        return read_ready(told.split(b"\n")[0])

    def kill(self) -> None:
        """Ends it by force, with what it began."""
        try:
            os.killpg(self.pid, signal.SIGKILL)
        except ProcessLookupError:
            pass

    def end(self, seconds: float) -> Ended:
        """Ends its input and waits for its end: after so many seconds by force."""
        process = self._process
        assert process.stdin and process.stdout
        process.stdin.close()
        try:
            process.wait(seconds)
        except subprocess.TimeoutExpired:
            self.kill()
        status = process.wait()
        process.stdout.close()
        return Ended(status, self._complaints.text() or f"it ended with status {status}")
