"""Starts the process of a site, watches it, and starts it again. Never two at once."""

from __future__ import annotations

import logging
import os
import re
import select
import signal
import subprocess
import threading
import time
from collections.abc import Callable
from dataclasses import dataclass
from typing import IO, NamedTuple, Optional

from .complaints import Complaints
from .device import device_fault, remedy
from .errors import Down, Faulty
from .pipeline import Pipeline, Watch
from .records import served_between
from .refused import advice
from .room import has_room
from .scarce import SCARCE
from .values import Mark

log = logging.getLogger("escrow")
VERSIONS = (1, 2)
"""Of the ready line and of all that follows it. By the second the log was shortened, or may be while it is served: then what is
asked of a commit may be answered `forgotten`."""
DISK = 5
"""The status behind a fault of the disk."""
HOPELESS = (2, 3, DISK)
"""Statuses behind which it isn't started again: 2 and 3 would come again. 5 is a fault of the disk: until it is mended, what the
system shows of the log may not be on the disk. Where the disk is full it is none: what is written stays, and is synced by the
next start."""
FULL = ": the disk is full: make room on it: the site starts again by itself once 64 KiB can be written in its folder"
LOOK = 0.5
"""Seconds between two looks for calls that have waited too long, where a start takes long, and for room on the disk."""
A_WHILE = 1.0
"""So many seconds a process stands for a while."""


class Backoff(NamedTuple):
    """How many seconds pass between an end of the process and the next start."""

    first: float = 0.05
    """At first, and again once it has got on."""
    most: float = 5.0
    """At most: each time that it gets on nowhere the time is doubled."""


@dataclass(frozen=True)
class Orders:
    """What to start, and how patiently: `patience` is how many seconds calls wait for a site that doesn't stand."""

    folder: str
    command: tuple[str, ...]
    backoff: Backoff
    patience: float


class Supervisor:
    """Keeps one process running in a thread of its own, until it is closed or there is no hope."""

    def __init__(
        self,
        orders: Orders,
        pipeline: Pipeline,
        started: Callable[[], None],
        watch: Optional[Watch],
        mark: Optional[Mark],
    ) -> None:
        self._orders, self._pipeline, self._started, self._watch = orders, pipeline, started, watch
        self.mark = mark
        self._process: Optional[subprocess.Popen[bytes]] = None
        self.last_status: Optional[int] = None
        self.last_error = ""
        self._down_since = time.monotonic()
        self._closing = threading.Event()
        self._over = threading.Event()
        self._stood = threading.Event()  # it stands, or there is no hope
        name = f"escrow site {pipeline.number}"
        self._thread = threading.Thread(target=self._supervise, name=name, daemon=True)
        self._writer = threading.Thread(target=self._write_rests, name=f"{name} writer", daemon=True)
        self._thread.start()
        self._writer.start()

    @property
    def pid(self) -> Optional[int]:
        """The process, where there is one."""
        process = self._process
        return None if process is None else process.pid

    def wait(self, seconds: float) -> bool:
        """Waits until the site has stood once, or there is no hope: whether either came in time."""
        return self._stood.wait(seconds)

    def close(self, seconds: float) -> None:
        """Takes no more calls, lets the process answer what it was asked, and ends it: after so many seconds by force.
        """
        self._pipeline.die(Down("the site was closed"))
        self._closing.set()
        self._pipeline.finish()
        self._thread.join(seconds)
        while self._thread.is_alive():
            self._kill()
            self._thread.join(0.1)

    def _kill(self) -> None:
        process = self._process
        if process is not None and process.returncode is None:
            _kill_all(process)

    # The supervisor's thread.

    def _supervise(self) -> None:
        why = Down("the site was closed")
        try:
            why = self._keep_running() or why
        except Down as fault:
            why = fault
        except Exception as fault:
            why = Down(f"a fault of the client: {fault!r}")
            raise
        finally:
            if not self._closing.is_set():
                log.error("%s: the site isn't started again: %s", self._orders.folder, why)
            self._closing.set()
            self._pipeline.die(why)
            self._stood.set()
            self._over.set()
            self._pipeline.wake_writer()
            self._pipeline.reading.close()

    def _keep_running(self) -> Optional[Down]:
        """One process after another: why there is no hope, or None where it was closed."""
        pause = self._orders.backoff.first
        while not self._closing.is_set():
            if self._run():
                pause, self._down_since = self._orders.backoff.first, time.monotonic()
            if self._closing.is_set():
                break
            if self._is_full():
                self._wait_for_room()
                continue
            if self.last_status in HOPELESS:
                return hopeless(self._orders.folder, self.last_status, self.last_error)
            self._lose_patience()
            self._closing.wait(pause)
            pause = min(2 * pause, self._orders.backoff.most)
        return None

    def _is_full(self) -> bool:
        """Whether it has ended for want of room on the disk: then its error tells so. The program tells which call failed,
        and why; where it doesn't, the disk is looked at."""
        if self.last_status != DISK:
            return False
        fault = device_fault(self.last_error)
        if not (fault.lacks_room if fault is not None else not has_room(self._orders.folder)):
            return False
        self.last_error += FULL
        return True

    def _wait_for_room(self) -> None:
        """Returns once there is room on the disk, or it is to be closed."""
        self._lose_patience()
        while not self._closing.wait(LOOK) and not has_room(self._orders.folder):
            self._lose_patience()

    def _patience_left(self) -> float:
        return self._down_since + self._orders.patience - time.monotonic()

    def _lose_patience(self) -> None:
        if self._patience_left() <= 0:
            why = self.last_error or "its start takes long"
            self._pipeline.give_up(Down(f"the site doesn't stand: {why}", self.last_status))

    def _run(self) -> bool:
        """One process from its start to its end, which is waited for. Whether it got anywhere: it answered, or stood
        for a while."""
        try:
            process = self._start()
        except OSError as fault:
            self.last_status = None if fault.errno in SCARCE else 2
            self.last_error = f"{self._orders.command[0]}: {fault.strerror}"
            return False
        assert process.stdin and process.stdout and process.stderr
        try:
            complaints = Complaints(process.stderr, log)
        except RuntimeError as fault:  # no thread is to be had
            with process:
                _kill_all(process)
            self.last_status, self.last_error = None, str(fault)
            return False
        self._process, why, got_on = process, "", False
        try:
            if self._stands(process.stdin, process.stdout):
                answers, began = self._pipeline.counts.answers, time.monotonic()
                self._pipeline.reading.read(process.stdout.fileno())
                got_on = self._pipeline.counts.answers > answers or time.monotonic() - began > A_WHILE
        except Faulty as faulty:
            why = str(faulty)
        except OSError as fault:
            if fault.errno not in SCARCE:
                raise
            why = str(fault.strerror)
        finally:
            self._end(process, complaints, why)
        return got_on

    def _start(self) -> subprocess.Popen[bytes]:
        words = list(self._orders.command)
        if self.mark is not None:
            words += ["--not-before", str(self.mark.epoch), str(self.mark.length)]
        pipe = subprocess.PIPE
        return subprocess.Popen(words, stdin=pipe, stdout=pipe, stderr=pipe, bufsize=0, start_new_session=True,
                                restore_signals=False)  # fmt: skip

    def _stands(self, to: IO[bytes], back: IO[bytes]) -> bool:
        """Reads the two lines that a site begins with: whether they came whole. Then it takes calls. Raises `Down`
        where they never will."""
        poll = select.poll()
        poll.register(back, select.POLLIN)
        while not poll.poll(1000 * max(LOOK, self._patience_left())):
            self._lose_patience()
        ready, restart = back.readline(), back.readline()
        if not restart.endswith(b"\n"):
            return False
        mark, may_forget = read_ready(ready)
        if mark.epoch <= self._pipeline.epoch:
            raise Faulty(f"epoch {mark.epoch} behind epoch {self._pipeline.epoch}")
        if self._pipeline.epoch and served_between(self._orders.folder, self.mark or mark, mark):
            self._pipeline.era += 1
        self.mark = mark
        if self._watch is not None:
            self._watch.started(*mark)
        end = os.dup(to.fileno())
        os.set_blocking(end, False)
        self._pipeline.stand(mark.epoch, end, may_forget)
        to.close()
        log.info("%s: the site stands: epoch %d, process %s", self._orders.folder, mark.epoch, self.pid)
        self._started()
        self._stood.set()
        return True

    def _end(self, process: subprocess.Popen[bytes], complaints: Complaints, why: str) -> None:
        assert process.stdin and process.stdout
        if not self._closing.is_set():
            _kill_all(process)  # it has closed its output, or its answers don't fit: it can do nothing more for us
        self._pipeline.detach()
        process.stdin.close()
        status, told = process.wait(), complaints.text()
        self.last_status, self.last_error = status, told or why or f"it ended with status {status}"
        process.stdout.close()
        self._process = None
        self._pipeline.fall()
        self._tell_end(status)

    def _tell_end(self, status: int) -> None:
        if status == 0:  # it was closed, or its numbers were used up
            log.info("%s: the site's process has ended", self._orders.folder)
        else:
            log.warning("%s: the site stopped, status %d: %s", self._orders.folder, status, self.last_error)
        if self._watch is not None:
            self._watch.stopped(status)
            fault = device_fault(self.last_error) if status == DISK else None
            if fault is not None and hasattr(self._watch, "faulted"):
                self._watch.faulted(*fault)

    # The writer's thread: what the pipe didn't take at once.

    def _write_rests(self) -> None:
        while not self._over.is_set():
            self._pipeline.write_rest()
            if self._closing.is_set():
                self._pipeline.finish()


def hopeless(folder: str, status: Optional[int], told: str) -> Down:
    """Why it isn't started again behind a status of `HOPELESS`, and what to do."""
    return Down(told + (remedy(told) if status == DISK else advice(folder, told)), status)


class Ready(NamedTuple):
    """What the ready line of a process tells."""

    mark: Mark
    may_forget: bool
    """Whether its log was shortened, or may be."""


_READY = re.compile(rb"ready ([1-9][0-9]{0,8})(?: ([0-9]{1,20}) ([0-9]{1,20})\s*)?")


def read_ready(line: bytes) -> Ready:
    """What the ready line of a process tells. Raises `Down` where it is of no version that this client knows."""
    found = _READY.match(line)
    version = 0 if found is None else int(found[1])
    if version > VERSIONS[-1]:
        raise Down(f"the program is newer than this client, which knows its lines up to version {VERSIONS[-1]}, and not version "
                   f"{version}: use a client of that program's release")
    if found is None or found[2] is None or found.end() < len(line):
        raise Down(f"the program isn't one that this client knows: it began with {line!r}")
    return Ready(Mark(int(found[2]), int(found[3])), version > 1)


def ready_line(ready: Ready) -> str:
    """The line that tells it."""
    return f"ready {VERSIONS[ready.may_forget]} {ready.mark.epoch} {ready.mark.length}\n"


def _kill_all(process: subprocess.Popen[bytes]) -> None:
    """Kills the process and what it began: it leads a group of its own, in which a script that runs the program is too.
    """
    try:
        os.killpg(process.pid, signal.SIGKILL)
    except ProcessLookupError:
        pass
