"""Comes in by a door, and again where the connection has ended."""

from __future__ import annotations

import errno
import logging
import os
import socket
import threading
import time
from collections.abc import Callable
from typing import NamedTuple, Optional

from .errors import Down, Faulty
from .pipeline import Watch
from .schema import Identity, Schema
from .shared import SharedPipeline
from .supervisor import A_WHILE, LOOK, Backoff, read_ready
from .values import Mark

log = logging.getLogger("escrow")
FIRST_LINE = "escrow door 1"
LINES = 5
"""What a door begins with has so many."""
LONGEST = 1 << 17
START = "python3 -m escrow.door FOLDER --socket"
_WHY = {
    errno.ENOENT: "no door is there: start one: {start} {path}",
    errno.ECONNREFUSED: "nobody is behind this door any more: start it again: {start} {path}",
    errno.EACCES: "this user may not come in: the socket's owner and mode tell who may (--mode of the door), and the modes of "
    "the folders above it",
    errno.ENOTSOCK: "is no socket: a door makes one: {start} PATH",
}
HOPELESS = (errno.EACCES, errno.ENOTSOCK)
"""At the first time these don't get better by waiting."""


class Hello(NamedTuple):
    """What a door begins with."""

    site: Identity
    mark: Mark
    may_forget: bool
    """Whether the log of its site was shortened, or may be."""


class Way(NamedTuple):
    """A connection that stands."""

    peer: socket.socket
    hello: Hello
    is_direct: bool
    """Whether the door itself is at the other end, and no program in between."""


class NoWay(Exception):
    """There is no connection now: why, and whether there may be one later."""

    def __init__(self, why: str, is_hopeless: bool = False) -> None:
        self.is_hopeless = is_hopeless
        super().__init__(why)


def find_way(path: str, goes_on: Callable[[], bool]) -> Way:
    """Comes in by this door. Raises `NoWay`, also where it isn't to go on: that is asked a few times a second."""
    try:
        peer = socket.socket(socket.AF_UNIX, socket.SOCK_STREAM)
    except OSError as fault:  # no descriptor is free
        raise NoWay(f"{path}: {fault.strerror}") from fault
    try:
        peer.settimeout(LOOK)
        try:
            peer.connect(path)
        except OSError as fault:
            why = _WHY.get(fault.errno or 0, os.strerror(fault.errno) if fault.errno else str(fault))
            raise NoWay(f"{path}: {why.format(start=START, path=path)}", fault.errno in HOPELESS) from fault
        hello, is_direct = _hear(peer, path, goes_on)
        peer.settimeout(None)
        return Way(peer, hello, is_direct)
    except BaseException:
        peer.close()
        raise


def _hear(peer: socket.socket, path: str, goes_on: Callable[[], bool]) -> tuple[Hello, bool]:
    """What the door begins with, and whether a descriptor came with it: no program in between passes one on."""
    told, is_direct = b"", False
    while told.count(b"\n") < LINES and not told.startswith(b"door end ") and len(told) < LONGEST:
        try:
            piece, tokens, _, _ = socket.recv_fds(peer, 1 << 14, 1)
        except TimeoutError:
            if not goes_on():
                raise NoWay(f"{path}: the door doesn't answer: its site doesn't stand yet, or the door stands still") from None
            continue
        except OSError:
            piece = b""
        if not piece:
            raise NoWay(f"{path}: the door has ended before it answered")
        told += piece
        is_direct = is_direct or bool(tokens)
        for token in tokens:
            os.close(token)
    lines = told.decode("ascii", "replace").split("\n")
    if lines[0].startswith("door end "):
        raise NoWay(f"{path}: {lines[0].removeprefix('door end ')}")
    try:
        if lines[0] != FIRST_LINE:
            raise ValueError
        number, world = int(lines[1].removeprefix("number ")), lines[2].removeprefix("world ")
        return Hello(Identity(number, world, Schema.parse(lines[3])), *read_ready(lines[4].encode())), is_direct
    except Down as fault:
        raise NoWay(f"{path}: {fault}", True) from fault
    except (ValueError, KeyError, TypeError, IndexError) as fault:
        why = f"isn't a door of version 1, which alone this client knows: it began with {lines[0][:80]!r}"
        raise NoWay(f"{path}: {why}", True) from fault


class Connector:
    """Keeps one connection in a thread of its own, until it is closed or there is no hope."""

    pid: Optional[int] = None
    """The process is the door's."""

    def __init__(
        self, path: str, pipeline: SharedPipeline, first: Way, started: Callable[[], None], watch: Optional[Watch],
        backoff: Backoff, patience: float,
    ) -> None:  # fmt: skip
        self._path, self._pipeline, self._started, self._watch = path, pipeline, started, watch
        self._site, self.mark, self._first = first.hello.site, first.hello.mark, first
        self._backoff, self._patience = backoff, patience
        self.last_status: Optional[int] = None
        self.last_error = ""
        self._down_since = time.monotonic()
        self._closing, self._over, self._stood = threading.Event(), threading.Event(), threading.Event()
        name = f"escrow door {pipeline.number}"
        self._thread = threading.Thread(target=self._connect, name=name, daemon=True)
        self._writer = threading.Thread(target=self._write_rests, name=f"{name} writer", daemon=True)
        self._thread.start()
        self._writer.start()

    def wait(self, seconds: float) -> bool:
        """Waits until it has stood once, or there is no hope: whether either came in time."""
        return self._stood.wait(seconds)

    def close(self, seconds: float) -> None:
        """Takes no more calls, lets the door answer what it was asked, and ends the connection: after so many seconds by
        force."""
        self._pipeline.die(Down("the site was closed"))
        self._closing.set()
        self._pipeline.finish()
        self._thread.join(seconds)
        while self._thread.is_alive():
            self._pipeline.cut()
            self._thread.join(0.1)

    def _connect(self) -> None:
        why = Down("the site was closed")
        try:
            self._keep_connected()
        except Down as fault:
            why = fault
        except Exception as fault:
            why = Down(f"a fault of the client: {fault!r}")
            raise
        finally:
            if not self._closing.is_set():
                log.error("%s: the door isn't tried again: %s", self._path, why)
            self._closing.set()
            self._pipeline.die(why)
            self._stood.set()
            self._over.set()
            self._pipeline.wake_writer()
            self._pipeline.reading.close()

    def _keep_connected(self) -> None:
        """One connection behind another. Raises `Down` where there is no hope."""
        pause, way = self._backoff.first, self._first
        while True:
            began, answers = time.monotonic(), self._pipeline.counts.answers
            self._use(way)
            self._down_since = time.monotonic()
            if self._pipeline.counts.answers > answers or self._down_since - began > A_WHILE:
                pause = self._backoff.first
            else:
                self._closing.wait(pause)
                pause = min(2 * pause, self._backoff.most)
            found = None
            while found is None and not self._closing.is_set():
                found = self._find()
                if found is None:
                    self._lose_patience()
                    self._closing.wait(pause)
                    pause = min(2 * pause, self._backoff.most)
            if found is None:
                return
            way = found

    def _find(self) -> Optional[Way]:
        """The next connection, where it can be had now. Raises `Down` where another site is behind it, or an older log."""
        try:
            way = find_way(self._path, self._goes_on)
        except NoWay as fault:
            self.last_error = str(fault)
            return None
        if self._closing.is_set():
            way.peer.close()
            return None
        refused = refusal(self._path, way.hello, self._site, self.mark)
        if refused is not None:
            way.peer.close()
            raise refused
        return way

    def _goes_on(self) -> bool:
        self._lose_patience()
        return not self._closing.is_set()

    def _lose_patience(self) -> None:
        if time.monotonic() > self._down_since + self._patience:
            self._pipeline.give_up(Down(f"the door doesn't stand: {self.last_error or 'it tells nothing'}"))

    def _use(self, way: Way) -> None:
        """One connection from its beginning to its end."""
        is_later, self.mark = self._stood.is_set(), way.hello.mark
        why, is_read = "the connection has ended", False
        if self._watch is not None:
            self._watch.started(*self.mark)
        self._pipeline.join(self.mark.epoch, way.peer, way.is_direct, way.hello.may_forget)
        log.info("%s: the door stands: epoch %d", self._path, self.mark.epoch)
        if is_later:
            self._started()
        self._stood.set()
        try:
            self._pipeline.reading.read(way.peer.fileno())
            is_read = True
        except Faulty as faulty:
            why = str(faulty)
        finally:
            if not is_read:
                self._pipeline.doubt_all()
            self._pipeline.detach()
            way.peer.close()
            self._pipeline.fall()
        self.last_error = self._pipeline.told_end or why
        if self._watch is not None:
            self._watch.stopped(0)
        if not self._closing.is_set():
            log.warning("%s: the door is gone: %s", self._path, self.last_error)

    def _write_rests(self) -> None:
        while not self._over.is_set():
            self._pipeline.write_rest()
            if self._closing.is_set():
                self._pipeline.finish()


def refusal(path: str, hello: Hello, site: Identity, mark: Optional[Mark]) -> Optional[Down]:
    """Why what is behind this door isn't the site that was there, as far as its log had come by then; None where it is."""
    if (hello.site.number, hello.site.world) != (site.number, site.world):
        return Down(f"{path}: another site is behind this door: of number {hello.site.number}, world {hello.site.world[:8]}", 3)
    if mark is not None and (hello.mark.epoch < mark.epoch or hello.mark.length < mark.length):
        told = f"epoch {hello.mark.epoch}, length {hello.mark.length}: older than epoch {mark.epoch}, length {mark.length}"
        return Down(f"{path}: the log that is served has {told}: put the newest log back", 3)
    return None
