"""One process of the site and the connections of its time: who ends it ends all of them.

Lines are planned as they are read, and go to the site in batches: one at a time is under way, so that all that has gathered
meanwhile shares one sync. Behind a batch the door waits a moment, a part of the time that the batch took, for those
connections that were answered and the last time came back as soon as that: else each would share a sync with half of the
others.

A connection is told which of its lines were taken, and the ids that they begin, **before** any of them goes to the site.
Where it can't be told none goes. So what is under way as a door dies is known at the other end, with its ids.
"""

from __future__ import annotations

import contextlib
import logging
import os
import resource
import select
import socket
from collections import deque
from collections.abc import Callable, Sequence
from time import monotonic
from typing import NamedTuple

from ..errors import Faulty
from ..records import Records
from ..scarce import SCARCE
from ..schema import Identity
from ..supervisor import Ready, ready_line
from ..values import Mark
from .connection import Connection, Gone
from .plan import Part, Planner
from .served import Served

log = logging.getLogger("escrow.door")
VERSION = 1
PIPE = 1 << 16
"""How many bytes one read of the site's answers takes."""
PART, MOST_PAUSE = 2, 0.004
"""Behind a batch the door waits at most half of the time that it took, and so many seconds."""
MOST_CONNECTIONS, SPARE = 512, 32
"""So many connections are there at most, and so many descriptors are left for all else: the process of the site, and its log."""
AGAIN = 1.0
"""Where nobody could be let in for want of a descriptor it is tried again after so many seconds."""
LAST = 5.0
"""Seconds that an end takes at most."""
IN, OUT, END = select.EPOLLIN, select.EPOLLOUT, select.EPOLLHUP | select.EPOLLERR


def most_connections() -> int:
    """How many may be there, by the descriptors that this process may have."""
    limit = resource.getrlimit(resource.RLIMIT_NOFILE)[0]
    return MOST_CONNECTIONS if limit == resource.RLIM_INFINITY else max(1, min(MOST_CONNECTIONS, limit - SPARE))


class Limits(NamedTuple):
    """What ends a connection: that it takes no answer for so many seconds, and how many bytes wait for it at most."""

    slow: float = 30.0
    most: int = 1 << 22


class Run:
    """The loop, in one thread."""

    def __init__(
        self, listener: socket.socket, signalled: int, site: Identity, folder: str, served: Served, ready: Ready, limits: Limits
    ) -> None:
        """`signalled` can be read once this is to end."""
        self._listener, self._signalled, self._served, self._limits = listener, signalled, served, limits
        mark = ready.mark
        self._mark, self._records = mark, Records(os.path.join(folder, "log"))
        self._newest()  # the first look reads the whole log
        self.planner = Planner(site.number, mark.epoch, [field.name for field in site.schema.fields], self._newest)
        names = f"escrow door {VERSION}\nnumber {site.number}\nworld {site.world}\n{site.schema.line()}\n"
        self._hello = f"{names}{ready_line(ready)}".encode()
        self._begun = f"{site.number} begin -> begun "
        self._connections: dict[int, Connection] = {}
        self._stuck: set[Connection] = set()
        # What goes to the site.
        self._out: list[str] = []  # gathered for the next batch
        self._gathered = 0  # how many lines that is
        self._writing = b""  # what the pipe didn't take
        self._under_way = 0  # lines of the batch that aren't answered yet
        self._parts: deque[Part] = deque()
        self._rest = b""
        # When the next batch goes.
        self._began = self._pause = self._until = 0.0
        self._answered: set[Connection] = set()
        self._expected: set[Connection] = set()
        self.is_ending, self._end_by = False, 0.0
        self._most = most_connections()
        self._accepts_at = 0.0  # when the next may come in again; 0 while all may
        self._epoll = select.epoll()
        self._acts: dict[int, Callable[[int], None]] = {}
        self._token = os.open(os.devnull, os.O_RDONLY | os.O_CLOEXEC)

    def run(self) -> None:
        """Returns once the process of the site has ended, or all is answered behind the signal. Raises `Faulty`."""
        self._watch(self._listener.fileno(), IN, self._accept)
        self._watch(self._served.back, IN, self._hear)
        self._watch(self._signalled, IN, self._end_soon)
        try:
            while self._served.back in self._acts and not self._is_done():
                for fd, events in sorted(self._wait(), key=self._is_listener):  # new ones take the numbers of dropped ones
                    act = self._acts.get(fd)
                    if act is not None:
                        act(events)
                self._send_batch()
                self._end_stuck()
                self._accept_again()
        finally:
            self._close()

    def _watch(self, fd: int, events: int, act: Callable[[int], None]) -> None:
        self._epoll.register(fd, events)
        self._acts[fd] = act

    def _is_listener(self, event: tuple[int, int]) -> bool:
        return event[0] == self._listener.fileno()

    def _unwatch(self, fd: int) -> None:
        del self._acts[fd]
        self._epoll.unregister(fd)

    def _wait(self) -> list[tuple[int, int]]:
        if self._expected and self._out and not self._under_way:
            select.select((self._epoll,), (), (), max(0.0, self._until - monotonic()))  # it waits for parts of a millisecond
            return self._epoll.poll(0)
        return self._epoll.poll(0.2 if self._stuck or self.is_ending or self._accepts_at else None)

    # Connections.

    def _accept(self, events: int) -> None:
        try:
            peer, _ = self._listener.accept()
        except OSError as fault:
            if fault.errno in SCARCE:
                self._accept_later(str(fault.strerror))
            return
        peer.setblocking(False)
        if len(self._connections) >= self._most:
            more = "" if self._most == MOST_CONNECTIONS else ", or let the door have more descriptors (ulimit -n)"
            many = f"{self._most} connections are there, and no more may be: end some{more}"
            log.warning("%s", many)
            with peer, contextlib.suppress(OSError):  # it may be gone already
                peer.send(f"door end {many}\n".encode())
            return
        who = self._connections[peer.fileno()] = Connection(peer)
        self._watch(peer.fileno(), IN, lambda events: self._look(who, events))
        try:
            who.greet(self._hello, self._token)
        except OSError:
            self._drop(who)
            return
        if who.out:
            self._attend(who)

    def _accept_later(self, why: str) -> None:
        """Who comes waits, and isn't tried over and over."""
        log.warning("nobody can come in for a moment: %s", why)
        self._unwatch(self._listener.fileno())
        self._accepts_at = monotonic() + AGAIN

    def _accept_again(self) -> None:
        if self._accepts_at and monotonic() >= self._accepts_at and not self.is_ending:
            self._accepts_at = 0.0
            self._watch(self._listener.fileno(), IN, self._accept)

    def _look(self, who: Connection, events: int) -> None:
        if events & END:
            self._drop(who)
        elif events & OUT:
            who.flush()
            self._attend(who)
            self._end_where_done(who)
        elif events & IN:
            self._read(who)

    def _read(self, who: Connection) -> None:
        if who.is_ahead or who.is_slow():
            self._attend(who)
            return
        if self.planner.is_full:
            self._finish()
            return
        try:
            lines = who.read()
        except Gone:
            self._drop(who)
            return
        except ValueError as fault:
            self._drop(who, str(fault))
            return
        if lines:
            self._take(who, lines)
        if who.is_ended and not who.is_closed:
            self._attend(who)
            self._end_where_done(who)

    def _attend(self, who: Connection) -> None:
        """Has it read from, or not: not while it doesn't take its answers, nor while too many are still to come."""
        is_slow = who.is_slow()
        if len(who.out) > self._limits.most:
            self._drop(who, f"{len(who.out)} bytes of answers wait for it")
            return
        who.is_held = is_slow or who.is_ahead
        if not is_slow:
            self._stuck.discard(who)
        elif who not in self._stuck:
            who.since = monotonic()
            self._stuck.add(who)
        listens = not (who.is_held or who.is_ended or self.is_ending)
        self._epoll.modify(who.peer.fileno(), OUT if is_slow else IN if listens else 0)

    def _take(self, who: Connection, lines: Sequence[str]) -> None:
        """Plans lines, tells that they are taken, and puts them behind those of others."""
        number, was_open = self.planner.number, who.open.copy()
        plan = self.planner.plan(who, lines)
        if not who.hears("".join(plan.receipt).encode()):
            self.planner.undo(who, number, was_open)
            self._drop(who)
            return
        self._out += plan.texts
        self._gathered += plan.lines
        self._parts += plan.parts
        who.unanswered += sum(part.lines for part in plan.parts if part.who is who)
        if who.told_at:
            who.is_prompt, who.told_at = monotonic() - who.told_at <= self._pause, 0.0
            self._expected.discard(who)
        self._grant()
        if self._parts and not self._parts[0].lines:
            self._deliver([])

    def _grant(self) -> None:
        while (holder := self.planner.places.grant()) is not None:
            assert isinstance(holder, Connection)
            holder.granted += 1
            holder.tell(b"door place\n")

    def _drop(self, who: Connection, why: str = "") -> None:
        """Ends a connection: what it has open is aborted."""
        if who.is_closed:
            return
        if why:
            log.warning("a connection is ended: %s", why)
            who.tell(f"door end {why}\n".encode())
        who.is_closed = True
        fd = who.peer.fileno()
        self._unwatch(fd)
        del self._connections[fd]
        who.peer.close()
        self._stuck.discard(who)
        self._expected.discard(who)
        aborts = self.planner.leave(who)
        self._out += aborts
        self._gathered += len(aborts)
        self._parts += [Part(None, 1) for _ in aborts]
        self._grant()

    def _end_where_done(self, who: Connection) -> None:
        """Ends a connection that has ended its input, where all its lines are answered."""
        if who.is_ended and not who.is_closed and not who.out and not any(part.who is who for part in self._parts):
            self._drop(who)

    def _end_stuck(self) -> None:
        if self._stuck:
            late = monotonic() - self._limits.slow
            for who in [it for it in self._stuck if it.since < late]:
                self._drop(who, f"it took no answer for {self._limits.slow:g} seconds")

    # The site.

    def _send_batch(self) -> None:
        """Sends what has gathered, where nothing is under way and nobody else is expected any more."""
        if self._under_way or not self._out:
            return
        now = monotonic()
        if self._expected:
            if now < self._until:
                return
            for who in self._expected:
                who.is_prompt = False
            self._expected.clear()
        self._writing = "".join(self._out).encode("latin-1")
        self._under_way, self._gathered, self._began = self._gathered, 0, now
        self._out = []
        self._write(0)

    def _write(self, events: int) -> None:
        try:
            taken = os.write(self._served.to, self._writing)
        except BlockingIOError:
            taken = 0
        except OSError:  # it has ended: the end of its answers tells that
            taken = len(self._writing)
        self._writing = self._writing[taken:]
        is_watched = self._served.to in self._acts
        if self._writing and not is_watched:
            self._watch(self._served.to, OUT, self._write)
        elif not self._writing and is_watched:
            self._unwatch(self._served.to)

    def _hear(self, events: int) -> None:
        try:
            piece = os.read(self._served.back, PIPE)
        except BlockingIOError:
            return
        if not piece:
            self._unwatch(self._served.back)
            return
        lines = (self._rest + piece).split(b"\n")
        self._rest = lines.pop()
        self._under_way -= len(lines)
        self._deliver(lines)
        if not self._under_way:
            self._end_batch()

    def _deliver(self, lines: Sequence[bytes]) -> None:
        """Hands answers of the site over, in their order, with those of the door between them."""
        at, many, parts = 0, len(lines), self._parts
        told: list[Connection] = []
        while parts:
            part = parts[0]
            if part.lines:
                if at == many:
                    break
                answers = lines[at : at + part.lines]
                at += len(answers)
                part.lines -= len(answers)
                if part.lines:
                    part.begun = ""
                elif part.begun and f"{self._begun}{part.begun}".encode() not in answers:
                    raise Faulty(f"transaction {part.begun} isn't begun where it was to be")
                text = b"\n".join(answers) + b"\n"
            else:
                answers, text = (), part.text
            if not part.lines:
                parts.popleft()
            who = part.who
            if who is not None and not who.is_closed:
                if not who.telling:
                    told.append(who)
                who.telling.append(text)
                who.unanswered -= len(answers)
        if at < many:
            raise Faulty(f"{lines[at]!r} answers nothing")
        self._tell(told)

    def _tell(self, told: Sequence[Connection]) -> None:
        for who in told:
            text = b"".join(who.telling)
            who.telling = []
            who.tell(text)
            self._answered.add(who)
            if who.out or who.is_held:
                self._attend(who)
            if who.is_ended:
                self._end_where_done(who)

    def _end_batch(self) -> None:
        """All of a batch is answered: who is expected to come back at once?"""
        now = monotonic()
        self._pause = min((now - self._began) / PART, MOST_PAUSE)
        self._until = now + self._pause
        for who in self._answered:
            if not who.is_closed and not who.told_at:
                who.told_at = now
                if who.is_prompt:
                    self._expected.add(who)
        self._answered.clear()

    def _newest(self) -> Mark:
        return Mark(self._mark.epoch, max(self._mark.length, self._records.length()))

    # The end.

    def _end_soon(self, events: int) -> None:
        self._unwatch(self._signalled)
        if not self._accepts_at:
            self._unwatch(self._listener.fileno())
        self._finish()

    def _finish(self) -> None:
        """Nothing is read any more, and what was taken is answered."""
        self.is_ending, self._end_by = True, monotonic() + LAST
        for who in tuple(self._connections.values()):
            self._attend(who)

    def _is_done(self) -> bool:
        if not self.is_ending:
            return False
        is_answered = not (self._under_way or self._out) and not any(who.out for who in self._connections.values())
        return is_answered or monotonic() > self._end_by

    def _close(self) -> None:
        for who in self._connections.values():
            who.is_closed = True
            who.peer.close()
        os.close(self._token)
        self._epoll.close()

