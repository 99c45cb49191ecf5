"""The calls of many threads and tasks, in one order over one pipe, each with its own answers."""

from __future__ import annotations

import asyncio
import itertools
import os
import select
import threading
import time
from collections import deque
from collections.abc import Callable, Sequence
from dataclasses import dataclass, field
from typing import Any, NamedTuple, Optional, Protocol, cast

from .calls import Call, Change, Changes, Shape, Standing
from .desk import Desk
from .errors import (
    Busy,
    Down,
    EpochFull,
    EscrowError,
    Faulty,
    Forgotten,
    Interrupted,
    Lost,
    Over,
    Refusal,
    Refused,
    Short,
    Unknown,
)
from .holding import Holding
from .keys import CallerKey, KeysUnderWay
from .numbers import SHORT, change_of, front_of, key_of, line_id, read_id
from .reading import Reading
from .values import Command, Kind, Share, Spared, Statement
from .waiters import settle

PLACES = 63
"""How many transactions are open at most: a site has 64 places, and one is left for changes in one trip."""
SHAPES = 4096
"""How many changes' shapes are kept at most."""
NUMBERS = 1_000_000_000
"""How many transactions an epoch has: then the process is started anew."""


class Watch(Protocol):
    """Who counts what happens: `escrow.metrics.Metrics` does. Called from several threads, sometimes under a lock.

    One that has `looks_at`, as that has, is told what it may look at besides (`Gauges`), and one that has `faulted` of each
    fault of the disk.
    """

    def answered(self, command: str, seconds: float, count: int = 1) -> None:
        """An answer came, so many seconds after it was asked."""

    def refused(self, command: str, number: int, reason: str) -> None:
        """It was a refusal."""

    def shared(self, field: str, lower: Optional[int] = None, raise_: Optional[int] = None) -> None:
        """The site told free rights."""

    def started(self, epoch: int, length: int) -> None:
        """The process is ready."""

    def stopped(self, status: int) -> None:
        """The process has ended."""

    def missed(self, outcome: str) -> None:
        """A call ended without its answer: `lost`, `over`, `unknown`, `down` or `busy`; `forgotten`, where the log has let go of
        what would tell."""

    def waits(self, calls: int) -> None:
        """So many calls aren't answered yet."""

    def holds(self, transactions: int) -> None:
        """So many transactions are open."""


@dataclass
class Counts:
    """What was counted since the site was opened."""

    starts: int = 0
    """Times that the process stood."""
    stops: int = 0
    """Ends of it."""
    answers: int = 0
    """Calls that were answered, refusals included."""
    refusals: dict[Refusal, int] = field(default_factory=dict)
    """Refusals, by number."""
    interrupted: int = 0
    """Calls that a stop left without their answer."""
    again: int = 0
    """Those of them that were made again."""


class Taken(NamedTuple):
    """What was answered by what came."""

    calls: list[Call[Any]]
    """In their order."""
    waiters: set[object]
    """Who waits for them."""
    fault: Optional[Faulty]
    """What doesn't fit any line."""


class Pipeline:
    """The order of the lines of one site, over one process after another."""

    may_part = True
    """Whether what a loop's tasks ask may go out in two parts."""
    is_door = False
    """Whether lines go to a door."""

    def __init__(
        self,
        number: int,
        world: str,
        fields: frozenset[str],
        issued: Callable[[Statement], None],
        watch: Optional[Watch],
        holding: Optional[Holding] = None,
        most_waiting: Optional[int] = None,
    ) -> None:
        self.number = number
        self.world = world[:SHORT]
        """The first digits of the world's name."""
        self.front = front_of(self.world, number)
        """What stands in front of each id."""
        self.counts = Counts()
        self.lock = threading.Lock()
        self._fields, self._issued, self._watch = {name: name for name in fields}, issued, watch
        self._most_waiting = most_waiting
        self.shapes: dict[tuple[str, int], Shape] = {}
        """By the field and the change."""
        self.keys = KeysUnderWay()
        # The process, as it now stands.
        self.up = False
        self.may_forget = False
        """Whether its log was shortened, or may be: then a commit that it hasn't got may have been let go of, and a key is told
        with its position."""
        self.dead: Optional[Down] = None
        """Why no call is taken any more."""
        self.epoch = 0
        self.run = 0
        """Which process it is of this client."""
        self.era = 0
        """How often somebody else may have served the site between two processes of this client."""
        self.open = 0
        self.open_ids = Holding() if holding is None else holding
        """As lines name them."""
        self.open_ids.lock, self.open_ids.front = self.lock, self.front
        self.numbers = NUMBERS
        self._numbers, self._prefix = 0, ""
        self._ending = False  # its input is to end, once all that was asked is written
        # The calls.
        self._pending: deque[Call[Any]] = deque()  # not answered yet, in the order of the lines
        self._asked = 0  # calls that went out: changed under the lock
        self._done = 0  # of them, those that have ended: changed by who reads
        self._waiting: deque[Call[Any]] = deque()  # wait for a place
        self._deferred: list[Call[Any]] = []  # wait until the site stands
        # The pipe.
        self._out: list[str] = []  # lines that aren't written yet
        self._began = 0.0  # when the first of them was asked
        self._rest = ""  # the front of an answer
        self._to = -1
        self._writing = threading.Lock()
        self._full = threading.Event()  # the pipe took less than there was
        self.reading = Reading(self)
        self._desks: list[Desk] = []

    # What callers do.

    def known(self, field: str) -> str:
        """The field as the schema spells it. Raises `Refused` where it hasn't got it, as the site would."""
        known = self._fields.get(field)
        if known is None:
            raise Refused(Refusal.NO_FIELD, None, field)
        return known

    def shape(self, field: str, change: int) -> Shape:
        """What the lines of such a change have in common, kept in `shapes`. Raises `Refused` or `ValueError` where it
        is none, and `TypeError` where the change is no whole number, though it may equal one that is known."""
        whole = change_of(change)
        shape = self.shapes.get((field, whole))
        if shape is None:
            name = self.known(field)
            shape = Shape(self.number, name, whole)
            if len(self.shapes) >= SHAPES:
                self.shapes.clear()
            self.shapes[name, whole] = shape
        return shape

    def desk(self, loop: asyncio.AbstractEventLoop) -> Desk:
        """Where the tasks of this loop ask."""
        with self.lock:
            self._desks = [it for it in self._desks if not it.loop.is_closed()]
            for it in self._desks:
                if it.loop is loop:
                    return it
            self._desks.append(Desk(loop, self))
            return self._desks[-1]

    def waits_for(self, desk: Desk) -> bool:
        """Whether answers go to tasks of this loop alone, and are wanted still. Only under the lock."""
        calls = itertools.chain(self._pending, self._waiting, self._deferred)
        return self.dead is None and all(call.waiter is desk or call.waiter is None for call in calls)

    def submit(self, calls: Sequence[Call[Any]]) -> None:
        """Puts the lines of calls behind those of others, or keeps them until it can. Then `flush`."""
        with self.lock:
            if len(calls) > 1 and set(map(type, calls)) == _CHANGES and self._can_begin(len(calls)):
                self._queue_changes(cast("Sequence[Change]", calls))
            elif self._most_waiting is None:
                for call in calls:
                    self._place(call)
            else:
                for call in calls:
                    self._place_or_refuse(call)

    def _place_or_refuse(self, call: Call[Any]) -> None:
        if self._is_one_too_many(call):
            call.unasked()
            self.fail(call, Busy(f"{self.unanswered} calls wait, and no more may: nothing was begun"))
        else:
            self._place(call)

    def _is_one_too_many(self, call: Call[Any]) -> bool:
        """Whether so many wait that this one may not. One that ends a transaction may, and one that tells what became of
        one."""
        if self._most_waiting is None or call.bound or call.command is Command.KEPT:
            return False
        return self.dead is None and self.unanswered >= self._most_waiting

    def withdraw(self, call: Call[Any]) -> Optional[EscrowError]:
        """Its time is up: nobody waits for it any more. What to tell who asked; None where that is told in a moment, as its
        answer. Then `flush`."""
        with self.lock:
            if self.unqueue(call):
                return self._declined(call)
            if call.answer is not None:  # it was told just now, and hears of it in a moment
                return None
            return self._doubted(call)

    def _doubted(self, call: Call[Any]) -> Optional[EscrowError]:
        call.waiter = None
        fault = call.doubt(self.front)
        self.missed(fault)
        return fault

    def forget(self, call: Call[Any], was_kept: bool) -> None:
        """Nobody waits for it any more: it isn't asked, where it wasn't yet. `was_kept` tells that it wasn't submitted."""
        with self.lock:
            if was_kept or self.unqueue(call):
                call.unasked()

    def unqueue(self, call: Call[Any]) -> bool:
        """Whether it waited for a place, or for a site that stands: it waits no more. Only under the lock."""
        for waiting in (self._waiting, self._deferred):
            if call in waiting:
                waiting.remove(call)
                return True
        return False

    def decline(self, call: Call[Any]) -> EscrowError:
        """Its time is up, and it wasn't submitted: what to tell who asks."""
        with self.lock:
            return self._declined(call)

    def _declined(self, call: Call[Any]) -> Busy:
        call.unasked()
        busy = Busy("its time was up before it was asked: nothing was begun")
        self.missed(busy)
        return busy

    def submit_standing(self, calls: Sequence[Call[Any]]) -> bool:
        """As `submit`, where the site stands: whether it does. Else they aren't asked, and nobody is told."""
        with self.lock:
            if self.up:
                for call in calls:
                    self.queue(call)
            return self.up

    def _can_begin(self, many: int) -> bool:
        has_room = self._most_waiting is None or self.unanswered + many <= self._most_waiting
        return self.up and has_room and self._numbers + many <= self.numbers

    def _queue_changes(self, changes: Sequence[Change]) -> None:
        """As `queue` of each, where nothing can be wrong with any, and one loop asks."""
        prefix, first = self._prefix, self._numbers + 1
        self._numbers += len(changes)
        ids = [f"{prefix}{number}" for number in range(first, first + len(changes))]
        together = Changes(changes)
        together.name(ids)
        self._queue_together(together, together.lines())

    def _queue_together(self, together: Changes, text: str) -> None:
        if self._watch is not None:
            began = self._began = self._began if self._out else time.perf_counter()
            for call in together.calls:
                call.began = began
        self._pending.append(together)
        self._asked += len(together.calls)
        self._out.append(text)

    def _place(self, call: Call[Any]) -> None:
        if self.up:
            if call.opens and self.open >= PLACES:
                self._waiting.append(call)
            else:
                self.queue(call)
        elif self.dead is not None:
            self._turn_away(call, self.dead)
        else:
            self._keep(call)

    def _keep(self, call: Call[Any]) -> None:
        if call.bound:  # its transaction has ended with the process
            self.fail(call, call.stopped())
        else:
            self._deferred.append(call)

    def queue(self, call: Call[Any]) -> None:
        """Puts the lines of a call behind those of others. Only under the lock, and while the site is up."""
        try:
            call.plan(self)
        except EpochFull:
            self.up, self._ending = False, True
            self._deferred.append(call)
            return
        except (EscrowError, ValueError) as fault:
            self.fail(call, fault)
            return
        if self._watch is not None:
            call.began = self._began = self._began if self._out else time.perf_counter()
        self._send(call)
        self._asked += 1
        if call.opens:
            self.open += 1
        elif call.closes:
            self._leave()

    def _send(self, call: Call[Any]) -> None:
        self._pending.append(call)
        self._out.append(call.text)

    def _leave(self) -> None:
        """A place is free: the first takes it that still wants it."""
        self.open -= 1
        while self._waiting and self.up and self.open < PLACES:
            self.queue(self._waiting.popleft())

    def fail(self, call: Call[Any], fault: Exception) -> None:
        """It isn't asked, or wasn't answered: who waits is told why. Only under the lock."""
        call.answer = fault
        settle((call,))
        if call.command is not Command.KEPT:
            self.missed(fault)

    def _turn_away(self, call: Call[Any], why: Down) -> None:
        self.fail(call, Down(str(why), why.status))  # one for each who raises it

    def missed(self, fault: Exception) -> None:
        """A call ends without its answer: it is counted."""
        if self._watch is not None and type(fault) in _MISSED:
            self._watch.missed(_MISSED[type(fault)])

    def new_id(self) -> str:
        """What the next begin is answered with, where its line goes out next. Raises `EpochFull`."""
        if self._numbers >= self.numbers:
            raise EpochFull()
        self._numbers += 1
        return f"{self._prefix}{self._numbers}"

    def change_id(self) -> str:
        """As `new_id`, of a change in one trip."""
        return self.new_id()

    def told_id(self, line_id: str) -> str:
        """The id that callers are told of a transaction that lines name so; nothing where it isn't known yet."""
        return self.front + line_id

    def line_id(self, id: str) -> str:
        """How lines name the transaction of this id. Raises `OtherWorld`, `OtherSite`, and `ValueError` where it is none."""
        return line_id(self.world, self.number, id)

    def caller_key(self, key: Optional[str], since: Optional[str]) -> CallerKey:
        """A key, and its position, which is spelled as an id. Raises as `line_id`, and what is wrong with the key."""
        if key is None:
            raise TypeError("since tells the position of a key: there is no key")
        word = key_of(key)
        return CallerKey(word, None if since is None else line_id(self.world, self.number, since, is_position=True))

    def position(self) -> Optional[str]:
        """The last transaction that went out to begin, as lines name it, or `EPOCH.0`: what begins from now on is behind it. None
        where others begin some too."""
        with self.lock:
            return f"{self.epoch}.{self._numbers}"

    def standing(self, id: str) -> Standing:
        """Where a transaction stands in this process, by the lines that went out."""
        epoch, number = read_id(id).numbers()
        if epoch > self.epoch:
            return Standing.LATER
        if epoch == self.epoch and number > self._numbers:
            return Standing.UNBEGUN
        return Standing.OPEN if id in self.open_ids else Standing.ENDED

    @property
    def begun(self) -> int:
        """How many transactions this process was asked to begin."""
        return self._numbers

    @property
    def under_way(self) -> int:
        """How many calls the process has to answer."""
        return self._asked - self._done

    @property
    def unanswered(self) -> int:
        """How many calls wait."""
        return self.under_way + len(self._deferred) + len(self._waiting)

    # What the pipe takes.

    def flush(self) -> None:
        """Writes all that has gathered, as far as the pipe takes it. Who finds another at it leaves it to that one."""
        while self._out and not self._full.is_set() and self._writing.acquire(blocking=False):
            try:
                self._write()
            finally:
                self._writing.release()
        if self._ending:
            self.finish()

    def _write(self) -> None:
        with self.lock:
            text, self._out = "".join(self._out), []
        piece = text.encode("ascii")
        try:
            taken = self._put(piece)
        except BlockingIOError:
            taken = 0
        except OSError:  # it has ended: the reader finds that out
            return
        if taken < len(piece):
            with self.lock:
                self._out.insert(0, text[taken:])
            self._full.set()

    def _put(self, piece: bytes) -> int:
        """Writes what can be written at once: how many bytes. Raises `OSError`."""
        return os.write(self._to, piece)

    def write_rest(self) -> None:
        """Waits for a pipe that took less than there was, and goes on with it. For one thread of its own."""
        self._full.wait()
        to = self._to
        if to >= 0:
            poll = select.poll()
            poll.register(to, select.POLLOUT)
            poll.poll(100)
        self._full.clear()
        self.flush()

    def wake_writer(self) -> None:
        """Has `write_rest` look again."""
        self._full.set()

    # What comes back.

    def take(self, piece: bytes) -> Taken:
        """What came. Only by who reads."""
        buffer, at = self._rest + piece.decode("ascii", "replace"), 0
        done: list[Call[Any]] = []
        waiters: set[object] = set()
        pending, fault = self._pending, None
        try:
            while at < len(buffer):
                call = pending[0] if pending else None
                expected = "" if call is None else call.expected
                if call is not None and expected and buffer.startswith(expected, at):
                    at += len(expected)
                    waiters.add(call.waiter)
                    if type(call) is Changes:
                        done += call.calls
                    else:
                        call.answer = None
                        done.append(call)
                elif end := self._hear(buffer, at):
                    if end < 0:
                        break
                    at = end
                    continue
                elif call is None:
                    raise Faulty(f"{buffer[at:]!r} answers nothing")
                elif type(call) is Changes:
                    self._part(call)
                    continue
                else:
                    end = call.take(buffer, at)
                    if end < 0:
                        break
                    self._notice(call.answer)
                    at = end
                    waiters.add(call.waiter)
                    done.append(call)
                pending.popleft()
        except Faulty as faulty:
            fault = faulty
        self._rest = buffer[at:]
        self._done += len(done)
        self.counts.answers += len(done)
        return Taken(done, waiters, fault)

    def _hear(self, buffer: str, at: int) -> int:
        """Takes a line that answers none: where it ends; 0 where there is none, and -1 where it isn't whole yet."""
        return 0

    def _part(self, first: Changes) -> None:
        """Not all of these are answered well, or not yet: each waits by itself."""
        self._pending.popleft()
        self._pending.extendleft(reversed(first.calls))

    def _notice(self, told: object) -> None:
        if isinstance(told, Refused):
            self.counts.refusals[told.number] = self.counts.refusals.get(told.number, 0) + 1
        elif isinstance(told, Spared):
            self._issued(told.statement)
        elif isinstance(told, Statement):
            self._issued(told)

    def tell(self, done: Sequence[Call[Any]]) -> None:
        """Has counted what was answered: calls of one kind that went out and came back together at once."""
        watch = self._watch
        if watch is None:
            return
        now, first, count = time.perf_counter(), None, 0
        for call in done:
            if first is not None and call.began == first.began and call.command is first.command:
                count += 1
            else:
                if first is not None:
                    watch.answered(first.command.value, now - first.began, count)
                first, count = call, 1
            if call.answer is not None:
                _tell_answer(call, watch)
        if first is not None:
            watch.answered(first.command.value, now - first.began, count)
        watch.waits(self.unanswered)
        watch.holds(self.open)

    # What the supervisor does.

    def stand(self, epoch: int, to: int, may_forget: bool) -> None:
        """The process stands, and takes lines at this end of its pipe, which doesn't block, and is closed here."""
        with self._writing, self.lock:
            self.run += 1
            self.counts.starts += 1
            self._ending = self.dead is not None
            self.epoch, self._prefix, self._numbers, self.open = epoch, f"{epoch}.", 0, 0
            self.may_forget = may_forget
            self.open_ids.clear()
            self._out, self._rest, self._to = [], "", to
            self._full.clear()
            self.up = self.dead is None
            deferred, self._deferred = self._deferred, []
            for call in deferred:
                self._place(call)
        self.flush()

    def finish(self) -> None:
        """Ends the input of a process that is to take no more, where all that was asked is written. Who has asked and found this
        one at the pipe has left it the lines."""
        with self._writing:
            if self._out and not self._full.is_set():
                self._write()
            with self.lock:
                if not self._out and not self.up:
                    self._close()

    def _close(self) -> None:
        to, self._to = self._to, -1
        if to >= 0:
            os.close(to)

    def detach(self) -> None:
        """The process takes no more lines: calls wait until the next one stands."""
        with self._writing, self.lock:
            self.up = False
            self._out = []
            self._close()

    def fall(self) -> None:
        """The process has ended, and was read to its end: calls are made again, or told that they were interrupted."""
        with self.lock:
            interrupted: list[Call[Any]] = []
            for call in self._pending:
                interrupted += call.calls if type(call) is Changes else (call,)
            waiting = list(self._waiting)
            self._pending.clear()
            self._done = self._asked
            self._waiting.clear()
            self._close_all()
            self.counts.stops += 1
            self.counts.interrupted += len(interrupted)
            for call in interrupted:
                self._place_again(call)
            for call in waiting:
                self._place(call)

    def _close_all(self) -> None:
        """Its transactions have ended with the process."""
        self.open = 0
        self.open_ids.clear()

    def _place_again(self, call: Call[Any]) -> None:
        if call.again and call.waiter is not None:
            self.counts.again += 1
            self._place(call)
        else:
            self.fail(call, Interrupted("the site stopped"))

    def die(self, why: Down) -> None:
        """No call is taken from now on: those that weren't asked yet are told why. The first reason stays."""
        with self.lock:
            self.dead = self.dead or why
            self.up, self._ending = False, True
            unasked = [*self._waiting, *self._deferred]
            self._waiting.clear()
            self._deferred.clear()
            for call in unasked:
                self._turn_away(call, self.dead)
        self.reading.take_back()

    def let_go(self) -> None:
        """This is a fork of the client: it has no site. Takes no lock, for whoever held one isn't here."""
        self.lock, self._writing, self.reading.turn = threading.Lock(), threading.Lock(), None
        self.keys = KeysUnderWay()
        self.up, self.dead = False, Down("a fork of the client doesn't have its site: make one in it")
        self._out = []
        self._close()

    def give_up(self, why: Down) -> None:
        """Calls that wait until the site stands are told why it doesn't; later ones wait anew."""
        with self.lock:
            deferred, self._deferred = self._deferred, []
            for call in deferred:
                self._turn_away(call, why)


_CHANGES = {Change}
_MISSED: dict[type[Exception], str] = {
    Busy: "busy", Down: "down", Lost: "lost", Over: "over", Unknown: "unknown",
}  # fmt: skip
_SIDES = {Kind.LOWER: "lower", Kind.RAISE: "raise_"}


def _tell_answer(call: Call[Any], watch: Watch) -> None:
    told = call.answer
    if isinstance(told, Refused):
        watch.refused(call.command.value, int(told.number), told.reason)
    if isinstance(told, Forgotten):
        watch.missed("forgotten")
    if isinstance(told, Short):
        watch.shared(told.field, **{_SIDES[told.kind]: told.share})
    elif isinstance(told, Share):
        watch.shared(call.field, told.lower, told.raise_)
