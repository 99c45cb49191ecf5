"""The calls of this process over a connection to a door, which other processes use too.

The door begins the transactions of all, so their ids aren't known as lines go out. It tells them before any line goes to the
site: `door took N ID`, of so many lines in their order. **What it hasn't told so, it never asks the site of.** So where a call's
time is up before, the connection is shut down, what has come is read to its end, and then it is known: told as taken, it is
`Unknown` with its id, or else nothing was begun. What wasn't taken, and is in time still, is asked again over the next
connection.

A program in between, as one that knows TLS, may have the door's word and not pass it on. There nothing of that holds, and
what wasn't told of is in doubt, without an id. It is told by a descriptor that comes with the door's first lines, which
no such program passes on.
"""

from __future__ import annotations

import contextlib
import re
import socket
from collections import deque
from collections.abc import Callable, Iterator, Sequence
from typing import Any, Optional

from .calls import Call, Change, Changes, Commit, First, Left, Naming, Standing
from .errors import Busy, EscrowError, Faulty, Interrupted, Unknown
from .holding import Holding
from .keys import KeyedCommit
from .pipeline import Pipeline, Watch
from .values import Statement

UNSURE = "the connection has ended, and whether the door had taken it isn't known: a program in between may have kept that back"
UNTAKEN = "its time was up before the door took it: nothing was begun"
_COMMITS = {Commit, KeyedCommit}
_RECEIPT = re.compile(r"door took [1-9][0-9]{0,8} [0-9]{1,10}\.[0-9]{1,10}")


class SharedPipeline(Pipeline):
    """As `Pipeline`, over one connection after another. `run` counts them."""

    may_part, is_door = False, True

    def __init__(
        self, number: int, world: str, fields: frozenset[str], issued: Callable[[Statement], None], watch: Optional[Watch],
        holding: Optional[Holding] = None, most_waiting: Optional[int] = None,
    ) -> None:  # fmt: skip
        super().__init__(number, world, fields, issued, watch, holding, most_waiting)
        self.told_end = ""
        """Why the door has ended the connection, where it told that."""
        self._peer: Optional[socket.socket] = None
        self._is_direct = True
        self._untaken: deque[Call[Any]] = deque()  # of `_pending` those that the door didn't tell of yet
        self._late: set[Call[Any]] = set()  # their time is up
        self._names: dict[str, str] = {}  # of transactions that are open: how lines named them before the door told

    # What callers do.

    def _can_begin(self, many: int) -> bool:
        return self.up and (self._most_waiting is None or self.unanswered + many <= self._most_waiting)

    def _queue_changes(self, changes: Sequence[Change]) -> None:
        together = Changes(changes)
        for call in changes:
            call.id = ""
        self._untaken.append(together)
        self._queue_together(together, together.door_text())

    def _place(self, call: Call[Any]) -> None:
        if self.up:
            self.queue(call)
        elif self.dead is not None:
            self._turn_away(call, self.dead)
        else:
            self._keep(call)

    def _send(self, call: Call[Any]) -> None:
        self._pending.append(call)
        self._untaken.append(call)
        self._out.append(call.door_text())

    def _leave(self) -> None:
        self.open -= 1  # the door tells whose turn it is

    def new_id(self) -> str:
        self._numbers += 1
        return f".{self._numbers}"

    def change_id(self) -> str:
        return ""

    def told_id(self, line_id: str) -> str:
        return "" if line_id.startswith(".") else self.front + line_id

    def standing(self, id: str) -> Standing:
        return Standing.ENDED  # as the door has it, which knows of all

    def position(self) -> Optional[str]:
        return None

    def _doubted(self, call: Call[Any]) -> Optional[EscrowError]:
        if not self._is_direct or not any(call is it or (type(it) is Changes and call in it.calls) for it in self._untaken):
            return super()._doubted(call)
        self._late.add(call)
        self._revoke()
        return None

    def _revoke(self) -> None:
        """Ends the connection: what the door hasn't told of by now it can't any more."""
        self.up, self._out = False, []
        if self._peer is not None:
            with contextlib.suppress(OSError):
                self._peer.shutdown(socket.SHUT_RDWR)

    # What comes back.

    def _hear(self, buffer: str, at: int) -> int:
        end = buffer.find("\n", at)
        if end < 0:
            return -1
        if not buffer.startswith("door ", at):
            return 0
        line = buffer[at:end]
        _, word, *told = line.split(" ")
        with self.lock:
            if word == "took" and _RECEIPT.fullmatch(line):
                self._took(int(told[0]), told[1])
            elif word == "busy" and self._untaken:
                self._wait_for_place()
            elif word == "place":
                self._enter()
            elif word == "end":
                self.told_end = " ".join(told)
            else:
                raise Faulty(f"{line!r} is no line of a door here")
        self.flush()
        return end + 1

    def _took(self, lines: int, first: str) -> None:
        ids = _from(first)
        while lines > 0:
            if not self._untaken:
                raise Faulty(f"the door took {lines} lines more than there are")
            call = self._untaken.popleft()
            if type(call) is Changes and len(call.calls) > lines:
                self._divide(call)
                continue
            if type(call) is Changes:
                call.name([next(ids) for _ in call.calls])
                lines -= len(call.calls)
                continue
            if type(call) is Change:
                call.id = next(ids)
            elif isinstance(call, Naming):
                self._name(call, ids)
            lines -= 1

    def _name(self, call: Naming[Any], ids: Iterator[str]) -> None:
        asked = call.own
        if type(call) is First:
            self._names[asked] = next(ids)
        id = self._names.get(asked)
        if id is not None:
            call.named(id)
            if call.closes:
                del self._names[asked]

    def _divide(self, together: Changes) -> None:
        """The door took some of these: each waits by itself."""
        pending: list[Call[Any]] = []
        for call in self._pending:
            pending += together.calls if call is together else (call,)
        self._pending.clear()
        self._pending.extend(pending)
        self._untaken.extendleft(reversed(together.calls))

    def _wait_for_place(self) -> None:
        """The first line that wasn't taken has no place: the door tells once there is one."""
        call = self._untaken.popleft()
        if type(call) is not First:
            raise Faulty("the door has no place for what needs none")
        self._pending.remove(call)
        self._asked -= 1
        self.open -= call.own in self.open_ids
        fault = call.displaced()
        if fault is None:
            self._waiting.append(call)
        else:
            self.fail(call, fault)

    def _enter(self) -> None:
        """There is a place: the first takes it that still wants it."""
        while self._waiting:
            call, asked = self._waiting.popleft(), self._asked
            assert type(call) is First
            call.is_placed = True
            self.queue(call)
            call.is_placed = False
            if self._asked > asked:
                return
        self.queue(Left())

    # What the connector does.

    def join(self, epoch: int, peer: socket.socket, is_direct: bool, may_forget: bool) -> None:
        """There is a connection, which takes lines; `is_direct` tells whether nothing is between it and the door."""
        with self.lock:
            self.era += self.run > 0  # others may have given, and given up, meanwhile
            self._untaken.clear()
            self._names.clear()
            self.told_end, self._peer, self._is_direct = "", peer, is_direct
        self.stand(epoch, peer.fileno(), may_forget)

    def cut(self) -> None:
        """Ends the connection by force."""
        with self.lock:
            self._revoke()

    def doubt_all(self) -> None:
        """The connection ends, and isn't read to its end: a receipt may be unread."""
        with self.lock:
            self._is_direct = False

    def _put(self, piece: bytes) -> int:
        if self._peer is None or self._to < 0:
            raise BrokenPipeError
        return self._peer.send(piece, socket.MSG_DONTWAIT)

    def _close(self) -> None:
        to, self._to = self._to, -1
        if to >= 0 and self._peer is not None:
            with contextlib.suppress(OSError):
                self._peer.shutdown(socket.SHUT_WR)

    def let_go(self) -> None:
        peer, self._peer = self._peer, None
        super().let_go()
        if peer is not None:
            peer.close()

    def fall(self) -> None:
        """The connection has ended, and was read to its end: what wasn't taken is asked again, and of what was that which
        changes nothing; others are told that they were interrupted."""
        with self.lock:
            taken, untaken = self._taken_and_not()
            waiting, late = list(self._waiting), self._late
            self._late, self._peer = set(), None
            for those in (self._pending, self._untaken, self._waiting):
                those.clear()
            self._done = self._asked
            self._close_all()
            self.counts.stops += 1
            self.counts.interrupted += len(taken)
            for call in taken:
                if call in late:
                    self.fail(call, call.doubt(self.front))
                else:
                    self._place_again(call)
            for call in untaken:
                if self._is_direct:
                    self._ask_anew(call, call in late)
                elif call in late:
                    self.fail(call, call.doubt(self.front))
                else:
                    self._leave_in_doubt(call)
            for call in waiting:
                self._ask_anew(call, call in late)

    def _taken_and_not(self) -> tuple[list[Call[Any]], list[Call[Any]]]:
        at_door = set(self._untaken)
        taken: list[Call[Any]] = []
        untaken: list[Call[Any]] = []
        for call in self._pending:
            its = untaken if call in at_door else taken
            its += call.calls if type(call) is Changes else (call,)
        return taken, untaken

    def _ask_anew(self, call: Call[Any], is_late: bool) -> None:
        """It was never asked of the site."""
        if is_late:
            call.unasked()
            self.fail(call, Busy(UNTAKEN))
        elif call.waiter is None:
            call.unasked()
        else:
            self.counts.again += 1
            self._place(call)

    def _leave_in_doubt(self, call: Call[Any]) -> None:
        """Whether it was taken isn't known: the receipt may be under way."""
        if call.waiter is None:
            call.unasked()
        elif call.again:
            self._place_again(call)
        elif type(call) in _COMMITS or not call.bound:
            told = call.doubt(self.front)
            self.fail(call, Unknown(UNSURE, getattr(told, "id", None), getattr(told, "key", None)))
        else:
            self.fail(call, call.stopped())

    def _place_again(self, call: Call[Any]) -> None:
        if call.again and call.waiter is not None:
            self.counts.again += 1
            self._place(call)
        else:
            self.fail(call, Interrupted("the connection to the door has ended"))


def _from(first: str) -> Iterator[str]:
    """This id and those that follow it."""
    epoch, _, number = first.partition(".")
    at = int(number)
    while True:
        yield f"{epoch}.{at}"
        at += 1
