"""Who reads the answers of a process: a thread, or the event loop whose tasks alone ask."""

from __future__ import annotations

import contextlib
import io
import os
import select
import threading
from typing import TYPE_CHECKING, Any, Optional

from .calls import Call
from .desk import Desk
from .waiters import settle

if TYPE_CHECKING:
    from .pipeline import Pipeline, Taken

AT_ONCE = 1 << 16
"""How many bytes of answers one read takes: as many as a pipe holds."""
CALM = 4
"""Behind so many reads that had answers for the tasks of one loop alone that loop reads."""
LOOK = 1000
"""Each so many milliseconds the thread looks whether the loop that reads still runs: one that has ended tells nobody."""


def some_of(back: int) -> bytes:
    """What there is to read at this descriptor, once there is something; nothing at its end."""
    try:
        return os.read(back, AT_ONCE)
    except ConnectionResetError:  # the end of a socket, whose other end was closed with something unread
        return b""


class Reading:
    """Whose turn it is to read. A loop that reads its own answers saves two changes of thread for each read.

    The thread lends the reading to a loop while nobody else waits for an answer, takes it back as soon as anybody else
    asks, so that nobody waits for the loop's other work, and has it again where the process ends, or where the loop has
    ended, whose answers nobody would read before somebody else asks.
    """

    def __init__(self, pipeline: Pipeline) -> None:
        self._pipeline = pipeline
        self.lock = threading.Lock()
        """Held by who reads while the reading is lent, and by who changes whose turn it is."""
        self.turn: Optional[Turn] = None
        """The loop's turn, where it is lent."""
        self._heard, self._signal = os.pipe()  # a byte in it wakes the thread
        os.set_blocking(self._heard, False)
        os.set_blocking(self._signal, False)
        self._last: Optional[Desk] = None
        self._calm = 0

    # What callers do.

    def want(self, desk: Optional[Desk] = None) -> None:
        """Somebody waits for an answer: the tasks of a loop, or a thread. A turn of others ends."""
        turn = self.turn
        if turn is not None and turn.desk is not desk:
            self.take_back()

    def take_back(self) -> None:
        """Has the thread read again."""
        with self.lock:
            if self.turn is not None:
                self.signal()

    def signal(self) -> None:
        """Wakes the thread. Only under the lock, and while the reading is lent."""
        with contextlib.suppress(BlockingIOError):  # it is full of them
            os.write(self._signal, b"!")

    # What the thread does.

    def read(self, back: int) -> None:
        """Reads answers until there are no more, and hands them over. Raises `Faulty` where they fit no line."""
        self._calm = 0
        while piece := some_of(back):
            self._hand_over(self._pipeline.take(piece))
            if self._calm >= CALM:
                self._lend(back)

    def _hand_over(self, taken: Taken) -> None:
        settle(taken.calls)
        self._pipeline.tell(taken.calls)
        if taken.fault is not None:
            raise taken.fault
        if not taken.calls:
            return
        desk = next(iter(taken.waiters)) if len(taken.waiters) == 1 else None
        if type(desk) is Desk and desk.can_read:
            self._calm = self._calm + 1 if desk is self._last else 1
            self._last = desk
        else:
            self._calm = 0

    def _lend(self, back: int) -> None:
        """Lends the reading, where nobody else waits, and returns once it is back: because somebody else asks, or the
        process or the loop has ended. Raises what the loop found."""
        self._calm = 0
        desk = self._last
        assert type(desk) is Desk
        with self._pipeline.lock:
            if not self._pipeline.waits_for(desk):
                return
            try:
                turn = self.turn = Turn(self, self._pipeline, desk, back)
            except OSError:  # no descriptor is free for it
                return
        try:
            turn.desk.loop.call_soon_threadsafe(turn.begin)
            poll = select.poll()
            poll.register(back, 0)  # tells its end alone
            poll.register(self._heard, select.POLLIN)
            while not poll.poll(LOOK) and desk.loop.is_running():
                pass
        except RuntimeError:  # the loop is closed
            pass
        with self.lock:
            self.turn = None
            with contextlib.suppress(BlockingIOError):
                os.read(self._heard, AT_ONCE)
        turn.over()
        if turn.fault is not None:
            raise turn.fault

    def close(self) -> None:
        """Nothing is read any more."""
        with self.lock:
            os.close(self._heard)
            os.close(self._signal)


class Turn:
    """An event loop's turn to read."""

    def __init__(self, reading: Reading, pipeline: Pipeline, desk: Desk, back: int) -> None:
        self.desk = desk
        self.fault: Optional[Exception] = None
        """What ended it."""
        self._reading, self._pipeline = reading, pipeline
        self._back = io.FileIO(os.dup(back))  # the loop looks at it until it has heard that its turn is over

    def begin(self) -> None:
        """Begins to read, where the loop can, and has room for what it watches. In the loop."""
        try:
            self.desk.loop.add_reader(self._back.fileno(), self._read)
        except (NotImplementedError, OSError):
            self.desk.can_read = False
            self._reading.take_back()

    def over(self) -> None:
        """The loop is to read no more."""
        try:
            self.desk.loop.call_soon_threadsafe(self._end)
        except RuntimeError:  # it is closed
            self._back.close()

    def _end(self) -> None:
        if self.desk.can_read:
            self.desk.loop.remove_reader(self._back.fileno())
        self._back.close()
        self.desk.wake(())

    def _read(self) -> None:
        reading = self._reading
        with reading.lock:
            if reading.turn is not self or self.fault is not None:
                return
            mine = self._take()
            if self.fault is not None:
                reading.signal()
        if mine:
            self.desk.answer(mine)
        elif not self._pipeline.under_way:  # nobody waits for the last of them: what the desk holds back goes out
            self.desk.wake(())

    def _take(self) -> list[Call[Any]]:
        """Takes what there is: the calls of this loop. Others are settled at once."""
        piece = some_of(self._back.fileno())
        if not piece:  # the thread finds that out too
            self.desk.loop.remove_reader(self._back.fileno())
        done, waiters, self.fault = self._pipeline.take(piece)
        mine, desk = done, self.desk
        if waiters - {desk}:
            mine = [call for call in done if call.waiter is desk]
            settle(call for call in done if call.waiter is not desk)
        try:
            self._pipeline.tell(done)
        except Exception as fault:
            self.fault = fault
        return mine
