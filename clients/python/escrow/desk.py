"""What the tasks of one event loop ask, and how they are answered."""

from __future__ import annotations

from asyncio import AbstractEventLoop, get_running_loop
from collections.abc import Awaitable, Sequence
from time import monotonic, perf_counter
from typing import TYPE_CHECKING, Any, Optional, Protocol, TypeVar, cast

from .calls import Call
from .waiters import Awaited, result_of

if TYPE_CHECKING:
    from .pipeline import Pipeline

T = TypeVar("T")
NEVER = float("inf")
"""The end of what has no time limit."""
FEW = 16
"""So few tasks always ask together."""
TRIALS, TRIAL, STAY = 8, 16, 1024
"""So many trials of a way of sending follow one another, each of so many reads, and for so many one stays."""


class Ask(Protocol):
    """How a task asks."""

    def __call__(self, call: Call[T], end: float = NEVER) -> Awaitable[T]:
        """Asks, and waits for the answer. Raises what it is, or `Interrupted` where a stop left it out; by this end, by
        `time.monotonic`, what `withdraw` tells."""


class Desk:
    """Where the tasks of one event loop ask: their lines go out together, once each has had its turn."""

    __slots__ = ("loop", "gathered", "wakes", "can_read", "_pipeline", "_pace", "_held", "_ended")

    def __init__(self, loop: AbstractEventLoop, pipeline: Pipeline) -> None:
        self.loop = loop
        self.gathered: list[Call[Any]] = []
        """Calls that haven't gone out."""
        self.wakes = False
        """Whether it wakes tasks, and sends behind that."""
        self.can_read = True
        """Whether the loop watches pipes, as far as is known."""
        self._pipeline, self._pace = pipeline, Pace(pipeline.may_part)
        self._held = False  # what has gathered waits for more answers
        self._ended = loop.create_future()  # a woken task asks it whether to go on
        self._ended.set_result(None)

    def send(self) -> None:
        """Has all go out that has gathered, unless it is held."""
        gathered = self.gathered
        if gathered and not self._held:
            self.gathered = []
            self._pipeline.submit(gathered)
            self._pipeline.flush()
            self._pipeline.reading.want(self)

    async def in_time(self, call: Call[Any], end: float) -> None:
        """Awaits a call that is made for this desk: from this end on, by `time.monotonic`, it waits no more."""
        left = end - monotonic()
        if left <= 0:
            raise self._pipeline.decline(call)
        if left == NEVER:
            await call
            return
        limit = self.loop.call_later(left, self._end_wait, call)
        try:
            await call
        finally:
            limit.cancel()

    def _end_wait(self, call: Call[Any]) -> None:
        wake = call.wake
        if wake is None:  # it was answered just now, or its task was cancelled
            return
        if call in self.gathered:
            self.gathered.remove(call)
            call.answer = self._pipeline.decline(call)
        else:
            fault = self._pipeline.withdraw(call)
            self._pipeline.flush()
            if fault is None:
                return
            call.answer = fault
        call.wake = None
        call.context.run(wake, self._ended)

    def forget(self, call: Call[Any]) -> None:
        """Its task is cancelled: it isn't asked, where it wasn't yet. What ends a transaction, or belongs to one that is
        open, is: it waits for no answers more, since the loop may end before they come."""
        is_here = call in self.gathered
        if call.bound:
            self._held = self._held and not is_here
            self.loop.call_soon(self.send)
            return
        if is_here:
            self.gathered.remove(call)
        self._pipeline.forget(call, is_here)

    def wake(self, calls: Sequence[Awaited]) -> None:
        """Wakes the tasks of these calls, and has go out what they ask then."""
        self._held = False
        self._go_on(calls)
        self.send()

    def _go_on(self, calls: Sequence[Awaited]) -> None:
        left, ended, self.wakes = iter(calls), self._ended, True
        try:
            for call in left:
                wake = call.wake
                if wake is not None:
                    call.wake = None
                    call.context.run(wake, ended)
        except BaseException:  # a task ends the loop by it: the others go on where it runs again
            self.loop.call_soon(self.wake, list(left))
            raise
        finally:
            self.wakes = False

    def answer(self, calls: Sequence[Awaited]) -> None:
        """As `wake`, where the loop itself reads. What the tasks ask goes out in two parts, where that pays; where it
        doesn't, it waits for that of tasks whose answers are still to come, which keep the program at work."""
        many, others, parts = len(calls), self._pipeline.under_way, self._pace.comes(len(calls))
        if others and not parts:
            self._held = True
            self._go_on(calls)
        elif not others and parts and many >= FEW:
            rest = calls[many // 2 :]
            try:
                self.wake(calls[: many // 2])
            except BaseException:
                self.loop.call_soon(self.wake, rest)
                raise
            self.wake(rest)
        else:
            self.wake(calls)
        if not self._pipeline.under_way:
            self._pace.rests()


class Pace:
    """Whether lines go out in two parts: the program takes one, while tasks go on with the answers of the other.

    Each part costs a sync of its own, so it depends on the disk, on the program and on the tasks which is faster. Both
    are measured, a few reads each in turn, so that what else the machine does falls on both alike; then the faster one
    stays for a while. Where two parts halve the rate, as over a slow disk, that costs three answers of a hundred. Time
    in which nothing is asked counts for neither.
    """

    __slots__ = ("parts", "_trials", "_left", "_answers", "_seconds", "_since", "_may")

    def __init__(self, may: bool = True) -> None:
        """`may` tells whether two parts are ever tried."""
        self.parts, self._may = False, may
        """Whether they go out in two parts now."""
        self._trials, self._left = TRIALS, TRIAL  # so many trials are left, and reads of this one
        self._answers, self._seconds = [0, 0], [0.0, 0.0]  # what came in all trials, and how long it took: by `parts`
        self._since: Optional[float] = None  # when answers last came, where others were to come

    def comes(self, many: int) -> bool:
        """So many answers have come: whether what their tasks ask goes out in two parts."""
        if not self._may:
            return False
        now = perf_counter()
        if self._since is not None:
            self._answers[self.parts] += many
            self._seconds[self.parts] += now - self._since
        self._since = now
        self._left -= 1
        if self._left == 0:
            self._change()
        return self.parts

    def rests(self) -> None:
        """Nothing is under way: no answer comes, until somebody asks."""
        self._since = None

    def _change(self) -> None:
        self._trials -= 1
        if self._trials == 0:
            (one, two), (one_took, two_took) = self._answers, self._seconds
            self.parts, self._left = two * one_took > one * two_took, STAY
            return
        if self._trials < 0:
            self._trials, self._answers, self._seconds = TRIALS, [0, 0], [0.0, 0.0]
        self.parts, self._left = not self.parts, TRIAL


class Desks:
    """The desk of the event loop whose tasks ask: an `AsyncSite` has one loop."""

    __slots__ = ("_pipeline", "desk")

    def __init__(self, pipeline: Pipeline) -> None:
        self._pipeline = pipeline
        self.desk: Optional[Desk] = None
        """The last one that was asked for."""

    def here(self) -> Desk:
        """That of the running loop."""
        loop = get_running_loop()
        if self.desk is None or self.desk.loop is not loop:
            if self.desk is not None and not self.desk.loop.is_closed():
                raise RuntimeError("an AsyncSite belongs to one event loop: make another for this one")
            self.desk = self._pipeline.desk(loop)
        return self.desk

    async def ask(self, call: Call[T], end: float = NEVER) -> T:
        """Asks, and waits for the answer. Raises what it is, or `Interrupted` where a stop left it out."""
        desk = self.here()
        call.answer = None
        call.waiter = desk
        if end == NEVER:
            await call
        else:
            await desk.in_time(call, end)
        return cast(T, result_of(call))
