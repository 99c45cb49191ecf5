"""Who waits for an answer: a thread or a task."""

from __future__ import annotations

import asyncio
import contextvars
import threading
from collections.abc import Callable, Generator, Iterable, Sequence
from typing import Any, Optional, Protocol, Union


class ThreadWaiter:
    """A thread that waits for one answer."""

    __slots__ = ("_come", "_told")

    def __init__(self) -> None:
        self._come = threading.Lock()
        self._come.acquire()
        self._told: Any = None

    def settle(self, told: object) -> None:
        """Hands the answer over, or the exception to raise. Once, or under one lock: then the first one counts."""
        if self._come.locked():
            self._told = told
            self._come.release()

    def wait(self) -> Any:
        """Waits for the answer. Raises it where it is an exception."""
        self._come.acquire()
        told, self._told = self._told, None
        if isinstance(told, Exception):
            raise told
        return told

    def comes(self, seconds: float) -> bool:
        """Whether the answer comes within so many seconds: then `wait` has it at once."""
        if not self._come.acquire(timeout=min(max(0.0, seconds), threading.TIMEOUT_MAX)):
            return False
        self._come.release()
        return True


class Awaited:
    """What a task awaits in place of a future: the task yields it, and is woken once, by its desk or by `cancel`.

    It has what a task asks of an object like a future, and saves a turn of the loop: the task goes on as the answers
    are read, where a future would have it called later. Who awaits it sets `answer` to None, and then `waiter`.
    """

    __slots__ = ("waiter", "answer", "wake", "_asyncio_future_blocking", "context")

    waiter: Optional[Waiter]
    answer: object
    """What the answers mean, or the exception to raise."""
    wake: Optional[Callable[[Any], object]]
    """Goes on with the task, which asks a future for how: None once it was woken."""
    _asyncio_future_blocking: bool
    context: contextvars.Context

    get_loop = staticmethod(asyncio.get_running_loop)
    """The loop of the task that asks this."""

    def __await__(self) -> Generator[Awaited, None, None]:
        self._asyncio_future_blocking = True
        return iter((self,))  # type: ignore[return-value]  # it yields once, and needs no frame for it

    def add_done_callback(
        self, wake: Callable[[Any], object], *, context: Optional[contextvars.Context] = None
    ) -> None:
        """The task waits from now on: so it is asked."""
        self.wake, self.context = wake, contextvars.copy_context() if context is None else context
        desk: Any = self.waiter
        if not desk.gathered and not desk.wakes:
            desk.loop.call_soon(desk.send)
        desk.gathered.append(self)

    def cancel(self, msg: Optional[Any] = None) -> bool:
        """The task is cancelled: it doesn't wait any more, and what wasn't asked yet isn't. False where it doesn't wait."""
        wake, desk = self.wake, self.waiter
        if wake is None:
            return False
        assert desk is not None and not isinstance(desk, ThreadWaiter)
        self.wake, cancelled = None, desk.loop.create_future()
        desk.forget(self)
        cancelled.cancel(msg)
        desk.loop.call_soon(wake, cancelled, context=self.context)
        return True


def result_of(call: Awaited) -> Any:
    """What it was answered. Raises it where it is an exception."""
    told = call.answer
    if isinstance(told, Exception):
        raise told
    return told


class TaskWaiter(Protocol):
    """For whom a task waits: the desk of its event loop."""

    loop: asyncio.AbstractEventLoop
    gathered: list[Any]
    """Calls that haven't gone out."""
    wakes: bool
    """Whether it wakes tasks, and sends behind that."""

    def send(self) -> None:
        """Has all go out that has gathered. Called in the loop."""

    def wake(self, calls: Sequence[Awaited]) -> None:
        """Wakes the tasks of these calls. Called in the loop."""

    def forget(self, call: Any) -> None:
        """Nobody waits for this call: it isn't asked, where it wasn't yet. Called in the loop."""


Waiter = Union[ThreadWaiter, TaskWaiter]


def settle(done: Iterable[Awaited]) -> None:
    """Hands the answers over: at once to threads, and in one turn to each event loop."""
    turns: dict[TaskWaiter, list[Awaited]] = {}
    for call in done:
        waiter = call.waiter
        if isinstance(waiter, ThreadWaiter):
            waiter.settle(call.answer)
        elif waiter is not None:
            turns.setdefault(waiter, []).append(call)
    for desk, turn in turns.items():
        try:
            desk.loop.call_soon_threadsafe(desk.wake, turn)
        except RuntimeError:  # the loop is closed, and nobody waits
            pass
