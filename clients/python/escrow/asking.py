"""How a thread and a task ask, and what each does about an answer that a stop left out. Each ask has an end by
`time.monotonic`, `NEVER` where there is no limit: then it raises `Busy`, or `Unknown` where its lines went out and they
may change something."""

from __future__ import annotations

import asyncio
import concurrent.futures
import contextvars
import logging
import threading
import time
from collections.abc import Callable
from typing import Optional, TypeVar, cast

from .calls import Call, Kept
from .desk import NEVER, Ask
from .errors import Busy, Down, Faulty, Forgotten, Interrupted, OddWord, Unknown
from .keys import CallerKey, KeptKey
from .pipeline import Pipeline
from .values import Outcome
from .waiters import ThreadWaiter

T = TypeVar("T")
log = logging.getLogger("escrow")


def end_of(timeout: Optional[float], default: Optional[float]) -> float:
    """When a call has to be answered that is made now: by its own time limit, or else by this one."""
    seconds = default if timeout is None else timeout
    return NEVER if seconds is None else time.monotonic() + seconds


def ask(pipeline: Pipeline, call: Call[T], end: float = NEVER) -> T:
    """Asks, and waits for the answer in this thread. Raises what it is, or `Interrupted` where a stop left it out."""
    if end != NEVER and end <= time.monotonic():
        raise pipeline.decline(call)
    waiter = ThreadWaiter()
    call.answer, call.waiter = None, waiter
    pipeline.submit((call,))
    pipeline.flush()
    pipeline.reading.want()
    if end != NEVER and not waiter.comes(end - time.monotonic()):
        fault = pipeline.withdraw(call)
        pipeline.flush()
        if fault is not None:
            raise fault
    return cast(T, waiter.wait())


async def in_thread(act: Callable[[], T]) -> T:
    """Has this done by a thread of its own, for a task. Those of the task's loop may all be taken: by others, for longer than a
    time limit, or by what waits for the site that this is to close."""
    done: concurrent.futures.Future[T] = concurrent.futures.Future()
    done.set_running_or_notify_cancel()  # it is done, also where nobody waits any more
    context = contextvars.copy_context()

    def acts() -> None:
        try:
            told = context.run(act)
        except BaseException as fault:
            done.set_exception(fault)
        else:
            done.set_result(told)

    threading.Thread(target=acts, name="escrow task", daemon=True).start()
    return await asyncio.wrap_future(done)


def is_kept(pipeline: Pipeline, id: str, seconds: float) -> bool:
    """Whether the log has the commit of this transaction, or has come further and let go of it: asked of a site that stands,
    before anybody else may ask it. Raises `Down` where it isn't answered in so many seconds.

    Of a transaction that was open as the log was shortened it tells yes or no still. So one of which it can't tell had ended
    before, and a log that has let go of its commit isn't older than that.
    """
    try:
        return ask(pipeline, Kept(id, pipeline.line_id(id)), time.monotonic() + seconds) is Outcome.COMMITTED
    except Busy as fault:
        raise Down(f"whether the log has transaction {id} wasn't answered in time") from fault
    except Faulty as fault:
        raise Down(f"whether the log has transaction {id} isn't known: {fault}") from fault
    except Forgotten:
        log.warning("whether the log had transaction %s can't be told: it has come further, and has let go of that time", id)
        return True
    except (Unknown, ValueError):  # its epoch is later than any of the log, or the one that has just begun
        return False


def kept(pipeline: Pipeline, id: str, end: float = NEVER) -> Outcome:
    """What became of a transaction whose answer a stop left out. Raises `Unknown` where it can't be asked, and where the log
    has let go of what would tell."""
    return ask_behind_stop(pipeline, Kept(id, pipeline.line_id(id)), id, end)


def id_of(pipeline: Pipeline, line_id: Optional[str]) -> Optional[str]:
    """The id of a transaction that lines name so, as callers have it."""
    return None if line_id is None else pipeline.front + line_id


def kept_with(pipeline: Pipeline, key: CallerKey, id: Optional[str], end: float = NEVER) -> Optional[str]:
    """The id of the commit that has this key, where a stop left the answer of a commit with it out: that of the
    transaction `id`. Raises `Unknown` where it can't be asked."""
    return id_of(pipeline, ask_behind_stop(pipeline, KeptKey(key), id, end, key.word))


def ask_behind_stop(
    pipeline: Pipeline, call: Call[T], id: Optional[str] = None, end: float = NEVER, key: Optional[str] = None
) -> T:
    """Asks of what a stop left in doubt, again behind each further one. Raises `Unknown` where it can't be asked, or the
    answer doesn't tell."""
    while True:
        try:
            return ask(pipeline, call, end)
        except Interrupted:
            continue
        except Forgotten as fault:
            raise Forgotten(id, key) from fault
        except (Down, Busy, OddWord) as fault:
            raise unknown(pipeline, fault, id, key) from fault


def unknown(pipeline: Pipeline, fault: Exception, id: Optional[str] = None, key: Optional[str] = None) -> Unknown:
    """What can't be asked behind a stop isn't known: it is counted. A question that came too late tells that nothing was begun by
    it, and not what was begun before: so its words stay out."""
    why = "the question what became of it wasn't answered in time" if isinstance(fault, Busy) else str(fault)
    told = Unknown(f"a stop left its answer out, so it isn't known whether it happened: {why}: {_to_do(id, key)}", id, key)
    pipeline.missed(told)
    return told


def _to_do(id: Optional[str], key: Optional[str]) -> str:
    """How who asked learns it later."""
    if key is not None:
        return "ask kept_key of this key later, or for the same again, with the same key (and since, where it had one)"
    if id is not None:
        return "ask outcome of this id later, and not for the same anew before it tells that it isn't committed"
    return "look before you ask for the same anew: by restate of a gift, by show of a tightening; a statement is accepted again"


async def async_kept(pipeline: Pipeline, ask_: Ask, id: str, end: float = NEVER) -> Outcome:
    """As `kept`."""
    return await async_ask_behind_stop(pipeline, ask_, Kept(id, pipeline.line_id(id)), id, end)


async def async_kept_with(
    pipeline: Pipeline, ask_: Ask, key: CallerKey, id: Optional[str], end: float = NEVER
) -> Optional[str]:
    """As `kept_with`."""
    return id_of(pipeline, await async_ask_behind_stop(pipeline, ask_, KeptKey(key), id, end, key.word))


async def async_ask_behind_stop(
    pipeline: Pipeline, ask_: Ask, call: Call[T], id: Optional[str] = None, end: float = NEVER, key: Optional[str] = None
) -> T:
    """As `ask_behind_stop`."""
    while True:
        try:
            return await ask_(call, end)
        except Interrupted:
            continue
        except Forgotten as fault:
            raise Forgotten(id, key) from fault
        except (Down, Busy, OddWord) as fault:
            raise unknown(pipeline, fault, id, key) from fault
