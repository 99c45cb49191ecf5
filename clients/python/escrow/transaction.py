"""Transactions: what is set aside together, and committed or aborted together."""

from __future__ import annotations

import enum
import inspect
from collections.abc import Callable
from types import TracebackType
from typing import Optional

from .asking import ask, async_kept, async_kept_with, end_of, id_of, kept, kept_with
from .calls import Abort, Call, Commit, First, GiveBack, Later, Run
from .desk import Ask
from .errands import Entry, Errands
from .errors import Busy, Cause, Down, EscrowError, Interrupted, Lost, Over, Refused, Unknown, gone, over
from .keys import ANOTHER, CallerKey, KeptKey, KeyedCommit
from .numbers import amount_of, change_of
from .pipeline import Pipeline
from .values import Outcome


class State(enum.Enum):
    """Where a transaction stands."""

    NEW = "new"
    OPEN = "open"
    ENDED = "ended"
    EXPIRED = "expired"


Before = Callable[[str], object]
"""What is called with the id of a transaction ahead of its commit."""
_NEW, _OPEN = State.NEW, State.OPEN
_CAUSES = {State.ENDED: Cause.ENDED, State.EXPIRED: Cause.EXPIRED}


class BaseTransaction:
    """What both kinds of transaction are: an id, where it stands, and the calls that it makes. `line_id` is what the site's
    lines name it by.

    Where it stands changes under the pipeline's lock alone, together with the lines that go out: so a time limit that
    is up before the `begin` went out keeps it from going out, and one that is up later gives back what was set aside.
    """

    def __init__(
        self, pipeline: Pipeline, clock: Errands, seconds: Optional[float], timeout: Optional[float] = None,
        site: object = None,
    ) -> None:
        """`timeout` is that of its calls, and `site` is kept as long as it is."""
        self._pipeline, self._clock, self._seconds, self._timeout = pipeline, clock, seconds, timeout
        self._site = site
        self._state = State.NEW
        self._is_told = False  # what became of it was asked for, by a commit or an abort
        self._run = 0
        self._first: Optional[First] = None
        self._limit: Optional[Entry] = None
        self._granted = 0
        self.line_id = self.id = ""
        self._key: Optional[CallerKey] = None

    @property
    def state(self) -> State:
        """Where it stands, as far as this client knows."""
        return self._state

    @property
    def key(self) -> Optional[str]:
        """The key that it is to be committed with, where there is one."""
        return None if self._key is None else self._key.word

    # What the calls ask, under the pipeline's lock.

    def begins(self, run: Run) -> str:
        """It begins now: its id. Raises `Over` where it has ended meanwhile."""
        self._check()
        self.line_id, self._run = run.new_id(), run.run
        self.id = self._pipeline.told_id(self.line_id)
        self._pipeline.open_ids.add(self.line_id)
        return self.line_id

    def named(self, line_id: str) -> None:
        """The site names it so: told where its begin went out before that was known."""
        self._pipeline.open_ids.rename(self.line_id, line_id)
        self.line_id, self.id = line_id, self._pipeline.told_id(line_id)

    def displaced(self) -> Optional[Over]:
        """Its begin went out, and isn't made for want of a place: it waits for one. What to tell where it has ended."""
        self._pipeline.open_ids.discard(self.line_id)
        self._run, self.line_id, self.id = 0, "", ""
        return None if self._state is State.OPEN else over(_CAUSES[self._state], None)

    def goes_on(self, run: Run) -> str:
        """Its id, where it is still open. Raises `Over` where it isn't."""
        self._check()
        if self._run != run.run:
            raise gone(self.id)
        return self.line_id

    def ends(self, run: Run) -> str:
        """It ends now: its id. Raises `Over` where it has ended."""
        self._check()
        self._end()
        if self._run != run.run:
            raise gone(self.id)
        self._pipeline.open_ids.discard(self.line_id)
        return self.line_id

    def stopped(self) -> None:
        """It was to end, and the process stopped before: it has ended, and what waits of it doesn't go out."""
        if self._state is State.OPEN:
            self._end()

    def unbegun(self) -> None:
        """It was to begin, and its begin won't go out: it may begin by another call."""
        if self._state is State.OPEN:
            self._end()
            self._state, self.line_id, self.id = State.NEW, "", ""

    def given_up(self) -> None:
        """A call of it is in doubt, so it ends, and gives back what it has set aside."""
        if self._state is State.OPEN:
            self._end()
            self._give_back()

    def _end(self) -> None:
        self._state = State.ENDED
        if self._limit is not None:
            self._clock.cancel(self._limit)

    def _give_back(self) -> bool:
        """Whether there is a process that has it open."""
        is_there = self._pipeline.up and self._run == self._pipeline.run
        if is_there:
            self._pipeline.open_ids.discard(self.line_id)
            self._pipeline.queue(GiveBack(self.line_id))
        return is_there

    def _gone(self) -> Over:
        fault = gone(self.id)
        self._pipeline.missed(fault)
        return fault

    def _check(self) -> None:
        state = self._state
        if state is not _NEW and state is not _OPEN:
            raise over(_CAUSES[state], self.id)

    # What the calls of both kinds have in common.

    def _escrow(self, field: str, change: int) -> Call[None]:
        """The next call that sets something aside."""
        with self._pipeline.lock:
            self._check()
            if self._state is State.OPEN:
                return Later(self, field, change)
            self._state = State.OPEN
            self._first = First(self, field, change)
        if self._seconds is not None:
            self._limit = self._clock.after(self._seconds, self._expire)
        return self._first

    def _unbegun(self) -> bool:
        """Ends it, where nothing was ever asked in it."""
        with self._pipeline.lock:
            self._check()
            is_new = self._state is State.NEW
            if is_new:
                self._state = State.ENDED
        return is_new

    def _expire(self) -> None:
        with self._pipeline.lock:
            if self._state is not State.OPEN:
                return
            self._state = State.EXPIRED
            if not self._give_back() and self._first is not None:
                self._pipeline.unqueue(self._first)  # it may wait still: for a place, or for a site that stands
                self._pipeline.fail(self._first, over(Cause.EXPIRED, self.id))
        self._pipeline.flush()

    def _leave(self) -> None:
        """Ends it, where its end didn't go out in time: nobody waits for that."""
        with self._pipeline.lock:
            self.given_up()
        self._pipeline.flush()

    def _begun(self) -> str:
        """Its id. Raises `Over` where its begin never went out."""
        if not self.id:
            raise self._gone()
        return self.id

    def _ends_with(self, key: Optional[str], since: Optional[str]) -> Optional[CallerKey]:
        """It is to be committed, with this key where there is one: so it is from now on. Its key, also one of an earlier try. Raises
        what is wrong with the key, or with its position."""
        if key is not None or since is not None:
            told = self._pipeline.caller_key(key, since)
            self._check_behind(told)
            self._key = told
        self._is_told = True
        return self._key

    def _check_behind(self, key: CallerKey) -> None:
        """Raises where it has begun, and isn't behind the position of the key."""
        if self.id:
            key.check_ahead_of(self.line_id)

    def _found(self, is_kept: bool) -> None:
        """What a stop left of a commit. Raises `Lost` where it isn't kept, and there was something to commit."""
        if not is_kept and self._granted:
            lost = Lost("the site stopped before it was committed", self.id, self.key)
            self._pipeline.missed(lost)
            raise lost

    def _kept_or(self, fault: Refused, line_id: Optional[str], has_others: bool) -> str:
        """The id of the commit that has the key already, where a change with it was refused now. Raises the refusal where
        none has; where another is under way, `Busy`."""
        id = id_of(self._pipeline, line_id)
        if id is not None:
            return id
        if not has_others:
            raise fault
        busy = Busy(ANOTHER)
        self._pipeline.missed(busy)
        raise busy from fault

    def _of_key(self, line_id: Optional[str]) -> str:
        """The id of the commit that has the key, by what a commit with it was told."""
        return id_of(self._pipeline, line_id) or self.id


class Transaction(BaseTransaction):
    """A transaction of a thread: committed on leaving the `with`, aborted on an exception.

    Ask one call of it at a time. Each call returns once the rights are set aside. A commit that raises nothing is kept,
    across stops too. A `timeout` is in seconds, and without one a call has that of the transaction.
    """

    def lower(self, field: str, amount: int, *, timeout: Optional[float] = None) -> None:
        """Sets rights aside to lower the field by so many quantities, 1 to 2 * 10^15. Raises as `change`."""
        self._set_aside(field, -amount_of(amount), end_of(timeout, self._timeout))

    def raise_(self, field: str, amount: int, *, timeout: Optional[float] = None) -> None:
        """Sets rights aside to raise the field by so many quantities, 1 to 2 * 10^15. Raises as `change`."""
        self._set_aside(field, amount_of(amount), end_of(timeout, self._timeout))

    def change(self, field: str, change: int, *, timeout: Optional[float] = None) -> None:
        """Sets rights aside to change the field by so many quantities: below 0 lowers it, above 0 raises it.

        Raises `Short` where the site has too few free rights, with how many it has; another `Refused`; `Over` where the
        transaction has ended, also by a stop of the site; `Down` where the site isn't served. The transaction stays
        open after `Refused`, and after `Busy`, where its time was up before it was asked. Where it was up before the
        answer came that is `Unknown`, and the transaction has ended: what it set aside is given back.
        """
        self._set_aside(field, change, end_of(timeout, self._timeout))

    def _set_aside(self, field: str, change: int, end: float) -> None:
        call = self._escrow(self._pipeline.known(field), change_of(change))
        self._granted += 1  # also where who asks is cancelled meanwhile, or interrupted, and not told
        try:
            ask(self._pipeline, call, end)
        except EscrowError as fault:
            self._granted -= 1
            if type(fault) is Interrupted:
                raise self._gone() from None
            raise

    def commit(self, *, key: Optional[str] = None, since: Optional[str] = None, timeout: Optional[float] = None) -> str:
        """Makes the changes permanent: the id.

        Raises `Lost` or `Over` where nothing was committed, and never will be; `Unknown` where a stop left the answer
        out and the site doesn't stand again in time, or where the call's own time was up; `Down` where the site isn't
        served, and `Busy` where its time was up before it was asked: nothing was committed.

        With a `key`, as that of `Site.change`, it is done once: where a commit with the key is kept already nothing is
        changed, what was set aside is given back, and the id is that of the earlier one. So after anything, `Unknown` too,
        all may be done again, with the same key. Where `lower` is `Short` then, ask `Site.kept_key` before you tell anybody.
        A key is kept where something was set aside. Where nothing was ever asked the id is that of the commit that has the
        key, or empty. `since` is the key's position, from `Site.position` **before this transaction began**. Raises
        `Forgotten`, with the key and nothing committed, where the log was shortened beyond it and an earlier commit may have
        the key; `NoKeys` with nothing committed, and `ValueError` or `TypeError` where it is no key, or no position ahead
        of the transaction: then nothing was asked, and the transaction is open.
        """
        end = end_of(timeout, self._timeout)
        told = self._ends_with(key, since)
        if self._unbegun():
            return "" if told is None else self._of_key(ask(self._pipeline, KeptKey(told), end))
        try:
            if told is not None:
                return self._commit_once(told, end)
            ask(self._pipeline, Commit(self), end)
        except Interrupted:
            self._found(kept(self._pipeline, self._begun(), end) is Outcome.COMMITTED)
        except Busy:
            self._is_told = False
            raise
        return self.id

    def _commit_once(self, key: CallerKey, end: float) -> str:
        try:
            return self._of_key(ask(self._pipeline, KeyedCommit(self, key), end))
        except Interrupted:
            id = kept_with(self._pipeline, key, self.id, end)
            self._found(id is not None)
            return id or self.id

    def abort(self, *, timeout: Optional[float] = None) -> None:
        """Gives the rights back. Does nothing where the transaction has ended, as by a stop of the site. Raises
        nothing: they come back where its time is up, too."""
        self._abort(end_of(timeout, self._timeout))

    def _abort(self, end: float) -> None:
        self._is_told = True
        try:
            if not self._unbegun():
                ask(self._pipeline, Abort(self), end)
        except Busy:
            self._leave()
        except (Interrupted, Over, Down, Refused, Unknown):
            pass

    def only(self, field: str, change: int, before: Before, end: float) -> bool:
        """This change alone, with `before` called ahead of the commit: whether it was committed, by this end. It wasn't,
        and never will be, where a stop of the site ended it. Raises what a change, `before` or a commit does, and ends
        it."""
        self._alone(field, change, end)
        self._tell(before, end)
        try:
            ask(self._pipeline, Commit(self), end)
        except Interrupted:
            return kept(self._pipeline, self.id, end) is Outcome.COMMITTED
        except Over:
            return False
        except Busy:
            self._abort(end)
            raise
        return True

    def once(self, field: str, change: int, before: Optional[Before], key: CallerKey, end: float) -> Optional[str]:
        """This change alone, committed with a key: the id of the commit that has it, by this end, which may be an earlier one.
        None where a stop of the site ended this one, and none has it. Raises as `only`."""
        self._key = key
        try:
            self._alone(field, change, end, key)
        except Refused as fault:
            has_others = self._pipeline.keys.has_others(key.word)  # asked ahead of what is kept: it may commit in between
            return self._kept_or(fault, ask(self._pipeline, KeptKey(key), end), has_others)
        if before is not None:
            self._tell(before, end)
        try:
            return self._of_key(ask(self._pipeline, KeyedCommit(self, key), end))
        except Interrupted:
            return kept_with(self._pipeline, key, self.id, end)
        except Over:
            return None
        except Busy:
            self._abort(end)
            raise

    def _alone(self, field: str, change: int, end: float, key: Optional[CallerKey] = None) -> None:
        """Sets its only change aside. Ends it where that can't be, or it isn't behind the position of the key."""
        try:
            self._set_aside(field, change, end)
            if key is not None:
                self._check_behind(key)
        except BaseException:
            self._abort(end)
            raise

    def _tell(self, before: Before, end: float) -> None:
        """Calls `before`. Ends it where that raises."""
        try:
            if inspect.isawaitable(before(self.id)):
                raise TypeError("what before returns would have to be awaited: AsyncSite.change does that")
        except BaseException:
            self._abort(end)
            raise

    def __enter__(self) -> Transaction:
        return self

    def __exit__(
        self, kind: Optional[type[BaseException]], fault: Optional[BaseException], trace: Optional[TracebackType]
    ) -> None:
        if kind is not None:
            self.abort()
        elif not self._is_told:
            try:
                self.commit()
            except Busy:
                self.abort()
                raise


class AsyncTransaction(BaseTransaction):
    """A transaction of a task, for `async with`: as `Transaction`, awaited."""

    def __init__(
        self, pipeline: Pipeline, clock: Errands, seconds: Optional[float], asks: Ask,
        timeout: Optional[float] = None, site: object = None,
    ) -> None:
        super().__init__(pipeline, clock, seconds, timeout, site)
        self._ask = asks

    async def lower(self, field: str, amount: int, *, timeout: Optional[float] = None) -> None:
        """As `Transaction.lower`."""
        await self._set_aside(field, -amount_of(amount), end_of(timeout, self._timeout))

    async def raise_(self, field: str, amount: int, *, timeout: Optional[float] = None) -> None:
        """As `Transaction.raise_`."""
        await self._set_aside(field, amount_of(amount), end_of(timeout, self._timeout))

    async def change(self, field: str, change: int, *, timeout: Optional[float] = None) -> None:
        """As `Transaction.change`."""
        await self._set_aside(field, change, end_of(timeout, self._timeout))

    async def _set_aside(self, field: str, change: int, end: float) -> None:
        call = self._escrow(self._pipeline.known(field), change_of(change))
        self._granted += 1  # also where who asks is cancelled meanwhile, or interrupted, and not told
        try:
            await self._ask(call, end)
        except EscrowError as fault:
            self._granted -= 1
            if type(fault) is Interrupted:
                raise self._gone() from None
            raise

    async def commit(
        self, *, key: Optional[str] = None, since: Optional[str] = None, timeout: Optional[float] = None
    ) -> str:
        """As `Transaction.commit`."""
        end = end_of(timeout, self._timeout)
        told = self._ends_with(key, since)
        if self._unbegun():
            return "" if told is None else self._of_key(await self._ask(KeptKey(told), end))
        try:
            if told is not None:
                return await self._commit_once(told, end)
            await self._ask(Commit(self), end)
        except Interrupted:
            self._found(await async_kept(self._pipeline, self._ask, self._begun(), end) is Outcome.COMMITTED)
        except Busy:
            self._is_told = False
            raise
        return self.id

    async def _commit_once(self, key: CallerKey, end: float) -> str:
        try:
            return self._of_key(await self._ask(KeyedCommit(self, key), end))
        except Interrupted:
            id = await async_kept_with(self._pipeline, self._ask, key, self.id, end)
            self._found(id is not None)
            return id or self.id

    async def abort(self, *, timeout: Optional[float] = None) -> None:
        """As `Transaction.abort`."""
        await self._abort(end_of(timeout, self._timeout))

    async def _abort(self, end: float) -> None:
        self._is_told = True
        try:
            if not self._unbegun():
                await self._ask(Abort(self), end)
        except Busy:
            self._leave()
        except (Interrupted, Over, Down, Refused, Unknown):
            pass

    async def only(self, field: str, change: int, before: Before, end: float) -> bool:
        """As `Transaction.only`; what `before` returns is awaited where it can be."""
        await self._alone(field, change, end)
        await self._tell(before, end)
        try:
            await self._ask(Commit(self), end)
        except Interrupted:
            return await async_kept(self._pipeline, self._ask, self.id, end) is Outcome.COMMITTED
        except Over:
            return False
        except Busy:
            await self._abort(end)
            raise
        return True

    async def once(
        self, field: str, change: int, before: Optional[Before], key: CallerKey, end: float
    ) -> Optional[str]:
        """As `Transaction.once`; what `before` returns is awaited where it can be."""
        self._key = key
        try:
            await self._alone(field, change, end, key)
        except Refused as fault:
            has_others = self._pipeline.keys.has_others(key.word)  # asked ahead of what is kept: it may commit in between
            return self._kept_or(fault, await self._ask(KeptKey(key), end), has_others)
        if before is not None:
            await self._tell(before, end)
        try:
            return self._of_key(await self._ask(KeyedCommit(self, key), end))
        except Interrupted:
            return await async_kept_with(self._pipeline, self._ask, key, self.id, end)
        except Over:
            return None
        except Busy:
            await self._abort(end)
            raise

    async def _alone(self, field: str, change: int, end: float, key: Optional[CallerKey] = None) -> None:
        """As `Transaction._alone`."""
        try:
            await self._set_aside(field, change, end)
            if key is not None:
                self._check_behind(key)
        except BaseException:
            await self._abort(end)
            raise

    async def _tell(self, before: Before, end: float) -> None:
        """As `Transaction._tell`; what `before` returns is awaited where it can be."""
        try:
            told = before(self.id)
            if inspect.isawaitable(told):
                await told
        except BaseException:
            await self._abort(end)
            raise

    async def __aenter__(self) -> AsyncTransaction:
        return self

    async def __aexit__(
        self, kind: Optional[type[BaseException]], fault: Optional[BaseException], trace: Optional[TracebackType]
    ) -> None:
        if kind is not None:
            await self.abort()
        elif not self._is_told:
            try:
                await self.commit()
            except Busy:
                await self.abort()
                raise
