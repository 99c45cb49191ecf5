"""A served site, for threads and for tasks."""

from __future__ import annotations

import asyncio
import fcntl
import os
import time
import warnings
import weakref
from asyncio import get_running_loop
from collections.abc import Callable
from functools import partial
from types import MethodType
from typing import Any, NoReturn, Optional, Union

from .asking import ask, ask_behind_stop, async_ask_behind_stop, async_kept, end_of, id_of, in_thread, is_kept, kept
from .calls import Change, Kept, Line, Position, Shape
from .connector import Connector
from .desk import NEVER, Ask, Desks
from .dropped import Closer, closer
from .errands import Errands
from .errors import Down, Interrupted
from .gauges import Gauges
from .holding import Holding
from .keys import CallerKey, KeptKey
from .numbers import SHORT, amount_of, keep_of, line_id, read_id, site_of
from .pipeline import Counts, Pipeline, Watch
from .program import create, find_program, make_or_find
from .records import Records, lacks_commit
from .refused import joined, wanted_mark
from .schema import Path, Schema, identity
from .steps import GivenKey, Steps, TightenedKey, share
from .supervisor import Backoff, Orders, Supervisor
from .transaction import AsyncTransaction, Before, Transaction
from .values import Command, Interval, Kind, Mark, Outcome, Share, Spared, Statement
from .waiters import result_of


OLDER = (
    "last_id names it as committed, so this is an older log: put the newest log back; where there is none, its disk is "
    'lost: see "A disk is lost" in docs/OPERATING.md'
)
"""Of a log that hasn't got a commit which it had."""


class Site:
    """One site, served by a process that this starts, watches, and starts again after a stop.

    Any thread may call it at any time, and tasks by `AsyncSite`: what many ask at once shares one sync of the log. **A
    stop of the process is not seen by who calls**: each call tells what it does then.

    Amounts and changes are whole numbers of a field's own quantities, which are also what rights are counted in; a site
    takes 1 to 2 * 10^15. Each call raises `TypeError` where one is no whole number, and `ValueError` where it is below
    0 or a line has no room for it, with nothing asked.

    Each call may have a `timeout` in seconds; without one it has the site's, and `math.inf` is none. Where it is up `Busy`
    is raised if nothing was asked, or what was asked changes nothing. Else that is `Unknown`: it may yet happen, and its
    `id` tells of which transaction `outcome` is to be asked, where it was one. What had a `key` may be asked for again, with
    the same key, after anything.
    """

    _is_open = False
    _supervisor: Union[Supervisor, Connector]

    def __init__(
        self,
        folder: Path,
        program: Optional[Path] = None,
        trace: bool = False,
        *,
        sync: bool = True,
        keep: Optional[int] = None,
        archive: bool = False,
        not_before: Optional[Mark] = None,
        last_id: Optional[str] = None,
        metrics: Optional[Watch] = None,
        wait: float = 10.0,
        patience: float = 30.0,
        backoff: Backoff = Backoff(),
        timeout: Optional[float] = None,
        most_waiting: Optional[int] = None,
        held: Optional[float] = 60.0,
    ) -> None:
        """Serves the site of this folder, and returns once it stands.

        `program` is the path of `escrow_site` (see `find_program`). `trace` keeps a trace: from the first start on and
        always, or never. `sync=False` doesn't sync the log: a stop of the machine may lose what was answered. With `keep` the
        program lets go of the front of its log while it serves, but for at least so many bytes, up to 2^40: then what is asked
        about what is gone is `Forgotten`, and keys want their `since`. Without it a log only grows. `archive` keeps the log in
        the folder as it was each time, for `escrow_site verify`: from the first time on and always.
        `not_before` refuses a log that is older, as does the file `not_before` that a carrier may have left in the folder, and
        `last_id`: the newest id that the caller's own books have as committed. A log that never lets go of anything is looked
        through for it before the start. Any is asked for it once, before any other call, and a site whose log hasn't got it is
        closed; one that was shortened beyond it isn't older, and goes on.
        A later start, behind a stop, isn't asked again: it is told the mark of the start before as `not_before`.
        `metrics` counts what happens. `wait` is how many seconds this waits at most, `patience` how many a call waits
        for a site that doesn't stand, and `backoff` how many pass before a new start. `timeout` is that of calls which
        have none of their own; without it they wait as long as it takes. Where `most_waiting` calls wait for an answer
        (`unanswered`) one more is `Busy` at once, unless it ends a transaction or is `outcome`. A transaction that is
        held for `held` seconds is warned of in the log, under `escrow`, where starts and stops are told too.

        Raises `Down` where it doesn't stand in time, at once where the folder or the log is refused (`status` 3), the
        command line is (2, as of `archive` without `keep`), the disk has a fault (5), or another `Site` of this machine has the
        folder (6); a disk that is full is waited for. `FileNotFoundError` where no program is named and none is found,
        `ValueError` where `last_id` is no id or `keep` no such number, and `OtherWorld` where the id is one of another world.
        """
        self.folder = os.path.abspath(os.fspath(folder))
        self.number, self.world, self.schema = identity(self.folder)
        if last_id is not None:
            line_id(self.world[:SHORT], self.number, last_id)
        options = (*(("--trace",) if trace else ()), *(() if sync else ("--no-sync",)))
        options += () if keep is None else ("--keep", str(keep_of(keep)))
        options += ("--archive",) if archive else ()
        self.metrics, self.timeout = metrics, timeout
        self.on_statement: list[Callable[[Statement], object]] = []
        """Called with each statement that is issued, in a thread of its own, in order: it has to reach its receiver."""
        self.on_start: list[Callable[[], object]] = []
        """Called at each start after the first, in the same thread: what was issued before may not have been told."""
        self._records = Records(os.path.join(self.folder, "log"))
        self._program = os.fspath(program) if program else find_program()
        self._hooks, self._clock = Errands(f"escrow hooks {self.number}"), Errands(f"escrow time limits {self.number}")
        self._is_fork = False
        self._folder_lock = lock_folder(self.folder)
        wanted = self._wanted(not_before, last_id)
        names = frozenset(field.name for field in self.schema.fields)
        holding, issued = Holding(held, self._clock.after, self.folder), weakly(self._issued)
        self.pipeline = Pipeline(self.number, self.world, names, issued, metrics, holding, most_waiting)
        self._steps = Steps(self.pipeline, self.folder, self._program)
        orders = Orders(self.folder, (self._program, "serve", self.folder, *options), backoff, patience)
        self._supervisor = Supervisor(orders, self.pipeline, weakly(self._started), metrics, wanted)
        keep_watch(self, closer)
        end = time.monotonic() + wait
        try:
            self._wait(wait)
            if last_id is not None and not is_kept(self.pipeline, last_id, end - time.monotonic()):
                raise self._older(last_id)
        except Down:
            self.close(max(0.0, end - time.monotonic()))
            raise
        if metrics is not None and hasattr(metrics, "looks_at"):
            metrics.looks_at(Gauges(self.pipeline, self.folder, self.schema))

    @classmethod
    def create(
        cls,
        folder: Path,
        schema: Union[Schema, Path],
        number: int,
        program: Optional[Path] = None,
        *,
        name: Optional[str] = None,
        exist_ok: bool = False,
        **options: Any,
    ) -> Site:
        """Makes the folder of a site, as `escrow.create`, and serves it, as `Site` with these options.

        With `exist_ok` the folder may be there already, where it is this very site's: of this number, in the world of
        this name and this very header. Another's is refused, and left as it is: `ProgramError` with status 3, as without
        `exist_ok` where anything is there. Raises what both raise.
        """
        if exist_ok:
            make_or_find(folder, schema, number, program, name)
        else:
            create(folder, schema, number, program, name=name)
        return cls(folder, program, **options)

    @classmethod
    def connect(cls, path: Path, **options: Any) -> Site:
        """The site behind a door, which `python3 -m escrow.door` has opened at this path: for a machine where several
        processes use one site. All is as of a `Site` that serves its folder, but for what is told here.

        `options` are `not_before`, `last_id`, `metrics`, `wait`, `patience`, `backoff`, `timeout`, `most_waiting` and
        `held`, as `Site` has them. Raises `Down` as that does: at once where this user may not come in or the door is of
        another version (no `status`), or where the log is refused (3); where nobody is there, once `wait` is over.

        A door that dies or is restarted is a stop of the site. `epoch` may stay the same behind one, where the connection
        alone has ended. **A gift or a tightening that a stop left unanswered is `Unknown`**, since others give too. A
        call that the door hasn't taken by its time limit is `Busy`: then the connection is ended, so that it never is,
        and with it the open transactions of this process. Where a program is in between, as one that knows TLS, what it
        hasn't been told of by then is `Unknown`, of a change without an id. `pid` is None, and `on_statement` hears what
        this process gives.
        """
        from .connected import ConnectedSite

        return ConnectedSite(path, **options)

    def _wanted(self, not_before: Optional[Mark], last_id: Optional[str]) -> Optional[Mark]:
        """How far the log has to have come. Raises `Down`, and lets go of the folder, where it is known before the start that
        the log is an older one."""
        try:
            wanted = joined(not_before, wanted_mark(self.folder))
            if last_id is not None and lacks_commit(self._records.path, *read_id(last_id).numbers()):
                raise self._older(last_id)
            return wanted
        except Down:
            os.close(self._folder_lock)
            raise

    def _older(self, last_id: str) -> Down:
        return Down(f"{self.folder}/log: transaction {last_id} isn't in it: {OLDER}", 3)

    def _wait(self, seconds: float) -> None:
        stands, why = self._supervisor.wait(seconds), self.pipeline.dead
        if not stands:
            told = self.last_error or "the program isn't ready"
            why = Down(f"{self.folder}: doesn't stand after {seconds} seconds: {told}", self.last_status)
        if why is not None:
            raise why

    def _issued(self, statement: Statement) -> None:
        for hook in tuple(self.on_statement):
            self._hooks.soon(lambda hook=hook: hook(statement))  # type: ignore[misc]

    def _started(self) -> None:
        self._records = Records(self._records.path)  # whoever put another log there did so before
        for hook in tuple(self.on_start):
            self._hooks.soon(hook)

    # What there is to see.

    @property
    def up(self) -> bool:
        """Whether the site stands."""
        return self.pipeline.up

    @property
    def epoch(self) -> int:
        """The epoch that its last start began."""
        return self.pipeline.epoch

    @property
    def mark(self) -> Mark:
        """How far its log had come at its last start: keep it, and start with it as `not_before`."""
        mark = self._supervisor.mark
        assert mark is not None
        return mark

    def newest_mark(self, *, timeout: Optional[float] = None) -> Mark:
        """How far its log has come by now, as far as that is safe: for a start elsewhere, as `mark`.

        The file may have records of a batch that isn't synced yet. So their length is taken first, and then the site is
        asked: it takes one batch behind another, and the answers of each leave once the log is synced. What stood in
        the log before the question is of earlier batches: with the answer it is safe. What a stop left half-written is
        cut off before the next process stands: so a length counts where the process that stood before it was taken
        answers. It is never less than `mark`. Of a log of version 2 the first call behind a start reads all, as the start
        does, and a later one what came since. Raises `Down`, `Busy`, and `OSError` where the log can't be looked at.
        """
        end = end_of(timeout, self.timeout)
        while True:
            epoch, length = self.epoch, self._records.length()
            ask(self.pipeline, self._share(self.schema.fields[0].name), end)
            mark = self.mark
            if mark.epoch == epoch == self.epoch:
                return Mark(epoch, max(length, mark.length))

    @property
    def pid(self) -> Optional[int]:
        """The process, where there is one."""
        return self._supervisor.pid

    @property
    def counts(self) -> Counts:
        """What was counted since this was made."""
        return self.pipeline.counts

    @property
    def unanswered(self) -> int:
        """How many calls wait for their answer."""
        return self.pipeline.unanswered

    @property
    def open(self) -> int:
        """How many transactions are open, of 63 places."""
        return self.pipeline.open

    @property
    def last_error(self) -> str:
        """What the process told when it last ended, and whether the disk was full then."""
        return self._supervisor.last_error

    @property
    def last_status(self) -> Optional[int]:
        """The status with which it last ended: below 0 the signal."""
        return self._supervisor.last_status

    # What can be asked.

    def transaction(self, seconds: Optional[float] = None, *, timeout: Optional[float] = None) -> Transaction:
        """A transaction, for `with`. With a time limit it is aborted so many seconds after its first call, unless it has
        ended by then. At most 63 are open at once: the first call of the next one waits. A stop of the site aborts it,
        so what is to last is committed, and its opposite later. `timeout` is that of each of its calls."""
        return Transaction(self.pipeline, self._clock, seconds, self.timeout if timeout is None else timeout, self)

    def change(
        self, field: str, change: int, before: Optional[Before] = None, *, key: Optional[str] = None,
        since: Optional[str] = None, timeout: Optional[float] = None,
    ) -> str:  # fmt: skip
        """A transaction of one change in one trip: the id, once it is committed.

        Below 0 lowers the field by so many quantities, above 0 raises it. Raises `Short` and other `Refused`, with
        nothing changed; `Down`; `Busy`, where its time was up before it was asked; `Unknown`, with the id, where a stop
        left the answer out and the site doesn't stand again in time, or its own time was up. Else a stop isn't seen: it
        happens once.

        A caller that dies doesn't know the id. So `before`, where there is one, is called with it once the rights are
        set aside, ahead of the commit, which then takes a trip of its own: write it beside the order, and ask
        `outcome` of it later. What is refused isn't told to it. Where a stop comes in between it is called again, with
        another id: then those before it aren't committed, and never will be. What it raises comes through, with
        nothing changed. It holds one of the 63 places of open transactions, and may call the site.

        With a `key`, 1 to 64 of `A-Z a-z 0-9 . _ -`, as the number of an order, it happens once at this site, **however often
        it is asked for with that key**: again after any exception, `Unknown` too, after a cancellation, and after the death
        of this process, of the program or of a door. The id is that of the commit that has the key: of this call, or of an
        earlier one, whatever that has changed; then what this call had set aside is given back. So too where the rights are
        short by now: `Short` is told where no commit has the key by then. Where another call of this process with the key is
        under way, that is `Busy`: it may commit yet; those of other processes, behind a door, aren't seen. It takes two
        trips, since the commit of a change that was refused would note the key, and holds a place between them. What `before`
        was told is the id of this call, which isn't committed where an earlier one was. Over a log that was shortened **it is
        `Forgotten`, with the key, and nothing is sold, where the log may have let go of an earlier commit with it**. So where
        that is done give `since` too: what `position` told, and your own books had beside the order, before it was first asked
        for. Then a new order is told from one that was let go of; without it none is. Raises `NoKeys` where the program doesn't
        know keys, with nothing committed; `ValueError` or `TypeError`, with nothing committed, where it is no key, or no
        position that was taken before.
        """
        end = end_of(timeout, self.timeout)
        if key is not None or since is not None:
            return self._change_once(field, change, before, self.pipeline.caller_key(key, since), end)
        if before is not None:
            return self._change_behind(before, field, change, end)
        shape = self.pipeline.shape(field, change)
        while True:
            call = Change()
            call.shape = shape
            try:
                ask(self.pipeline, call, end)
                return self.pipeline.front + call.id
            except Interrupted:
                id = self.pipeline.front + call.id
                if kept(self.pipeline, id, end) is Outcome.COMMITTED:
                    return id

    def _change_behind(self, before: Before, field: str, change: int, end: float) -> str:
        while True:
            t = self.transaction()
            if t.only(field, change, before, end):
                return t.id

    def _change_once(self, field: str, change: int, before: Optional[Before], key: CallerKey, end: float) -> str:
        with self.pipeline.keys.one(key.word):
            while True:
                id = self.transaction().once(field, change, before, key, end)
                if id is not None:
                    return id

    def position(self, *, timeout: Optional[float] = None) -> str:
        """Where this site is now, for the `since` of a key: its newest transaction, or `..-EPOCH.0` where none was begun since its
        start. Write it down beside the order **before the order is first asked for**, and give that one each time: each commit with
        the key is then of a transaction behind it.

        It asks nothing, and doesn't wait; over a door that is asked, which raises `Down`, and `Busy` where its time was up.
        """
        known = self.pipeline.position()
        end = end_of(timeout, self.timeout)
        return self.pipeline.front + (ask(self.pipeline, Position(), end) if known is None else known)

    def kept_key(self, key: str, *, since: Optional[str] = None, timeout: Optional[float] = None) -> Optional[str]:
        """The id of the commit that has this key at this site; None where none has it by now, though a call that is under way
        may commit with it yet. It has it as long as the log is there: neither a new world nor an older copy of the log has.

        Raises `Forgotten` where the log was shortened, and a commit with the key may be among what it let go of: with `since`, as of
        `change`, where it was shortened beyond that position. `ValueError` or `TypeError` where it is no key, or no position of
        this site so far; `Unknown` where that is of a later start than any that this log has; `NoKeys`; `Down`; `Busy` where its
        time was up: ask again; `Faulty` where the answer is none that this client knows.
        """
        asked = KeptKey(self.pipeline.caller_key(key, since))
        return id_of(self.pipeline, ask(self.pipeline, asked, end_of(timeout, self.timeout)))

    def give(self, to: int, field: str, kind: Kind, amount: int, *, timeout: Optional[float] = None) -> Statement:
        """Gives free rights of a kind to another site: the statement that has to reach it.

        Raises `Short` and other `Refused`, with nothing given; `Down`; `Busy`; `Unknown` where a stop left the answer
        out and it can't be told, or its time was up: then `restate`. Else a stop isn't seen: it happens once.
        """
        end = end_of(timeout, self.timeout)
        return self._steps.give(self._key(to, field, kind), amount_of(amount), end).statement

    def spare(self, to: int, field: str, kind: Kind, amount: int, *, timeout: Optional[float] = None) -> Spared:
        """Gives as many as are wanted, and at most half of the share, rounded up. Raises as `give`: `Short` where the
        share is 0."""
        return self._steps.spare(self._key(to, field, kind), amount_of(amount), end_of(timeout, self.timeout))

    def restate(self, to: int, field: str, kind: Kind, *, timeout: Optional[float] = None) -> Statement:
        """The statement of all that was given to that site so far. Raises `NothingGiven`, another `Refused`, `Down`,
        `Busy`. Asked again after a stop."""
        return self._steps.restate(self._key(to, field, kind), end_of(timeout, self.timeout))

    def _key(self, to: int, field: str, kind: Kind) -> GivenKey:
        return GivenKey(site_of(to), self.pipeline.known(field), Kind(kind))

    def accept(self, statement: Statement, *, timeout: Optional[float] = None) -> int:
        """Takes the rights of a statement: how many were new, 0 where all were accepted before.

        Raises `Forged` where no site can have issued it, another `Refused`, `Down`. Asked again after a stop that left
        the answer out: then 0 may also mean that the unanswered one took them. The rights are there either way.
        `Busy`, and `Unknown` where it isn't answered in time, or can't be asked again in time: accept it again later.
        """
        call, end = self._acceptance(statement), end_of(timeout, self.timeout)
        try:
            return ask(self.pipeline, call, end)
        except Interrupted:
            return ask_behind_stop(self.pipeline, call, None, end)

    def _acceptance(self, statement: Statement) -> Line[int]:
        giver, to, field, kind, total = statement
        words = f"{site_of(giver)} {site_of(to)} {self.pipeline.known(field)} {Kind(kind).value} {amount_of(total)}"
        return Line(Command.ACCEPT, f"{self.number} accept {words}", lambda told: int(told[1]), again=False)

    def tighten(self, field: str, kind: Kind, amount: int, *, timeout: Optional[float] = None) -> int:
        """Gives free rights up for good: rights to lower raise the floor, rights to raise lower the ceiling. All that
        this site has given up so far, of the kind, on the field.

        Raises `Short` and other `Refused`, with nothing given up; `Down`; `Busy`; `Unknown` where a stop left the answer
        out and it can't be told, or its time was up; `ProgramError` where the log can't be shown, with nothing given
        up. Else a stop isn't seen: it happens once.
        """
        key, end = TightenedKey(self.pipeline.known(field), Kind(kind)), end_of(timeout, self.timeout)
        return self._steps.tighten(key, amount_of(amount), end)

    def read(self, field: str, *, timeout: Optional[float] = None) -> Interval:
        """Between which values the field's committed value lies. Raises `Refused`, `Down`, `Busy`. Asked again after a
        stop."""
        return ask(self.pipeline, self._read(field), end_of(timeout, self.timeout))

    def _read(self, field: str) -> Line[Interval]:
        line = f"{self.number} read {self.pipeline.known(field)}"
        return Line(Command.READ, line, lambda told: Interval(int(told[1]), int(told[2])), again=True, field=field)

    def share(self, field: str, *, timeout: Optional[float] = None) -> Share:
        """How many rights are free here, of each kind. Raises `Refused`, `Down`, `Busy`. Asked again after a stop."""
        return ask(self.pipeline, self._share(field), end_of(timeout, self.timeout))

    def _share(self, field: str) -> Line[Share]:
        return share(self.number, self.pipeline.known(field))

    def outcome(self, id: str, *, timeout: Optional[float] = None) -> Outcome:
        """What became of a transaction, by the log: also of one of a client that died.

        Raises `OtherWorld` where its id tells another world than this site's, and `OtherSite` where it tells another site;
        `Unknown` where it is of a later start than any that this log has: then an older log was put back; `Forgotten`, which is
        one too, where the log was shortened, and its commit may be among what it let go of: **that isn't not committed**;
        `ValueError` where it is no id, or none of this epoch yet; `Down`; `Busy` where its time was up: ask again; `Faulty`
        where the answer is none that this client knows. An id that tells
        no world or no site, as clients of earlier days gave them, is taken for one of this site.
        """
        return ask(self.pipeline, self._kept(id), end_of(timeout, self.timeout))

    def _kept(self, id: str) -> Kept:
        return Kept(id, self.pipeline.line_id(id))

    # The end.

    def close(self, seconds: float = 10.0) -> None:
        """Lets the site answer what it was asked, and ends its process: by force after so many seconds.

        Calls that weren't asked of it yet raise `Down`; open transactions are aborted. Closing twice does no harm.
        Not for a handler of signals, which would wait for what it has interrupted: raise there, as `SystemExit`, and close behind it.
        """
        if self._is_fork:
            return
        self._is_open = False
        self._supervisor.close(seconds)
        self._clock.close(seconds)
        self._hooks.close(seconds)
        held, self._folder_lock = self._folder_lock, -1
        if held >= 0:
            os.close(held)

    def _let_go(self) -> None:
        self._is_fork = True
        self.pipeline.let_go()
        held, self._folder_lock = self._folder_lock, -1
        if held >= 0:
            os.close(held)

    def __enter__(self) -> Site:
        return self

    def __exit__(self, *_: object) -> None:
        self.close()

    def __del__(self) -> None:
        """It was dropped: its process ends soon."""
        if not self._is_open or self._is_fork:
            return
        closer.close(partial(_close_dropped, self._supervisor, self._clock, self._hooks, self._folder_lock))
        warnings.warn(f"{self.folder}: a Site was dropped open: close it, or use it by with", ResourceWarning, source=self)


def _close_dropped(supervisor: Union[Supervisor, Connector], clock: Errands, hooks: Errands, held: int) -> None:
    supervisor.close(10.0)
    clock.close(10.0)
    hooks.close(10.0)
    if held >= 0:
        os.close(held)


def keep_watch(site: Site, by: Closer) -> None:
    """It is open from now on: it is closed where it is dropped, and a fork lets go of it."""
    site._is_open = True
    by.watch()
    _open_sites.add(site)


def weakly(method: Callable[..., object]) -> Callable[..., None]:
    """Calls a method of what is still there: so the threads of a site don't keep it."""
    assert isinstance(method, MethodType)
    held = weakref.WeakMethod(method)

    def call(*words: object) -> None:
        found = held()
        if found is not None:
            found(*words)

    return call


class _Unserved:
    """Stands for what an `AsyncSite` has once its site is served."""

    def __getattr__(self, name: str) -> NoReturn:
        raise RuntimeError("its site isn't served yet: async with AsyncSite(folder) does that")


class AsyncSite:
    """The same site for the tasks of one event loop. It shares the process of a `Site`, which starts and closes it.

    Tasks that ask in one turn of the loop send together. While they alone ask, their loop reads the answers too, which
    is the fastest; as soon as a thread asks, or another loop, a thread reads for all. Among the calls `change` is the
    fastest: one trip, where a transaction takes one for each change and one for the commit.

    `async with AsyncSite(folder, ..) as shop` makes a `Site` of that folder, with the same options, and closes it at the
    end. Where a `Site` is given that one stays open: making and closing it block, so make it before the loop runs, and
    close it behind it, or by `asyncio.to_thread`. A task that is cancelled while it waits doesn't learn whether its
    change was made: shield it, give it a `timeout`, whose `Unknown` has the id, or ask `outcome`. Or give it a `key`, with
    which it may be asked for again.
    """

    site: Site
    _pipeline: Pipeline
    _desks: Desks
    _ask: Ask
    _shapes: dict[tuple[str, int], Shape]
    _front: str

    def __init__(self, site: Union[Site, Path], *, timeout: Optional[float] = None, **options: Any) -> None:
        """`timeout` is that of calls which have none of their own; without it they have the site's."""
        self.timeout = timeout
        self._make: Optional[Callable[[], Site]] = None
        if isinstance(site, Site):
            if options:
                raise TypeError(f"the Site is made already: {', '.join(options)} come too late")
            self._serve(site)
        else:
            self._make = partial(Site, os.fspath(site), **options)
            nothing: Any = _Unserved()
            self.site = self._pipeline = self._desks = self._ask = nothing
            self._shapes, self._front = {}, ""

    @classmethod
    def connect(cls, path: Path, *, timeout: Optional[float] = None, **options: Any) -> AsyncSite:
        """The site behind a door, as `Site.connect` with these options: for `async with`."""
        shop = cls(path, timeout=timeout)
        shop._make = partial(Site.connect, path, **options)
        return shop

    def _serve(self, site: Site) -> None:
        self.site = site
        if self.timeout is None:
            self.timeout = site.timeout
        self._pipeline = site.pipeline
        self._shapes, self._front = site.pipeline.shapes, site.pipeline.front
        self._desks = Desks(site.pipeline)
        self._ask = self._desks.ask

    async def __aenter__(self) -> AsyncSite:
        if self._make is not None:
            self._serve(await asyncio.to_thread(self._make))
        return self

    async def __aexit__(self, *_: object) -> None:
        if self._make is not None:
            await self.close()

    async def close(self, seconds: float = 10.0) -> None:
        """As `Site.close`, in a thread: also of a site that was given."""
        await in_thread(partial(self.site.close, seconds))

    def transaction(self, seconds: Optional[float] = None, *, timeout: Optional[float] = None) -> AsyncTransaction:
        """As `Site.transaction`, for `async with`."""
        limit, site = self._own(timeout), self.site
        return AsyncTransaction(self._pipeline, site._clock, seconds, self._ask, limit, site)

    def _own(self, timeout: Optional[float]) -> Optional[float]:
        return self.timeout if timeout is None else timeout

    async def change(
        self, field: str, change: int, before: Optional[Before] = None, *, key: Optional[str] = None,
        since: Optional[str] = None, timeout: Optional[float] = None,
    ) -> str:  # fmt: skip
        """As `Site.change`. `before` is called in the loop; what it returns is awaited where it can be, as that of an
        `async def`."""
        if timeout is None:
            timeout = self.timeout
        end = NEVER if timeout is None else time.monotonic() + timeout
        if key is not None or since is not None:
            return await self._change_once(field, change, before, self._pipeline.caller_key(key, since), end)
        if before is not None:
            return await self._change_behind(before, field, change, end)
        shape = self._shapes.get((field, change)) if type(change) is int else None
        if shape is None:
            shape = self._pipeline.shape(field, change)
        while True:
            desk = self._desks.desk
            if desk is None or desk.loop is not get_running_loop():
                desk = self._desks.here()
            call = Change()
            call.shape, call.answer, call.waiter = shape, None, desk
            if timeout is None:
                await call
            else:
                await desk.in_time(call, end)
            if call.answer is None or await self._was_made(call, end):
                return self._front + call.id

    async def _change_behind(self, before: Before, field: str, change: int, end: float) -> str:
        while True:
            t = self.transaction()
            if await t.only(field, change, before, end):
                return t.id

    async def _change_once(self, field: str, change: int, before: Optional[Before], key: CallerKey, end: float) -> str:
        with self._pipeline.keys.one(key.word):
            while True:
                id = await self.transaction().once(field, change, before, key, end)
                if id is not None:
                    return id

    async def position(self, *, timeout: Optional[float] = None) -> str:
        """As `Site.position`."""
        known = self._pipeline.position()
        end = end_of(timeout, self.timeout)
        return self._pipeline.front + (await self._ask(Position(), end) if known is None else known)

    async def kept_key(self, key: str, *, since: Optional[str] = None, timeout: Optional[float] = None) -> Optional[str]:
        """As `Site.kept_key`."""
        asked = KeptKey(self._pipeline.caller_key(key, since))
        return id_of(self._pipeline, await self._ask(asked, end_of(timeout, self.timeout)))

    async def _was_made(self, change: Change, end: float) -> bool:
        """Whether it was made, though a stop left its answer out. Raises the answer where there is one."""
        try:
            result_of(change)
        except Interrupted:
            pass
        return await async_kept(self._pipeline, self._ask, self._front + change.id, end) is Outcome.COMMITTED

    async def give(self, to: int, field: str, kind: Kind, amount: int, *, timeout: Optional[float] = None) -> Statement:
        """As `Site.give`, in a thread."""
        return await in_thread(partial(self.site.give, to, field, kind, amount, timeout=self._own(timeout)))

    async def spare(self, to: int, field: str, kind: Kind, amount: int, *, timeout: Optional[float] = None) -> Spared:
        """As `Site.spare`, in a thread."""
        return await in_thread(partial(self.site.spare, to, field, kind, amount, timeout=self._own(timeout)))

    async def restate(self, to: int, field: str, kind: Kind, *, timeout: Optional[float] = None) -> Statement:
        """As `Site.restate`, in a thread."""
        return await in_thread(partial(self.site.restate, to, field, kind, timeout=self._own(timeout)))

    async def tighten(self, field: str, kind: Kind, amount: int, *, timeout: Optional[float] = None) -> int:
        """As `Site.tighten`, in a thread."""
        return await in_thread(partial(self.site.tighten, field, kind, amount, timeout=self._own(timeout)))

    async def accept(self, statement: Statement, *, timeout: Optional[float] = None) -> int:
        """As `Site.accept`."""
        call, end = self.site._acceptance(statement), end_of(timeout, self.timeout)
        try:
            return await self._ask(call, end)
        except Interrupted:
            return await async_ask_behind_stop(self._pipeline, self._ask, call, None, end)

    async def read(self, field: str, *, timeout: Optional[float] = None) -> Interval:
        """As `Site.read`."""
        return await self._ask(self.site._read(field), end_of(timeout, self.timeout))

    async def share(self, field: str, *, timeout: Optional[float] = None) -> Share:
        """As `Site.share`."""
        return await self._ask(self.site._share(field), end_of(timeout, self.timeout))

    async def newest_mark(self, *, timeout: Optional[float] = None) -> Mark:
        """As `Site.newest_mark`, in a thread."""
        return await in_thread(partial(self.site.newest_mark, timeout=self._own(timeout)))

    async def outcome(self, id: str, *, timeout: Optional[float] = None) -> Outcome:
        """As `Site.outcome`."""
        return await self._ask(self.site._kept(id), end_of(timeout, self.timeout))


def lock_folder(folder: str) -> int:
    """Takes the folder for this client: its file `site` stays locked as long as this descriptor is open. Raises `Down`."""
    path = os.path.join(folder, "site")
    held = os.open(path, os.O_RDONLY | os.O_CLOEXEC)
    try:
        fcntl.flock(held, fcntl.LOCK_EX | fcntl.LOCK_NB)
    except OSError as fault:
        os.close(held)
        raise Down(f"{path}: in use: another client serves this site", 6) from fault
    return held


_open_sites: weakref.WeakSet[Site] = weakref.WeakSet()


def _forked() -> None:
    """A fork of the client lets go of the sites: else their processes wouldn't see the end of the client that has them.
    """
    for site in tuple(_open_sites):
        site._let_go()


os.register_at_fork(after_in_child=_forked)
