"""Carries the statements of a site to the others and theirs to it, and gets rights of others when the site is short."""
from __future__ import annotations

import asyncio
import logging
import os
import queue
import threading
import time
from dataclasses import dataclass
from enum import Enum, auto
from typing import Callable, Optional, Sequence, Union

from escrow import AsyncSite, Down, Forged, Kind, Mark, NothingGiven, Refused, Short, Site, Statement
from escrow.asking import end_of
from escrow.desk import NEVER
from escrow.metrics import Metrics
from escrow.refused import keep_copy, keep_mark
from escrow.schema import identity

from .counts import Counts, count_in
from .marks import marks_of
from .medium import Medium
from .messages import Ask, Garbage, Marked, Message, Shares, Topics
from .policy import Policy

AWAY, FRESH = 3, 1.25                                   # after so many looks a site is away, or may stand still
CLOSING = 10.0                                          # seconds that the end waits for a site which stands still
Place = tuple[str, Kind]                                # a field, and the kind of its rights
Total = tuple[int, str, Kind]                           # the other site, the field, the kind
log = logging.getLogger("escrow.carrier")


class Signal(Enum):
    """What the worker is told beside messages."""

    OPENED = auto()                                     # the medium is connected
    STARTED = auto()                                    # the site stands anew
    REFUSED = auto()                                    # the site's log is an older copy: no more is carried
    CLOSE = auto()


@dataclass(frozen=True)
class Heard:
    """A message, and when it came (by `time.monotonic`)."""

    message: Message
    at: float


Event = Union[Heard, Statement, Signal]


@dataclass
class Report:
    """What another site last told of its free rights, when that came, and until when what it told doesn't know yet
    what moved."""

    shares: Shares
    at: float
    moved: float = 0.0


class Carrier:
    """Joins a site to the others over a medium. Close it before the site.

    A statement is told anew each time that the medium is connected, and every `refresh` seconds: so the medium may
    lose all that it has. A receiver hands each statement that may be new to its site, which alone judges it: a
    forged total, however large, hides no true one. After a start of the site all that it ever gave is asked of it
    again. Never carry for a site that isn't synced: a gift that is told and then lost is one that nobody gave.

    It tells how far the site's log has come, for the site's own next start. Where the medium has such a mark that is
    newer than the log was when the `Site` was made, the log is an older copy, and would sell again what is sold. Then
    the site is closed, and `Down` with `status` 3 is raised. It waits for that mark at most `wait` seconds, and only
    until it comes: `found_mark`. One that comes later, as where a broker was away, closes the site then: `last_fault`
    tells why, and so does each call of the site.

    Any thread may call `change` and `fetch`; they wait for at most `policy.asks` times `policy.patience`, or the
    `patience` of a medium that needs more, as `Folder` does, and as long as the site is down; a `timeout` in seconds
    ends that. `AsyncCarrier` is for tasks. What it counts stands in `counts`, and in `metrics` too
    where the site's are given: `escrow_carrier_forged_total` and so on, and `escrow_carrier_connected`.

    A `Site` behind a door (`Site.connect`) is a ValueError: it has no folder here."""

    def __init__(self, site: Site, medium: Medium, policy: Policy = Policy(), refresh: float = 10.0,
                 metrics: Optional[Metrics] = None, wait: float = 2.0) -> None:
        self.site, self.medium, self.policy, self.refresh = site, medium, policy, refresh
        self.counts = Counts()
        self._fault: Optional[Exception] = None
        self.found_mark: Optional[Mark] = None
        """The mark that the medium had of this site, by an earlier start; None where none came yet."""
        if site.pid is None and not os.path.isdir(site.folder):
            raise ValueError(f"{site.folder}: a carrier reads the folder of its site, and this one is behind a door: nothing carries "
                             f"for it yet; sell by one process, with a Site of the folder and its carrier, where rights are to move")
        world = identity(os.fspath(site.folder))
        self._topics = Topics(world.world, world.schema)
        self._others = [it for it in range(world.schema.sites) if it != site.number]
        self._fields = [it.name for it in world.schema.fields]
        self._places = [(name, kind) for name in self._fields for kind in Kind]
        self._events: queue.SimpleQueue[Event] = queue.SimpleQueue()
        self._told: dict[Total, Statement] = {}         # what this site gave: the greatest totals that it answered
        self._accepted: dict[Total, int] = {}           # the greatest totals that it answered to have accepted
        self._own, self._answers = Shares(site.number, {}), -1
        self._marks, self._mark, self._wait = marks_of(site), site.mark, wait
        self._has_told = False                          # its mark
        self._newer: Optional[Mark] = None              # a mark by which this log is an older copy
        self._opened_at: Optional[float] = None         # when the medium was connected first
        self._is_looked_up = threading.Event()          # whether the medium told its mark, or that it has none
        self._moved = dict.fromkeys(self._places, time.monotonic())
        self._changed = threading.Condition()           # guards what follows
        self._reports: dict[int, Report] = {}
        self._gains = dict.fromkeys(self._places, 0)
        self._failed = dict.fromkeys(self._places, -self._patience)
        self._fetching = {place: threading.Lock() for place in self._places}
        self._worker = threading.Thread(target=self._work, name=f"carrier {site.number}", daemon=True)
        if metrics is not None:
            count_in(metrics, self.counts, medium, self._others, self._fields)
        self._begin(f"escrow-{world.world[:16]}-{site.number}")

    def _begin(self, name: str) -> None:
        self.site.on_statement.append(self._events.put)
        self.site.on_start.append(self._started)
        self._started()
        try:
            self._open(name)
        except BaseException:
            self._unhook()
            raise
        self._worker.start()

    def _open(self, name: str) -> None:
        """Opens the medium, and looks up how far the log of the site has to have come. Raises `Down` where it
        hasn't."""
        number = self.site.number
        self.medium.open(name, [*self._topics.filters(number), self._topics.mark(number)], self._hear, self._opened)
        self._is_looked_up.wait(self._wait)
        if self._newer is not None:
            self._end_site(self._newer)
            self.medium.close()
            raise self._marks.refusal(self.site.folder, self._newer)
        if self.found_mark is None:
            is_new = self._marks.start.length == 0
            log.log(logging.INFO if is_new else logging.WARNING,
                    "%s: no mark of this site came from its medium: an older copy of its log isn't seen, unless one "
                    "comes later", self.site.folder)

    @property
    def last_fault(self) -> Optional[Exception]:
        """Why the site was closed as an older copy; else why no messages go out, a `ConnectionError`, as long as that is so;
        else the last fault of a command that the site didn't answer, or None."""
        told = "" if self._newer is not None else getattr(self.medium, "last_fault", "")
        return ConnectionError(told) if told else self._fault

    @property
    def _patience(self) -> float:
        """Seconds in which an asked site has to answer."""
        return max(self.policy.patience, getattr(self.medium, "patience", 0.0))

    # ---- for who sells

    def change(self, field: str, change: int, *, timeout: Optional[float] = None) -> str:
        """`Site.change`, with rights of other sites where its own are short. Raises what that raises: `Short` where the
        others had too few, couldn't be reached, or not in time."""
        end = end_of(timeout, self.site.timeout)
        while True:                                     # somebody else here may take what was fetched
            try:
                return self.site.change(field, change, timeout=end - time.monotonic())
            except Short:
                if not self.fetch(field, _needed(change), abs(change), timeout=end - time.monotonic()):
                    raise

    def fetch(self, field: str, kind: Kind, amount: int, *, timeout: Optional[float] = None) -> bool:
        """Gets rights from other sites, until this one has so many of the kind free. False where they don't come, or not
        in time; at once, with nobody asked, where all that others told of is too little. One thread at a time asks about
        a kind of a field: the next finds what it got. Raises KeyError where the world has no such field, `Down`, and
        `Busy` where the site itself doesn't tell in time what it has."""
        place, end = (field, kind), end_of(timeout, self.site.timeout)
        fetching = self._fetching[place]
        if not fetching.acquire(timeout=max(0.0, min(end - time.monotonic(), threading.TIMEOUT_MAX))):
            return False
        try:
            return self._fetch(place, amount, end)
        finally:
            fetching.release()

    def _fetch(self, place: Place, amount: int, end: float) -> bool:
        if self._has(place, amount, end):
            return True
        if not self.medium.is_connected or time.monotonic() - self._failed[place] < self._patience:
            return False                                # somebody else has just asked them all
        if self._is_beyond(place, amount, end):
            return False
        if self._ask_others(place, amount, end):
            return True
        if time.monotonic() < end:
            self._failed[place] = time.monotonic()
        return False

    def known(self, field: str, kind: Kind) -> dict[int, Optional[int]]:
        """How many rights of a kind each other site had free, as it told last, at most three `refresh` ago; None
        where it has told nothing yet. A site that has told nothing since then is left out: it is away."""
        with self._changed:
            return self._known((field, kind), AWAY)

    def close(self) -> None:
        """Ends it, once what came so far is handed to the site, and tells how far the site's log has come. It waits at
        most 10 seconds for a site that stands still. A second time does nothing."""
        if self._started not in self.site.on_start:
            return
        self._unhook()
        self._events.put(Signal.CLOSE)
        self._worker.join(CLOSING)
        self.medium.close()

    def _unhook(self) -> None:
        self.site.on_start.remove(self._started)
        self.site.on_statement.remove(self._events.put)

    def __enter__(self) -> Carrier:
        return self

    def __exit__(self, *_: object) -> None:
        self.close()

    # ---- when short

    def _has(self, place: Place, amount: int, end: float) -> bool:
        return self._share(place, end) >= amount

    def _share(self, place: Place, end: float) -> int:
        return self.site.share(place[0], timeout=end - time.monotonic()).of(place[1])

    def _ask_others(self, place: Place, amount: int, end: float) -> bool:
        asked: set[int] = set()                         # in vain, since rights came last
        for _ in range(self.policy.asks):
            with self._changed:
                giver = self.policy.giver(self._known(place, AWAY), asked)
            if giver is None or time.monotonic() >= end:
                return False
            if not self._ask(giver, place, amount, end):
                asked.add(giver)
            elif self._has(place, amount, end):
                return True
            else:
                asked.clear()
            if self._is_beyond(place, amount, end):
                return False
        return False

    def _is_beyond(self, place: Place, amount: int, end: float) -> bool:
        """Whether this site and all that can be asked have less, as they told last. Not where one has told nothing
        yet."""
        with self._changed:
            known = list(self._known(place, AWAY).values())
        shares = [it for it in known if it is not None]     # and then the own: what moves between counts twice
        return len(shares) == len(known) and sum(shares) + self._share(place, end) < amount

    def _known(self, place: Place, looks: float) -> dict[int, Optional[int]]:
        since = time.monotonic() - looks * self.refresh
        reports = ((site, self._reports.get(site)) for site in self._others)
        return {site: None if report is None else report.shares.of(*place) for site, report in reports
                if report is None or report.at > since}

    def _ask(self, giver: int, place: Place, amount: int, end: float) -> bool:
        """Whether rights of that kind came from anywhere, in the time that the asked site has."""
        with self._changed:
            gains, report = self._gains[place], self._reports.get(giver)
            self._moved[place] = time.monotonic()
            self._publish(Ask(self.site.number, giver, *place, self.policy.wanted(amount)), False)
            self.counts.asked += 1

            def is_answered() -> bool:
                told = self._reports.get(giver)
                has_none = told is not report and told is not None and told.shares.of(*place) == 0
                return self._gains[place] != gains or has_none
            self._changed.wait_for(is_answered, min(self._patience, end - time.monotonic()))
            return self._gains[place] != gains

    # ---- what comes: the threads of the site and of the medium only note it

    def _started(self) -> None:
        self._events.put(Signal.STARTED)

    def _opened(self) -> None:
        if self._opened_at is None:
            self._opened_at = time.monotonic()
        if getattr(self.medium, "kept_comes_first", False):
            self._is_looked_up.set()
        self._events.put(Signal.OPENED)

    def _hear(self, topic: str, payload: bytes) -> None:
        self.counts.heard += 1
        try:
            message = self._topics.read(topic, payload)
        except Garbage:
            self.counts.garbage += 1
            return
        if isinstance(message, Marked):
            self._hear_mark(message.mark)
        else:
            self._events.put(Heard(message, time.monotonic()))

    def _hear_mark(self, mark: Mark) -> None:
        """Where it tells of a newer log than this one was, nothing more is sold from now on."""
        if self.found_mark is None and not self._has_told:
            self.found_mark = mark
        if self._newer is None and self._marks.is_newer(mark):
            self._newer = mark
            self._fault = fault = self._marks.refusal(self.site.folder, mark)
            log.error("%s", fault)
            self.site.pipeline.die(fault)
            self._events.put(Signal.REFUSED)
        self._is_looked_up.set()

    # ---- the worker

    def _work(self) -> None:
        due = time.monotonic()
        while self._newer is None and (event := self._next(due)) is not Signal.CLOSE:
            self._try(lambda: self._take(event))
            if time.monotonic() >= due:
                self._try(self._look)
                due = time.monotonic() + self.refresh
        if self._newer is not None:
            self._end_site(self._newer)
        elif self.site.up:
            self._try(self._tell_last)

    def _try(self, act: Callable[[], None]) -> None:
        try:
            act()
        except Exception as fault:                      # mostly that the site is down: it is told or asked again later
            self.counts.faults += 1
            self._fault = fault

    def _next(self, due: float) -> Optional[Event]:
        """What comes next; none where the next look is due before."""
        try:
            return self._events.get(timeout=max(0.0, due - time.monotonic()))
        except queue.Empty:
            return None

    def _take(self, event: Optional[Event]) -> None:
        if event is Signal.OPENED:
            self.counts.connects += 1
            self._tell_all()
            self._tell_shares(self._fields)
            self._tell_mark(self._mark)
        elif event is Signal.STARTED:
            self._restate()
            self._tell_mark(self.site.mark)
        elif isinstance(event, Statement):
            self._tell(event)
        elif isinstance(event, Heard):
            self._take_message(event)

    def _take_message(self, heard: Heard) -> None:
        message = heard.message
        if isinstance(message, Shares):
            self._note(message, heard.at)
        elif isinstance(message, Statement) and message.to == self.site.number and message.giver != self.site.number:
            self._accept(message, heard.at)
        elif isinstance(message, Ask) and message.giver == self.site.number and message.asker != self.site.number:
            if time.monotonic() - heard.at < self._patience:
                self._spare(message)

    def _note(self, shares: Shares, at: float) -> None:
        if shares.site != self.site.number:
            with self._changed:
                before = self._reports.get(shares.site)
                if before is None or at >= before.moved:
                    self._reports[shares.site] = Report(shares, at)
                    self._changed.notify_all()

    def _accept(self, given: Statement, at: float) -> None:
        total = given.giver, given.field, given.kind
        if given.total <= self._accepted.get(total, 0):
            self.counts.stale += 1
            return
        try:
            gain = self.site.accept(given)
        except Forged as fault:
            self._count_forged(given, fault)
            return
        except Refused:
            self.counts.garbage += 1
            return
        self._accepted[total] = given.total
        if gain == 0:
            self.counts.stale += 1
            return
        self.counts.accepted += 1
        self.counts.gained += gain
        place = given.field, given.kind
        with self._changed:
            self._moved[place] = time.monotonic()
            self._gains[place] += 1
            self._expect(given.giver, place, -gain, at)
            self._changed.notify_all()
        self._tell_shares([given.field])

    def _count_forged(self, given: Statement, fault: Forged) -> None:
        self.counts.forged += 1
        self.counts.forged_by[given.giver, given.field] += 1
        log.error("%s: a forged statement: that site %s gave %s rights to %s %s, where there is room for %s: see who "
                  "can write to its topics", self.site.folder, given.giver, given.total, given.kind.value, given.field,
                  fault.told)

    def _spare(self, ask: Ask) -> None:
        place = ask.field, ask.kind
        self._moved[place] = time.monotonic()
        try:
            spared = self.site.spare(ask.asker, ask.field, ask.kind, ask.amount)
            self.counts.spared += spared.amount
            self._tell(spared.statement)
            with self._changed:
                self._expect(ask.asker, place, spared.amount, time.monotonic())
        except Refused:
            pass                                        # it has none itself: its shares tell so
        self._tell_shares([ask.field])

    def _expect(self, site: int, place: Place, amount: int, at: float) -> None:
        """A site has so many more, or less, until it tells anew, later than this: so what is on its way isn't given
        twice."""
        report = self._reports.get(site)
        if report is not None:
            report.shares.add(*place, amount)
            report.moved = at

    # ---- what goes

    def _publish(self, message: Message, is_kept: bool) -> None:
        topic, payload = self._topics.spelled(message)
        self.medium.publish(topic, payload, is_kept)

    def _tell(self, statement: Statement) -> None:
        """Tells a statement, where it tells more than those before."""
        total = statement.to, statement.field, statement.kind
        if total not in self._told or statement.total > self._told[total].total:
            self._told[total] = statement
            self._publish(statement, True)

    def _tell_all(self) -> None:
        for given in self._told.values():
            self._publish(given, True)

    def _tell_shares(self, fields: Sequence[str]) -> None:
        """Tells what is free here; asks the site anew for these fields."""
        for field in fields:
            self._own.shares[field] = self.site.share(field)
        if len(self._own.shares) == len(self._fields):
            self._publish(self._own, True)

    def _restate(self) -> None:
        """Asks the site for all that it ever gave."""
        for to in self._others:
            for field, kind in self._places:
                try:
                    self._tell(self.site.restate(to, field, kind))
                except NothingGiven:
                    pass

    def _tell_last(self) -> None:
        """What was told last, so that a medium which was away is seen to be back, and then the mark."""
        self._tell_shares([])
        self._renew_mark()

    def _renew_mark(self) -> None:
        self._tell_mark(self.site.newest_mark())

    def _tell_mark(self, mark: Mark) -> None:
        """Tells how far the log has come: never less than before, and not before the medium had time to bring the mark
        that it keeps, lest that is lost."""
        self._mark, opened = mark, self._opened_at
        if self._newer is None and self.medium.is_connected and opened is not None:
            if self._is_looked_up.is_set() or time.monotonic() - opened >= self._wait / 2:
                self._has_told = True
                self._publish(Marked(self.site.number, self._marks.tell(mark)), True)

    def _end_site(self, newer: Mark) -> None:
        """Ends a site whose log is an older copy. Its folder and the medium keep the mark by which it is seen."""
        folder, mark = self.site.folder, self._marks.joined(newer)
        self._keep_in_folder(lambda: keep_mark(folder, mark))
        self._publish(Marked(self.site.number, mark), True)
        self.site.pipeline.die(self._marks.refusal(folder, newer))
        self.site.close()
        self._keep_in_folder(lambda: keep_copy(folder, self._marks.start.epoch + 1, self.site.epoch))

    def _keep_in_folder(self, keep: Callable[[], None]) -> None:
        try:
            keep()
        except (OSError, Down) as fault:
            log.error("%s: the mark that refuses this older log isn't kept in its folder: %s: put the newest log back before "
                      "the next start: each one makes this log longer, until it passes that mark", self.site.folder, fault)

    def _look(self) -> None:
        """Tells all anew, and evens out what is quiet. The site isn't asked where it has answered nothing since the
        last look."""
        answers = self.site.counts.answers
        if answers == self._answers:
            self._tell_shares([])
            self._tell_mark(self._mark)
        else:
            self._tell_shares(self._fields)
            self._renew_mark()
            self._answers = answers + len(self._fields) + 1     # what came between is of the next look
        self._tell_all()
        for place in self._places if self.medium.is_connected else []:
            if time.monotonic() - self._moved[place] >= self.policy.quiet:
                self._even_out(place)

    def _even_out(self, place: Place) -> None:
        with self._changed:
            shares = {site: share for site, share in self._known(place, FRESH).items() if share is not None}
        shares[self.site.number] = self._own.of(*place)
        for gift in self.policy.gifts(self.site.number, shares):
            self._moved[place] = time.monotonic()
            try:
                self._tell(self.site.give(gift.to, *place, gift.amount))
            except Short:                               # it was sold meanwhile
                continue
            self.counts.evened += gift.amount
            with self._changed:
                self._expect(gift.to, place, gift.amount, time.monotonic())
            self._tell_shares([place[0]])


class AsyncCarrier:
    """The same carrier for the tasks of one event loop: they sell in the loop what the site has, and wait for
    rights of others in a thread. Make the `Carrier` before the loop runs: it waits for the mark of its site."""

    def __init__(self, carrier: Carrier, site: AsyncSite) -> None:
        self._carrier, self._site = carrier, site

    async def change(self, field: str, change: int, *, timeout: Optional[float] = None) -> str:
        """As `Carrier.change`."""
        end = end_of(timeout, self._site.timeout)
        while True:
            left = None if end == NEVER else end - time.monotonic()
            try:
                return await self._site.change(field, change, timeout=left)
            except Short:
                if not await self.fetch(field, _needed(change), abs(change), timeout=left):
                    raise

    async def fetch(self, field: str, kind: Kind, amount: int, *, timeout: Optional[float] = None) -> bool:
        """As `Carrier.fetch`."""
        limit = self._site.timeout if timeout is None else timeout
        return await asyncio.to_thread(self._carrier.fetch, field, kind, amount, timeout=limit)


def _needed(change: int) -> Kind:
    return Kind.LOWER if change < 0 else Kind.RAISE


def last_mark(folder: str, medium: Medium, seconds: float = 2.0) -> Optional[Mark]:
    """The mark that the site of a folder told last, for `Site(folder, not_before=..)`: an older log is then
    refused. None where none came in this time, as where the medium has lost it: that is no leave to serve a copy.
    Closes the medium."""
    number, world, schema = identity(os.path.abspath(folder))
    topics, marks, came = Topics(world, schema), [Mark(0, 0)], threading.Event()

    def hear(topic: str, payload: bytes) -> None:
        try:
            message = topics.read(topic, payload)
        except Garbage:
            return
        if isinstance(message, Marked) and message.site == number:
            marks.append(message.mark)
            came.set()
    medium.open(f"escrow-{world[:16]}-{number}-mark", [topics.mark(number)], hear, lambda: None)
    came.wait(seconds)
    medium.close()
    return marks[-1] if came.is_set() else None
