"""Calls that take a total a step further: gifts, and rights that are given up. Each step is taken once, also across
stops.

One caller at a time takes a step of a total, and knows the total before it. So behind a stop the total alone tells
whether the step was taken.
"""

from __future__ import annotations

import contextlib
import threading
import time
from collections.abc import Iterator
from typing import Generic, NamedTuple, Optional, TypeVar

from .asking import ask, unknown
from .calls import Line
from .desk import NEVER
from .errors import Busy, Down, EscrowError, Interrupted, NothingGiven, ProgramError, Unknown
from .pipeline import Pipeline
from .program import show
from .values import Command, Kind, Share, Spared, Statement

K = TypeVar("K")
_OTHERS = Interrupted("another process may have served the site meanwhile, so the total doesn't tell whose step it was")


class GivenKey(NamedTuple):
    """What a total of gifts is of: the receiver, the field and the kind."""

    to: int
    field: str
    kind: Kind


class TightenedKey(NamedTuple):
    """What a total of rights given up is of."""

    field: str
    kind: Kind


class Totals(Generic[K]):
    """Totals as last answered, and who takes a step of one."""

    def __init__(self) -> None:
        self._lock = threading.Lock()
        self._held: dict[K, threading.Lock] = {}
        self._known: dict[K, tuple[int, int]] = {}
        self._doubted: set[K] = set()

    @contextlib.contextmanager
    def hold(self, key: K, end: float) -> Iterator[None]:
        """Keeps others from a step of this total: waits for whoever takes one. A step that is in doubt may be taken yet, and one
        that nobody has heard of, so the total isn't known behind it. Raises `Busy` where it isn't free by this end."""
        with self._lock:
            held = self._held.setdefault(key, threading.Lock())
        if not held.acquire(timeout=_seconds_to(end)):
            raise Busy("another step of this total isn't done in time: nothing was begun")
        try:
            yield
        except BaseException as fault:
            if isinstance(fault, Unknown) or not isinstance(fault, EscrowError):  # its thread was interrupted
                self._known.pop(key, None)
                self._doubted.add(key)
            raise
        finally:
            held.release()

    def is_doubted(self, key: K) -> bool:
        """Whether a step may be under way of which nobody waits to hear."""
        return key in self._doubted

    def get(self, key: K, era: int) -> Optional[int]:
        """The total, where it was told in this era."""
        known, total = self._known.get(key, (-1, 0))
        return total if known == era else None

    def put(self, key: K, era: int, total: int) -> None:
        """The total as it was told."""
        self._known[key] = era, total
        self._doubted.discard(key)


def _seconds_to(end: float) -> float:
    """For a lock: how long to wait for it."""
    return -1.0 if end == NEVER else min(max(0.0, end - time.monotonic()), threading.TIMEOUT_MAX)


class Steps:
    """Takes the steps of one site."""

    def __init__(self, pipeline: Pipeline, folder: str, program: str) -> None:
        self._pipeline, self._folder, self._program = pipeline, folder, program
        self._given: Totals[GivenKey] = Totals()
        self._tightened: Totals[TightenedKey] = Totals()

    def give(self, key: GivenKey, amount: int, end: float = NEVER) -> Spared:
        """Gives so many rights."""

        def read(told: list[str]) -> Spared:
            return Spared(amount, self._statement(key, int(told[1])))

        return self._gift(key, Line(Command.GIVE, self._line(Command.GIVE, key, f" {amount}"), read, again=False), end)

    def spare(self, key: GivenKey, amount: int, end: float = NEVER) -> Spared:
        """Gives at most so many rights, and at most half of those that are free."""

        def read(told: list[str]) -> Spared:
            return Spared(int(told[1]), self._statement(key, int(told[2])))

        return self._gift(key, Line(Command.SPARE, self._line(Command.SPARE, key, f" {amount}"), read, again=False), end)

    def _gift(self, key: GivenKey, line: Line[Spared], end: float) -> Spared:
        with self._given.hold(key, end):
            while True:
                era = self._pipeline.era
                before = self._total_given(key, era, end)
                try:
                    spared = ask(self._pipeline, line, end)
                except Interrupted:
                    spared = self._found(key, before, era, end)
                self._given.put(key, era, spared.statement.total)
                if spared.amount > 0:
                    return spared

    def _total_given(self, key: GivenKey, era: int, end: float) -> int:
        total = self._given.get(key, era)
        if total is None:
            total = self._restated(key, end)
            self._given.put(key, era, total)
        return total

    def _found(self, key: GivenKey, before: int, era: int, end: float) -> Spared:
        """What a stop left of a gift: nothing where it wasn't given."""
        with self._behind_a_stop():
            total = self._restated(key, end)
        self._check(era)
        return Spared(total - before, self._statement(key, total))

    @contextlib.contextmanager
    def _behind_a_stop(self) -> Iterator[None]:
        try:
            yield
        except (Down, Busy, ProgramError) as fault:
            raise unknown(self._pipeline, fault) from fault

    def _check(self, era: int) -> None:
        if era != self._pipeline.era:
            raise unknown(self._pipeline, _OTHERS)

    def _restated(self, key: GivenKey, end: float) -> int:
        try:
            return self.restate(key, end).total
        except NothingGiven:
            return 0

    def restate(self, key: GivenKey, end: float = NEVER) -> Statement:
        """The statement of all that was given so far."""

        def read(told: list[str]) -> Statement:
            return self._statement(key, int(told[1]))

        return ask(self._pipeline, Line(Command.RESTATE, self._line(Command.RESTATE, key), read, again=True), end)

    def _statement(self, key: GivenKey, total: int) -> Statement:
        return Statement(self._pipeline.number, key.to, key.field, key.kind, total)

    def _line(self, command: Command, key: GivenKey, amount: str = "") -> str:
        return f"{self._pipeline.number} {command.value} {key.to} {key.field} {key.kind.value}{amount}"

    def tighten(self, key: TightenedKey, amount: int, end: float = NEVER) -> int:
        """Gives so many rights up: all that were given up so far."""
        line = f"{self._pipeline.number} tighten {key.field} {key.kind.value} {amount}"
        call = Line(Command.TIGHTEN, line, lambda told: int(told[1]), again=False)
        with self._tightened.hold(key, end):
            while True:
                era = self._pipeline.era
                before = self._total_tightened(key, era, end)
                try:
                    total = ask(self._pipeline, call, end)
                except Interrupted:
                    total = self._found_tightened(key, era, end)
                self._tightened.put(key, era, total)
                if total > before:
                    return total

    def _total_tightened(self, key: TightenedKey, era: int, end: float) -> int:
        total = self._tightened.get(key, era)
        if total is None:
            if self._tightened.is_doubted(key):
                self.share(key.field, end)  # it is answered behind the step in doubt: then the log has it
            total = self._shown(key, end)
            self._tightened.put(key, era, total)
        return total

    def _found_tightened(self, key: TightenedKey, era: int, end: float) -> int:
        with self._behind_a_stop():
            self.share(key.field, end)  # it is answered once the site stands again: then the log has what there was
            total = self._shown(key, end)
        self._check(era)
        return total

    def _shown(self, key: TightenedKey, end: float) -> int:
        seconds = None if end == NEVER else max(0.0, end - time.monotonic())
        return show(self._folder, self._program, timeout=seconds).fields[key.field].tightened.of(key.kind)

    def share(self, field: str, end: float = NEVER) -> Share:
        """The free rights."""
        return ask(self._pipeline, share(self._pipeline.number, field), end)


def share(number: int, field: str, again: bool = True) -> Line[Share]:
    """Asks for the free rights."""
    line = f"{number} share {field}"
    return Line(Command.SHARE, line, lambda told: Share(int(told[1]), int(told[2])), again=again, field=field)
