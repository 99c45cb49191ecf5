"""A world of shops for tests: sites with their carriers, sellers that note what they were told, and what all of it
has to come to in the end, by the sellers' notes and by docs/FORMATS.md alone."""
from __future__ import annotations

import random
import threading
import time
from collections.abc import Iterable
from enum import Enum
from typing import NamedTuple, Optional

import programs
from escrow import Down, Lost, Over, Short, Site, Unknown
from escrow_carrier import Carrier, Medium, Policy

Changes = tuple[tuple[str, int], ...]


class End(Enum):
    """How a sale ended, as its seller was told."""

    COMMITTED = "committed"
    SHORT = "short"
    GIVEN_UP = "given up"                               # by the seller, or by its time limit
    LOST = "lost"                                       # a stop: told as not committed
    UNKNOWN = "unknown"
    DOWN = "down"


class Note(NamedTuple):
    """What a seller was told: when it asked (by time.monotonic), how long it waited, in seconds, how it ended, the
    id of the transaction where it knows one, and what it asked for."""

    at: float
    waited: float
    end: End
    id: str
    changes: Changes


class Shop:
    """A site with its carrier."""

    def __init__(self, folder: str, program: str, medium: Medium, policy: Policy, refresh: float) -> None:
        self.folder = folder
        self.site = Site(folder, program=program, trace=True)
        self.carrier = Carrier(self.site, medium, policy, refresh)

    def close(self) -> None:
        """Ends both."""
        self.carrier.close()
        self.site.close()


class Seller(threading.Thread):
    """Sells and takes back at a shop, until it is stopped: with a pause of up to so many seconds between two acts,
    of which this part are sales."""

    def __init__(self, shop: Shop, fields: list[str], dice: random.Random, pause: float, sales: float) -> None:
        super().__init__(daemon=True)
        self.notes: list[Note] = []
        self.fault: Optional[BaseException] = None
        self._shop, self._fields, self._dice, self._pause, self._sales = shop, fields, dice, pause, sales
        self._stopped = threading.Event()

    def stop(self) -> None:
        """No more sales."""
        self._stopped.set()

    def run(self) -> None:
        """Sells."""
        try:
            while not self._stopped.wait(self._dice.random() * self._pause):
                self._sell()
        except BaseException as fault:                  # a test asks for it
            self.fault = fault
            raise

    def _sell(self) -> None:
        act = self._dice.choices((self._change, self._bundle, self._reserve), (80, 12, 8))[0]
        changes = self._wanted(1 if act == self._change else 2)
        began, held = time.monotonic(), [""]
        try:
            end = act(changes, held)
        except Short:
            end = End.SHORT
        except (Lost, Over):
            end = End.LOST
        except Unknown as fault:
            end, held[0] = End.UNKNOWN, fault.id or held[0]
        except Down:
            end = End.DOWN
        self.notes.append(Note(began, time.monotonic() - began, end, held[0], changes))

    def _wanted(self, count: int) -> Changes:
        names = self._dice.sample(self._fields, count)
        return tuple((name, self._dice.randint(1, 9) * self._sign()) for name in names)

    def _sign(self) -> int:
        return -1 if self._dice.random() < self._sales else 1

    def _change(self, changes: Changes, held: list[str]) -> End:
        held[0] = self._shop.carrier.change(*changes[0])
        return End.COMMITTED

    def _bundle(self, changes: Changes, held: list[str]) -> End:
        """Two fields at once; one in eight is given up."""
        class GivenUp(Exception):
            """The buyer goes away."""
        try:
            with self._shop.site.transaction() as it:
                for field, change in changes:
                    it.change(field, change)
                    held[0] = it.id or ""
                if self._dice.random() < 0.125:
                    raise GivenUp
        except GivenUp:
            return End.GIVEN_UP
        return End.COMMITTED

    def _reserve(self, changes: Changes, held: list[str]) -> End:
        """Set aside for at most a twentieth of a second, and paid in time or not."""
        it = self._shop.site.transaction(0.05)
        for field, change in changes:
            it.change(field, change)
            held[0] = it.id or ""
        time.sleep(self._dice.choice((0.0, 0.02, 0.2)))
        it.commit()
        return End.COMMITTED


def sell_out(shop: Shop, field: str, left: int, seconds: float) -> list[Note]:
    """Sells all that is left of a field, wherever its rights are, in at most so many seconds, and then tries to
    sell one more."""
    notes, size, end = [], 4_096, time.monotonic() + seconds
    while time.monotonic() < end:
        began = time.monotonic()
        size = max(1, min(size, left))
        try:
            name = shop.carrier.change(field, -size)
        except Short:
            if left <= 0:
                break
            size //= 2
            continue
        notes.append(Note(began, time.monotonic() - began, End.COMMITTED, name, ((field, -size),)))
        left, size = left - size, size * 2
    return notes


class Log(NamedTuple):
    """The commits of a site, by id, with their changes in order."""

    commits: dict[str, Changes]


def log_of(folder: str, fields: list[str]) -> Log:
    """Reads the commits of a log, by docs/FORMATS.md. Raises ValueError where one id stands there twice."""
    front, records = programs.log_of(folder)
    commits: dict[str, Changes] = {}
    for words in records:
        if words[0] == "C":
            name = f"{front}{words[1]}.{words[2]}"
            if name in commits:
                raise ValueError(f"{folder}: {name} is committed twice")
            commits[name] = tuple((fields[int(words[at])], int(words[at + 1])) for at in range(3, len(words), 2))
    return Log(commits)


def faults_of(log: Log, notes: Iterable[Note]) -> list[str]:
    """Where a log isn't what the sellers of its site were told."""
    told: dict[str, Note] = {}
    faults = []
    for note in notes:
        if not note.id:
            faults += [f"no id: {note}"] * (note.end is End.COMMITTED)
            continue
        if note.id in told:
            faults.append(f"one id twice: {note} {told[note.id]}")
        told[note.id] = note
        if note.end is End.COMMITTED and log.commits.get(note.id) != note.changes:
            faults.append(f"told as committed, and in the log {log.commits.get(note.id)}: {note}")
        if note.end not in (End.COMMITTED, End.UNKNOWN) and note.id in log.commits:
            faults.append(f"told as {note.end.value}, and in the log {log.commits[note.id]}: {note}")
    return faults + [f"no note tells of {name}: {changes}" for name, changes in log.commits.items() if name not in told]
