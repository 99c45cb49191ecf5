"""Looks at the folders of a world again and again, and tells what it saw as values that JSON has."""
from __future__ import annotations

import math
import os
import threading
import time
from collections.abc import Callable, Sequence
from dataclasses import dataclass
from datetime import datetime, timezone
from typing import Any, NamedTuple

from escrow.errors import EscrowError
from escrow.program import Shown, show
from escrow.schema import Identity, Schema, identity
from escrow.values import Share

from .locks import state_of
from .refusals import Refusal, Tail, tail_of
from .world import Arrivals, FieldView, Flight, Way, behind, differences, fields_of, missing, overdrawn

Json = dict[str, Any]

ROUNDS = 5
"""So many times at most a look reads givers anew that were read before a gift that was accepted meanwhile."""


class Log(NamedTuple):
    """Which log it is, and how far it has come: where all are as before it isn't read again."""

    inode: int
    size: int
    changed: int


@dataclass
class Folder:
    """One folder: whose it is, what it told last, and of which log that was; or why it can't be shown."""

    path: str
    identity: Identity | None = None
    shown: Shown | None = None
    log: Log | None = None
    fault: str | None = None

    @property
    def site(self) -> int | None:
        """The number of its site, where that is known."""
        return self.identity.number if self.identity else None

    def look(self, program: str) -> bool:
        """Asks `show` anew where the log isn't the one that was shown, and tells whether it did. What can't be shown now isn't
        shown as it was."""
        try:
            self._is_of(identity(self.path))
            it = os.stat(os.path.join(self.path, "log"))
            log, self.fault = Log(it.st_ino, it.st_size, it.st_mtime_ns), None
            if self.shown is None or log != self.log:
                self.shown, self.log = show(self.path, program), log
                return True
        except EscrowError as fault:
            self.shown, self.fault = None, str(fault) or f"{self.path}: {program} can't show it"
        except OSError as fault:
            self.shown, self.fault = None, f"{fault.filename}: {fault.strerror}"
        except (KeyError, IndexError, ValueError):
            self.shown, self.fault = None, f"{self.path}: {program} shows what isn't known: is it of another version?"
        return False

    def _is_of(self, found: Identity) -> None:
        """Another folder may stand at the path: a new world's."""
        if found != self.identity:
            self.identity, self.shown = found, None


class Seen(NamedTuple):
    """What the folders show together: of the world of the first, each site once, with what is on its way by field."""

    whose: Identity | None
    shown: dict[int, Shown]
    flights: dict[str, list[Flight]]
    alarms: list[str]


class Board:
    """The folders of one world; the first that can be read tells which. A folder may be a copy: what is shown is as old as it.

    However many pages ask, between two looks lie at least `every` seconds, and `rest` times what the last one took: so a board
    over long logs, which it reads whole, takes a tenth of the time at most. `keep`: so many refusals of each field are told for
    each site. `clock` tells seconds that never go back.
    """

    def __init__(self, program: str, folders: Sequence[str], every: float = 2.0, rest: float = 9.0, keep: int = 4,
                 clock: Callable[[], float] = time.monotonic) -> None:
        self.program, self.every, self.rest, self.keep, self.clock = program, every, rest, keep, clock
        self._folders = [Folder(path) for path in folders]
        self._before: dict[int, Shown] = {}
        self._lock = threading.Lock()
        self._arrivals = Arrivals()
        self._due = -math.inf
        self._told: Json = {}

    def told(self) -> Json:
        """What was seen at the last look, or at a new one where that is too old."""
        with self._lock:
            began = self.clock()
            if began >= self._due:
                self._told = self._look()
                ended = self.clock()
                self._due = ended + max(self.every, self.rest * (ended - began))
            return self._told

    def _look(self) -> Json:
        for folder in self._folders:
            folder.look(self.program)
        seen = self._joined()
        for _ in range(ROUNDS):
            late = behind(seen.flights)
            if not any([it.look(self.program) for it in self._folders if it.site in late]):
                break
            seen = self._joined()
        alarms = seen.alarms + overdrawn(self._before, seen.shown)
        self._before = seen.shown
        return self._json(seen, alarms)

    def _joined(self) -> Seen:
        """What the folders show together."""
        whose = next((it.identity for it in self._folders if it.identity), None)
        shown: dict[int, Shown] = {}
        alarms = [alarm for folder in self._folders for alarm in self._join(folder, whose, shown)]
        return Seen(whose, shown, differences(shown), alarms)

    def _json(self, seen: Seen, alarms: list[str]) -> Json:
        tails = {it.path: tail_of(it.path, self.keep) for it in self._folders}
        schema = seen.whose.schema if seen.whose else Schema(0, ())
        fields = fields_of(schema, seen.shown, seen.flights)
        minutes = self._arrivals.look(seen.shown, (it for field in fields for it in field.flights), self.clock())
        return {
            "at": datetime.now(timezone.utc).isoformat(timespec="seconds"),
            "every": self.every,
            "world": seen.whose.world if seen.whose else None,
            "sites": schema.sites,
            "missing": missing(schema, seen.shown),
            "alarms": alarms,
            "fields": [_field(it, minutes, self._refusals(it.name, tails)) for it in fields],
            "folders": [_folder(it, tails[it.path]) for it in self._folders],
        }

    def _join(self, folder: Folder, whose: Identity | None, shown: dict[int, Shown]) -> list[str]:
        """Takes the folder's site among those of the world, or tells why not."""
        if folder.fault is not None:
            return [folder.fault]
        if folder.shown is None or folder.identity is None or whose is None:
            return []
        number = folder.identity.number
        if folder.identity.world != whose.world:
            return [f"{folder.path}: is of another world: it isn't counted"]
        if number in shown:
            return [f"{folder.path}: is of site {number}, as a folder before it: two of one site sell twice"]
        shown[number] = folder.shown
        return []

    def _refusals(self, field: str, tails: dict[str, Tail | None]) -> list[Json]:
        return [_refusal(folder, it) for folder in self._folders for it in _last(tails[folder.path]) if it.field == field]


def _last(tail: Tail | None) -> tuple[Refusal, ...]:
    return tail.last if tail else ()


def _refusal(folder: Folder, refusal: Refusal) -> Json:
    return {"site": folder.site, "asked": refusal.asked, "why": refusal.why}


def _share(share: Share) -> Json:
    return {"lower": share.lower, "raise": share.raise_}


def _field(view: FieldView, minutes: dict[Way, int], refusals: list[Json]) -> Json:
    return {
        "name": view.name, "floor": view.floor, "ceiling": view.ceiling, "value": view.value,
        "low": view.interval.lo, "high": view.interval.hi,
        "sites": [{"site": it.site, "low": it.interval.lo, "high": it.interval.hi, "share": _share(it.share),
                   "tightened": _share(it.tightened)} for it in view.sites],
        "flights": [{"from": it.way.giver, "to": it.way.receiver, "kind": it.way.kind.value, "rights": it.rights,
                     "minutes": minutes[it.way]} for it in view.flights],
        "refusals": refusals,
    }


def _folder(folder: Folder, tail: Tail | None) -> Json:
    return {
        "path": folder.path,
        "site": folder.site,
        "state": state_of(folder.path).value,
        "epoch": folder.shown.mark.epoch if folder.shown else None,
        "length": folder.shown.mark.length if folder.shown else None,
        "gone": folder.shown.gone if folder.shown else None,
        "fault": folder.fault,
        "answers": tail.answers if tail else None,
        "refused": tail.refused if tail else None,
        "refusals": [_refusal(folder, it) for it in _last(tail) if it.field is None],
    }
