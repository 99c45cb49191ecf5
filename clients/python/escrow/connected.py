"""A site behind a door: `Site.connect(PATH)`."""

from __future__ import annotations

import os
import time
from collections.abc import Callable
from typing import NoReturn, Optional

from .asking import ask, end_of, is_kept, unknown
from .calls import Newest
from .connector import Connector, NoWay, Way, find_way, refusal
from .dropped import closer
from .errands import Errands
from .errors import Down, Interrupted
from .gauges import Gauges
from .holding import Holding
from .numbers import SHORT, line_id
from .pipeline import Watch
from .schema import Path
from .shared import SharedPipeline
from .site import OLDER, Site, keep_watch, weakly
from .steps import GivenKey, Steps, TightenedKey
from .supervisor import LOOK, Backoff
from .values import Mark, Statement

_OTHERS = Interrupted("others give and tighten through this door too, so the total doesn't tell whose step it was")


class SharedSteps(Steps):
    """Steps of totals that others take too: behind a stop a total tells nothing of who took one."""

    def _total_given(self, key: GivenKey, era: int, end: float) -> int:
        return 0

    def _found(self, key: GivenKey, before: int, era: int, end: float) -> NoReturn:
        raise unknown(self._pipeline, _OTHERS)

    def _total_tightened(self, key: TightenedKey, era: int, end: float) -> int:
        return 0

    def _found_tightened(self, key: TightenedKey, era: int, end: float) -> NoReturn:
        raise unknown(self._pipeline, _OTHERS)


class ConnectedSite(Site):
    """One site, behind a door that other processes of the machine use too."""

    def __init__(
        self,
        path: Path,
        *,
        not_before: Optional[Mark] = None,
        last_id: Optional[str] = None,
        metrics: Optional[Watch] = None,
        wait: float = 10.0,
        patience: float = 30.0,
        backoff: Backoff = Backoff(),
        timeout: Optional[float] = None,
        most_waiting: Optional[int] = None,
        held: Optional[float] = 60.0,
    ) -> None:
        """As `Site.connect`."""
        end = time.monotonic() + wait
        self.folder = os.path.abspath(os.fspath(path))
        """The path of the door."""
        way = _first_way(self.folder, end, not_before, last_id, backoff)
        self.number, self.world, self.schema = way.hello.site
        self.metrics, self.timeout = metrics, timeout
        self.on_statement: list[Callable[[Statement], object]] = []
        self.on_start: list[Callable[[], object]] = []
        self._hooks, self._clock = Errands(f"escrow hooks {self.number}"), Errands(f"escrow time limits {self.number}")
        self._is_fork, self._folder_lock = False, -1
        names = frozenset(field.name for field in self.schema.fields)
        holding, issued = Holding(held, self._clock.after, self.folder), weakly(self._issued)
        shared = SharedPipeline(self.number, self.world, names, issued, metrics, holding, most_waiting)
        self.pipeline = shared
        self._steps = SharedSteps(shared, self.folder, "")
        self._supervisor = Connector(self.folder, shared, way, weakly(self._started), metrics, backoff, patience)
        keep_watch(self, closer)
        try:
            self._wait(max(0.0, end - time.monotonic()))
            if last_id is not None and not is_kept(shared, last_id, end - time.monotonic()):
                raise Down(f"{self.folder}: transaction {last_id} isn't in the log of this site: {OLDER}", 3)
        except Down:
            self.close(max(0.0, end - time.monotonic()))
            raise
        if metrics is not None and hasattr(metrics, "looks_at"):
            metrics.looks_at(Gauges(shared, self.folder, self.schema))

    def _started(self) -> None:
        for hook in tuple(self.on_start):
            self._hooks.soon(hook)

    def newest_mark(self, *, timeout: Optional[float] = None) -> Mark:
        """How far its log has come by now, as far as that is safe: as the door tells. Raises `Down`, `Busy`."""
        return ask(self.pipeline, Newest(), end_of(timeout, self.timeout))


def _first_way(path: str, end: float, not_before: Optional[Mark], last_id: Optional[str], backoff: Backoff) -> Way:
    """The first connection. Raises `Down` where there is none in time, at once where that is without hope, and `ValueError`
    where the id is none of this site."""
    pause = backoff.first
    while True:
        try:
            way = find_way(path, lambda: time.monotonic() + LOOK / 2 < end)
            break
        except NoWay as fault:
            left = end - time.monotonic()
            if fault.is_hopeless or left <= 0:
                raise Down(str(fault)) from fault
            time.sleep(min(pause, left))
            pause = min(2 * pause, LOOK)
    try:
        refused = refusal(path, way.hello, way.hello.site, not_before)
        if refused is not None:
            raise refused
        if last_id is not None:
            line_id(way.hello.site.world[:SHORT], way.hello.site.number, last_id)
    except (Down, ValueError):
        way.peer.close()
        raise
    return way
