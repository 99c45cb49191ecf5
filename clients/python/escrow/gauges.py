"""What the numbers to watch look at in a site, as often as they are gathered."""

from __future__ import annotations

import os
from typing import Optional

from .calls import Line
from .pipeline import Pipeline
from .schema import Schema
from .steps import share
from .values import Share
from .waiters import ThreadWaiter


class Gauges:
    """The size of a site's log and its free rights. Neither waits for a site that doesn't stand."""

    def __init__(self, pipeline: Pipeline, folder: str, schema: Schema) -> None:
        self._pipeline, self._log = pipeline, os.path.join(folder, "log")
        self._fields = [field.name for field in schema.fields]
        self._waiter: Optional[ThreadWaiter] = None

    def length(self) -> Optional[int]:
        """The bytes of the log's file; None where there is none."""
        try:
            return os.stat(self._log).st_size
        except OSError:
            return None

    def shares(self, seconds: float) -> Optional[dict[str, tuple[int, int]]]:
        """How many rights to lower and to raise each field are free. None where the site doesn't stand, or hasn't
        answered in so many seconds, or not what it was asked before."""
        if self._waiter is not None and not self._waiter.comes(0.0):
            return None
        calls = [share(self._pipeline.number, field, again=False) for field in self._fields]
        waiter = self._waiter = self._ask(calls)
        if waiter is None or not waiter.comes(seconds):
            return None
        return {call.field: (call.answer.lower, call.answer.raise_) for call in calls if type(call.answer) is Share}

    def _ask(self, calls: list[Line[Share]]) -> Optional[ThreadWaiter]:
        """Who waits for the last of these answers; none where they aren't asked."""
        waiter = ThreadWaiter()
        for call in calls:
            call.waiter = waiter if call is calls[-1] else None
        if not self._pipeline.submit_standing(calls):
            return None
        self._pipeline.flush()
        self._pipeline.reading.want()
        return waiter
