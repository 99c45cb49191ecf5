"""What a carrier counts, and how it stands among the numbers of its site."""
from __future__ import annotations

import dataclasses
from collections import Counter
from typing import Any, Callable, Sequence

from escrow.metrics import Metrics, Sample, Type

from .medium import Medium


def _counted(told: str) -> Any:
    return dataclasses.field(default=0, metadata={"told": told})


@dataclasses.dataclass
class Counts:
    """What a carrier did since it was made. **`forged` above 0 is an alarm.**"""

    connects: int = _counted("Times that the medium was connected.")
    heard: int = _counted("Messages that came.")
    stale: int = _counted("Statements that told nothing new.")
    accepted: int = _counted("Statements that told something new.")
    gained: int = _counted("Rights that came by them.")
    forged: int = _counted("Statements that no site can have issued.")
    garbage: int = _counted("Messages that no carrier of this world writes.")
    asked: int = _counted("Questions for rights to other sites.")
    spared: int = _counted("Rights that were given to who asked.")
    evened: int = _counted("Rights that were given in quiet times.")
    faults: int = _counted("Commands that the site didn't answer, and that are asked later.")
    forged_by: Counter[tuple[int, str]] = dataclasses.field(default_factory=Counter)
    """Of `forged`, by the giver that was named and the field."""


def count_in(metrics: Metrics, counts: Counts, medium: Medium, givers: Sequence[int], fields: Sequence[str]) -> None:
    """Adds each count to a site's numbers, as `escrow_carrier_heard_total`, and `escrow_carrier_connected`. That of
    forged statements names the giver and the field, each from the beginning on."""

    def forged() -> float | list[Sample]:
        return [Sample("", (("giver", str(giver)), ("field", field)), counts.forged_by[giver, field])
                for giver in givers for field in fields]

    def counted(name: str) -> Callable[[], float | list[Sample]]:
        def value() -> float | list[Sample]:
            return float(getattr(counts, name))
        return forged if name == "forged" else value
    for it in dataclasses.fields(Counts):
        if it.metadata:
            metrics.also(f"escrow_carrier_{it.name}_total", it.metadata["told"], Type.COUNTER, counted(it.name))
    told = "Whether the medium is connected (1) or not (0)."
    metrics.also("escrow_carrier_connected", told, Type.GAUGE, lambda: float(medium.is_connected))
