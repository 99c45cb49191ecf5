"""What the sites of a world tell together."""
from __future__ import annotations

from collections.abc import Iterable, Mapping, Sequence
from dataclasses import dataclass
from typing import NamedTuple

from escrow.program import Shown
from escrow.schema import Field, Schema
from escrow.values import Interval, Kind, Share


class Way(NamedTuple):
    """From one site to another, of one kind, on one field: of what was given there is one total, and one of what was accepted."""

    giver: int
    receiver: int
    field: str
    kind: Kind


@dataclass(frozen=True)
class SiteField:
    """What one site knows of a field and may do with it."""

    site: int
    interval: Interval
    share: Share
    tightened: Share


class Flight(NamedTuple):
    """Rights that were given and aren't accepted yet."""

    way: Way
    rights: int


@dataclass(frozen=True)
class FieldView:
    """One field: its bounds as far as the sites that are shown tightened them, and its committed value.

    The value is known where all sites are shown, and none accepted what its giver isn't shown to have given: it is that of the
    moments at which the logs were read. Else it lies in the interval.
    """

    name: str
    floor: int
    ceiling: int
    value: int | None
    interval: Interval
    sites: tuple[SiteField, ...]
    flights: tuple[Flight, ...]


def given_by(number: int, shown: Shown) -> dict[Way, int]:
    """The totals that a site gave."""
    return {Way(number, it.other, it.field, it.kind): it.total for it in shown.given}


def accepted_by(number: int, shown: Shown) -> dict[Way, int]:
    """The totals that a site accepted."""
    return {Way(it.other, number, it.field, it.kind): it.total for it in shown.accepted}


def differences(shown: Mapping[int, Shown]) -> dict[str, list[Flight]]:
    """By field, what was given less what was accepted, between each two sites that are shown. Below 0 where the giver's log was
    read before the gift, and the receiver's behind its acceptance."""
    ways: dict[Way, int] = {}
    for number, site in shown.items():
        for way, total in given_by(number, site).items():
            ways[way] = ways.get(way, 0) + total
        for way, total in accepted_by(number, site).items():
            ways[way] = ways.get(way, 0) - total
    flights: dict[str, list[Flight]] = {}
    for way, rights in sorted(ways.items(), key=_order):
        if way.giver in shown and way.receiver in shown:
            flights.setdefault(way.field, []).append(Flight(way, rights))
    return flights


class Still(NamedTuple):
    """So much was accepted by then, and since then nothing more."""

    accepted: int
    since: float


class Arrivals:
    """Since when nothing more was accepted of what is on its way."""

    def __init__(self) -> None:
        self._still: dict[Way, Still] = {}

    def look(self, shown: Mapping[int, Shown], flights: Iterable[Flight], now: float) -> dict[Way, int]:
        """For how many whole minutes it has stood still, as far as it was looked at; `now` in seconds."""
        accepted = {way: total for number, site in shown.items() for way, total in accepted_by(number, site).items()}
        still: dict[Way, Still] = {}
        for way, _ in flights:
            before, total = self._still.get(way), accepted.get(way, 0)
            still[way] = before if before is not None and before.accepted == total else Still(total, now)
        self._still = still
        return {way: int((now - it.since) // 60) for way, it in still.items()}


def overdrawn(before: Mapping[int, Shown], now: Mapping[int, Shown]) -> list[str]:
    """Where more was accepted, when it was looked at before, than was given by now: that can't be of one world's newest logs."""
    given = {way: total for number, site in now.items() for way, total in given_by(number, site).items()}
    accepted = {way: total for number, site in before.items() for way, total in accepted_by(number, site).items()}
    return [f"site {way.receiver} accepted {total} {way.kind.value} on {way.field} from site {way.giver}, which gave "
            f"{given.get(way, 0)}: its folder is an old one (of a copy, copy it anew), or the statement was forged"
            for way, total in accepted.items() if way.giver in now and given.get(way, 0) < total]


def _field(field: Field, sites: int, shown: Mapping[int, Shown], flights: Sequence[Flight]) -> FieldView:
    told = [(number, site.fields[field.name]) for number, site in sorted(shown.items())]
    parts = tuple(SiteField(number, it.interval, it.share, it.tightened) for number, it in told)
    floor = field.floor + sum(it.tightened.lower for it in parts)
    ceiling = field.ceiling - sum(it.tightened.raise_ for it in parts)
    moving = sum(it.rights for it in flights if it.way.kind is Kind.LOWER)
    is_whole = len(parts) == sites and all(it.rights >= 0 for it in flights)
    value = floor + sum(it.share.lower for it in parts) + moving if is_whole else None
    lo = max((it.interval.lo for it in parts), default=floor)
    hi = min((it.interval.hi for it in parts), default=ceiling)
    under_way = tuple(it for it in flights if it.rights > 0)
    return FieldView(field.name, floor, ceiling, value, Interval(lo, hi), parts, under_way)


def _order(item: tuple[Way, int]) -> tuple[int, int, str]:
    return item[0].giver, item[0].receiver, item[0].kind.value


def behind(flights: Mapping[str, Sequence[Flight]]) -> set[int]:
    """The sites whose logs were read before a gift that is shown as accepted."""
    return {it.way.giver for of_field in flights.values() for it in of_field if it.rights < 0}


def fields_of(schema: Schema, shown: Mapping[int, Shown], flights: Mapping[str, Sequence[Flight]]) -> list[FieldView]:
    """Each field of the schema, in order; `flights` are the differences of what is shown."""
    return [_field(field, schema.sites, shown, flights.get(field.name, ())) for field in schema.fields]


def missing(schema: Schema, numbers: Iterable[int]) -> list[int]:
    """The sites of the schema that aren't among these."""
    return sorted(set(range(schema.sites)) - set(numbers))
