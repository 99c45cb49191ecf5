"""What carriers tell one another: topics and payloads, as docs/FORMATS.md has them under "Topics of a carrier"."""
from __future__ import annotations

import re
from dataclasses import dataclass
from typing import Union

from escrow import Kind, Mark, Share, Statement
from escrow.schema import Schema

KINDS = {kind.value: kind for kind in Kind}
NUMBER = re.compile("0|[1-9][0-9]{0,19}")
MOST = 64 * 1024                                        # bytes of a payload


class Garbage(ValueError):
    """A message that no carrier of this world writes."""


@dataclass(frozen=True)
class Ask:
    """`asker` is short, and asks `giver` for so many rights."""

    asker: int
    giver: int
    field: str
    kind: Kind
    amount: int


@dataclass(frozen=True)
class Shares:
    """How many rights a site had free a moment ago, on each field."""

    site: int
    shares: dict[str, Share]

    def of(self, field: str, kind: Kind) -> int:
        """How many of a kind it had free on a field."""
        return self.shares[field].of(kind)

    def add(self, field: str, kind: Kind, amount: int) -> None:
        """It has so many more, or less, by guess: so it isn't held for empty before it tells so."""
        share = self.shares[field]
        left = max(min(1, share.of(kind)), share.of(kind) + amount)
        self.shares[field] = Share(left, share.raise_) if kind is Kind.LOWER else Share(share.lower, left)


@dataclass(frozen=True)
class Marked:
    """How far the log of a site has come."""

    site: int
    mark: Mark


Message = Union[Statement, Ask, Shares, Marked]


class Topics:
    """The topics of one world: `escrow/WORLD/FROM/..`, where FROM is the site that alone may write there."""

    def __init__(self, world: str, schema: Schema) -> None:
        self.top, self._sites = f"escrow/{world}", schema.sites
        self._fields = {field.name for field in schema.fields}

    def filters(self, site: int) -> list[str]:
        """What a site has to hear; `+` stands for any one word."""
        return [f"{self.top}/+/given/{site}/+/+", f"{self.top}/+/ask/{site}/+/+", f"{self.top}/+/shares"]

    def access(self, site: int) -> list[str]:
        """What a broker has to let a site do, as lines of mosquitto's access list."""
        heard = [*self.filters(site), self.mark(site)]
        return [f"topic write {self.top}/{site}/#", *(f"topic read {it}" for it in heard)]

    def mark(self, site: int) -> str:
        """Where a site tells its mark, for itself: no other one hears it."""
        return f"{self.top}/{site}/mark"

    def spelled(self, message: Message) -> tuple[str, str]:
        """The topic and the payload of a message."""
        if isinstance(message, Statement):
            place = f"given/{message.to}/{message.field}/{message.kind.value}"
            return f"{self.top}/{message.giver}/{place}", str(message.total)
        if isinstance(message, Ask):
            place = f"ask/{message.giver}/{message.field}/{message.kind.value}"
            return f"{self.top}/{message.asker}/{place}", str(message.amount)
        if isinstance(message, Marked):
            return self.mark(message.site), f"{message.mark.epoch} {message.mark.length}"
        lines = [f"{field} {share.lower} {share.raise_}\n" for field, share in message.shares.items()]
        return f"{self.top}/{message.site}/shares", "".join(lines)

    def read(self, topic: str, payload: bytes) -> Message:
        """The message that is spelled so. Raises Garbage where none of this world is."""
        if not topic.startswith(f"{self.top}/") or len(payload) > MOST or not payload.isascii():
            raise Garbage(topic)
        words, text = topic[len(self.top) + 1:].split("/"), payload.decode("ascii")
        if words[1:] == ["shares"]:
            return Shares(self._site(words[0]), self._shares(text))
        if words[1:] == ["mark"]:
            return Marked(self._site(words[0]), _mark(text))
        if len(words) != 5 or words[1] not in ("given", "ask") or words[4] not in KINDS:
            raise Garbage(topic)
        teller, other, field, kind = self._site(words[0]), self._site(words[2]), self._field(words[3]), KINDS[words[4]]
        if words[1] == "given":
            return Statement(teller, other, field, kind, number(text))
        return Ask(teller, other, field, kind, number(text))

    def _shares(self, text: str) -> dict[str, Share]:
        lines = [line.split(" ") for line in text.splitlines()]
        if any(len(line) != 3 for line in lines):
            raise Garbage(text[:80])
        shares = {self._field(name): Share(number(lower), number(raise_)) for name, lower, raise_ in lines}
        if len(shares) != len(self._fields) or len(lines) != len(shares):
            raise Garbage(text[:80])                    # a field that isn't told isn't one without rights
        return shares

    def _site(self, text: str) -> int:
        site = number(text)
        if site >= self._sites:
            raise Garbage(f"no site {text}")
        return site

    def _field(self, text: str) -> str:
        if text not in self._fields:
            raise Garbage(f"no field {text}")
        return text


def _mark(text: str) -> Mark:
    words = text.split(" ")
    if len(words) != 2:
        raise Garbage(text[:80])
    return Mark(number(words[0]), number(words[1]))


def number(text: str) -> int:
    """A number in its one spelling. Raises Garbage where it is none of 64 bits."""
    if not NUMBER.fullmatch(text) or int(text) >= 2**64:
        raise Garbage(f"no number: {text[:80]}")
    return int(text)
