"""What goes into the calls of a site, and what comes back."""

from __future__ import annotations

import enum
from typing import NamedTuple


class Kind(enum.Enum):
    """Which way a right lets a field move."""

    LOWER = "lower"
    RAISE = "raise"


class Interval(NamedTuple):
    """The field's committed value is at least `lo` and at most `hi`, in quantities, whatever other sites do."""

    lo: int
    hi: int


class Share(NamedTuple):
    """The free rights of a site on a field: by how many quantities it can lower it, and by how many raise it."""

    lower: int
    raise_: int

    def of(self, kind: Kind) -> int:
        """The free rights of this kind."""
        return self.lower if kind is Kind.LOWER else self.raise_


class Statement(NamedTuple):
    """What a giver tells a receiver: the total of all rights that it ever gave it, of a kind, on a field.

    It may come late, twice or out of order: the receiver takes what its total has above what it accepted before.
    """

    giver: int
    to: int
    field: str
    kind: Kind
    total: int


class Spared(NamedTuple):
    """How many rights were given, and the statement that tells it."""

    amount: int
    statement: Statement


class Mark(NamedTuple):
    """How far a log had come: its epoch, and the length of its records in bytes."""

    epoch: int
    length: int


class Outcome(enum.Enum):
    """What became of a transaction."""

    COMMITTED = "committed"
    """Its commit is in the log, and stays."""
    NOT_COMMITTED = "not committed"
    """It wasn't committed, and never will be. So too where it had nothing set aside: its commit changes nothing."""
    OPEN = "open"
    """It is open at the site as it now stands: it can still end either way."""


class Command(enum.Enum):
    """The calls of a site, as they are counted."""

    CHANGE = "change"
    ESCROW = "escrow"
    COMMIT = "commit"
    ABORT = "abort"
    GIVE = "give"
    SPARE = "spare"
    RESTATE = "restate"
    ACCEPT = "accept"
    TIGHTEN = "tighten"
    READ = "read"
    SHARE = "share"
    KEPT = "kept"
