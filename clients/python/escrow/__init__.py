"""A client of a served site of escrow: quantities that never pass a bound.

    import escrow
    escrow.create("shop0", "world.json", 0, name="shops-2026")      # once
    with escrow.Site("shop0") as site:
        with site.transaction() as t:
            t.lower("stock", 3)
"""

from .device import DeviceFault
from .errors import (
    Busy,
    Cause,
    Down,
    EscrowError,
    Faulty,
    Forged,
    Forgotten,
    Lost,
    NoKeys,
    NothingGiven,
    OtherSite,
    OtherWorld,
    Over,
    ProgramError,
    Refusal,
    Refused,
    Short,
    Unknown,
)
from .pipeline import Counts, Watch
from .program import Shown, create, find_program, show
from .schema import Field, Schema
from .site import AsyncSite, Site
from .supervisor import Backoff
from .transaction import AsyncTransaction, Transaction
from .values import Interval, Kind, Mark, Outcome, Share, Spared, Statement

__all__ = [
    "AsyncSite", "AsyncTransaction", "Backoff", "Busy", "Cause", "Counts", "DeviceFault", "Down", "EscrowError", "Faulty",
    "Field", "Forged", "Forgotten", "Interval", "Kind", "Lost", "Mark", "NoKeys", "NothingGiven", "OtherSite", "OtherWorld",
    "Outcome", "Over", "ProgramError", "Refusal", "Refused", "Schema", "Share", "Short", "Shown", "Site", "Spared", "Statement",
    "Transaction", "Unknown", "Watch", "__version__", "create", "find_program", "show",
]  # fmt: skip

__version__ = "0.1.0"
"""That of the client, of all its packages."""
