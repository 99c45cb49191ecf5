"""Whom a site asks for rights and for how many, and how rights are evened out: the one place to change it."""
from __future__ import annotations

from dataclasses import dataclass
from typing import AbstractSet, Mapping, NamedTuple, Optional

LARGEST = 2_000_000_000_000_000                         # of one amount, by docs/FORMATS.md


class Gift(NamedTuple):
    """So many rights for a site."""

    to: int
    amount: int


@dataclass(frozen=True)
class Policy:
    """Nobody gives unasked while rights are wanted somewhere: who is short asks the richest, then the next one. In
    quiet times who has more than its even part gives what others miss. It decides who waits, and never whether a
    bound holds.

    - `ahead`: so many times what is wanted is asked for, so that the next ones find it.
    - `patience`: seconds in which an asked site has to answer; then the next one is asked. A medium that needs more,
      as `Folder` does, has its own.
    - `asks`: at most so many questions for one want.
    - `quiet`: seconds without a question or a gift about a kind of a field, after which its rights are evened out.
    - `slack`: they stay as they are while each share is within this part of the even one.
"""

    ahead: int = 10
    patience: float = 0.25
    asks: int = 12
    quiet: float = 5.0
    slack: float = 0.25

    def wanted(self, amount: int) -> int:
        """How many rights to ask for where so many are missing. The asked site gives at most half of what it has
        free."""
        return min(self.ahead * amount, LARGEST)

    def giver(self, shares: Mapping[int, Optional[int]], asked: AbstractSet[int]) -> Optional[int]:
        """Whom to ask next: the richest that wasn't asked in vain, by what each told last; then who has told
        nothing yet, and last who told of none, since some may have come back to it. None where all were asked."""
        left = [(-0.5 if share is None else -share, site) for site, share in shares.items() if site not in asked]
        return min(left)[1] if left else None

    def gifts(self, giver: int, shares: Mapping[int, int]) -> list[Gift]:
        """What `giver` gives so that all have even parts. Each site plans the same from the same shares: what sites
        have above their part is laid in one row, what others miss in another, and what two have in common is one
        gift."""
        sites, total = sorted(shares), sum(shares.values())
        parts = {site: total // len(sites) + (place < total % len(sites)) for place, site in enumerate(sites)}
        if all(abs(shares[site] - parts[site]) <= max(1, self.slack * parts[site]) for site in sites):
            return []
        start = sum(max(0, shares[site] - parts[site]) for site in sites if site < giver)
        end = start + max(0, shares[giver] - parts[giver])
        gifts, place = [], 0
        for site in sites:
            missed = max(0, parts[site] - shares[site])
            common = min(end, place + missed) - max(start, place)
            if common > 0:
                gifts.append(Gift(site, common))
            place += missed
        return gifts
