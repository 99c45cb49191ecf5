"""The places of open transactions, shared among connections.

A connection takes another place only while it holds fewer than are free. So the first one leaves half of them to others,
and who holds none gets the next one that is free: the dynamic threshold of Choudhury and Hahne (1998), with factor 1. Who
has to wait is served in the order of asking, but those are passed over that may not take another one now.
"""

from __future__ import annotations

from collections import deque
from typing import Optional


class Holder:
    """Who holds places: a connection."""

    __slots__ = ("holds", "asked")

    def __init__(self) -> None:
        self.holds = 0
        self.asked: deque[int] = deque()
        """When it asked for each place that it waits for: later ones have greater numbers."""


class Places:
    """So many places."""

    def __init__(self, many: int) -> None:
        self.free = many
        self._waiting: set[Holder] = set()
        self._order = 0

    def take(self, holder: Holder) -> bool:
        """Whether it has another place from now on: not while it waits, or it is somebody else's turn."""
        if holder.asked or not self._may_take(holder) or self._first() is not None:
            return False
        self._give(holder)
        return True

    def ask(self, holder: Holder) -> None:
        """It waits for another place."""
        self._order += 1
        holder.asked.append(self._order)
        self._waiting.add(holder)

    def give_back(self, holder: Holder) -> None:
        """It holds one place less."""
        holder.holds -= 1
        self.free += 1

    def leave(self, holder: Holder) -> None:
        """It holds none, and waits for none."""
        self.free += holder.holds
        holder.holds = 0
        holder.asked.clear()
        self._waiting.discard(holder)

    def grant(self) -> Optional[Holder]:
        """Whose turn it is, who holds one place more from now on; none where it is nobody's."""
        holder = self._first()
        if holder is not None:
            holder.asked.popleft()
            if not holder.asked:
                self._waiting.discard(holder)
            self._give(holder)
        return holder

    def _may_take(self, holder: Holder) -> bool:
        return holder.holds < self.free

    def _give(self, holder: Holder) -> None:
        holder.holds += 1
        self.free -= 1

    def _first(self) -> Optional[Holder]:
        able = [it for it in self._waiting if self._may_take(it)]
        return min(able, key=_since) if able else None


def _since(holder: Holder) -> int:
    return holder.asked[0]
