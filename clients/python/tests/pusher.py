"""A process that sells through a door, and tells of each sale what it was told, one line each, before it goes on.

    pusher.py PATH TASKS HOW TIMEOUT

HOW is `change`, `before` (the id is told, as `asks`, ahead of the commit) or `mixed`, which also sells by transactions. It
sells until its standard input ends. Words: `stands`, `asks ID`, `sold ID`, `doubt ID`, and what became of those in the end,
`found ID` or `lost ID`; `busy N`, a count.
"""

from __future__ import annotations

import asyncio
import itertools
import os
import random
import sys

import programs  # noqa: F401  (finds the package)
import escrow

count = itertools.count(1)


def tell(word: str, what: str) -> None:
    """One line, in one piece."""
    os.write(1, f"{word} {what}\n".encode())


async def sell(shop: escrow.AsyncSite, how: str, luck: random.Random) -> str:
    """One sale: its id."""
    if how == "before" or (how == "mixed" and luck.random() < 0.3):
        return await shop.change("stock", -1, before=lambda id: tell("asks", id))
    if how == "mixed" and luck.random() < 0.5:
        async with shop.transaction() as t:
            await t.lower("stock", 1)
            await t.raise_("seats", 1)
        return t.id
    return await shop.change("stock", -1)


async def resolve(shop: escrow.AsyncSite, id: str) -> None:
    """What became of it."""
    while True:
        try:
            outcome = await shop.outcome(id)
        except (escrow.Busy, escrow.Down):
            await asyncio.sleep(0.05)
            continue
        if outcome is not escrow.Outcome.OPEN:
            tell("found" if outcome is escrow.Outcome.COMMITTED else "lost", id)
            return
        await asyncio.sleep(0.05)


async def sells(shop: escrow.AsyncSite, how: str, end: asyncio.Event, seed: int) -> None:
    """Sells without end."""
    luck = random.Random(seed)
    while not end.is_set():
        try:
            tell("sold", await sell(shop, how, luck))
        except escrow.Unknown as fault:
            assert fault.id, fault
            tell("doubt", fault.id)
            await resolve(shop, fault.id)
        except (escrow.Busy, escrow.Down):
            tell("busy", str(next(count)))
            await asyncio.sleep(0.01)
        except (escrow.Over, escrow.Lost):
            pass


async def main() -> None:
    """Comes in by the door, and sells in several tasks."""
    path, tasks, how, timeout = sys.argv[1], int(sys.argv[2]), sys.argv[3], float(sys.argv[4])
    end = asyncio.Event()
    backoff = escrow.Backoff(0.01, 0.1)
    async with escrow.AsyncSite.connect(path, timeout=timeout, patience=60.0, backoff=backoff, wait=60.0) as shop:
        tell("stands", str(os.getpid()))
        asyncio.get_running_loop().add_reader(0, end.set)
        await asyncio.gather(*(sells(shop, how, end, os.getpid() * 100 + seed) for seed in range(tasks)))


if __name__ == "__main__":
    asyncio.run(main())
