"""Measures durable changes a second of one field: tasks that sell one after another through one client, beside the program alone.

    site_speed.py [SECONDS [TURNS [FOLDER]]]

Each turn of SECONDS (2) runs each row once, TURNS (5) times; printed are medians, with the least and the greatest. FOLDER is where the
logs are kept: the disk that is measured. `alone` is the row `site 64 deep` of `bench/store.py` of the repository: one loop that has
64 changes under way and reads no answer. `times alone` is the median of the ratios to it within a turn. `python` is how long this
process computed for a change. Last comes what the tasks alone cost: 64 that wait for futures which a loop sets, with no site.
"""

from __future__ import annotations

import asyncio
import importlib
import os
import statistics
import sys
import tempfile
import time
from collections.abc import Awaitable, Callable
from typing import Any, NamedTuple

from programs import TOP, escrow_site
import escrow
from escrow.metrics import Metrics

sys.path.insert(0, os.path.join(TOP, "bench"))
store: Any = importlib.import_module("store")
MOST = 10**15
WORLD = escrow.Schema(1, (escrow.Field("stock", 0, MOST, MOST // 2),))
DEEP = 64
ALONE = f"alone, {DEEP} deep"


class Rate(NamedTuple):
    """Changes a second, and microseconds of this process for each."""

    changes: float
    python: float


Sell = Callable[[escrow.AsyncSite], Awaitable[object]]


async def change(shop: escrow.AsyncSite) -> None:
    """Sells one in one trip."""
    await shop.change("stock", -1)


async def transaction(shop: escrow.AsyncSite) -> None:
    """Sells one in two trips."""
    async with shop.transaction() as t:
        await t.lower("stock", 1)


def served(place: str, tasks: int, seconds: float, sell: Sell = change, metrics: bool = False) -> Rate:
    """So many tasks, each with one sale under way."""
    done = 0

    async def sells(shop: escrow.AsyncSite, end: float) -> None:
        nonlocal done
        while time.perf_counter() < end:
            await sell(shop)
            done += 1

    async def all_sell(site: escrow.Site) -> None:
        shop, end = escrow.AsyncSite(site), time.perf_counter() + seconds
        await asyncio.gather(*(sells(shop, end) for _ in range(tasks)))

    folder = os.path.join(place, "client")
    escrow.create(folder, WORLD, 0, program=escrow_site(), name="speed")
    with escrow.Site(folder, program=escrow_site(), metrics=Metrics(0) if metrics else None) as site:
        began, computed = time.perf_counter(), time.process_time()
        asyncio.run(all_sell(site))
        return Rate(done / (time.perf_counter() - began), (time.process_time() - computed) / done * 1e6)


def alone(place: str, seconds: float) -> Rate:
    """The program, driven by `bench/store.py`."""
    store.MOST = int(600_000 * max(1.0, seconds))
    row = next(row for row in store.site_rows(place, False) if row.name == f"site {DEEP} deep")
    computed = time.process_time()
    changes = row.measure(seconds)
    return Rate(changes, (time.process_time() - computed) / (changes * seconds) * 1e6)


def futures(seconds: float) -> Rate:
    """Tasks that wait for futures, all of which are set in each turn of the loop."""
    done = 0
    waiting: list[asyncio.Future[None]] = []

    async def waits(loop: asyncio.AbstractEventLoop, end: float) -> None:
        nonlocal done
        while time.perf_counter() < end:
            future = loop.create_future()
            waiting.append(future)
            await future
            done += 1

    async def all_wait() -> None:
        loop, end = asyncio.get_running_loop(), time.perf_counter() + seconds

        def answer() -> None:
            for future in waiting:
                future.set_result(None)
            waiting.clear()
            loop.call_soon(answer)

        loop.call_soon(answer)
        await asyncio.gather(*(waits(loop, end) for _ in range(DEEP)))

    began, computed = time.perf_counter(), time.process_time()
    asyncio.run(all_wait())
    return Rate(done / (time.perf_counter() - began), (time.process_time() - computed) / done * 1e6)


def tell(told: dict[str, list[Rate]]) -> None:
    """Prints a line for each row."""
    print(f"load {os.getloadavg()[0]:.1f} on {os.cpu_count()} processors")
    for name, rates in told.items():
        changes = sorted(rate.changes for rate in rates)
        python = statistics.median(rate.python for rate in rates)
        times = statistics.median(rate.changes / other.changes for rate, other in zip(rates, told[ALONE]))
        spread = f"{changes[0]:,.0f} to {changes[-1]:,.0f}"
        print(f"{name:24} {statistics.median(changes):10,.0f} a second, {spread}; {times:.2f} times alone; {python:.1f} us of python")


def main() -> None:
    """Runs all turns, and prints a line for each row."""
    seconds, turns = float((sys.argv[1:2] or ["2"])[0]), int((sys.argv[2:3] or ["5"])[0])
    rows: dict[str, Callable[[str], Rate]] = {
        ALONE: lambda place: alone(place, seconds),
        "1 task": lambda place: served(place, 1, seconds),
        "8 tasks": lambda place: served(place, 8, seconds),
        "64 tasks": lambda place: served(place, 64, seconds),
        "64 tasks, metrics": lambda place: served(place, 64, seconds, metrics=True),
        "64 tasks, transactions": lambda place: served(place, 64, seconds, transaction),
        "512 tasks": lambda place: served(place, 512, seconds),
        "64 tasks, no site": lambda place: futures(seconds),
    }
    told: dict[str, list[Rate]] = {name: [] for name in rows}
    for _ in range(turns):
        for name, row in rows.items():
            with tempfile.TemporaryDirectory(prefix="escrow-speed-", dir=next(iter(sys.argv[3:4]), None)) as place:
                told[name].append(row(place))
    tell(told)


if __name__ == "__main__":
    main()
