"""Kills a door, its site and the processes that ask for orders through it, so many times, and then judges by the log: each order
that was told is in it once, under the id that everybody was told.

    key_kills.py [--keep BYTES] [KILLS [SEED]]

KILLS (1000) is how often any of them is killed by SIGKILL, or stands still for a moment (SIGSTOP); SEED (1) is of the moments.
Four processes of 16 tasks each ask for orders by `change(.., key=)`; each order is asked for by two of them, and again by
one that was killed. Ends with status 1 where an order isn't sold once.

With --keep the log is shortened meanwhile. Then each order has its position in books that all of them share, written before it
is first asked for; and in place of the log what is left to sell tells how many were sold.
"""

from __future__ import annotations

import argparse
import asyncio
import itertools
import os
import random
import re
import signal
import sqlite3
import subprocess
import sys
import tempfile
import threading
import time
from typing import Optional

from doors import Door, children_of
from programs import LARGE, PACKAGES, WORLD, escrow_site
import escrow

MANY, TASKS = 4, 16
FREE = 500_000
"""What the site has to sell."""


class Books:
    """The position of each order, where the log is shortened: in a file that all processes share."""

    def __init__(self, path: str) -> None:
        self._table = sqlite3.connect(path, isolation_level=None, timeout=60.0) if path else None
        if self._table is not None:
            self._table.execute("pragma synchronous = off")  # no machine is stopped
            self._table.execute("create table if not exists orders (key text primary key, position text)")

    def write(self, key: str, position: str) -> str:
        """That of an order: this one where it has none yet."""
        assert self._table is not None
        self._table.execute("insert or ignore into orders values (?, ?)", (key, position))
        found: str = self._table.execute("select position from orders where key = ?", (key,)).fetchone()[0]
        return found

    def all(self) -> dict[str, str]:
        """Of all orders that were ever asked for."""
        return {} if self._table is None else dict(self._table.execute("select key, position from orders").fetchall())

    async def since(self, shop: escrow.AsyncSite, key: str) -> Optional[str]:
        """What to ask for an order with."""
        return None if self._table is None else self.write(key, await shop.position(timeout=0.5))


async def ask_for_all(path: str, shelf: str, first: int, books: Books) -> None:
    """Asks for orders of a shelf from this one on, until standard input ends: a line `KEY ID` for each that is sold, and `KEY -` where
    nobody can tell any more."""
    numbers, ends = itertools.count(first), threading.Event()

    def wait_for_end() -> None:
        sys.stdin.read()
        ends.set()

    threading.Thread(target=wait_for_end, daemon=True).start()

    async def one(shop: escrow.AsyncSite) -> None:
        while not ends.is_set():
            key = f"{shelf}-{next(numbers)}"
            while not ends.is_set():
                try:
                    since = await books.since(shop, key)
                    print(key, await shop.change("stock", -1, key=key, since=since, timeout=0.5), flush=True)
                    break
                except escrow.Forgotten:
                    print(key, "-", flush=True)
                    break
                except escrow.EscrowError:
                    await asyncio.sleep(0.01)

    async with escrow.AsyncSite.connect(path, wait=60.0) as shop:
        await asyncio.gather(*(one(shop) for _ in range(TASKS)))


class Asker:
    """A process that asks for orders: what it was told."""

    def __init__(self, path: str, shelf: str, first: int, books: str) -> None:
        self.path, self.shelf, self.books, self.told = path, shelf, books, dict[str, str]()
        words = [sys.executable, os.path.abspath(__file__), "--ask", path, shelf, str(first), books]
        env = {**os.environ, "PYTHONPATH": PACKAGES}
        self.process = subprocess.Popen(words, stdin=subprocess.PIPE, stdout=subprocess.PIPE, text=True, env=env)
        self._reader = threading.Thread(target=self._read)
        self._reader.start()

    def _read(self) -> None:
        assert self.process.stdout is not None
        for line in self.process.stdout:
            if line.endswith("\n"):
                key, _, id = line[:-1].partition(" ")
                self.told[key] = id

    def next(self) -> int:
        """The first order of the shelf that it wasn't told of, from 64 in front of the last: whoever comes next asks from there."""
        return max(0, max((int(key.partition("-")[2]) for key in self.told), default=0) - 4 * TASKS)

    def end(self, by_force: bool) -> dict[str, str]:
        if by_force:
            self.process.kill()
        assert self.process.stdin is not None
        self.process.stdin.close()
        self.process.wait()
        self._reader.join()
        return self.told


def sold_in(folder: str) -> tuple[dict[str, list[str]], int]:
    """Of each key the transactions that were committed with it, by the notes and commits of the log; and how many commits it has."""
    with open(os.path.join(folder, "log"), encoding="ascii") as file:
        text = file.read()
    commits = set(re.findall(r"^C (\d+ \d+) ", text, re.M))
    keys: dict[str, list[str]] = {}
    for txn, digits in re.findall(r"^K (\d+ \d+) ([0-9A-F]+)$", text, re.M):
        if txn in commits:
            keys.setdefault(bytes.fromhex(digits).decode(), []).append(txn.replace(" ", "."))
    return keys, len(commits)


def kill_one(door: Door, askers: list[Asker], all_told: list[dict[str, str]], luck: random.Random, counts: dict[str, int]) -> None:
    time.sleep(luck.uniform(0.01, 0.25))
    draw = luck.random()
    if draw < 0.4:
        counts["door"] += 1
        door.kill()
        door.start()
    elif draw < 0.6:
        for child in children_of(door.process.pid)[:1]:
            counts["site"] += 1
            os.kill(child, signal.SIGKILL)
    elif draw < 0.7:
        counts["still"] += 1
        door.stand_still()
        time.sleep(luck.uniform(0.0, 0.6))
        door.go_on()
    else:
        counts["process"] += 1
        number = luck.randrange(MANY)
        old = askers[number]
        all_told.append(old.end(True))
        askers[number] = Asker(old.path, old.shelf, old.next(), old.books)


def ids_of(all_told: list[dict[str, str]]) -> dict[str, set[str]]:
    """Of each order the ids that it was told to have."""
    told: dict[str, set[str]] = {}
    for each in all_told:
        for key, id in each.items():
            told.setdefault(key, set()).add(id.rpartition("-")[2])
    return told


def asked_again(site: escrow.Site, key: str, position: str, ids: set[str]) -> tuple[str, bool]:
    """What the site tells of an order by now, and whether that fits the ids that callers were told."""
    try:
        kept = site.kept_key(key, since=position)
    except escrow.Forgotten:
        return ("gone", len(ids) == 1) if ids else ("gone, told to nobody", True)
    if kept is None:
        return "never sold", not ids
    return "held", ids <= {kept.rpartition("-")[2]}


def judge_shortened(folder: str, all_told: list[dict[str, str]], counts: dict[str, int], since: dict[str, str]) -> bool:
    """The same where the log was shortened. Each order is asked about once more."""
    told, words, wrong = ids_of(all_told), dict.fromkeys(("held", "gone", "gone, told to nobody", "never sold"), 0), 0
    with escrow.Site(folder, program=escrow_site(), keep=0) as site:
        sold = FREE - site.share("stock").lower
        for key, position in since.items():
            word, fits = asked_again(site, key, position, told.get(key, set()) - {""})
            words[word] += 1
            wrong += not fits
    gone = escrow.show(folder, escrow_site()).gone
    surely = words["held"] + words["gone"]
    print(f"killed or still: {counts}; {gone} bytes let go")
    print(f"orders asked for {len(since)}: {words}; sold {sold}, by {sum(map(len, all_told))} answers")
    print(f"orders told with another id than the log's, or with two, or told as sold and not kept {wrong}")
    if not gone:
        print("so little was sold that the log wasn't shortened: take more kills")
    return not wrong and gone > 0 and surely <= sold <= surely + words["gone, told to nobody"]


def judge(folder: str, all_told: list[dict[str, str]], counts: dict[str, int]) -> bool:
    """Prints what was told and what is so: whether they fit."""
    keys, commits = sold_in(folder)
    told = ids_of(all_told)
    twice = sum(len(txns) > 1 for txns in keys.values())
    wrong = sum(ids != set(keys.get(key, ())) for key, ids in told.items())
    print(f"killed or still: {counts}")
    print(f"orders told as sold {len(told)}, by {sum(map(len, all_told))} answers; keys in the log {len(keys)}, commits {commits}")
    print(f"keys with two commits {twice}; orders told with another id than the log's, or with two {wrong}")
    return not twice and not wrong and len(keys) == commits


def main() -> int:
    if sys.argv[1:2] == ["--ask"]:
        asyncio.run(ask_for_all(sys.argv[2], sys.argv[3], int(sys.argv[4]), Books(sys.argv[5])))
        return 0
    parser = argparse.ArgumentParser(description="Kills a door, its site and processes that ask for orders by keys.")
    parser.add_argument("kills", type=int, nargs="?", default=1000)
    parser.add_argument("seed", type=int, nargs="?", default=1)
    parser.add_argument("--keep", type=int, metavar="BYTES")
    given = parser.parse_args()
    with tempfile.TemporaryDirectory(prefix="escrow-kills-") as place:
        folder, began, luck = os.path.join(place, "shop"), time.monotonic(), random.Random(given.seed)
        escrow.create(folder, LARGE, 0, program=escrow_site(), name=WORLD)
        words, books = ([], "") if given.keep is None else (["--keep", str(given.keep)], os.path.join(place, "books"))
        table = Books(books)
        door, counts = Door(folder, os.path.join(place, "door"), *words), dict.fromkeys(("door", "site", "process", "still"), 0)
        askers, told = [Asker(door.path, "AB"[number % 2], 0, books) for number in range(MANY)], list[dict[str, str]]()
        while sum(counts.values()) < given.kills:
            kill_one(door, askers, told, luck, counts)
        time.sleep(1.0)
        told += [it.end(False) for it in askers]
        is_well = door.close() == 0
        fits = judge_shortened(folder, told, counts, table.all()) if books else judge(folder, told, counts)
        is_well = fits and is_well
        print(f"{'well' if is_well else 'NOT WELL'}: {given.kills} in {time.monotonic() - began:.0f} seconds")
    return 0 if is_well else 1


if __name__ == "__main__":
    sys.exit(main())
