"""Orders with keys, each asked for by two callers at once and again after anything, while the program, the door or the
callers' own process is killed: each is sold once."""

from __future__ import annotations

import asyncio
import itertools
import os
import random
import subprocess
import sys
import threading
import time
import unittest
from collections.abc import Callable

from doors import Door, DoorTest, kill_child
from programs import LARGE, LONG, Changes, Killer, SiteTest, commits, escrow_site, of_large, wait_until
import escrow

KILLS = 30
AGAIN = (escrow.Unknown, escrow.Busy, escrow.Lost, escrow.Over, escrow.Down)
"""Whatever is raised that isn't a refusal."""
SELLER = """
import os, sys, threading
import programs, escrow
where, program, many = sys.argv[1:]
site = escrow.Site(where, program=program, wait=60.0) if program else escrow.Site.connect(where, wait=60.0)
def sell(first):
    for number in range(first, int(many), 4):
        id = site.change("stock", -1, key=f"order-{number}")
        os.write(1, f"order-{number} {id}\\n".encode())
threads = [threading.Thread(target=sell, args=(first,)) for first in range(4)]
for thread in threads: thread.start()
for thread in threads: thread.join()
site.close()
"""
"""A client that sells so many orders, and tells of each. It keeps no books: it begins with the first one."""


class Orders:
    """What is sold by which order, and what callers were told of it."""

    def __init__(self) -> None:
        self.told: dict[str, str] = {}
        self.again = 0
        self._lock = threading.Lock()

    def changes(self, key: str) -> Changes:
        """What an order sells, by its number: a seat besides, or none."""
        number = int(key.rpartition("-")[2])
        stock = ("stock", -1 - number % 3)
        return (stock, ("seats", 1)) if number % 4 == 3 else (stock,)

    def sold(self, key: str, id: str) -> None:
        """Somebody was told that it is sold. Fails where another was told another id."""
        with self._lock:
            assert self.told.setdefault(key, id) == id, (key, id, self.told[key])

    def failed(self) -> None:
        """Somebody was told something else, and asks again."""
        with self._lock:
            self.again += 1

    def sell(self, site: escrow.Site, key: str, timeout: float) -> None:
        """Has it sold, however often that has to be asked for."""
        (field, change), *more = self.changes(key)
        while True:
            try:
                if not more:
                    self.sold(key, site.change(field, change, key=key, timeout=timeout))
                    return
                with site.transaction(timeout=timeout) as t:
                    for field, change in self.changes(key):
                        t.change(field, change)
                    self.sold(key, t.commit(key=key))
                return
            except AGAIN:
                self.failed()

    async def sell_by_task(self, shop: escrow.AsyncSite, key: str, timeout: float) -> None:
        """The same."""
        (field, change), *more = self.changes(key)
        while True:
            try:
                if not more:
                    self.sold(key, await shop.change(field, change, key=key, timeout=timeout))
                    return
                async with shop.transaction(timeout=timeout) as t:
                    for field, change in self.changes(key):
                        await t.change(field, change)
                    self.sold(key, await t.commit(key=key))
                return
            except AGAIN:
                self.failed()

    def judge(self, folder: str) -> None:
        """The log has each order once, and nothing else. Fails where it hasn't."""
        kept = commits(folder, LARGE)
        assert len(set(self.told.values())) == len(self.told), "two orders have one id"
        assert set(kept) == set(self.told.values()), (len(kept), len(self.told))
        for key, id in self.told.items():
            assert kept[id] == self.changes(key), (key, kept[id])


def all_at_once(acts: list[Callable[[], object]]) -> None:
    """Does all this in threads, to the end. Raises the first that one raised."""
    faults: list[BaseException] = []

    def does(act: Callable[[], object]) -> None:
        try:
            act()
        except BaseException as fault:
            faults.append(fault)

    threads = [threading.Thread(target=does, args=(act,)) for act in acts]
    for thread in threads:
        thread.start()
    for thread in threads:
        thread.join()
    if faults:
        raise faults[0]


def numbers_while(at_work: Callable[[], bool]) -> itertools.takewhile[int]:
    """0, 1, 2 and so on, as long as this holds."""
    return itertools.takewhile(lambda _: at_work(), itertools.count())


def killed_sellers(where: str, program: str, many: int) -> dict[str, str]:
    """What clients told of so many orders, each of which was killed a moment after its first one, but for the last. Fails
    where two told different ids of one. Without a program `where` is a door."""
    luck, told = random.Random(5), {}  # type: random.Random, dict[str, str]
    for seconds in (*(luck.uniform(0.1, 0.4) for _ in range(4)), 5 * LONG):
        words = [sys.executable, "-S", "-c", SELLER, where, program, str(many)]
        here = os.path.dirname(os.path.abspath(__file__))
        with subprocess.Popen(words, stdout=subprocess.PIPE, text=True, cwd=here) as client:
            assert client.stdout is not None
            first = client.stdout.readline()
            ended = threading.Timer(seconds, client.kill)
            ended.start()
            text = first + client.stdout.read()
            ended.cancel()
        for line in text.split("\n")[:-1]:
            key, _, id = line.partition(" ")
            assert told.setdefault(key, id) == id, (key, id, told[key])
    return told


class KilledTest(SiteTest):
    """SIGKILL of the program, between a commit and its answer too."""

    def test_each_order_is_sold_once(self) -> None:
        site = self.site(LARGE, backoff=escrow.Backoff(0.01, 0.1), patience=60.0)
        orders, killer = Orders(), Killer(site, KILLS, 0.12, seed=17)

        def sells(who: int) -> None:
            luck = random.Random(who)
            for number in numbers_while(lambda: killer.at_work):  # two callers have the same orders
                orders.sell(site, f"{who // 2}-{number}", luck.choice((0.1, LONG)))

        async def task_sells(shop: escrow.AsyncSite, who: int) -> None:
            luck = random.Random(who)
            for number in numbers_while(lambda: killer.at_work):
                await orders.sell_by_task(shop, f"{who // 2}-{number}", luck.choice((0.1, LONG)))

        async def tasks() -> None:
            shop = escrow.AsyncSite(site)
            await asyncio.gather(*(task_sells(shop, who) for who in range(5, 11)))

        with killer:
            all_at_once([*(lambda who=who: sells(who) for who in range(7)), lambda: asyncio.run(tasks())])
        share, told = site.share("stock"), {key: site.kept_key(key) for key in orders.told}
        site.close()
        self.assertEqual(told, orders.told)
        orders.judge(site.folder)
        stock = sum(change for key in orders.told for field, change in orders.changes(key) if field == "stock")
        self.assertEqual((share, site.open), (escrow.Share(500_000 + stock, 500_000 - stock), 0))
        self.assertGreaterEqual(killer.killed, KILLS)
        self.assertGreater(len(orders.told), 5)

    def test_a_client_that_is_killed_begins_with_its_first_order(self) -> None:
        folder = self.folder(LARGE)
        told = killed_sellers(folder, escrow_site(), 400)
        self.assertEqual(set(told), {f"order-{number}" for number in range(400)})
        self.assertEqual((set(commits(folder, LARGE)), len(set(told.values()))), (set(told.values()), 400))
        with escrow.Site(folder, program=escrow_site()) as site:
            self.assertEqual(site.share("stock").lower, 500_000 - 400)


class DoorKilledTest(DoorTest):
    """SIGKILL of a door and of its site, under two clients that have the same orders; and of clients."""

    def test_a_client_that_is_killed_begins_with_its_first_order(self) -> None:
        door = self.door(LARGE)
        told = killed_sellers(door.path, "", 400)
        self.assertEqual(set(told), {f"order-{number}" for number in range(400)})
        site = self.connected(door)
        wait_until(lambda: site.share("stock").lower == 500_000 - 400)  # nothing stays set aside
        self.assertEqual(site.kept_key("order-17"), told["order-17"])
        door.close()
        self.assertEqual((set(commits(door.folder, LARGE)), len(set(told.values()))), (set(told.values()), 400))

    def test_each_order_is_sold_once(self) -> None:
        door, luck = self.door(LARGE), random.Random(9)
        more = {"patience": 60.0, "backoff": escrow.Backoff(0.01, 0.1)}
        sites = [self.connected(door, **more) for _ in range(2)]
        orders, over = Orders(), threading.Event()

        def sells(site: escrow.Site, who: int) -> None:
            luck = random.Random(who)
            for number in numbers_while(lambda: not over.is_set() or len(orders.told) <= 5):
                orders.sell(site, f"{who}-{number}", luck.choice((0.1, LONG)))

        def kills() -> None:
            for number in range(12):
                time.sleep(luck.uniform(0.05, 0.25))
                if number % 2:
                    door.kill()
                    door.start()
                else:
                    kill_child(door)
            time.sleep(0.2)

        def kills_all() -> None:
            try:
                kills()
            finally:
                over.set()

        all_at_once([kills_all, *(lambda it=it, who=who: sells(it, who) for it in sites for who in range(4))])
        told = {key: sites[0].kept_key(key) for key in orders.told}
        self.assertEqual(door.close(), 0)
        self.assertEqual(told, orders.told)
        orders.judge(door.folder)
        self.assertGreater(len(orders.told), 5)
        self.assertTrue(all(id.startswith(of_large("")) for id in orders.told.values()))


if __name__ == "__main__":
    unittest.main()
