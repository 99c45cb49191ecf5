"""A log that the real program shortens while it serves: orders with keys and positions, through stops too. Each is sold once, a new
one is sold, and one that was let go of is told as forgotten and never sold again."""

from __future__ import annotations

import asyncio
import os
import random
import signal
import subprocess
import sys
import threading
import time
import unittest
from collections.abc import Callable, Iterator
from typing import Any

from doors import Door, DoorTest, kill_child
from programs import LARGE, PACKAGES, Killer, escrow_site, kill, wait_until
import escrow
from escrow import Forgotten, Outcome

KEEP = 0
"""The program looks at the log each 16 KiB, and lets go of all that it may."""
FREE = 500_000
"""What site 0 of `LARGE` has to sell."""
AGAIN = (escrow.Busy, escrow.Lost, escrow.Over, escrow.Down)
"""Whatever is raised that isn't a refusal, nor unknown."""
QUICK = escrow.Backoff(0.01, 0.1)


class Books:
    """What callers wrote down: of each order its position, before it was first asked for, and the id of its sale."""

    def __init__(self) -> None:
        self.since: dict[str, str] = {}
        self.sold: dict[str, str] = {}
        self.forgotten: set[str] = set()
        self.again = 0

    def position(self, key: str, now: str) -> str:
        """That of an order, which is this one where it has none yet."""
        return self.since.setdefault(key, now)

    def tells(self, key: str, id: str) -> None:
        """It is sold. Fails where it was told another id."""
        assert self.sold.setdefault(key, id) == id, (key, id, self.sold[key])

    async def buy(self, shop: escrow.AsyncSite, key: str, timeout: float = 60.0) -> None:
        """Asks for an order until it is told, or forgotten."""
        while True:
            try:
                since = self.position(key, await shop.position(timeout=timeout))
                self.tells(key, await shop.change("stock", -1, key=key, since=since, timeout=timeout))
                return
            except Forgotten:
                self.forgotten.add(key)
                return
            except (escrow.Unknown, *AGAIN):
                self.again += 1

    async def buy_all(self, shop: escrow.AsyncSite, keys: Iterator[str], tasks: int, timeout: float = 60.0) -> None:
        """Asks for all of them, so many at once."""

        async def buys() -> None:
            for key in keys:
                await self.buy(shop, key, timeout)

        await asyncio.gather(*(buys() for _ in range(tasks)))

    def ask_again(self, site: escrow.Site, keys: list[str]) -> tuple[int, int]:
        """Asks for these again, each by its own position: how many were told their id, and how many forgotten. Fails where one has
        another id."""
        before = dict(self.sold)
        told = Books()
        told.since = self.since
        asyncio.run(told.buy_all(escrow.AsyncSite(site), iter(keys), 16))
        assert all(before.get(key, id) == id for key, id in told.sold.items())
        return len(told.sold), len(told.forgotten)


def orders(first: int, many: int) -> list[str]:
    return [f"order-{number}" for number in range(first, first + many)]


class OverFolderTest(DoorTest):
    """By a client that serves the folder."""

    over_a_door = False

    def opened_site(self, folder: str, **options: Any) -> escrow.Site:
        """A client of it until the test ends, over the folder or over a door."""
        options = {"timeout": 60.0, "wait": 60.0, "backoff": QUICK, **options}
        if self.over_a_door:
            site = escrow.Site.connect(self.opened_door(folder).path, **options)
        else:
            site = escrow.Site(folder, program=escrow_site(), keep=KEEP, **options)
        self.addCleanup(site.close)
        return site

    def opened_door(self, folder: str) -> Door:
        return self.opened(Door(folder, os.path.join(self.place, "door"), "--keep", str(KEEP)))

    def is_let_go(self, folder: str) -> None:
        """Its log was shortened."""
        self.assertGreater(escrow.show(folder, escrow_site()).gone, 0)

    def forgets(self, does: Callable[[], object]) -> None:
        with self.assertRaises(Forgotten):
            does()

    def test_a_log_that_is_whole(self) -> None:
        """Where nothing was let go of yet all is as ever, with a position or without."""
        site = self.opened_site(self.folder(LARGE))
        self.assertTrue(site.pipeline.may_forget)
        since = site.position()
        id = site.change("stock", -1, key="order")
        self.assertEqual((site.change("stock", -1, key="order", since=since), site.kept_key("order")), (id, id))
        self.assertEqual((site.kept_key("new"), site.kept_key("new", since=site.position())), (None, None))

    def test_thousands_of_orders(self) -> None:
        folder, books = self.folder(LARGE), Books()
        site, keys = self.opened_site(folder), orders(0, 3000)
        for at in range(0, 3000, 100):
            asyncio.run(books.buy_all(escrow.AsyncSite(site), iter(keys[at : at + 100]), 16))
        self.assertEqual((len(books.sold), len(set(books.sold.values())), len(books.forgotten)), (3000, 3000, 0))
        self.assertEqual(site.share("stock").lower, FREE - 3000)
        self.is_let_go(folder)
        early, late = keys[0], keys[-1]
        calls: list[Callable[[], object]] = [
            lambda: site.change("stock", -1, key=early, since=books.since[early]), lambda: site.change("stock", -1, key=early),
            lambda: site.kept_key(early, since=books.since[early]), lambda: site.outcome(books.sold[early]),
            lambda: site.change("stock", -FREE, key=early, since=books.since[early]),
            lambda: site.change("stock", -1, key="new", since=books.since[early]), lambda: site.change("stock", -1, key="new"),
        ]  # fmt: skip
        for does in calls:
            self.forgets(does)
        with site.transaction() as t:
            t.lower("stock", 1)
            self.forgets(lambda: t.commit(key=early, since=books.since[early]))
        self.assertEqual((site.share("stock").lower, site.open), (FREE - 3000, 0))
        for since in (books.since[late], site.position()):
            self.assertEqual(site.change("stock", -1, key=late, since=since), books.sold[late])
            self.assertEqual(site.kept_key(late, since=since), books.sold[late])
        self.assertEqual((site.change("stock", -1, key=late), site.outcome(books.sold[late])), (books.sold[late], Outcome.COMMITTED))
        told, forgotten = books.ask_again(site, keys)
        self.assertEqual(told + forgotten, 3000)
        self.assertGreater(min(told, forgotten), 0)
        self.assertEqual(site.share("stock").lower, FREE - 3000)
        since = site.position()
        with self.assertRaises(escrow.Short):
            site.change("stock", -FREE, key="new", since=since)
        id = site.change("stock", -1, key="new", since=since)
        self.assertEqual((site.change("stock", -1, key="new", since=since), site.share("stock").lower), (id, FREE - 3001))

    def test_kills(self) -> None:
        """The process is killed again and again, also while it shortens the log."""
        folder, books, many = self.folder(LARGE), Books(), 4000
        site, keys = self.opened_site(folder), orders(0, many)
        with self.killing(site):
            asyncio.run(books.buy_all(escrow.AsyncSite(site), iter(keys), 32, timeout=5.0))
        self.judge(folder, site, books, many)

    def killing(self, site: escrow.Site) -> Any:
        return Killer(site, 12, 0.15, 7)

    def judge(self, folder: str, site: escrow.Site, books: Books, many: int) -> None:
        """Each order is sold once, but for those that nobody can tell of; and asked for again none is sold."""
        wait_until(lambda: site.up)
        self.is_let_go(folder)
        sold = FREE - site.share("stock").lower
        told = set(books.sold)
        self.assertEqual((len(told | books.forgotten), len(set(books.sold.values()))), (many, len(told)))
        self.assertLessEqual(len(told), sold)
        self.assertLessEqual(sold, many)
        again = books.ask_again(site, list(books.since))
        self.assertEqual((sum(again), FREE - site.share("stock").lower), (many, sold))
        self.assertGreater(again[1], 0)
        self.assertEqual(site.open, 0)
        self.assertEqual(site.change("stock", -1, key="more", since=site.position()), site.kept_key("more"))


class DoorKiller:
    """Kills a door, or its site, at random moments, until it has killed so many times, and starts the door anew."""

    def __init__(self, door: Door, kills: int, pause: float, seed: int) -> None:
        self._door, self._kills, self._pause, self._random = door, kills, pause, random.Random(seed)
        self._thread = threading.Thread(target=self._run)

    def __enter__(self) -> DoorKiller:
        self._thread.start()
        return self

    def __exit__(self, *_: object) -> None:
        self._thread.join()

    def _run(self) -> None:
        for number in range(self._kills):
            time.sleep(self._random.uniform(0.2, 1.8) * self._pause)
            if number % 2:
                kill_child(self._door)
            else:
                self._door.kill()
                self._door.start()


class OverDoorTest(OverFolderTest):
    """The same by a door."""

    over_a_door = True

    def opened_door(self, folder: str) -> Door:
        self.last_door = super().opened_door(folder)
        return self.last_door

    def killing(self, site: escrow.Site) -> Any:
        return DoorKiller(self.last_door, 8, 0.4, 7)

    def test_two_ask_for_the_same_orders(self) -> None:
        """Two connections, and one table of positions: each order is sold once, whoever is told it first."""
        folder, books, many = self.folder(LARGE), Books(), 3000
        first = self.opened_site(folder)
        second = escrow.Site.connect(self.last_door.path, timeout=60.0, wait=60.0, backoff=QUICK)
        self.addCleanup(second.close)
        keys = orders(0, many)

        def buys(site: escrow.Site) -> None:
            asyncio.run(books.buy_all(escrow.AsyncSite(site), iter(keys), 16))

        other = threading.Thread(target=buys, args=(second,))
        other.start()
        buys(first)
        other.join()
        self.assertEqual((len(books.sold), len(set(books.sold.values())), len(books.forgotten)), (many, many, 0))
        self.assertEqual(first.share("stock").lower, FREE - many)
        self.judge(folder, second, books, many)

    def test_lines(self) -> None:
        """What the program tells of a key and its position, by hand."""
        hand = self.hand(self.opened_door(self.folder(LARGE)))
        self.assertEqual(hand.hello[4].split()[:2], ["ready", "2"])
        asked = ("kept key a since 1.0", "0 begin", "0 escrow .1 stock -1", "0 commit .1 key a since 1.0", "kept key a since 1.0")
        told = ["kept key a since 1.0 -> no", "0 begin -> begun 1.1", "0 escrow 1.1 stock -1 -> granted", "0 commit 1.1 -> committed",
                "kept key a since 1.0 -> 1.1"]  # fmt: skip
        self.assertEqual(hand.told(*asked), told)
        asked = ("0 begin", "0 escrow .2 stock -1", "0 commit .2 key a since 1.0", "kept 1.2", "0 commit .2")
        self.assertEqual(hand.told(*asked)[2:4], ["kept key a -> 1.1", "kept 1.2 -> no"])


class WholeTest(DoorTest):
    """A program that isn't told to let go of anything knows the words too, by hand; this client doesn't use them there."""

    def test_lines(self) -> None:
        hand = self.hand(self.door(LARGE))
        self.assertEqual(hand.hello[4].split()[:2], ["ready", "1"])
        self.assertEqual(hand.told("kept key a since 1.0", "0 begin", "0 escrow .1 stock -1", "0 commit .1 key a since 1.0")[3:],
                         ["0 commit 1.1 -> committed"])  # fmt: skip
        self.assertEqual(hand.told("kept key a since 1.0", "kept key b since 1.0"),
                         ["kept key a since 1.0 -> 1.1", "kept key b since 1.0 -> no"])  # fmt: skip

    def test_keep_is_given_up_again(self) -> None:
        """A log that was shortened once tells so at each start, also without the option."""
        folder, books = self.folder(LARGE), Books()
        with escrow.Site(folder, program=escrow_site(), keep=KEEP, timeout=60.0, wait=60.0) as site:
            asyncio.run(books.buy_all(escrow.AsyncSite(site), iter(orders(0, 3000)), 32))
        site = self.served(folder, timeout=60.0)
        self.assertTrue(site.pipeline.may_forget)
        with self.assertRaises(Forgotten):
            site.change("stock", -1, key="order-0", since=books.since["order-0"])
        id = site.change("stock", -1, key="new", since=site.position())
        kill(site)
        self.assertEqual((site.kept_key("new"), site.share("stock").lower), (id, FREE - 3001))

    def test_what_is_no_number_of_bytes(self) -> None:
        folder = self.folder(LARGE)
        for keep in (-1, (1 << 40) + 1):
            with self.assertRaisesRegex(ValueError, f"{keep}: isn't a number of bytes to keep, 0 to 2\\^40"):
                escrow.Site(folder, program=escrow_site(), keep=keep)
            ended = self.ended_door(folder, "--keep", str(keep))
            self.assertEqual(ended.returncode, 2)
            self.assertIn(f"{keep}: isn't a number of bytes to keep, 0 to 2^40", ended.stderr)
        with self.assertRaises(TypeError):
            escrow.Site(folder, program=escrow_site(), keep=1.5)  # type: ignore[arg-type]
        for keep in (1 << 20, 1 << 40):
            self.served(folder, keep=keep).close()

    def ended_door(self, folder: str, *words: str) -> subprocess.CompletedProcess[str]:
        """A door that doesn't open."""
        words = ("-m", "escrow.door", folder, "--socket", f"{folder}.door", "--program", escrow_site(), *words)
        return subprocess.run([sys.executable, *words], cwd=PACKAGES, capture_output=True, text=True, check=False, timeout=60)


class ArchiveTest(DoorTest):
    """What is let go of stays in the folder, as the log was each time: asked for by a site, by a task's and by a door."""

    def sell(self, site: escrow.Site) -> None:
        """So much that the log lets go of its front."""
        asyncio.run(Books().buy_all(escrow.AsyncSite(site), iter(orders(0, 3000)), 32))
        site.close()

    def verify(self, folder: str) -> None:
        """All of it is one lawful log yet, with each sale."""
        gone = escrow.show(folder, escrow_site()).gone
        self.assertGreater(gone, 0)
        self.assertIn(f"log.{gone}", os.listdir(folder))
        told = subprocess.run([escrow_site(), "verify", folder], capture_output=True, text=True, check=False)
        self.assertRegex(told.stdout, r"^verified 300\d [0-9]+\n$")

    def test_a_site(self) -> None:
        folder = self.folder(LARGE)
        self.sell(self.served(folder, keep=KEEP, archive=True, timeout=60.0))
        self.verify(folder)

    def test_a_site_of_tasks(self) -> None:
        folder = self.folder(LARGE)

        async def sells() -> None:
            async with escrow.AsyncSite(folder, program=escrow_site(), keep=KEEP, archive=True, timeout=60.0, wait=60.0) as shop:
                await Books().buy_all(shop, iter(orders(0, 3000)), 32)

        asyncio.run(sells())
        self.verify(folder)

    def test_a_door(self) -> None:
        folder = self.folder(LARGE)
        door = self.opened(Door(folder, os.path.join(self.place, "door"), "--keep", str(KEEP), "--archive"))
        self.sell(self.connected(door))
        self.assertEqual(door.close(), 0)
        self.verify(folder)

    def test_without_keep_it_is_refused(self) -> None:
        """By the program."""
        folder = self.folder(LARGE)
        with self.assertRaises(escrow.Down) as raised:
            escrow.Site(folder, program=escrow_site(), archive=True)
        self.assertEqual(raised.exception.status, 2)
        self.assertIn("--keep <BYTES>", str(raised.exception))
        door = self.opened(Door(folder, os.path.join(self.place, "door"), "--archive"))
        self.assertEqual(door.close(), 2)
        self.assertIn("--keep <BYTES>", door.text())


if __name__ == "__main__":
    unittest.main()
