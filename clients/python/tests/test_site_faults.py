"""Faults that a caller would meet: a place that nobody takes, a value that is taken by its looks, a path that is taken for
an option, an end that is told twice, exceptions that can't be copied."""

from __future__ import annotations

import asyncio
import copy
import os
import pickle
import random
import subprocess
import sys
import threading
import unittest
from collections.abc import Callable
from decimal import Decimal
from enum import Enum
from fractions import Fraction
from typing import Union

from programs import LARGE, LONG, PACKAGES, SHOP, WORLD, Act, SiteTest, commits, escrow_site, kill, of_shop, wait_until
import escrow
from escrow import Cause, Outcome, Refusal, Share


class PlacesTest(SiteTest):
    """A place that is free goes to the first that still wants it."""

    def full(self) -> tuple[escrow.Site, list[escrow.Transaction]]:
        """A site whose 63 places are taken, and who has them."""
        site = self.site(LARGE)
        held = [site.transaction() for _ in range(63)]
        for t in held:
            t.lower("stock", 1)
        return site, held

    def waits(self, site: escrow.Site, sold: list[str]) -> threading.Thread:
        """A buyer in a thread, who waits for a place from now on."""

        def buys() -> None:
            with site.transaction() as t:
                t.lower("stock", 1)
            sold.append(t.id)

        before, thread = site.unanswered, threading.Thread(target=buys, daemon=True)
        thread.start()
        wait_until(lambda: site.unanswered == before + 1)
        return thread

    def test_a_live_one_behind_one_that_expired(self) -> None:
        site, held = self.full()
        sold: list[str] = []
        with self.assertRaises(escrow.Over):
            site.transaction(0.05).lower("stock", 1)
        thread = self.waits(site, sold)
        held[0].abort()
        thread.join(LONG)
        self.assertEqual((len(sold), site.open, site.unanswered), (1, 62, 0))

    def test_a_live_one_behind_one_that_expires_as_it_waits(self) -> None:
        site, held = self.full()
        faults: list[BaseException] = []

        def expires() -> None:
            try:
                site.transaction(5.0).lower("stock", 1)
            except escrow.Over as fault:
                faults.append(fault)

        sold: list[str] = []
        first = threading.Thread(target=expires)
        first.start()
        wait_until(lambda: site.unanswered == 1)
        thread = self.waits(site, sold)
        first.join(LONG)
        held[0].abort()
        thread.join(LONG)
        self.assertEqual((len(faults), len(sold), site.open, site.unanswered), (1, 1, 62, 0))

    def test_a_live_one_behind_ones_that_were_aborted_as_they_waited(self) -> None:
        site, held = self.full()
        faults: list[BaseException] = []
        sold: list[str] = []
        gone = [site.transaction() for _ in range(3)]

        def waits(t: escrow.Transaction) -> None:
            try:
                t.lower("stock", 1)
            except escrow.Over as fault:
                faults.append(fault)

        for count, t in enumerate(gone):
            threading.Thread(target=waits, args=(t,), daemon=True).start()
            wait_until(lambda: site.unanswered == count + 1)
        thread = self.waits(site, sold)
        for t in gone:
            t.abort()
        held[0].abort()
        thread.join(LONG)
        self.assertEqual((len(sold), site.open, site.unanswered), (1, 62, 0))
        wait_until(lambda: len(faults) == 3)

    def test_a_live_one_behind_many_that_were_cancelled(self) -> None:
        site, held = self.full()

        async def buys(shop: escrow.AsyncSite, seconds: float) -> str:
            async with shop.transaction() as t:
                await asyncio.wait_for(t.lower("stock", 1), seconds)
            return t.id

        async def calls() -> tuple[int, str]:
            shop = escrow.AsyncSite(site)
            gone = [asyncio.ensure_future(buys(shop, 0.05)) for _ in range(63)]
            await asyncio.sleep(0.02)
            live = asyncio.ensure_future(buys(shop, 2 * LONG))
            told = await asyncio.gather(*gone, return_exceptions=True)
            for t in held:
                await asyncio.to_thread(t.abort)
            done, _ = await asyncio.wait([live], timeout=LONG)
            return sum(isinstance(it, asyncio.TimeoutError) for it in told), live.result() if done else "it waits still"

        gave_up, id = asyncio.run(calls())
        self.assertEqual((gave_up, site.open), (63, 0))
        self.assertEqual(site.outcome(id), Outcome.COMMITTED)


    def test_one_that_was_cancelled_while_it_waited_never_begins(self) -> None:
        """Nobody would end it: so its place would be lost."""
        site, held = self.full()

        async def calls() -> list[object]:
            shop = escrow.AsyncSite(site)
            left = [shop.transaction() for _ in range(5)]
            waits = (asyncio.wait_for(t.lower("stock", 1), 0.05) for t in left)
            told = await asyncio.gather(*waits, return_exceptions=True)
            for t in held:
                await asyncio.to_thread(t.abort)
            await left[0].lower("stock", 2)
            await left[0].commit()
            return [*map(type, told), left[1].id]

        self.assertEqual(asyncio.run(calls()), [asyncio.TimeoutError] * 5 + [""])
        self.assertEqual((site.open, site.unanswered, site.share("stock").lower), (0, 0, 499_998))


    def test_cancellations_at_any_moment_leave_no_place_taken(self) -> None:
        site, luck = self.site(LARGE), random.Random(7)

        async def sells(shop: escrow.AsyncSite) -> None:
            async with shop.transaction() as t:
                await t.lower("stock", 1)
                await t.raise_("seats", 1)

        async def calls() -> int:
            shop = escrow.AsyncSite(site)
            tasks = [asyncio.ensure_future(sells(shop)) for _ in range(300)]
            for task in tasks:
                asyncio.get_running_loop().call_later(luck.uniform(0.0, 0.03), task.cancel)
            told = await asyncio.gather(*tasks, return_exceptions=True)
            return sum(isinstance(it, asyncio.CancelledError) for it in told)

        cancelled = asyncio.run(calls())
        wait_until(lambda: site.unanswered == 0 and site.open == 0)
        share = site.share("stock").lower
        site.close()
        kept = len(commits(site.folder, LARGE))
        self.assertGreaterEqual(kept, 300 - cancelled)
        self.assertEqual(share, 500_000 - kept)


class Field(str, Enum):
    """A program's own names."""

    STOCK = "stock"


class TypesTest(SiteTest):
    """What is taken doesn't depend on what was asked before."""

    def test_what_is_no_whole_number_is_none_after_its_equal_was_asked(self) -> None:
        site = self.site()
        wrong = (-1.0, Decimal(-1), Fraction(-1), -1 + 0j)
        for _ in range(2):
            for change in wrong:
                with self.assertRaises(TypeError):
                    site.change("stock", change)  # type: ignore[arg-type]
                with self.assertRaises(TypeError):
                    asyncio.run(self.change(site, change))
            site.change("stock", -1)
            asyncio.run(self.change(site, -1))
        site.close()
        self.assertEqual(len(commits(site.folder, SHOP)), 4)

    async def change(self, site: escrow.Site, change: object) -> str:
        """A task's change."""
        return await escrow.AsyncSite(site).change("stock", change)  # type: ignore[arg-type]

    def test_names_and_numbers_of_other_types_are_the_same_before_and_after(self) -> None:
        site = self.site()
        for _ in range(2):
            site.change(Field.STOCK, -1)
            site.change("stock", True)
            with site.transaction() as t:
                t.lower(Field.STOCK, True)
                t.change("stock", True)
            site.change("stock", -1)
        self.assertEqual((site.share(Field.STOCK), site.epoch), (Share(18, 32), 1))


class PathsTest(SiteTest):
    """A path is no option."""

    def test_paths_that_begin_with_a_dash(self) -> None:
        here = os.getcwd()
        self.addCleanup(os.chdir, here)
        os.chdir(self.place)
        with open("-schema", "w", encoding="ascii") as file:
            print(SHOP.line(), file=file)
        rows: list[tuple[str, Union[escrow.Schema, str]]] = [("--help", SHOP), ("-h", SHOP), ("-x", "-schema")]
        for place, schema in rows:
            escrow.create(place, schema, 0, program=escrow_site(), name="-n-")
            self.assertEqual(escrow.show(place, program=escrow_site()).fields["stock"].share, Share(20, 30))
            self.served(place).change("stock", -1)
        self.assertEqual(sorted(os.listdir(self.place)), ["--help", "-h", "-schema", "-x"])

    def test_a_number_below_0(self) -> None:
        with self.assertRaises(escrow.ProgramError) as raised:
            escrow.create(os.path.join(self.place, "shop"), SHOP, -1, program=escrow_site(), name=WORLD)
        self.assertEqual(raised.exception.status, 2)
        self.assertIn("-1", str(raised.exception))

    def test_the_carriers_list_has_a_help(self) -> None:
        for word in ("--help", "-h"):
            words = [sys.executable, "-m", "escrow_carrier", word]
            told = subprocess.run(words, cwd=self.place, env={**os.environ, "PYTHONPATH": PACKAGES},
                                  capture_output=True, text=True, check=False)
            self.assertEqual((told.returncode, told.stderr), (0, ""))
            self.assertIn("python3 -m escrow_carrier shop0 shop1", told.stdout)
        words = [sys.executable, "-m", "escrow_carrier", "--list"]
        told = subprocess.run(words, cwd=self.place, env={**os.environ, "PYTHONPATH": PACKAGES}, capture_output=True,
                              text=True, check=False)
        self.assertEqual((told.returncode, told.stdout), (2, ""))
        self.assertEqual(told.stderr, "escrow_carrier: --list is no flag, and a folder of that name is ./--list\n")


class EndsTest(SiteTest):
    """What is ended within `with` is ended once."""

    def test_a_commit_or_an_abort_inside(self) -> None:
        site = self.site()
        with site.transaction() as first:
            first.lower("stock", 3)
            first.commit()
        with site.transaction() as second:
            second.lower("stock", 4)
            second.abort()
        with site.transaction() as empty:
            empty.commit()
        with site.transaction() as empty:
            empty.abort()
        self.assertEqual([site.outcome(it.id) for it in (first, second)], [Outcome.COMMITTED, Outcome.NOT_COMMITTED])
        with self.assertRaises(escrow.Over):
            with site.transaction() as third:
                third.commit()
                third.lower("stock", 1)
        self.assertEqual((site.share("stock"), site.open), (Share(17, 33), 0))

    def test_in_a_task(self) -> None:
        site = self.site()

        async def calls() -> list[Outcome]:
            shop = escrow.AsyncSite(site)
            async with shop.transaction() as first:
                await first.lower("stock", 3)
                await first.commit()
            async with shop.transaction() as second:
                await second.lower("stock", 4)
                await second.abort()
            return [await shop.outcome(it.id) for it in (first, second)]

        self.assertEqual(asyncio.run(calls()), [Outcome.COMMITTED, Outcome.NOT_COMMITTED])

    def test_what_ended_it_otherwise_is_told(self) -> None:
        site = self.site()
        with self.assertRaises(escrow.Over) as raised:
            with site.transaction(1.0) as t:
                t.lower("stock", 3)
                wait_until(lambda: site.open == 0)
        self.assertEqual((raised.exception.id, raised.exception.cause), (t.id, Cause.EXPIRED))
        with self.assertRaises(escrow.EscrowError) as stopped:
            with site.transaction() as t:
                t.lower("stock", 3)
                kill(site)
                wait_until(lambda: site.epoch == 2 and site.up)
        fault = stopped.exception
        assert isinstance(fault, escrow.Over)
        self.assertEqual((fault.id, fault.cause), (t.id, Cause.STOPPED))


class ExceptionsTest(SiteTest):
    """Each exception tells what it is of, and can be handed on."""

    def test_over_and_lost_tell_the_transaction(self) -> None:
        site = self.site()
        t = site.transaction()
        t.lower("stock", 1)
        t.commit()
        acts: list[Act] = [t.commit, lambda: t.lower("stock", 1)]
        for act in acts:
            with self.assertRaises(escrow.Over) as raised:
                act()
            self.assertEqual((raised.exception.id, raised.exception.cause), (of_shop("1.1"), Cause.ENDED))
        gone = site.transaction()
        gone.lower("stock", 1)
        told = self.interrupted(site, gone.commit, lambda: kill(site))
        self.assertEqual((type(told), told.id), (escrow.Lost, of_shop("1.2")))
        self.assertIn(of_shop("1.2"), str(told))
        unbegun = site.transaction()
        unbegun.abort()
        with self.assertRaises(escrow.Over) as raised:
            unbegun.commit()
        self.assertEqual((raised.exception.id, raised.exception.cause), (None, Cause.ENDED))

    def test_each_is_copied_and_pickled(self) -> None:
        asked = "0 escrow 1.1 stock -50"
        faults: list[escrow.EscrowError] = [
            escrow.EscrowError("a", 1),
            escrow.Refused(Refusal.ZERO, None, "0 escrow 1.1 stock 0"),
            escrow.Short(Refusal.SHORT, 20, asked),
            escrow.Forged(Refusal.FORGED, 7, "0 accept 1 0 stock lower 99"),
            escrow.NothingGiven(Refusal.NOTHING_GIVEN, None, "0 restate 1 stock lower"),
            escrow.Lost("why", "9c1f0a2b-0-1.1"),
            escrow.Over("why", "9c1f0a2b-0-1.1", Cause.STOPPED),
            escrow.Busy("why"),
            escrow.Unknown("why", "9c1f0a2b-0-1.1", "order-17"),
            escrow.Forgotten("9c1f0a2b-0-1.1", "order-17"),
            escrow.Faulty("why"),
            escrow.NoKeys(),
            escrow.Down("why", 5),
            escrow.OtherSite("9c1f0a2b-1-1.1", 1, 0),
            escrow.OtherWorld("9c1f0a2b-0-1.1", "9c1f0a2b", "00000000", (1, 1)),
            escrow.ProgramError(3, "why"),
        ]
        ways: list[Callable[[escrow.EscrowError], object]] = [
            copy.copy,
            copy.deepcopy,
            *(lambda it, n=n: pickle.loads(pickle.dumps(it, n)) for n in range(pickle.HIGHEST_PROTOCOL + 1)),
        ]
        for fault in faults:
            for way in ways:
                again = way(fault)
                assert isinstance(again, escrow.EscrowError)
                self.assertIs(type(again), type(fault))
                self.assertEqual((str(again), again.args, vars(again)), (str(fault), fault.args, vars(fault)))
        kinds = {it for it in vars(escrow).values() if isinstance(it, type) and issubclass(it, escrow.EscrowError)}
        self.assertEqual(kinds, set(map(type, faults)))
        short = copy.deepcopy(faults[2])
        assert isinstance(short, escrow.Short)
        self.assertEqual((short.share, short.field, short.kind), (20, "stock", escrow.Kind.LOWER))

    def test_one_that_was_raised(self) -> None:
        site = self.site()
        with self.assertRaises(escrow.Short) as raised:
            site.change("stock", -30)
        again = pickle.loads(pickle.dumps(raised.exception))
        self.assertEqual((again.share, again.told, str(again)), (20, 20, str(raised.exception)))


if __name__ == "__main__":
    unittest.main()
