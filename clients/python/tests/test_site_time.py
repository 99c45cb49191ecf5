"""Time limits of calls: over a serve that stands still (SIGSTOP), with no place free, with a site that doesn't stand. Nothing is
sold twice by them, and what is in doubt has its id."""

from __future__ import annotations

import asyncio
import logging
import math
import os
import signal
import threading
import time
import unittest
import unittest.mock
from collections.abc import Awaitable, Callable, Iterator
from contextlib import contextmanager
from typing import Union

from programs import LARGE, LONG, SHOP, Act, SiteTest, commits, kill, pid_of, stand_still, totals, wait_until
import escrow
from escrow import Kind, Outcome, Share, Statement
from escrow.asking import ask
from escrow.calls import Call
from escrow.pipeline import Pipeline
from escrow.waiters import ThreadWaiter

LIMIT = 0.5
ACCEPTED = Statement(1, 0, "stock", Kind.LOWER, 1)
Ask = Callable[[escrow.AsyncSite], Awaitable[object]]


@contextmanager
def still(site: escrow.Site) -> Iterator[None]:
    """The site's process stands still meanwhile."""
    pid = pid_of(site)
    stand_still(pid)
    try:
        yield
    finally:
        os.kill(pid, signal.SIGCONT)


class TimeTest(SiteTest):
    """What a call tells whose time is up."""

    def late(self, act: Act, kind: type[escrow.EscrowError]) -> escrow.EscrowError:
        """What it raises, which is of this kind, soon after its time is up."""
        began = time.monotonic()
        with self.assertRaises(kind) as raised:
            act()
        self.assertLess(time.monotonic() - began, LIMIT + 4.0)
        self.assertIs(type(raised.exception), kind)
        return raised.exception

    def late_task(self, site: escrow.Site, asks: Ask, kind: type[escrow.EscrowError]) -> escrow.EscrowError:
        """The same of a task."""

        async def calls() -> object:
            return await asks(escrow.AsyncSite(site))

        return self.late(lambda: asyncio.run(calls()), kind)


class StillTest(TimeTest):
    """A serve that stands still."""

    def test_a_change_is_in_doubt_with_its_id(self) -> None:
        site = self.site()
        ways: list[Callable[[], object]] = [lambda: self.late(lambda: site.change("stock", -1, timeout=LIMIT), escrow.Unknown)]
        ways.append(lambda: self.late_task(site, lambda shop: shop.change("stock", -1, timeout=LIMIT), escrow.Unknown))
        for way in ways:
            with still(site):
                fault = way()
            assert isinstance(fault, escrow.Unknown) and fault.id is not None
            self.assertEqual(site.outcome(fault.id), Outcome.COMMITTED)
        self.assertEqual((site.unanswered, site.share("stock")), (0, Share(18, 32)))
        site.close()
        self.assertEqual(len(commits(site.folder, SHOP)), 2)

    def test_a_change_that_a_kill_follows(self) -> None:
        site = self.site()
        with still(site):
            fault = self.late(lambda: site.change("stock", -1, timeout=LIMIT), escrow.Unknown)
            kill(site)
        assert isinstance(fault, escrow.Unknown) and fault.id is not None
        self.assertEqual(site.outcome(fault.id), Outcome.NOT_COMMITTED)
        self.assertEqual((site.share("stock"), site.epoch, site.unanswered), (Share(20, 30), 2, 0))

    def test_many_at_once(self) -> None:
        site = self.site(LARGE)

        async def calls() -> list[object]:
            shop = escrow.AsyncSite(site)
            await asyncio.gather(*(shop.change("stock", -1) for _ in range(100)))
            late = escrow.AsyncSite(site, timeout=LIMIT)
            with still(site):
                return await asyncio.gather(*(late.change("stock", -1) for _ in range(100)), return_exceptions=True)

        faults = asyncio.run(calls())
        ids = {it.id for it in faults if isinstance(it, escrow.Unknown) and it.id}
        self.assertEqual(len(ids), 100)
        self.assertEqual({site.outcome(id) for id in ids}, {Outcome.COMMITTED})
        site.close()
        self.assertEqual(len(commits(site.folder, LARGE)), 200)

    def test_a_timeout_and_a_retry_sell_once(self) -> None:
        """The retry is of who asks: by the id of the first try."""
        site, sold = self.site(), []
        with still(site):
            fault = self.late(lambda: site.change("stock", -7, timeout=LIMIT), escrow.Unknown)
            assert isinstance(fault, escrow.Unknown) and fault.id is not None
            id = fault.id
            self.late(lambda: site.outcome(id, timeout=LIMIT), escrow.Busy)
        if site.outcome(id) is not Outcome.COMMITTED:
            sold.append(site.change("stock", -7))
        self.assertEqual((sold, site.share("stock")), ([], Share(13, 37)))

    def test_what_changes_nothing_is_busy(self) -> None:
        site = self.site()
        id = site.change("stock", -1)
        asks: list[Callable[[Union[escrow.Site, escrow.AsyncSite]], object]] = [
            lambda it: it.read("stock", timeout=LIMIT),
            lambda it: it.share("stock", timeout=LIMIT),
            lambda it: it.outcome(id, timeout=LIMIT),
            lambda it: it.restate(1, "stock", Kind.LOWER, timeout=LIMIT),
            lambda it: it.newest_mark(timeout=LIMIT),
        ]
        with still(site):
            for ask in asks:
                self.late(lambda: ask(site), escrow.Busy)
                self.late_task(site, lambda shop: ask(shop), escrow.Busy)  # type: ignore[arg-type,return-value]
        wait_until(lambda: site.unanswered == 0)

    def test_gifts_are_in_doubt_and_the_next_one_is_told_by_itself(self) -> None:
        site = self.site()
        given: list[Statement] = []
        site.on_statement.append(given.append)
        site.give(1, "stock", Kind.LOWER, 1)
        site.give(1, "stock", Kind.RAISE, 1)
        with still(site):
            self.late(lambda: site.give(1, "stock", Kind.LOWER, 2, timeout=LIMIT), escrow.Unknown)
            self.late_task(site, lambda shop: shop.spare(1, "stock", Kind.RAISE, 3, timeout=LIMIT), escrow.Unknown)
            self.late(lambda: site.tighten("stock", Kind.LOWER, 4, timeout=LIMIT), escrow.Unknown)
            self.late(lambda: site.accept(ACCEPTED, timeout=LIMIT), escrow.Unknown)
        self.assertEqual(site.give(1, "stock", Kind.LOWER, 3).total, 6)
        self.assertEqual(site.spare(1, "stock", Kind.RAISE, 2).statement.total, 6)
        self.assertEqual(site.tighten("stock", Kind.LOWER, 1), 5)
        self.assertEqual(site.share("stock"), Share(10, 24))
        site.close()
        self.assertEqual([it.total for it in given if it.kind is Kind.LOWER], [1, 3, 3, 6])  # it was stated, too
        self.assertEqual(totals(site.folder, "G 1 0 l"), [1, 3, 6])

    def test_a_gift_in_doubt_that_a_kill_follows_is_not_taken_for_the_next(self) -> None:
        """What is given up too: the first one was made, nobody heard of it, and the second is made though a kill loses it."""
        site = self.site()
        self.assertEqual(site.tighten("stock", Kind.RAISE, 1), 1)
        with still(site):
            self.late(lambda: site.tighten("stock", Kind.RAISE, 2, timeout=LIMIT), escrow.Unknown)
        wait_until(lambda: site.unanswered == 0)
        told = self.interrupted(site, lambda: site.tighten("stock", Kind.RAISE, 4), lambda: kill(site))
        self.assertEqual(told, 7)
        with still(site):
            self.late(lambda: site.give(1, "stock", Kind.LOWER, 2, timeout=LIMIT), escrow.Busy)
        self.assertEqual(site.give(1, "stock", Kind.LOWER, 2).total, 2)
        with still(site):
            self.late(lambda: site.give(1, "stock", Kind.LOWER, 3, timeout=LIMIT), escrow.Unknown)
        wait_until(lambda: site.unanswered == 0)
        told = self.interrupted(site, lambda: site.give(1, "stock", Kind.LOWER, 4), lambda: kill(site))
        self.assertEqual(told.total, 9)
        self.assertEqual(site.share("stock"), Share(11, 23))


    def test_a_step_whose_thread_is_interrupted_is_not_taken_for_the_next(self) -> None:
        """As by Ctrl-C: it was made, nobody heard of it, and the next one is made though a kill loses it."""
        site = self.site()

        def interrupted(pipeline: Pipeline, call: Call[object], end: float) -> None:
            ask(pipeline, call, end)
            raise KeyboardInterrupt

        steps: list[Callable[[int], int]] = [lambda many: site.give(1, "stock", Kind.LOWER, many).total]
        steps.append(lambda many: site.tighten("stock", Kind.LOWER, many))
        for step in steps:
            self.assertEqual(step(1), 1)
            with unittest.mock.patch("escrow.steps.ask", interrupted), self.assertRaises(KeyboardInterrupt):
                step(3)
            self.assertEqual(self.interrupted(site, lambda: step(2), lambda: kill(site)), 6)
        self.assertEqual(site.share("stock"), Share(8, 30))


class StillTransactionTest(TimeTest):
    """A transaction over a serve that stands still."""

    def test_a_first_call_in_doubt_is_given_back(self) -> None:
        site = self.site()
        t = site.transaction(timeout=LIMIT)
        with still(site):
            fault = self.late(lambda: t.lower("stock", 3), escrow.Unknown)
            with self.assertRaises(escrow.Over):
                t.commit()
        assert isinstance(fault, escrow.Unknown) and fault.id == t.id != ""
        self.assertEqual(site.outcome(t.id), Outcome.NOT_COMMITTED)
        self.assertEqual((site.open, site.share("stock")), (0, Share(20, 30)))

    def test_a_later_call_in_doubt_ends_it(self) -> None:
        site = self.site()
        with self.assertRaises(escrow.Unknown) as raised:
            with site.transaction() as t:
                t.lower("stock", 3)
                with still(site):
                    t.lower("stock", 2, timeout=LIMIT)
        self.assertEqual((raised.exception.id, site.outcome(t.id)), (t.id, Outcome.NOT_COMMITTED))
        self.assertEqual((site.open, site.share("stock")), (0, Share(20, 30)))

    def test_a_commit_is_in_doubt_with_its_id(self) -> None:
        site = self.site()
        with self.assertRaises(escrow.Unknown) as raised:
            with site.transaction() as t:
                t.lower("stock", 3)
                with still(site):
                    t.commit(timeout=LIMIT)
        self.assertEqual((raised.exception.id, site.outcome(t.id)), (t.id, Outcome.COMMITTED))
        told: list[str] = []
        with still(site):
            fault = self.late(lambda: site.change("stock", -1, before=told.append, timeout=LIMIT), escrow.Unknown)
        assert isinstance(fault, escrow.Unknown)
        self.assertEqual((told, site.outcome(str(fault.id))), ([], Outcome.NOT_COMMITTED))

    def test_a_commit_behind_what_is_told_ahead_of_it(self) -> None:
        site = self.site()
        told: list[str] = []

        def before(id: str) -> None:
            told.append(id)
            stand_still(pid_of(site))

        fault = self.late(lambda: site.change("stock", -1, before=before, timeout=2.0), escrow.Unknown)
        os.kill(pid_of(site), signal.SIGCONT)
        assert isinstance(fault, escrow.Unknown)
        self.assertEqual(([fault.id], site.outcome(told[0])), (told, Outcome.COMMITTED))

    def test_what_is_told_ahead_raises_over_a_serve_that_stands_still(self) -> None:
        """The rights are given back in the time of the call."""
        site = self.site()

        def before(_: str) -> None:
            stand_still(pid_of(site))
            raise escrow.Down("its own")

        ways: list[Callable[[], object]] = [lambda: self.late(lambda: site.change("stock", -1, before=before, timeout=2.0), escrow.Down)]
        ways.append(lambda: self.late_task(site, lambda shop: shop.change("stock", -1, before=before, timeout=2.0), escrow.Down))
        for way in ways:
            way()
            os.kill(pid_of(site), signal.SIGCONT)
            self.assertEqual((site.share("stock"), site.open), (Share(20, 30), 0))

    def test_an_abort_returns_and_gives_back(self) -> None:
        site = self.site()
        t = site.transaction()
        t.lower("stock", 3)
        with still(site):
            t.abort(timeout=LIMIT)
        self.assertEqual((site.share("stock"), site.open), (Share(20, 30), 0))

    def test_in_tasks(self) -> None:
        site = self.site(LARGE)

        async def sells(shop: escrow.AsyncSite) -> None:
            async with shop.transaction() as t:
                await t.lower("stock", 1)
                await t.lower("seats", 1)

        async def calls() -> list[object]:
            shop = escrow.AsyncSite(site, timeout=LIMIT)
            with still(site):
                return await asyncio.gather(*(sells(shop) for _ in range(100)), return_exceptions=True)

        faults = asyncio.run(calls())
        kinds = [type(it) for it in faults]
        self.assertEqual(kinds.count(escrow.Unknown) + kinds.count(escrow.Busy), 100)
        self.assertGreaterEqual(kinds.count(escrow.Unknown), 63)
        self.assertEqual((site.share("stock"), site.open, site.unanswered), (Share(500_000, 500_000), 0, 0))
        site.close()
        self.assertEqual(commits(site.folder, LARGE), {})


class WaitTest(TimeTest):
    """A wait for a place, and for a site that stands."""

    def test_no_place_is_busy_and_the_transaction_may_begin_later(self) -> None:
        site = self.site(LARGE)
        held = [site.transaction() for _ in range(63)]
        for t in held:
            t.lower("stock", 1)
        late = site.transaction()
        self.late(lambda: late.lower("stock", 5, timeout=LIMIT), escrow.Busy)
        self.assertEqual((late.id, site.unanswered), ("", 0))
        self.late_task(site, self.sells, escrow.Busy)
        held[0].commit()
        late.lower("stock", 5)
        late.commit()
        self.assertEqual(site.outcome(late.id), Outcome.COMMITTED)
        self.assertEqual(site.change("stock", -1)[:8], late.id[:8])  # it needs no place
        for t in held[1:]:
            t.abort()
        self.assertEqual((site.open, site.share("stock").lower), (0, 499_993))

    async def sells(self, shop: escrow.AsyncSite) -> None:
        """A transaction of a task."""
        async with shop.transaction(timeout=LIMIT) as t:
            await t.lower("stock", 1)

    def test_a_site_that_does_not_stand_is_busy(self) -> None:
        gate = self.gated()
        site = gate.site
        t = site.transaction()
        t.lower("stock", 1)
        gate.stop()
        self.late(lambda: site.change("stock", -1, timeout=LIMIT), escrow.Busy)
        self.late(lambda: site.share("stock", timeout=LIMIT), escrow.Busy)
        self.late(lambda: site.transaction(timeout=LIMIT).lower("stock", 1), escrow.Busy)
        self.late_task(site, lambda shop: shop.change("stock", -1, timeout=LIMIT), escrow.Busy)
        gate.open()
        self.assertEqual((site.share("stock"), site.pipeline.begun, site.unanswered), (Share(20, 30), 0, 0))

    def test_a_stop_under_a_change_that_is_not_told_in_time(self) -> None:
        gate = self.gated()
        site = gate.site
        told = self.interrupted(site, lambda: site.change("stock", -1, timeout=1.0), gate.stop)
        gate.open()
        self.assertEqual((type(told), site.outcome(told.id)), (escrow.Unknown, Outcome.NOT_COMMITTED))

    def test_no_time_at_all_asks_nothing(self) -> None:
        site = self.site()
        answers = site.counts.answers
        for timeout in (0, -1.0):
            self.late(lambda: site.change("stock", -1, timeout=timeout), escrow.Busy)
            self.late(lambda: site.give(1, "stock", Kind.LOWER, 1, timeout=timeout), escrow.Busy)
            self.late_task(site, lambda shop: shop.change("stock", -1, timeout=timeout), escrow.Busy)
            t = site.transaction()
            self.late(lambda: t.lower("stock", 1, timeout=timeout), escrow.Busy)
            t.lower("stock", 1)
            self.late(lambda: t.commit(timeout=timeout), escrow.Busy)
            t.abort(timeout=timeout)
            self.assertEqual((site.open, t.state.value), (0, "ended"))
        wait_until(lambda: site.unanswered == 0)
        self.assertEqual((site.share("stock"), site.counts.answers - answers), (Share(20, 30), 5))

    def test_a_default_and_none_at_all(self) -> None:
        site = self.site(timeout=LIMIT)
        self.assertEqual(site.timeout, LIMIT)
        with still(site):
            self.late(lambda: site.share("stock"), escrow.Busy)
            self.late_task(site, lambda shop: shop.share("stock"), escrow.Busy)
            told: list[Share] = []
            thread = threading.Thread(target=lambda: told.append(site.share("stock", timeout=math.inf)))
            thread.start()
            thread.join(3 * LIMIT)
            self.assertTrue(thread.is_alive())
        thread.join(LONG)
        self.assertEqual(told, [Share(20, 30)])

    def test_limits_under_kills_and_stops_sell_as_told(self) -> None:
        site = self.site(LARGE, backoff=escrow.Backoff(0.01, 0.1), timeout=0.02)
        sold: list[str] = []
        doubted: list[str] = []
        end = time.monotonic() + 3.0

        def goes_on() -> bool:
            now = time.monotonic()
            return now < end or (not doubted and now < end + LONG)  # on a busy machine little goes out in time

        async def sells(shop: escrow.AsyncSite, by_change: bool) -> None:
            while goes_on():
                try:
                    if by_change:
                        sold.append(await shop.change("stock", -1))
                    else:
                        async with shop.transaction() as t:
                            await t.lower("stock", 1)
                        sold.append(t.id)
                except escrow.Unknown as fault:
                    doubted.append(str(fault.id))
                except (escrow.Busy, escrow.Over, escrow.Lost):
                    pass

        async def calls() -> None:
            shop = escrow.AsyncSite(site)
            await asyncio.gather(*(sells(shop, place % 2 == 0) for place in range(16)))

        def meddles() -> None:
            while goes_on():
                with still(site):
                    time.sleep(0.05)
                time.sleep(0.05)
                epoch = site.epoch
                kill(site)
                wait_until(lambda: site.up and site.epoch > epoch)

        thread = threading.Thread(target=meddles)
        thread.start()
        asyncio.run(calls())
        thread.join()
        wait_until(lambda: site.unanswered == 0 and site.open == 0)
        outcomes = {id: site.outcome(id, timeout=LONG) for id in {*sold, *doubted}}
        site.close()
        kept = commits(site.folder, LARGE)
        self.assertGreater(len(doubted), 0)
        self.assertEqual((len(set(sold)), set(sold) - set(kept)), (len(sold), set()))
        self.assertEqual(set(kept) - set(sold) - set(doubted), set())
        self.assertEqual(outcomes, {id: Outcome.COMMITTED if id in kept else Outcome.NOT_COMMITTED for id in outcomes})


class BoundTest(TimeTest):
    """A bound on those who wait, and a warning of who holds for long."""

    def test_one_too_many_is_busy_at_once(self) -> None:
        site = self.site(LARGE, most_waiting=3)
        held = [site.transaction() for _ in range(63)]
        for t in held:
            t.lower("stock", 1)
        threads = [threading.Thread(target=self.sells, args=(site,)) for _ in range(3)]
        for thread in threads:
            thread.start()
        wait_until(lambda: site.unanswered == 3)
        late = site.transaction()
        self.late(lambda: late.lower("stock", 1), escrow.Busy)
        self.late(lambda: site.change("stock", -1), escrow.Busy)
        self.late_task(site, lambda shop: shop.change("stock", -1), escrow.Busy)
        self.assertEqual(site.outcome(held[0].id), Outcome.OPEN)
        held[0].commit()
        wait_until(lambda: site.unanswered < 3)
        for t in held[1:]:
            t.abort()
        for thread in threads:
            thread.join(LONG)
        late.lower("stock", 1)
        late.commit()
        self.assertEqual((site.open, site.unanswered, site.share("stock").lower), (0, 0, 499_995))

    def sells(self, site: escrow.Site) -> None:
        """A transaction of a thread."""
        with site.transaction() as t:
            t.lower("stock", 1)

    def test_a_task_whose_time_is_up_as_it_is_told_that_it_is_one_too_many(self) -> None:
        """Its answer is under way to it: it is that, and the task can be cancelled as any other."""
        site, faults = self.site(most_waiting=1), list[object]()

        async def calls(shop: escrow.AsyncSite, is_cancelled: bool) -> object:
            loop = asyncio.get_running_loop()
            loop.set_exception_handler(lambda _, context: faults.append(context))
            with still(site):
                first = asyncio.create_task(shop.read("stock"))
                while not site.unanswered:
                    await asyncio.sleep(0.005)
                late = asyncio.create_task(shop.change("stock", -1, timeout=0.5))
                if is_cancelled:
                    loop.call_later(0.7, late.cancel)
                await asyncio.sleep(0)  # it asks, and its line goes out in the next turn: in that one its time is up too
                time.sleep(1.0)
                told = (await asyncio.gather(late, return_exceptions=True))[0]
            await first
            return type(told)

        async def both() -> list[object]:
            shop = escrow.AsyncSite(site)
            return [await calls(shop, False), await calls(shop, True)]

        self.assertEqual((asyncio.run(both()), faults), ([escrow.Busy, asyncio.CancelledError], []))
        self.assertEqual(site.share("stock"), Share(20, 30))

    def test_a_thread_whose_time_is_up_as_the_site_is_given_up(self) -> None:
        """It is told what it was told first, and not that it was asked."""
        gate = self.gated(patience=60.0)
        gate.stop()
        site, comes = gate.site, ThreadWaiter.comes

        def comes_late(waiter: ThreadWaiter, seconds: float) -> bool:
            self.assertFalse(comes(waiter, 0.0))
            site.pipeline.give_up(escrow.Down("the site doesn't stand"))
            return False

        with unittest.mock.patch.object(ThreadWaiter, "comes", comes_late):
            self.late(lambda: site.change("stock", -1, timeout=20.0), escrow.Down)
            self.late(lambda: site.transaction().lower("stock", 1, timeout=20.0), escrow.Down)
        gate.open()
        self.assertEqual(site.share("stock"), Share(20, 30))

    def test_a_serve_that_stands_still(self) -> None:
        site = self.site(LARGE, most_waiting=50)

        async def calls() -> list[object]:
            shop = escrow.AsyncSite(site, timeout=LIMIT)
            with still(site):
                return await asyncio.gather(*(shop.change("stock", -1) for _ in range(200)), return_exceptions=True)

        kinds = [type(it) for it in asyncio.run(calls())]
        self.assertEqual((kinds.count(escrow.Unknown), kinds.count(escrow.Busy)), (50, 150))
        wait_until(lambda: site.unanswered == 0)
        self.assertEqual(site.share("stock").lower, 499_950)

    def test_who_holds_for_long_is_warned_of_once(self) -> None:
        site = self.site(LARGE, held=2.0)
        with self.assertLogs("escrow", logging.WARNING) as told:
            first, second = site.transaction(), site.transaction()
            first.lower("stock", 1)
            with site.transaction() as short:
                short.lower("stock", 1)
            time.sleep(0.3)
            second.lower("stock", 1)
            wait_until(lambda: len(told.output) == 2)
            time.sleep(2.5)
        self.assertEqual(len(told.output), 2)
        for t, line in zip((first, second), told.output):
            self.assertIn(f"{site.folder}: transaction {t.id} is held for ", line)
        for t in (first, second):
            t.abort()


if __name__ == "__main__":
    unittest.main()
