"""Tasks of an event loop that reads its own answers: what they are told, and who reads while others ask."""

from __future__ import annotations

import asyncio
import contextvars
import errno
import os
import random
import signal
import threading
import time
import unittest
import unittest.mock
from collections.abc import Callable
from typing import Any

from forgetful_site import tell
from programs import LARGE, LONG, SHOP, Killer, SiteTest, commits, kill, of_large, of_shop, pid_of, stand_still, wait_until
import escrow
from escrow import Outcome, Refusal
from escrow.calls import Change
from escrow.desk import STAY, TRIAL, TRIALS, Desk, Pace
from escrow.metrics import Metrics, text_of
from escrow.pipeline import Pipeline
from escrow.waiters import Awaited

FAKE = os.path.join(os.path.dirname(os.path.abspath(__file__)), "fake_site.py")
SLOW = os.path.join(os.path.dirname(os.path.abspath(__file__)), "forgetful_site.py")
"""A program that is slow with questions, where it is told to be."""
WIDE = 64


def is_lent(site: escrow.Site) -> bool:
    """Whether a loop reads."""
    return site.pipeline.reading.turn is not None


async def lend(site: escrow.Site, shop: escrow.AsyncSite) -> None:
    """Asks until the loop reads."""
    end = time.monotonic() + LONG
    while not is_lent(site):
        assert time.monotonic() < end, "it was never lent"
        await shop.read("stock")
    await shop.read("stock")


async def sell(shop: escrow.AsyncSite, times: int, told: list[str], tasks: int = WIDE) -> None:
    """Many tasks, each of which waits for its answer before its next change."""

    async def sells() -> None:
        for _ in range(times):
            told.append(await shop.change("stock", -1))

    await asyncio.gather(*(sells() for _ in range(tasks)))


async def until(holds: Callable[[], object]) -> None:
    """Waits until this holds."""
    end = time.monotonic() + LONG
    while not holds():
        assert time.monotonic() < end, "it didn't come in time"
        await asyncio.sleep(0.005)


class TurnTest(SiteTest):
    """Whose turn it is to read."""

    def test_a_loop_whose_tasks_alone_ask_reads(self) -> None:
        site, told = self.site(LARGE), list[str]()

        async def calls() -> None:
            shop = escrow.AsyncSite(site)
            await lend(site, shop)
            await sell(shop, 20, told)
            self.assertTrue(is_lent(site))
            async with escrow.AsyncSite(site).transaction() as t:  # another one of the same loop
                await t.lower("stock", 1)
            self.assertTrue(is_lent(site))
            self.assertEqual((await asyncio.to_thread(site.read, "seats")).lo, 500_000)
            await until(lambda: not is_lent(site))
            await lend(site, shop)

        asyncio.run(calls())
        site.close()
        self.assertEqual(len(set(told)), 20 * WIDE)
        self.assertEqual(set(commits(site.folder, LARGE)), {*told, of_large(f"1.{20 * WIDE + 1}")})

    def test_a_thread_does_not_wait_for_a_loop_that_is_held_up(self) -> None:
        site, come = self.site(LARGE), threading.Event()

        def reads() -> None:
            for _ in range(20):
                site.read("stock")
            come.set()

        async def calls() -> None:
            shop = escrow.AsyncSite(site)
            await lend(site, shop)
            asked = asyncio.create_task(shop.change("stock", -1))
            await asyncio.sleep(0)
            await asyncio.sleep(0)
            threading.Thread(target=reads).start()
            self.assertTrue(come.wait(LONG))  # it holds up the loop
            self.assertEqual(site.change("stock", -1), of_large("1.2"))  # so does this
            self.assertEqual(await asked, of_large("1.1"))

        asyncio.run(calls())

    def test_a_loop_that_has_ended_is_left(self) -> None:
        site, told = self.site(LARGE), list[str]()
        for _ in range(3):
            shop = escrow.AsyncSite(site)
            asyncio.run(lend(site, shop))  # it is lent
            self.assertGreater(site.read("stock").hi, 0)
            asyncio.run(sell(shop, 2, told))
        shop = escrow.AsyncSite(site)
        asyncio.run(lend(site, shop))
        asyncio.run(sell(escrow.AsyncSite(site), 2, told))  # another loop
        site.close()
        self.assertEqual(len(set(told)), 8 * WIDE)
        self.assertEqual((set(commits(site.folder, LARGE)), site.last_status), (set(told), 0))

    def test_what_is_answered_behind_the_end_of_a_loop_is_read(self) -> None:
        """Its task was cancelled, and nobody else asks."""
        site = self.site(LARGE)

        async def calls() -> str:
            shop = escrow.AsyncSite(site)
            await lend(site, shop)
            t = shop.transaction()
            await t.lower("stock", 1)
            stand_still(pid_of(site))
            commit = asyncio.create_task(t.commit())
            await until(lambda: site.unanswered == 1)
            self.assertTrue(is_lent(site))
            return t.id

        id = asyncio.run(calls())  # it cancels the commit
        self.assertEqual(site.unanswered, 1)
        os.kill(pid_of(site), signal.SIGCONT)
        wait_until(lambda: site.unanswered == 0)
        site.close()
        self.assertEqual(list(commits(site.folder, LARGE)), [id])

    def test_a_loop_that_watches_no_pipe(self) -> None:
        site, told = self.site(LARGE), list[str]()

        async def calls(why: object) -> None:
            with unittest.mock.patch.object(asyncio.get_running_loop(), "add_reader", side_effect=why):
                await asyncio.wait_for(sell(escrow.AsyncSite(site), 20, told), 30)
            await until(lambda: not is_lent(site))

        asyncio.run(calls(NotImplementedError))
        asyncio.run(calls(OSError(errno.ENOSPC, "it watches too many")))
        site.close()
        self.assertEqual((len(told), set(told)), (40 * WIDE, set(commits(site.folder, LARGE))))

    def test_a_thread_reads_where_no_descriptor_is_free_for_the_loop(self) -> None:
        site, told = self.site(LARGE), list[str]()
        with unittest.mock.patch("os.dup", side_effect=OSError(errno.EMFILE, os.strerror(errno.EMFILE))):
            asyncio.run(sell(escrow.AsyncSite(site), 20, told))
            self.assertFalse(is_lent(site))
        asyncio.run(lend(site, escrow.AsyncSite(site)))
        site.close()
        self.assertEqual((len(told), set(told)), (20 * WIDE, set(commits(site.folder, LARGE))))
        self.assertEqual(site.counts.stops, 1)

    def test_two_loops_and_a_thread_at_once(self) -> None:
        site = self.site(LARGE)
        told: list[list[str]] = [[], [], []]

        def sells() -> None:
            told[2] += [site.change("stock", -1) for _ in range(50)]

        threads = [threading.Thread(target=lambda to=to: asyncio.run(sell(escrow.AsyncSite(site), 20, to))) for to in told[:2]]
        threads.append(threading.Thread(target=sells))
        for thread in threads:
            thread.start()
        for thread in threads:
            thread.join()
        site.close()
        every = [id for ids in told for id in ids]
        self.assertEqual((len(every), set(every)), (40 * WIDE + 50, set(commits(site.folder, LARGE))))

    def test_it_is_closed_while_a_loop_reads(self) -> None:
        site = self.site(LARGE)

        async def calls() -> list[Any]:
            shop = escrow.AsyncSite(site)
            await lend(site, shop)
            asked = [asyncio.create_task(shop.change("stock", -1)) for _ in range(2000)]  # more answers than a pipe holds
            await until(lambda: site.unanswered < 2000)
            site.close(LONG)
            return await asyncio.gather(*asked, return_exceptions=True)

        told = asyncio.run(calls())
        self.assertEqual(site.last_status, 0)
        self.assertEqual({it for it in told if isinstance(it, str)}, set(commits(site.folder, LARGE)))
        self.assertTrue(all(isinstance(it, (str, escrow.Down)) for it in told))


class StopTest(SiteTest):
    """A stop while a loop reads."""

    def test_changes_are_made_once_across_kills(self) -> None:
        site, told = self.site(LARGE, backoff=escrow.Backoff(0.01, 0.05)), list[str]()

        async def calls(killer: Killer) -> None:
            shop, turns = escrow.AsyncSite(site), 0
            while killer.at_work or not (turns and is_lent(site)):
                await sell(shop, 3, told)
                turns += is_lent(site)
            self.assertGreater(turns, 0)

        with Killer(site, 12, 0.08, 5) as killer:
            asyncio.run(calls(killer))
        site.close()
        self.assertEqual((len(told), set(told)), (len(set(told)), set(commits(site.folder, LARGE))))

    def test_a_stop_before_the_answer_is_told_truly(self) -> None:
        site = self.site()

        async def calls() -> None:
            shop = escrow.AsyncSite(site)
            await lend(site, shop)
            t, u = shop.transaction(), shop.transaction()
            await t.lower("stock", 1)
            await u.lower("stock", 1)
            stand_still(pid_of(site))
            changes = [asyncio.create_task(shop.change("stock", -1)) for _ in range(3)]
            commit = asyncio.create_task(u.commit())
            await until(lambda: site.unanswered == 4)
            kill(site)
            self.assertEqual(await asyncio.gather(*changes), [of_shop("2.1"), of_shop("2.2"), of_shop("2.3")])
            with self.assertRaises(escrow.Over):
                await t.commit()
            with self.assertRaises(escrow.Lost):
                await commit

        asyncio.run(calls())
        site.close()
        self.assertEqual(set(commits(site.folder, SHOP)), {of_shop("2.1"), of_shop("2.2"), of_shop("2.3")})

    def test_answers_that_fit_no_line_end_the_process(self) -> None:
        path = os.path.join(self.place, "turns")
        os.symlink(FAKE, path)
        site, told = escrow.Site(self.folder(), program=path, backoff=escrow.Backoff(0.01, 0.05)), list[str]()
        self.addCleanup(site.close)

        async def calls() -> None:
            for _ in range(50):
                told.append(await escrow.AsyncSite(site).change("stock", -1))

        asyncio.run(calls())
        self.assertEqual((len(set(told)), site.counts.stops), (50, 2))
        self.assertIn("doesn't answer", site.last_error)


class AnswerTest(SiteTest):
    """What tasks are told while their loop reads."""

    def told(self, how: str) -> list[escrow.Refused]:
        """What many tasks are told by a program that answers so."""
        path = os.path.join(self.place, how)
        os.symlink(FAKE, path)
        site, faults = escrow.Site(self.folder(), program=path), list[escrow.Refused]()
        self.addCleanup(site.close)

        async def sells(shop: escrow.AsyncSite) -> None:
            for _ in range(10):
                with self.assertRaises(escrow.Refused) as raised:
                    await shop.change("stock", -1)
                faults.append(raised.exception)

        async def calls() -> None:
            shop = escrow.AsyncSite(site)
            await asyncio.gather(*(sells(shop) for _ in range(4)))

        asyncio.run(calls())
        self.assertEqual(len(faults), 40)
        return faults

    def test_a_begin_that_is_refused(self) -> None:
        self.assertEqual({it.number for it in self.told("full")}, {Refusal.NUMBERS_FULL})

    def test_a_commit_that_is_refused(self) -> None:
        faults = self.told("late")
        self.assertEqual({it.number for it in faults}, {Refusal.NO_TRANSACTION})
        self.assertTrue(all(" commit " in it.asked for it in faults))

    def test_an_escrow_that_is_refused_leaves_others_alone(self) -> None:
        metrics = Metrics(0)
        site = self.site(metrics=metrics)  # of 20 rights

        async def calls() -> list[Any]:
            shop = escrow.AsyncSite(site)
            await lend(site, shop)
            changes = [-1, -30, -2, 40, -3, -14, -1]
            return await asyncio.gather(*(shop.change("stock", it) for it in changes), return_exceptions=True)

        told = asyncio.run(calls())
        self.assertEqual([it for it in told if isinstance(it, str)], [of_shop("1.1"), of_shop("1.3"), of_shop("1.5"), of_shop("1.6")])
        self.assertEqual([(type(told[at]), told[at].share, told[at].kind.value) for at in (1, 3, 6)],
                         [(escrow.Short, 19, "lower"), (escrow.Short, 33, "raise"), (escrow.Short, 0, "lower")])  # fmt: skip
        self.assertEqual(site.counts.refusals, {Refusal.SHORT: 3})
        # All 20 are sold, so of 30 there are 50 to raise: the text asks for what is left, once the refusals told of it.
        for line in (
            'escrow_answers_total{site="0",command="change"} 7',
            'escrow_refusals_total{site="0",command="change",number="7",reason="short"} 3',
            'escrow_share_rights{site="0",field="stock",kind="lower"} 0',
            'escrow_share_rights{site="0",field="stock",kind="raise"} 50',
            'escrow_waiting_calls{site="0"} 0',
        ):
            self.assertIn(line + "\n", text_of([metrics]))

    def test_answers_that_come_in_pieces(self) -> None:
        told, refusal = [], "0 escrow 7.2 stock -9 -> refused 7 short 5\n0 commit 7.2 -> committed\n"
        for size in (1, 2, 50, 70, 1000):
            line = Pipeline(0, "0" * 64, frozenset({"stock"}), lambda _: None, None)
            back, to = os.pipe()
            line.stand(7, to, False)
            calls = [Change() for _ in range(4)]
            for call, amount in zip(calls, (-1, -9, -1, 2)):
                call.shape, call.waiter = line.shape("stock", amount), None
            line.submit(calls)
            line.flush()
            asked = os.read(back, 1 << 16).decode()
            well = "".join(call.expected for call in calls)
            answers = (well[: well.index("0 escrow 7.2")] + refusal + well[well.index("0 begin -> begun 7.3") :]).encode()
            pieces = [line.take(answers[at : at + size]) for at in range(0, len(answers), size)]
            self.assertEqual([call for taken in pieces for call in taken.calls], calls)
            self.assertEqual([taken.fault for taken in pieces if taken.fault], [])
            self.assertEqual((asked, line.unanswered), ("".join(call.text for call in calls), 0))
            told.append([type(call.answer) for call in calls])
            self.assertEqual(line.take(b"0 begin -> begun 7.9\n").fault.__class__.__name__, "Faulty")
            line.detach()
            line.reading.close()
            os.close(back)
        self.assertEqual(told, [[type(None), escrow.Short, type(None), type(None)]] * 5)

    def test_who_waits_too_long_goes_on(self) -> None:
        site = self.site()

        async def calls() -> None:
            shop = escrow.AsyncSite(site)
            await lend(site, shop)
            stand_still(pid_of(site))
            late = asyncio.create_task(shop.change("stock", -1))
            await asyncio.sleep(0)  # it asks first, in each version of Python
            with self.assertRaises(asyncio.TimeoutError):
                await asyncio.wait_for(shop.change("stock", -2), 0.05)
            gone = asyncio.create_task(shop.change("stock", -3))
            await asyncio.sleep(0.01)
            gone.cancel("the customer left")
            with self.assertRaises(asyncio.CancelledError):
                await gone
            never = asyncio.create_task(shop.change("stock", -4))
            never.cancel()  # before it has asked
            with self.assertRaises(asyncio.CancelledError):
                await never
            os.kill(pid_of(site), signal.SIGCONT)
            self.assertEqual(await late, of_shop("1.1"))
            self.assertEqual([await shop.outcome(of_shop(f"1.{it}")) for it in (1, 2, 3)], [Outcome.COMMITTED] * 3)
            self.assertEqual(await shop.change("stock", -1), of_shop("1.4"))

        asyncio.run(calls())

    def test_a_time_limit_gives_back(self) -> None:
        site = self.site()

        async def calls() -> None:
            shop = escrow.AsyncSite(site)
            await lend(site, shop)
            t = shop.transaction(seconds=1.0)
            await t.lower("stock", 20)
            await until(lambda: t.state.value == "expired" and site.unanswered == 0)
            with self.assertRaises(escrow.Over):
                await t.commit()
            self.assertEqual((await shop.share("stock")).lower, 20)

        asyncio.run(calls())
        self.assertEqual(site.open, 0)

    def test_a_task_that_ends_the_loop_takes_no_other_along(self) -> None:
        loop, woken = asyncio.new_event_loop(), list[int]()
        self.addCleanup(loop.close)

        def wakes(at: int) -> Callable[[object], object]:
            def wake(_: object) -> None:
                woken.append(at)
                if at == 1:
                    raise KeyboardInterrupt

            return wake

        def calls(many: int) -> list[Awaited]:
            made = [Awaited() for _ in range(many)]
            for at, call in enumerate(made):
                call.wake, call.context = wakes(at), contextvars.copy_context()
            made[2].wake = None  # it was cancelled
            return made

        desk = Desk(loop, Pipeline(0, "0" * 64, frozenset(), lambda _: None, None))
        with self.assertRaises(KeyboardInterrupt):
            desk.wake(calls(4))
        loop.run_until_complete(asyncio.sleep(0))
        self.assertEqual(woken, [0, 1, 3])
        woken.clear()
        with unittest.mock.patch.object(Pace, "comes", lambda *_: True), self.assertRaises(KeyboardInterrupt):
            desk.answer(calls(20))  # in two parts
        loop.run_until_complete(asyncio.sleep(0))
        self.assertEqual(sorted(woken), [0, 1, *range(3, 20)])


class PaceTest(SiteTest):
    """When lines go out."""

    def reads(self, pace: Pace, count: int, seconds: Callable[[bool], float]) -> list[bool]:
        """So many reads of 64 answers, each of which takes so long: whether each was in two parts."""
        found = []
        for _ in range(count):
            self.now += seconds(pace.parts)
            found.append(pace.parts)
            with unittest.mock.patch("escrow.desk.perf_counter", lambda: self.now):
                pace.comes(64)
        return found

    def setUp(self) -> None:
        super().setUp()
        self.now = 100.0

    def test_the_faster_way_stays(self) -> None:
        pace, trials = Pace(), TRIALS * TRIAL
        tried = self.reads(pace, trials, lambda parts: 0.09 if parts else 0.1)
        self.assertEqual((sum(tried), tried[-1]), (trials // 2, True))
        self.assertEqual(set(self.reads(pace, STAY, lambda parts: 0.2 if parts else 0.1)), {True})
        self.reads(pace, trials, lambda parts: 0.2 if parts else 0.1)  # the disk is slower now
        self.assertEqual(set(self.reads(pace, STAY, lambda parts: 0.2 if parts else 0.1)), {False})
        parts = self.reads(pace, 20 * (trials + STAY), lambda parts: 0.2 if parts else 0.1)
        self.assertLess(sum(parts) / len(parts), 0.06)  # each of which loses half of its answers

    def test_what_rests_counts_for_neither(self) -> None:
        pace = Pace()

        def seconds(parts: bool) -> float:
            if parts:
                return 0.1
            pace.rests()
            return 100.0

        self.reads(pace, TRIAL, lambda parts: 0.09)
        self.reads(pace, (TRIALS - 1) * TRIAL, seconds)
        self.assertEqual(set(self.reads(pace, STAY, seconds)), {False})

    def test_all_are_answered_whatever_seems_to_pay(self) -> None:
        site, told, chance = self.site(LARGE), list[str](), random.Random(7)

        async def calls() -> None:
            shop = escrow.AsyncSite(site)
            await lend(site, shop)
            await asyncio.gather(sell(shop, 60, told), sell(shop, 40, told, 5), reads(shop))

        async def reads(shop: escrow.AsyncSite) -> None:
            for _ in range(60):
                await shop.read("seats")
                await asyncio.sleep(0.001)

        def comes(pace: Pace, many: int) -> bool:
            return chance.random() < 0.5

        with unittest.mock.patch.object(Pace, "comes", comes):
            asyncio.run(calls())
        site.close()
        self.assertEqual((len(told), set(told)), (60 * WIDE + 200, set(commits(site.folder, LARGE))))

    def test_what_is_held_goes_out_behind_an_answer_that_nobody_waits_for(self) -> None:
        """It waits for more answers, and the last of them is of a call whose time was up."""
        folder = self.folder()
        site = escrow.Site(folder, program=SLOW, timeout=LONG, wait=LONG)
        self.addCleanup(site.close)

        async def asks() -> list[object]:
            shop = escrow.AsyncSite(site)
            id = await shop.change("stock", -3)
            await lend(site, shop)
            tell(folder, slow=3.0)

            async def two() -> object:
                await shop.share("stock")
                return await shop.share("stock")

            told = await asyncio.gather(two(), shop.outcome(id, timeout=0.1), return_exceptions=True)
            self.assertTrue(is_lent(site))
            return list(told)

        share, fault = asyncio.run(asks())
        self.assertEqual((share, type(fault)), (escrow.Share(17, 33), escrow.Busy))

    def test_what_is_held_goes_out_ahead_of_the_end_of_its_loop(self) -> None:
        """A commit that waits for more answers, as its task and those of the others are cancelled: else it would stay open."""
        folder = self.folder()
        site = escrow.Site(folder, program=SLOW, wait=LONG)
        self.addCleanup(site.close)

        async def asks() -> None:
            shop = escrow.AsyncSite(site)
            id = await shop.change("stock", -3)
            await lend(site, shop)
            tell(folder, slow=3.0)

            async def sells() -> None:
                async with shop.transaction() as t:
                    await t.lower("stock", 1)

            sold, asked = asyncio.create_task(sells()), asyncio.create_task(shop.outcome(id))
            await until(lambda: site.open == 1 and site.unanswered == 1)
            await asyncio.sleep(0.05)
            self.assertEqual((site.open, site.unanswered, is_lent(site)), (1, 1, True))
            for task in (sold, asked):
                task.cancel()
            await asyncio.gather(sold, asked, return_exceptions=True)

        asyncio.run(asks())
        wait_until(lambda: site.open == 0 and site.unanswered == 0)
        self.assertEqual(site.share("stock"), escrow.Share(16, 34))

    def test_what_is_held_goes_out_where_the_turn_ends(self) -> None:
        site = self.site(LARGE)

        async def calls() -> None:
            shop = escrow.AsyncSite(site)
            await lend(site, shop)
            with unittest.mock.patch.object(Pace, "comes", lambda *_: False):
                told: list[str] = []
                asked = [asyncio.create_task(sell(shop, 30, told, 1)) for _ in range(8)]
                for _ in range(20):
                    await asyncio.to_thread(site.read, "stock")  # takes the reading back
                await asyncio.gather(*asked)
                self.assertEqual(len(set(told)), 240)

        asyncio.run(calls())


if __name__ == "__main__":
    unittest.main()
