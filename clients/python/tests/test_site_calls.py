"""Each call of a site once, and each refusal by its number."""

from __future__ import annotations

import asyncio
import concurrent.futures
import os
import threading
import unittest

from programs import LARGE, SHOP, Act, SiteTest, commits, escrow_site, of_large, of_shop, records, totals, wait_until
import escrow
from escrow import Interval, Kind, Outcome, Refusal, Share, Spared, Statement


class CallTest(SiteTest):
    """The happy path of each call, for threads."""

    def test_a_transaction_commits_on_leaving(self) -> None:
        site = self.site()
        with site.transaction() as t:
            t.lower("stock", 3)
            t.lower("seats", 2)
            t.change("stock", 1)
        self.assertEqual(t.id, of_shop("1.1"))
        self.assertEqual(site.outcome(t.id), Outcome.COMMITTED)
        site.close()
        self.assertEqual(commits(site.folder, SHOP), {of_shop("1.1"): (("stock", -3), ("seats", -2), ("stock", 1))})

    def test_a_transaction_aborts_on_an_exception(self) -> None:
        site = self.site()
        with self.assertRaises(KeyError):
            with site.transaction() as t:
                t.lower("stock", 20)
                self.assertEqual(site.share("stock"), Share(0, 30))
                raise KeyError("the customer left")
        self.assertEqual(site.share("stock"), Share(20, 30))
        self.assertEqual(site.outcome(t.id), Outcome.NOT_COMMITTED)
        self.assertEqual(site.open, 0)

    def test_a_transaction_ends_once(self) -> None:
        site = self.site()
        t = site.transaction()
        t.lower("stock", 3)
        self.assertEqual(site.outcome(t.id), Outcome.OPEN)
        t.commit()
        with self.assertRaises(escrow.Over):
            t.commit()
        with self.assertRaises(escrow.Over):
            t.lower("stock", 1)
        t.abort()
        self.assertEqual(site.share("stock"), Share(17, 33))

    def test_a_transaction_of_nothing_asks_nothing(self) -> None:
        site = self.site()
        with site.transaction() as t:
            pass
        self.assertEqual((t.id, site.counts.answers), ("", 0))
        with self.assertRaises(escrow.Over):
            t.lower("stock", 1)

    def test_a_change_is_one_trip(self) -> None:
        site = self.site()
        self.assertEqual(site.change("stock", -3), of_shop("1.1"))
        self.assertEqual(site.change("stock", 5), of_shop("1.2"))
        self.assertEqual(site.counts.answers, 2)
        site.close()
        self.assertEqual(commits(site.folder, SHOP), {of_shop("1.1"): (("stock", -3),), of_shop("1.2"): (("stock", 5),)})

    def test_reads_and_shares(self) -> None:
        site = self.site()
        self.assertEqual(site.read("stock"), Interval(20, 70))
        self.assertEqual(site.share("stock"), Share(20, 30))
        self.assertEqual(site.share("seats").of(Kind.LOWER), 6)
        self.assertEqual(site.share("seats").of(Kind.RAISE), 0)

    def test_gifts_are_stated(self) -> None:
        site = self.site()
        self.assertEqual(site.give(1, "stock", Kind.LOWER, 5), Statement(0, 1, "stock", Kind.LOWER, 5))
        self.assertEqual(site.give(1, "stock", Kind.LOWER, 1).total, 6)
        self.assertEqual(site.restate(1, "stock", Kind.LOWER).total, 6)
        # 14 are left: half of them is 7.
        self.assertEqual(site.spare(1, "stock", Kind.LOWER, 50), Spared(7, Statement(0, 1, "stock", Kind.LOWER, 13)))
        self.assertEqual(site.spare(1, "stock", Kind.LOWER, 2).amount, 2)
        self.assertEqual(site.share("stock"), Share(5, 30))
        site.close()
        self.assertEqual(totals(site.folder, "G 1 0 l"), [5, 6, 13, 15])

    def test_a_statement_is_accepted_once(self) -> None:
        giver, receiver = self.site(), self.served(self.folder(number=1, name="other"))
        statement = giver.give(1, "seats", Kind.LOWER, 4)
        self.assertEqual(receiver.accept(statement), 4)
        self.assertEqual(receiver.accept(statement), 0)
        self.assertEqual(receiver.share("seats"), Share(10, 0))

    def test_tightening_is_for_good(self) -> None:
        site = self.site()
        self.assertEqual(site.tighten("stock", Kind.RAISE, 4), 4)
        self.assertEqual(site.tighten("stock", Kind.RAISE, 6), 10)
        self.assertEqual(site.tighten("stock", Kind.LOWER, 1), 1)
        self.assertEqual(site.share("stock"), Share(19, 20))
        shown = escrow.show(site.folder, escrow_site())
        self.assertEqual(shown.fields["stock"].tightened, Share(1, 10))

    def test_what_the_site_tells_of_itself(self) -> None:
        site = self.site()
        self.assertEqual((site.number, site.epoch, site.up, site.open, site.unanswered), (0, 1, True, 0, 0))
        self.assertEqual(site.mark, escrow.Mark(1, 4))
        self.assertEqual(site.schema, SHOP)
        self.assertEqual(len(site.world), 64)
        site.close()
        again = self.served(site.folder, not_before=site.mark)
        self.assertEqual(again.epoch, 2)

    def test_hooks_may_call_the_site(self) -> None:
        site = self.site()
        heard: list[Statement] = []
        come = threading.Event()

        def hear(statement: Statement) -> None:
            heard.append(site.restate(statement.to, statement.field, statement.kind) if not heard else statement)
            come.set()

        site.on_statement.append(hear)
        site.give(1, "stock", Kind.RAISE, 2)
        self.assertTrue(come.wait(60))
        self.assertEqual(heard[0], Statement(0, 1, "stock", Kind.RAISE, 2))

    def test_a_trace_is_kept_where_it_is_asked_for(self) -> None:
        site = self.site(trace=True)
        site.change("stock", -3)
        site.close()
        with open(f"{site.folder}/trace", encoding="ascii") as file:
            told = file.read().split("\n")[3:]
        expected = ["0 restart -> restarted 1 nothing", "0 begin -> begun 1.1", "0 escrow 1.1 stock -3 -> granted"]
        self.assertEqual(told, [*expected, "0 commit 1.1 -> committed", ""])
        with self.assertRaises(escrow.Down) as raised:
            escrow.Site(site.folder, program=escrow_site())
        self.assertEqual(raised.exception.status, 3)

    def test_create_takes_a_file_too(self) -> None:
        path, schema = f"{self.place}/new", f"{self.place}/world.json"
        with open(schema, "w", encoding="ascii") as file:
            file.write('{"sites":1,"fields":[{"name":"stock","floor":0,"ceiling":9,"value":4}]}\n')
        escrow.create(path, schema, 0, program=escrow_site(), name="new")
        self.assertEqual(self.served(path).read("stock"), Interval(4, 4))
        with self.assertRaises(escrow.ProgramError) as raised:
            escrow.create(path, schema, 0, program=escrow_site(), name="new")
        self.assertEqual(raised.exception.status, 3)
        for number, name in ((1, "new"), (0, ""), (0, "new world")):
            with self.assertRaises(escrow.ProgramError) as raised:
                escrow.create(path + "1", schema, number, program=escrow_site(), name=name)
            self.assertEqual(raised.exception.status, 2)

    def test_create_wants_a_name(self) -> None:
        path = os.path.join(self.place, "new")
        with self.assertRaises(TypeError) as raised:
            escrow.create(path, SHOP, 0, program=escrow_site())
        self.assertIn("wants name=, the world's own", str(raised.exception))
        self.assertFalse(os.path.exists(path))


class AsyncCallTest(SiteTest):
    """The happy path of each call, for tasks."""

    def test_each_call(self) -> None:
        site, other = self.site(), self.served(self.folder(number=1, name="other"))

        async def calls() -> None:
            shop, second = escrow.AsyncSite(site), escrow.AsyncSite(other)
            async with shop.transaction() as t:
                await t.lower("stock", 3)
                await t.raise_("stock", 1)
                await t.change("seats", -1)
            self.assertEqual(await shop.outcome(t.id), Outcome.COMMITTED)
            self.assertEqual(await shop.change("stock", -1), of_shop("1.2"))
            self.assertEqual(await shop.read("stock"), Interval(17, 67))
            self.assertEqual(await shop.share("stock"), Share(17, 33))
            self.assertEqual((await shop.give(1, "stock", Kind.LOWER, 2)).total, 2)
            self.assertEqual((await shop.spare(1, "stock", Kind.LOWER, 3)).amount, 3)
            statement = await shop.restate(1, "stock", Kind.LOWER)
            self.assertEqual(statement.total, 5)
            self.assertEqual(await second.accept(statement), 5)
            self.assertEqual(await shop.tighten("stock", Kind.LOWER, 2), 2)

        asyncio.run(calls())
        site.close()
        self.assertEqual(commits(site.folder, SHOP), {of_shop("1.1"): (("stock", -3), ("stock", 1), ("seats", -1)), of_shop("1.2"): (("stock", -1),)})

    def test_an_exception_or_a_cancellation_aborts(self) -> None:
        site = self.site()

        async def holds(shop: escrow.AsyncSite) -> None:
            async with shop.transaction() as t:
                await t.lower("stock", 20)
                await asyncio.sleep(60)

        async def calls() -> None:
            shop = escrow.AsyncSite(site)
            with self.assertRaises(KeyError):
                async with shop.transaction() as t:
                    await t.lower("stock", 20)
                    raise KeyError("the customer left")
            task = asyncio.create_task(holds(shop))
            while site.open == 0 or site.unanswered:
                await asyncio.sleep(0.001)
            task.cancel()
            with self.assertRaises(asyncio.CancelledError):
                await task
            self.assertEqual(await shop.share("stock"), Share(20, 30))

        asyncio.run(calls())
        self.assertEqual(site.open, 0)

    def test_many_tasks_and_threads_get_their_own_answers(self) -> None:
        site = self.site(LARGE)
        got: list[tuple[str, int]] = []

        async def sells(shop: escrow.AsyncSite, amount: int) -> None:
            for _ in range(5):
                got.append((await shop.change("stock", -amount), -amount))

        async def calls() -> None:
            shop = escrow.AsyncSite(site)
            await asyncio.gather(*(sells(shop, amount) for amount in range(1, 65)))

        def buys(amount: int) -> None:
            for _ in range(5):
                got.append((site.change("stock", amount), amount))

        threads = [threading.Thread(target=buys, args=(amount,)) for amount in range(101, 109)]
        for thread in threads:
            thread.start()
        asyncio.run(calls())
        for thread in threads:
            thread.join()
        site.close()
        self.assertEqual(len(got), 64 * 5 + 8 * 5)
        self.assertEqual(commits(site.folder, LARGE), {id: (("stock", change),) for id, change in got})

    def test_what_blocks_does_not_wait_for_the_threads_of_the_loop(self) -> None:
        """All of which others have taken, for longer than any time limit: else `close` would wait for what waits for the site."""
        site, ends = self.site(), threading.Event()

        async def calls() -> None:
            shop = escrow.AsyncSite(site)
            asyncio.get_running_loop().set_default_executor(concurrent.futures.ThreadPoolExecutor(1))
            held = asyncio.create_task(asyncio.to_thread(ends.wait, 60.0))
            await asyncio.sleep(0)
            statement = await shop.give(1, "stock", Kind.LOWER, 4, timeout=50.0)
            self.assertEqual((await shop.spare(1, "stock", Kind.RAISE, 2)).amount, 2)
            self.assertEqual(await shop.restate(1, "stock", Kind.LOWER), statement)
            self.assertEqual(await shop.tighten("stock", Kind.LOWER, 1), 1)
            self.assertEqual((await shop.newest_mark()).epoch, 1)
            gives = asyncio.create_task(shop.give(1, "stock", Kind.LOWER, 1))
            await asyncio.sleep(0)
            gives.cancel()  # it is given all the same, and nobody is told
            with self.assertRaises(asyncio.CancelledError):
                await gives
            await shop.close()
            self.assertFalse(held.done())
            ends.set()
            await held

        asyncio.run(calls())
        wait_until(lambda: not any(it.name == "escrow task" for it in threading.enumerate()))

    def test_one_loop_each(self) -> None:
        site = self.site()
        shop = escrow.AsyncSite(site)
        asyncio.run(shop_reads(shop))
        asyncio.run(shop_reads(shop))  # the first loop is closed

        async def other() -> None:
            await shop.read("stock")
            with self.assertRaises(RuntimeError):
                await asyncio.to_thread(lambda: asyncio.run(shop_reads(shop)))

        asyncio.run(other())


async def shop_reads(shop: escrow.AsyncSite) -> None:
    """Reads once."""
    await shop.read("stock")


class RefusalTest(SiteTest):
    """Each refusal that a client can come to, by its number: and nothing was changed."""

    def refused(self, number: Refusal, act: object, *given: object, told: int | None = None) -> escrow.Refused:
        """Sees that a call is refused so."""
        with self.assertRaises(escrow.Refused) as raised:
            act(*given)  # type: ignore[operator]
        self.assertEqual(raised.exception.number, number)
        self.assertEqual(raised.exception.told, told)
        self.assertEqual(raised.exception.reason, number.reason)
        self.assertIn(raised.exception.advice, str(raised.exception))
        return raised.exception

    def test_2_no_site(self) -> None:
        self.refused(Refusal.NO_SITE, self.site().give, 2, "stock", Kind.LOWER, 1)

    def test_3_no_field(self) -> None:
        site = self.site()
        for call in (site.read, site.share):
            self.refused(Refusal.NO_FIELD, call, "hats")
        self.refused(Refusal.NO_FIELD, site.change, "hats", 1)
        self.refused(Refusal.NO_FIELD, site.transaction().lower, "hats", 1)
        self.assertEqual(site.counts.answers, 0)

    def test_5_zero(self) -> None:
        site = self.site()
        self.refused(Refusal.ZERO, site.change, "stock", 0)
        self.refused(Refusal.ZERO, site.give, 1, "stock", Kind.LOWER, 0)
        self.refused(Refusal.ZERO, site.tighten, "stock", Kind.LOWER, 0)
        self.refused(Refusal.ZERO, site.accept, Statement(1, 0, "stock", Kind.LOWER, 0))

    def test_6_too_large(self) -> None:
        site = self.site()
        self.refused(Refusal.TOO_LARGE, site.change, "stock", -2_000_000_000_000_001)
        self.refused(Refusal.TOO_LARGE, site.spare, 1, "stock", Kind.LOWER, 2_000_000_000_000_001)
        self.refused(Refusal.TOO_LARGE, site.accept, Statement(1, 0, "stock", Kind.LOWER, 10**18 + 1))

    def test_7_short(self) -> None:
        site = self.site()
        short = self.refused(Refusal.SHORT, site.change, "stock", -21, told=20)
        assert isinstance(short, escrow.Short)
        self.assertEqual((short.share, short.field, short.kind), (20, "stock", Kind.LOWER))
        short = self.refused(Refusal.SHORT, site.give, 1, "seats", Kind.RAISE, 1, told=0)
        assert isinstance(short, escrow.Short)
        self.assertEqual((short.share, short.field, short.kind), (0, "seats", Kind.RAISE))
        short = self.refused(Refusal.SHORT, site.tighten, "stock", Kind.RAISE, 31, told=30)
        assert isinstance(short, escrow.Short)
        self.assertEqual((short.share, short.field, short.kind), (30, "stock", Kind.RAISE))
        self.assertEqual(site.counts.refusals, {Refusal.SHORT: 3, Refusal.NOTHING_GIVEN: 1})

    def test_7_short_leaves_the_transaction_open(self) -> None:
        site = self.site()
        with site.transaction() as t:
            with self.assertRaises(escrow.Short):
                t.lower("stock", 21)
            t.lower("stock", 20)
        self.assertEqual(site.share("stock"), Share(0, 50))

    def test_8_self_gift(self) -> None:
        self.refused(Refusal.SELF_GIFT, self.site().give, 0, "stock", Kind.LOWER, 1)

    def test_9_ledger_full(self) -> None:
        # Each gift of 10^15 comes back, until 10^18 are given in all.
        amount = 10**15
        site = self.site(escrow.Schema(2, (escrow.Field("stock", -amount, amount, amount),)), sync=False)
        for times in range(1, 1001):
            self.assertEqual(site.give(1, "stock", Kind.LOWER, amount).total, times * amount)
            site.accept(Statement(1, 0, "stock", Kind.LOWER, times * amount))
        self.refused(Refusal.LEDGER_FULL, site.give, 1, "stock", Kind.LOWER, 1, told=10**18)

    def test_10_not_yours(self) -> None:
        site = self.site(escrow.Schema(3, SHOP.fields))
        self.refused(Refusal.NOT_YOURS, site.accept, Statement(1, 2, "stock", Kind.LOWER, 1))

    def test_11_forged(self) -> None:
        site = self.site()
        # Stock is 100 wide, and 50 of that are rights of this site.
        forged = self.refused(Refusal.FORGED, site.accept, Statement(1, 0, "stock", Kind.LOWER, 51), told=50)
        self.assertIsInstance(forged, escrow.Forged)

    def test_12_too_many_open_never_comes(self) -> None:
        site = self.site()
        held = [site.transaction() for _ in range(63)]
        for t in held:
            self.hold(t)
        late = site.transaction()
        waits = threading.Thread(target=self.hold, args=(late,))
        waits.start()
        wait_until(lambda: site.unanswered == 1)
        self.assertEqual(site.open, 63)
        # A place is left for a change in one trip.
        site.change("stock", 1)
        held[0].abort()
        waits.join(60)
        self.assertFalse(waits.is_alive())
        self.assertNotEqual(late.id, "")

    def hold(self, t: escrow.Transaction) -> None:
        """Begins a transaction that may set nothing aside."""
        try:
            t.lower("stock", 1)
        except escrow.Short:
            pass

    def test_13_too_many_escrows(self) -> None:
        site = self.site()
        with site.transaction() as t:
            for _ in range(16):
                t.lower("stock", 1)
            self.refused(Refusal.TOO_MANY_ESCROWS, t.lower, "stock", 1)
        self.assertEqual(site.share("stock"), Share(4, 46))

    def test_14_numbers_full_never_comes(self) -> None:
        site = self.site(LARGE)
        site.pipeline.numbers = 40  # of 10^9
        ids = [site.change("stock", -1) for _ in range(100)]
        expected = [of_large(f"{epoch}.{number}") for epoch in (1, 2, 3) for number in range(1, 41)][:100]
        self.assertEqual(ids, expected)
        with site.transaction() as t:
            t.lower("stock", 5)
        self.assertEqual(t.id, of_large("3.21"))

    def test_15_nothing_given(self) -> None:
        nothing = self.refused(Refusal.NOTHING_GIVEN, self.site().restate, 1, "stock", Kind.LOWER)
        self.assertIsInstance(nothing, escrow.NothingGiven)

    def test_no_refusal_changes_anything(self) -> None:
        site = self.site()
        calls: list[Act] = [lambda: site.change("stock", -21), lambda: site.give(0, "stock", Kind.LOWER, 1)]
        for call in calls:
            with self.assertRaises(escrow.Refused):
                call()
        site.close()
        self.assertEqual(records(site.folder), [["R", "1"]])

    def test_what_is_no_line_is_no_value(self) -> None:
        site = self.site()
        t = site.transaction()
        cases: list[tuple[Act, type[Exception]]] = [
            (lambda: t.lower("stock", -1), ValueError),
            (lambda: t.lower("stock", 1.5), TypeError),  # type: ignore[arg-type]
            (lambda: site.change("stock", 2**63), ValueError),
            (lambda: site.change("stock", "1"), TypeError),  # type: ignore[arg-type]
            (lambda: site.give(1, "stock", Kind.LOWER, -1), ValueError),
            (lambda: site.give(70_000, "stock", Kind.LOWER, 1), ValueError),
            (lambda: site.give(1, "stock", "both", 1), ValueError),  # type: ignore[arg-type]
            (lambda: site.outcome("1"), ValueError),
            (lambda: site.outcome("1.01"), ValueError),
            (lambda: site.outcome("1.2\n0 begin"), ValueError),
            (lambda: site.outcome("1.77"), ValueError),  # not begun yet
            (lambda: site.outcome(of_shop("2.1")), escrow.Unknown),  # later than the log
        ]
        for act, fault in cases:
            with self.assertRaises(fault):
                act()
        self.assertEqual(site.counts.answers, 0)


if __name__ == "__main__":
    unittest.main()
