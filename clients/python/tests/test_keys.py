"""Keys of callers: what is asked for again with the same key happens once, and the id of the commit that has the key is told."""

from __future__ import annotations

import asyncio
import copy
import os
import pickle
import signal
import string
import threading
import unittest
from collections.abc import Callable

from programs import (
    LARGE,
    LONG,
    SHOP,
    SiteTest,
    commits,
    escrow_site,
    is_ended,
    kill,
    of_large,
    of_shop,
    pid_of,
    stand_still,
    wait_until,
)
from test_site_stops import CUT
from test_site_time import LIMIT, TimeTest, still
import escrow
from escrow import Outcome, Share
from escrow.testing import temporary_site

OLDER = """#!/bin/sh
[ "$1" = serve ] || exec '{real}' "$@"
sed -u 's/ key / older /' | '{real}' "$@"
"""
"""A program that doesn't know keys: to it a line with one has words too many."""
NONE: tuple[object, ...] = ("", "a b", "a\n", "schlüssel", "a/b", "x" * 65, b"order", 17, 1.5)
"""No keys."""
Fails = Callable[[escrow.Site], object]


class OnceTest(SiteTest):
    """Each key once, whoever asks."""

    def test_the_same_key_twice(self) -> None:
        site = self.site()
        self.assertIsNone(site.kept_key("order-17"))
        self.assertEqual(site.change("stock", -3, key="order-17"), of_shop("1.1"))
        self.assertEqual(site.change("stock", -3, key="order-17"), of_shop("1.1"))
        self.assertEqual(site.change("stock", 2, key="order-17"), of_shop("1.1"))
        self.assertEqual(site.change("stock", -3, key="order-18"), of_shop("1.4"))
        self.assertEqual((site.kept_key("order-17"), site.kept_key("order-18")), (of_shop("1.1"), of_shop("1.4")))
        self.assertEqual((site.share("stock"), site.open), (Share(14, 36), 0))
        site.close()
        self.assertEqual(commits(site.folder, SHOP), {of_shop("1.1"): (("stock", -3),), of_shop("1.4"): (("stock", -3),)})

    def test_threads(self) -> None:
        site, told = self.site(), []  # type: escrow.Site, list[tuple[str, str]]
        start = threading.Barrier(12)

        def buys(key: str) -> None:
            start.wait()
            told.append((key, site.change("stock", -1, key=key)))

        threads = [threading.Thread(target=buys, args=(f"order-{number % 3}",)) for number in range(12)]
        for thread in threads:
            thread.start()
        for thread in threads:
            thread.join()
        self.assertEqual((len(told), len(set(told)), len({id for _, id in told})), (12, 3, 3))
        self.assertEqual((site.share("stock"), site.open), (Share(17, 33), 0))

    def test_tasks(self) -> None:
        site = self.site()

        async def buys() -> list[str]:
            shop = escrow.AsyncSite(site)
            told = await asyncio.gather(*(shop.change("stock", -1, key=f"order-{number % 4}") for number in range(40)))
            self.assertEqual([await shop.kept_key(f"order-{number}") for number in range(5)], [*told[:4], None])
            return told

        told = asyncio.run(buys())
        self.assertEqual((told, len(set(told))), (told[:4] * 10, 4))
        self.assertEqual((site.share("stock"), site.open), (Share(16, 34), 0))

    def test_a_transaction(self) -> None:
        site = self.site()
        with site.transaction() as t:
            t.lower("stock", 3)
            t.lower("seats", 1)
            self.assertEqual(t.commit(key="order"), t.id)
        with site.transaction() as other:
            other.lower("stock", 5)
            self.assertEqual(other.commit(key="order"), t.id)
        self.assertEqual((site.share("stock"), site.outcome(other.id)), (Share(17, 33), Outcome.NOT_COMMITTED))
        with self.assertRaises(escrow.Over):
            other.lower("stock", 1)
        with site.transaction() as plain:
            plain.lower("stock", 1)
            self.assertEqual(plain.commit(), plain.id)
        self.assertEqual(site.transaction().commit(key="order"), t.id)
        self.assertEqual((site.transaction().commit(key="new"), site.transaction().commit()), ("", ""))
        self.assertIsNone(site.kept_key("new"))

        async def sells() -> list[str]:
            shop = escrow.AsyncSite(site)
            async with shop.transaction() as t:
                await t.lower("stock", 2)
                first = await t.commit(key="later")
            async with shop.transaction() as t:
                await t.lower("stock", 2)
                second = await t.commit(key="later")
            return [first, second, await shop.transaction().commit(key="later"), await shop.transaction().commit(key="new")]

        first, *others = asyncio.run(sells())
        self.assertEqual(others, [first, first, ""])
        self.assertEqual((site.share("stock"), site.open), (Share(14, 36), 0))

    def test_one_in_which_nothing_is_set_aside_keeps_no_key(self) -> None:
        site = self.site()
        with site.transaction() as t:
            with self.assertRaises(escrow.Short):
                t.lower("stock", 21)
            t.commit(key="order")
        self.assertIsNone(site.kept_key("order"))
        self.assertEqual(site.change("stock", -1, key="order"), of_shop("1.2"))
        self.assertEqual(site.kept_key("order"), of_shop("1.2"))

    def test_short_is_not_told_of_what_was_sold(self) -> None:
        site = self.site()
        id = site.change("stock", -20, key="order")
        self.assertEqual((site.share("stock"), site.change("stock", -20, key="order")), (Share(0, 50), id))

        async def buys(key: str) -> str:
            return await escrow.AsyncSite(site).change("stock", -20, key=key)

        self.assertEqual(asyncio.run(buys("order")), id)
        for key in ("other", "third"):
            with self.assertRaises(escrow.Short) as raised:
                site.change("stock", -20, key=key)
            self.assertEqual(raised.exception.share, 0)
            with self.assertRaises(escrow.Short):
                asyncio.run(buys(key))
            self.assertIsNone(site.kept_key(key))
        for field, change, refusal in (("stock", 0, escrow.Refusal.ZERO), ("chairs", -1, escrow.Refusal.NO_FIELD)):
            with self.assertRaises(escrow.Refused) as refused:
                site.change(field, change, key="fourth")
            self.assertEqual(refused.exception.number, refusal)
            self.assertEqual(site.change(field, change, key="order"), id)
        self.assertEqual((site.open, site.unanswered), (0, 0))

    def test_before_is_told_the_id_of_this_call(self) -> None:
        site, told = self.site(), []  # type: escrow.Site, list[str]
        first = site.change("stock", -3, told.append, key="order")
        self.assertEqual(site.change("stock", -3, told.append, key="order"), first)
        self.assertEqual(told, [first, of_shop("1.2")])

        def fails(_: str) -> None:
            raise escrow.Short(escrow.Refusal.SHORT, 0, "0 escrow 1.9 seats -9")

        with self.assertRaises(escrow.Short):  # its own, which isn't this call's
            site.change("stock", -3, fails, key="order")
        self.assertEqual((site.share("stock"), site.open), (Share(17, 33), 0))

    def test_short_is_not_told_while_another_call_has_the_key(self) -> None:
        """It has set all aside, and hasn't committed yet."""
        site = self.site()
        has_all, may_go_on = threading.Event(), threading.Event()

        def before(_: str) -> None:
            has_all.set()
            may_go_on.wait(LONG)

        def buys(key: str) -> object:
            return asyncio.run(escrow.AsyncSite(site).change("stock", -1, key=key))

        told: list[str] = []
        first = threading.Thread(target=lambda: told.append(site.change("stock", -20, before, key="order")))
        first.start()
        self.assertTrue(has_all.wait(LONG))
        calls: list[Callable[[str], object]] = [lambda key: site.change("stock", -1, key=key), buys]
        for call in calls:
            with self.assertRaises(escrow.Busy) as raised:
                call("order")
            self.assertIn("another call of this process with the same key", str(raised.exception))
            with self.assertRaises(escrow.Short):
                call("other")
        may_go_on.set()
        first.join()
        for call in calls:
            self.assertEqual(call("order"), told[0])
            with self.assertRaises(escrow.Short):
                call("other")
        self.assertEqual((site.share("stock"), site.open), (Share(0, 50), 0))

    def test_what_is_no_key_is_refused_and_nothing_is_asked(self) -> None:
        site = self.site()
        t = site.transaction()
        t.lower("stock", 1)
        answers = site.counts.answers
        for key in NONE:
            kind = ValueError if isinstance(key, str) else TypeError
            with self.assertRaises(kind):
                site.change("stock", -1, key=key)  # type: ignore[arg-type]
            with self.assertRaises(kind):
                site.kept_key(key)  # type: ignore[arg-type]
            with self.assertRaises(kind):
                t.commit(key=key)  # type: ignore[arg-type]
            with self.assertRaises(kind):
                asyncio.run(escrow.AsyncSite(site).change("stock", -1, key=key))  # type: ignore[arg-type]
            with self.assertRaises(kind):
                asyncio.run(escrow.AsyncSite(site).kept_key(key))  # type: ignore[arg-type]
        self.assertEqual(site.counts.answers, answers)
        self.assertEqual(t.commit(), of_shop("1.1"))

    def test_each_byte_of_a_key_and_the_longest(self) -> None:
        site = self.site()
        all_of = string.ascii_letters + string.digits + "._-"
        keys = [*all_of, all_of[:64], all_of[1:], "x" * 63, "x" * 64, "no", "yes", "key"]
        told = [site.change("seats" if at % 2 else "stock", 1 if at % 4 == 2 else -1, key=key)
                for at, key in enumerate(keys[:8])]  # fmt: skip
        self.assertEqual(len(set(told)), 8)
        large = self.served(self.folder(LARGE, 0, "large"))
        told = [large.change("stock", -1, key=key) for key in keys]
        self.assertEqual(len(set(told)), len(keys))
        self.assertEqual([large.kept_key(key) for key in keys], told)
        self.assertEqual(large.share("stock").lower, 500_000 - len(keys))

    def test_what_is_done_once_leaves_no_place_taken(self) -> None:
        site = self.site(LARGE)
        id = site.change("stock", -1, key="order")
        for _ in range(140):
            self.assertEqual(site.change("stock", -1, key="order"), id)
        held = [site.transaction(timeout=LONG) for _ in range(30)]
        for t in held:
            t.lower("stock", 1)
        self.assertEqual((site.open, site.share("stock").lower), (30, 499_969))
        for t in held:
            t.abort()


class RestartTest(SiteTest):
    """A key is as lasting as its commit."""

    def test_it_is_kept_across_starts(self) -> None:
        folder = self.folder()
        with escrow.Site(folder, program=escrow_site()) as site:
            id = site.change("stock", -3, key="order")
        with escrow.Site(folder, program=escrow_site(), last_id=id) as site:
            self.assertEqual((site.epoch, site.kept_key("order"), site.change("stock", -3, key="order")), (2, id, id))
        self.assertEqual(commits(folder, SHOP), {id: (("stock", -3),)})

    def test_the_mark_of_a_log_with_keys(self) -> None:
        """Notes of keys aren't counted in it, as `show` and a start don't count them."""
        folder = self.folder()
        with escrow.Site(folder, program=escrow_site()) as site:
            for number in range(5):
                site.change("stock", -1, key=f"order-{number}")
                site.change("stock", -1)
                marks = [site.newest_mark(), site.newest_mark()]
        self.assertEqual(marks, [escrow.show(folder, escrow_site()).mark] * 2)
        with escrow.Site(folder, program=escrow_site(), not_before=marks[0]) as site:
            self.assertEqual(site.kept_key("order-4"), of_shop("1.9"))


class StoppedTest(TimeTest):
    """Stops and limits between a commit and its answer."""

    def program(self, text: str, **words: object) -> str:
        """A program of this text."""
        path = os.path.join(self.place, "program")
        with open(path, "w", encoding="ascii") as file:
            file.write(text.format(real=escrow_site(), **words))
        os.chmod(path, 0o755)
        return path

    def cut(self) -> escrow.Site:
        """A site whose first process is heard for begin and escrow, and not for the commit, which is in its log."""
        first = os.path.join(self.place, "first")
        with open(first, "w", encoding="ascii"):
            pass
        site = escrow.Site(self.folder(), program=self.program(CUT, first=first, lines=4))
        self.addCleanup(site.close)
        return site

    def test_a_stop_behind_the_commit(self) -> None:
        site = self.cut()
        self.assertEqual(site.change("stock", -3, key="order"), of_shop("1.1"))
        self.assertEqual((site.epoch, site.change("stock", -3, key="order")), (2, of_shop("1.1")))
        site.close()
        self.assertEqual(commits(site.folder, SHOP), {of_shop("1.1"): (("stock", -3),)})

    def test_a_stop_behind_the_commit_of_a_transaction(self) -> None:
        site = self.cut()
        with site.transaction() as t:
            t.lower("stock", 3)
            self.assertEqual(t.commit(key="order"), of_shop("1.1"))
        self.assertEqual((site.epoch, site.share("stock")), (2, Share(17, 33)))

    def test_a_stop_behind_the_commit_of_a_task(self) -> None:
        site = self.cut()

        async def sells() -> list[str]:
            shop = escrow.AsyncSite(site)
            return [await shop.change("stock", -3, key="order") for _ in range(2)]

        self.assertEqual(asyncio.run(sells()), [of_shop("1.1")] * 2)
        self.assertEqual((site.epoch, site.share("stock")), (2, Share(17, 33)))

    def test_a_stop_ahead_of_the_commit(self) -> None:
        """It is begun anew, and committed once; a transaction is lost, and may be done again."""
        site, told = self.site(), []  # type: escrow.Site, list[str]

        def before(id: str) -> None:
            told.append(id)
            if len(told) == 1:
                pid = pid_of(site)
                kill(site)
                wait_until(lambda: is_ended(pid))

        self.assertEqual(site.change("stock", -3, before, key="order"), of_shop("2.1"))
        self.assertEqual((told, site.kept_key("order")), ([of_shop("1.1"), of_shop("2.1")], of_shop("2.1")))
        t = site.transaction()
        t.lower("stock", 1)
        fault = self.interrupted(site, lambda: t.commit(key="other"), lambda: kill(site))
        self.assertIsInstance(fault, escrow.Lost)
        self.assertEqual((fault.id, fault.key, site.kept_key("other")), (t.id, "other", None))
        self.assertIn("key other", str(fault))
        self.assertEqual(site.change("stock", -1, key="other"), of_shop("3.1"))

    def test_a_process_that_stops_before_it_takes_a_change(self) -> None:
        site = self.site()
        told = self.interrupted(site, lambda: site.change("stock", -3, key="order"), lambda: kill(site))
        self.assertEqual((told, site.kept_key("order")), (of_shop("2.1"), of_shop("2.1")))
        self.assertEqual(site.share("stock"), Share(17, 33))

    def test_a_commit_in_doubt_is_asked_for_again(self) -> None:
        site, told = self.site(), []  # type: escrow.Site, list[str]

        def before(id: str) -> None:
            told.append(id)
            stand_still(pid_of(site))

        fault = self.late(lambda: site.change("stock", -20, before, key="order", timeout=2.0), escrow.Unknown)
        assert isinstance(fault, escrow.Unknown)
        self.assertEqual((fault.id, fault.key, told), (of_shop("1.1"), "order", [of_shop("1.1")]))
        self.assertIn("key order", str(fault))
        os.kill(pid_of(site), signal.SIGCONT)
        self.assertEqual(site.change("stock", -20, key="order"), of_shop("1.1"))
        self.assertEqual((site.share("stock"), site.open), (Share(0, 50), 0))

    def test_an_escrow_in_doubt_is_given_back(self) -> None:
        site = self.site()
        with still(site):
            fault = self.late(lambda: site.change("stock", -3, key="order", timeout=LIMIT), escrow.Unknown)
            late = self.late_task(site, lambda shop: shop.change("stock", -3, key="task", timeout=LIMIT), escrow.Unknown)
            self.late(lambda: site.kept_key("order", timeout=LIMIT), escrow.Busy)
            self.late_task(site, lambda shop: shop.kept_key("order", timeout=LIMIT), escrow.Busy)
            self.late(lambda: site.change("stock", -1, key="order", timeout=0.0), escrow.Busy)
        assert isinstance(fault, escrow.Unknown) and isinstance(late, escrow.Unknown)
        self.assertEqual((fault.key, late.key), ("order", "task"))
        self.assertEqual((site.kept_key("order"), site.share("stock")), (None, Share(20, 30)))
        self.assertEqual(site.change("stock", -3, key="order"), of_shop("1.3"))

    def test_a_commit_that_was_busy_stays_one_with_its_key(self) -> None:
        site = self.site()
        with site.transaction() as t:
            t.lower("stock", 3)
            with self.assertRaises(escrow.Busy):
                t.commit(key="order", timeout=0.0)
        self.assertEqual((site.kept_key("order"), site.outcome(t.id)), (t.id, Outcome.COMMITTED))

    def test_a_cancelled_task_asks_again(self) -> None:
        site = self.site()

        async def sells() -> list[str]:
            shop = escrow.AsyncSite(site)
            for turns in range(12):
                task = asyncio.ensure_future(shop.change("stock", -3, key="order"))
                for _ in range(turns):
                    await asyncio.sleep(0.001)
                task.cancel()
                await asyncio.wait((task,))
            return [await shop.change("stock", -3, key="order"), str(await shop.kept_key("order"))]

        first, second = asyncio.run(sells())
        self.assertEqual(first, second)
        self.assertEqual((site.share("stock"), site.open), (Share(17, 33), 0))
        site.close()
        self.assertEqual(commits(site.folder, SHOP), {first: (("stock", -3),)})

    def test_a_closed_site(self) -> None:
        site = self.site()
        site.close()
        calls: list[Fails] = [lambda it: it.change("stock", -3, key="order"), lambda it: it.kept_key("order")]
        for call in calls:
            with self.assertRaises(escrow.Down):
                call(site)

    def test_a_program_that_does_not_know_keys(self) -> None:
        site = escrow.Site(self.folder(), program=self.program(OLDER), timeout=LONG)
        self.addCleanup(site.close)

        def commits_one(it: escrow.Site) -> str:
            with it.transaction() as t:
                t.lower("stock", 3)
                return t.commit(key="order")

        calls: list[Fails] = [
            lambda it: it.change("stock", -3, key="order"), lambda it: it.change("stock", -21, key="order"), commits_one,
            lambda it: it.kept_key("order"), lambda it: asyncio.run(escrow.AsyncSite(it).change("stock", -3, key="order")),
        ]  # fmt: skip
        for call in calls:
            with self.assertRaises(escrow.NoKeys) as raised:
                call(site)
            self.assertIn("use a newer escrow_site", str(raised.exception))
        self.assertEqual((site.share("stock"), site.open, site.counts.stops), (Share(20, 30), 0, 0))
        id = site.change("stock", -3)
        site.close()
        self.assertEqual(commits(site.folder, SHOP), {id: (("stock", -3),)})


class Counted:
    """A `Watch` that keeps what it is told of answers and refusals."""

    def __init__(self) -> None:
        self.told: list[tuple[str, str]] = []

    def answered(self, command: str, seconds: float, count: int = 1) -> None:
        """An answer."""
        self.told += [("answered", command)] * count

    def refused(self, command: str, number: int, reason: str) -> None:
        """A refusal."""
        self.told.append(("refused", f"{command} {number}"))

    def __getattr__(self, name: str) -> Callable[..., None]:
        if name in ("looks_at", "faulted"):
            raise AttributeError(name)
        return lambda *_: None


class ToldTest(SiteTest):
    """Counts, and copies of exceptions."""

    def test_they_are_counted_as_commits_and_questions(self) -> None:
        told = Counted()
        site = self.site(metrics=told)
        for _ in range(2):
            site.change("stock", -3, key="order")
        site.kept_key("order")
        wait_until(lambda: len(told.told) >= 5)
        changed = [("answered", "escrow"), ("answered", "commit")]
        self.assertEqual(told.told, [*changed, *changed, ("answered", "kept")])
        self.assertEqual((site.counts.answers, site.counts.refusals), (5, {}))

    def test_a_site_in_memory(self) -> None:
        with temporary_site(program=escrow_site()) as site:
            ids = [site.change("stock", -3, key="order") for _ in range(2)]
            self.assertEqual((ids, site.share("stock").lower), ([site.kept_key("order")] * 2, 997))

    def test_exceptions_with_a_key_are_copied(self) -> None:
        faults = (escrow.Unknown("why", of_large("1.1"), "order"), escrow.Lost("why", of_large("1.1"), "order"),
                  escrow.Unknown("why", None, "order"), escrow.NoKeys())  # fmt: skip
        for fault in faults:
            for again in (copy.copy(fault), copy.deepcopy(fault), pickle.loads(pickle.dumps(fault))):
                self.assertEqual((type(again), str(again), vars(again)), (type(fault), str(fault), vars(fault)))
        told = f"transaction {of_large('1.1')}: key order: why"
        self.assertEqual([str(fault) for fault in faults[:3]], [told, told, "key order: why"])


if __name__ == "__main__":
    unittest.main()
