"""Stops of the process at any moment, under threads and tasks at once: what was answered is in the log, and nothing twice."""

from __future__ import annotations

import asyncio
import contextlib
import errno
import os
import random
import signal
import subprocess
import sys
import threading
import time
import unittest
import unittest.mock
from collections.abc import Callable
from typing import Any

from programs import (
    LARGE,
    SHOP,
    Act,
    Changes,
    Gate,
    Killer,
    SiteTest,
    commits,
    escrow_site,
    kill,
    of_large,
    of_shop,
    pid_of,
    totals,
    wait_until,
)
import escrow
from escrow import Kind, Outcome, Share, Statement

KILLS = 60
SELLER = os.path.join(os.path.dirname(os.path.abspath(__file__)), "seller.py")


class Book:
    """What callers were told."""

    def __init__(self) -> None:
        self.committed: dict[str, Changes] = {}
        self.lost: set[str] = set()
        self.over = 0
        self.unknown: list[str] = []
        self.given = 0
        self.given_up = 0
        self._lock = threading.Lock()

    @property
    def is_short(self) -> bool:
        """Whether so little is committed yet, as on a busy machine, that it would tell little."""
        return len(self.committed) <= KILLS

    def commit(self, id: str, changes: Changes) -> None:
        """A commit was answered."""
        with self._lock:
            assert id not in self.committed, id
            self.committed[id] = changes

    def fail(self, fault: escrow.EscrowError, id: str) -> None:
        """A transaction was told that it isn't committed."""
        with self._lock:
            if isinstance(fault, escrow.Unknown):
                self.unknown.append(str(fault))
            else:
                self.over += isinstance(fault, escrow.Over)
                self.lost.add(id)

    def step(self, amount: int, is_gift: bool) -> None:
        """Rights were given, or given up."""
        with self._lock:
            if is_gift:
                self.given += amount
            else:
                self.given_up += amount


def thread_at_work(site: escrow.Site, book: Book, killer: Killer, seed: int) -> None:
    """Does what a shop does, until the kills are over."""
    luck = random.Random(seed)
    while killer.at_work or book.is_short:
        amount, draw = luck.randint(1, 3), luck.random()
        if draw < 0.5:
            book.commit(site.change("stock", -amount), (("stock", -amount),))
        elif draw < 0.8:
            two_fields(site, book, amount)
        elif draw < 0.9:
            site.give(1, "stock", Kind.LOWER, amount)
            book.step(amount, True)
        else:
            site.tighten("stock", Kind.RAISE, amount)
            book.step(amount, False)


def two_fields(site: escrow.Site, book: Book, amount: int) -> None:
    """One transaction of two fields."""
    t = site.transaction()
    try:
        with t:
            t.lower("stock", amount)
            t.raise_("seats", amount)
        book.commit(t.id, (("stock", -amount), ("seats", amount)))
    except (escrow.Lost, escrow.Over, escrow.Unknown) as fault:
        book.fail(fault, t.id)


async def task_at_work(shop: escrow.AsyncSite, book: Book, killer: Killer, seed: int) -> None:
    """As a thread does."""
    luck = random.Random(seed)
    while killer.at_work or book.is_short:
        amount = luck.randint(1, 3)
        if luck.random() < 0.5:
            book.commit(await shop.change("stock", -amount), (("stock", -amount),))
            continue
        t = shop.transaction(None if luck.random() < 0.5 else 0.01)
        try:
            async with t:
                await t.raise_("stock", amount)
                await t.lower("seats", amount)
            book.commit(t.id, (("stock", amount), ("seats", -amount)))
        except (escrow.Lost, escrow.Over, escrow.Unknown) as fault:
            book.fail(fault, t.id)


class StopTest(SiteTest):
    """The process is killed."""

    def test_kills_under_threads_and_tasks(self) -> None:
        site = self.site(LARGE, backoff=escrow.Backoff(0.01, 0.1), patience=60.0)
        book, killer = Book(), Killer(site, KILLS, 0.08, seed=7)
        threads = [threading.Thread(target=thread_at_work, args=(site, book, killer, seed)) for seed in range(6)]

        async def tasks() -> None:
            shop = escrow.AsyncSite(site)
            await asyncio.gather(*(task_at_work(shop, book, killer, 100 + seed) for seed in range(6)))

        with killer:
            for thread in threads:
                thread.start()
            asyncio.run(tasks())
            for thread in threads:
                thread.join()
        share = site.share("stock")  # the last kill may just have come: once it answers, the site stands again
        self.assertEqual(site.open, 0)
        site.close()
        self.assertEqual(killer.killed, KILLS)
        self.assertEqual(book.unknown, [])
        self.told_is_in_the_log(book, site.folder)
        self.sums_are_right(book, site.folder, share)
        self.assertGreater(len(book.committed), KILLS)

    def told_is_in_the_log(self, book: Book, folder: str) -> None:
        """Each answered commit with its very changes, none that was lost, and no other."""
        kept = commits(folder, LARGE)
        self.assertEqual(book.committed, kept)
        self.assertEqual(book.lost & set(kept), set())
        for record, told in (("G 1 0 l", book.given), ("T 0 r", book.given_up)):
            steps = totals(folder, record)
            self.assertEqual(sorted(set(steps)), steps)
            self.assertEqual(steps[-1] if steps else 0, told)

    def sums_are_right(self, book: Book, folder: str, share: Share) -> None:
        """The program's own look at both folders: the values, the bounds, and that all that was set aside is free again."""
        moved = {field: sum(change for changes in book.committed.values() for name, change in changes if name == field)
                 for field in ("stock", "seats")}  # fmt: skip
        other = self.folder(LARGE, 1, "other")
        told = subprocess.run([escrow_site(), "check", folder, other], capture_output=True, text=True, check=True).stdout
        self.assertIn(f"field stock value {1_000_000 + moved['stock']} floor 0 ceiling {2_000_000 - book.given_up}\n", told)
        self.assertIn(f"field seats value {1_000_000 + moved['seats']} floor 0 ceiling 2000000\n", told)
        # Of the first 500,000 rights of each kind: less what was given and given up, and moved by what was committed.
        free = Share(500_000 + moved["stock"] - book.given, 500_000 - moved["stock"] - book.given_up)
        self.assertEqual(share, free)

    def test_a_stop_ends_a_transaction(self) -> None:
        site = self.site()
        t = site.transaction()
        t.lower("stock", 3)
        kill(site)
        wait_until(lambda: site.epoch == 2)
        with self.assertRaises(escrow.Over):
            t.lower("stock", 1)
        with self.assertRaises(escrow.Over):
            t.commit()
        self.assertEqual(site.share("stock"), Share(20, 30))
        self.assertEqual(site.outcome(t.id), Outcome.NOT_COMMITTED)

    def test_calls_that_wait_for_a_place_go_on_behind_a_stop(self) -> None:
        site = self.site(LARGE)
        for _ in range(63):
            site.transaction().lower("stock", 1)
        late = [site.transaction() for _ in range(8)]
        threads = [threading.Thread(target=t.lower, args=("stock", 1)) for t in late]
        for thread in threads:
            thread.start()
        wait_until(lambda: site.unanswered == 8)
        kill(site)
        for thread in threads:
            thread.join()
        self.assertEqual((site.epoch, site.open, site.pipeline.begun, site.unanswered), (2, 8, 8, 0))
        self.assertEqual({t.id for t in late}, {of_large(f"2.{number}") for number in range(1, 9)})
        for t in late:
            t.commit()
        self.assertEqual(site.share("stock"), Share(500_000 - 8, 500_000 + 8))

    def test_hooks_hear_each_start(self) -> None:
        site = self.site()
        starts: list[int] = []
        site.on_start.append(lambda: starts.append(site.epoch))
        for count in range(1, 4):
            epoch = site.epoch
            kill(site)
            self.wait_for_start(site, epoch)
            wait_until(lambda count=count: len(starts) == count)  # type: ignore[misc]  # it looks at the epoch as it runs
        self.assertEqual(starts, [2, 3, 4])

    def wait_for_start(self, site: escrow.Site, epoch: int) -> None:
        """Waits until the site stands again, behind this epoch, and answers."""
        wait_until(lambda: site.up and site.epoch > epoch)
        site.read("stock")

    def test_each_start_is_told_how_far_the_log_had_come(self) -> None:
        gate = self.gated()
        site, log = gate.site, f"{gate.site.folder}/log"
        site.change("stock", -1)
        gate.stop()
        with open(log, "rb") as file:
            whole = file.read()
        with open(log, "wb") as file:
            file.write(whole[: whole.index(b"R 1\n")])  # as an old copy that was put back
        gate.open()
        with self.assertRaises(escrow.Down) as raised:
            site.read("stock")
        self.assertEqual(raised.exception.status, 3)
        self.assertIn("older than --not-before", str(raised.exception))

    def test_another_hand_meanwhile_is_told(self) -> None:
        gate = self.gated()
        site = gate.site
        site.give(1, "stock", Kind.LOWER, 2)
        gate.stop()
        self.by_hand(site, "0 give 1 stock lower 3\n")
        gate.open()
        # The total that was known, 2, is known no more: so this one is told rightly.
        self.assertEqual(site.spare(1, "stock", Kind.LOWER, 4).amount, 4)
        self.assertEqual(site.restate(1, "stock", Kind.LOWER).total, 9)
        self.assertEqual(site.pipeline.era, 1)

    def by_hand(self, site: escrow.Site, line: str) -> None:
        """Somebody else serves the site for this line."""
        subprocess.run([escrow_site(), "serve", site.folder], input=line, text=True, capture_output=True, check=True)

    def test_a_step_in_doubt_that_another_hand_may_have_taken_is_not_guessed(self) -> None:
        gate = self.gated()
        site = gate.site
        site.give(1, "stock", Kind.LOWER, 2)
        site.tighten("stock", Kind.RAISE, 2)
        self.assert_unknown(gate, lambda: site.give(1, "stock", Kind.LOWER, 3), "0 give 1 stock lower 3\n")
        self.assertEqual(site.restate(1, "stock", Kind.LOWER).total, 5)
        self.assert_unknown(gate, lambda: site.tighten("stock", Kind.RAISE, 3), "0 tighten stock raise 3\n")
        self.assertEqual(site.tighten("stock", Kind.RAISE, 4), 9)

    def assert_unknown(self, gate: Gate, step: Act, line: str) -> None:
        """A step that a stop leaves unanswered, and another hand takes it: then nobody can tell whose it was."""

        def stop() -> None:
            gate.stop()
            self.by_hand(gate.site, line)
            gate.open()

        self.assertEqual(type(self.interrupted(gate.site, step, stop)), escrow.Unknown)

    def test_a_step_in_doubt_is_taken_once(self) -> None:
        site = self.site()
        site.give(1, "stock", Kind.LOWER, 1)
        site.tighten("stock", Kind.RAISE, 1)
        steps: list[Act] = [
            lambda: site.give(1, "stock", Kind.LOWER, 2).total,
            lambda: site.spare(1, "stock", Kind.LOWER, 3).amount,
            lambda: site.tighten("stock", Kind.RAISE, 4),
        ]
        self.assertEqual([self.interrupted(site, step, lambda: kill(site)) for step in steps], [3, 3, 5])
        self.assertEqual((site.counts.starts, site.counts.interrupted), (4, 3))
        site.close()
        self.assertEqual(totals(site.folder, "G 1 0 l"), [1, 3, 6])
        self.assertEqual(totals(site.folder, "T 0 r"), [1, 5])


CUT = """#!/bin/sh
if [ "$1" != serve ] || ! rm '{first}' 2>/dev/null; then exec '{real}' "$@"; fi
'{real}' "$@" | (
    left={lines}
    while [ $left -gt 0 ]; do read -r line; echo "$line"; left=$((left - 1)); done
    read -r line
    kill -KILL 0
)
"""
"""A program that passes on so many lines of its first process, and kills it once the next line has come."""


class UnansweredTest(SiteTest):
    """A stop behind what was done, and before it was answered: the first process takes effect, and its answer gets lost."""

    def cut(self, answers: int) -> escrow.Site:
        """A site whose first process is heard for so many answers, and not for the next, which is in its log all the same."""
        program, first = os.path.join(self.place, "cut"), os.path.join(self.place, "first")
        with open(program, "w", encoding="ascii") as file:
            file.write(CUT.format(real=escrow_site(), first=first, lines=2 + answers))
        os.chmod(program, 0o755)
        with open(first, "w", encoding="ascii"):
            pass
        site = escrow.Site(self.folder(), program=program)
        self.addCleanup(site.close)
        return site

    def test_a_change_is_made_once(self) -> None:
        site = self.cut(0)
        self.assertEqual(site.change("stock", -3), of_shop("1.1"))
        self.assertEqual(site.change("stock", -2), of_shop("2.1"))
        site.close()
        self.assertEqual(commits(site.folder, SHOP), {of_shop("1.1"): (("stock", -3),), of_shop("2.1"): (("stock", -2),)})

    def test_a_change_of_a_task_is_made_once(self) -> None:
        site = self.cut(0)

        async def changes() -> str:
            return await escrow.AsyncSite(site).change("stock", -3)

        self.assertEqual(asyncio.run(changes()), of_shop("1.1"))
        site.close()
        self.assertEqual(commits(site.folder, SHOP), {of_shop("1.1"): (("stock", -3),)})

    def test_a_commit_is_told(self) -> None:
        site = self.cut(3)  # begin and two escrows
        with site.transaction() as t:
            t.lower("stock", 3)
            t.lower("seats", 1)
        self.assertEqual((t.id, site.epoch), (of_shop("1.1"), 2))
        self.assertEqual(site.outcome(of_shop("1.1")), Outcome.COMMITTED)

    def test_a_commit_of_a_task_is_told(self) -> None:
        site = self.cut(2)

        async def sells() -> str:
            async with escrow.AsyncSite(site).transaction() as t:
                await t.lower("stock", 3)
            return t.id

        self.assertEqual(asyncio.run(sells()), of_shop("1.1"))
        self.assertEqual(site.outcome(of_shop("1.1")), Outcome.COMMITTED)

    def test_a_commit_of_what_a_cancelled_task_has_set_aside_is_told(self) -> None:
        """A stop loses it: so it isn't told as kept, as that of a transaction in which nothing was set aside."""
        site = self.site()

        async def sells() -> str:
            t = escrow.AsyncSite(site).transaction()
            os.kill(pid_of(site), signal.SIGSTOP)
            sets_aside = asyncio.create_task(t.lower("stock", 3))
            while not site.open:
                await asyncio.sleep(0.005)
            sets_aside.cancel()
            await asyncio.gather(sets_aside, return_exceptions=True)
            commit = asyncio.create_task(t.commit())
            while site.unanswered < 2:
                await asyncio.sleep(0.005)
            kill(site)
            with self.assertRaises(escrow.Lost) as raised:
                await commit
            return raised.exception.id or ""

        self.assertEqual(asyncio.run(sells()), of_shop("1.1"))
        self.assertEqual((site.outcome(of_shop("1.1")), site.share("stock")), (Outcome.NOT_COMMITTED, Share(20, 30)))

    def test_a_gift_is_given_once(self) -> None:
        site = self.cut(1)  # the restate that asks for the total before it
        heard: list[int] = []
        site.on_statement.append(lambda statement: heard.append(statement.total))
        self.assertEqual(site.give(1, "stock", Kind.LOWER, 5).total, 5)
        site.close()
        self.assertEqual(totals(site.folder, "G 1 0 l"), [5])
        self.assertEqual(heard, [5])

    def test_a_spare_is_given_once(self) -> None:
        site = self.cut(1)
        self.assertEqual(site.spare(1, "stock", Kind.RAISE, 50).amount, 15)
        site.close()
        self.assertEqual(totals(site.folder, "G 1 0 r"), [15])

    def test_rights_are_given_up_once(self) -> None:
        site = self.cut(0)
        self.assertEqual(site.tighten("stock", Kind.RAISE, 5), 5)
        site.close()
        self.assertEqual(totals(site.folder, "T 0 r"), [5])

    def test_a_statement_is_accepted_once(self) -> None:
        site = self.cut(0)
        self.assertEqual(site.accept(Statement(1, 0, "stock", Kind.LOWER, 4)), 0)
        self.assertEqual(site.share("stock"), Share(24, 30))


class ScarceTest(SiteTest):
    """No descriptor is free for a moment, as in a process that has very many connections."""

    def lacking(self, function: Callable[..., Any], times: int) -> Callable[..., Any]:
        """As this function, but so many times there is none for it."""
        left = [OSError(errno.EMFILE, os.strerror(errno.EMFILE)) for _ in range(times)]

        def calls(*words: Any, **options: Any) -> Any:
            if left:
                raise left.pop()
            return function(*words, **options)

        return calls

    def test_its_next_process_is_started_once_there_is_one(self) -> None:
        site = self.site(backoff=escrow.Backoff(0.01, 0.05))
        with unittest.mock.patch("subprocess.Popen", self.lacking(subprocess.Popen, 3)):
            kill(site)
            self.assertEqual(site.change("stock", -1, timeout=20.0), of_shop("2.1"))
        self.assertEqual((site.counts.starts, site.share("stock")), (2, Share(19, 31)))

    def test_it_is_tried_again_where_there_is_no_thread_for_it(self) -> None:
        site, start = self.site(backoff=escrow.Backoff(0.01, 0.05)), threading.Thread.start
        left = [RuntimeError("can't start new thread") for _ in range(2)]

        def starts(thread: threading.Thread) -> None:
            if thread.name == "escrow site errors" and left:
                raise left.pop()
            start(thread)

        with unittest.mock.patch.object(threading.Thread, "start", starts):
            kill(site)
            site.change("stock", -1, timeout=20.0)
        self.assertEqual((left, site.counts.starts, site.share("stock")), ([], 2, Share(19, 31)))

    def test_a_time_limit_ends_where_there_was_no_thread_for_one_before(self) -> None:
        site = self.site(held=None)
        no_thread = unittest.mock.patch.object(threading.Thread, "start", side_effect=RuntimeError("can't start new thread"))
        with no_thread, self.assertRaises(RuntimeError):
            site.transaction(seconds=0.05).lower("stock", 5)
        t = site.transaction(seconds=0.2)
        with contextlib.suppress(escrow.Over):  # it may come ahead of the answer
            t.lower("stock", 5)
        wait_until(lambda: t.state.value == "expired" and site.open == 0)
        self.assertEqual(site.share("stock"), Share(20, 30))
        site.close()

    def test_a_process_that_can_not_be_used_is_followed_by_another(self) -> None:
        site = self.site(backoff=escrow.Backoff(0.01, 0.05))
        with unittest.mock.patch("os.dup", self.lacking(os.dup, 2)):
            kill(site)
            self.assertEqual(site.change("stock", -1, timeout=20.0), of_shop("4.1"))
        self.assertEqual((site.counts.starts, site.share("stock")), (2, Share(19, 31)))


class ClientKilledTest(SiteTest):
    """The client itself is killed, and the next one starts at once on the same folder."""

    def test_what_was_sold_is_kept_and_the_rest_can_be_asked(self) -> None:
        folder, luck = self.folder(LARGE), random.Random(3)
        asked: set[str] = set()
        sold: set[str] = set()
        for _ in range(4):
            told = self.run_and_kill(folder, luck.uniform(0.1, 0.5))
            asked |= {id for word, id in told if word == "asks"}
            sold |= {id for word, id in told if word == "sold"}
        site = self.served(folder)
        outcomes = asyncio.run(self.outcomes(site, asked))
        site.close()
        kept = commits(folder, LARGE)
        self.assertGreater(len(sold), 4)
        self.assertEqual(sold - set(kept), set())
        self.assertEqual(set(kept) - asked, set())
        expected = {id: Outcome.COMMITTED if id in kept else Outcome.NOT_COMMITTED for id in asked}
        self.assertEqual(outcomes, expected)

    async def outcomes(self, site: escrow.Site, ids: set[str]) -> dict[str, Outcome]:
        """What became of these transactions."""
        shop = escrow.AsyncSite(site)
        told = await asyncio.gather(*(shop.outcome(id) for id in ids))
        return dict(zip(ids, told))

    def run_and_kill(self, folder: str, seconds: float) -> list[tuple[str, str]]:
        """What a client told that was killed so long after its second sale."""
        words = [sys.executable, "-S", SELLER, folder, escrow_site()]
        with subprocess.Popen(words, stdout=subprocess.PIPE, text=True) as client:
            assert client.stdout is not None
            first = client.stdout.readline().split()
            self.assertEqual(first[0], "stands")
            whole: list[str] = []
            while sum(it.startswith("sold ") for it in whole) < 2 and (line := client.stdout.readline()):
                whole.append(line)
            time.sleep(seconds)
            client.send_signal(signal.SIGKILL)
            whole += client.stdout.read().split("\n")[:-1]
        return [(line.split()[0], line.split()[1]) for line in whole]


class LimitTest(SiteTest):
    """Transactions with a time limit."""

    def test_what_was_set_aside_comes_back(self) -> None:
        site = self.site()
        t = site.transaction(1.0)
        t.lower("stock", 20)
        wait_until(lambda: site.open == 0)
        with self.assertRaises(escrow.Over) as raised:
            t.commit()
        self.assertIn("time was up", str(raised.exception))
        self.assertEqual(site.share("stock"), Share(20, 30))
        self.assertEqual(site.outcome(t.id), Outcome.NOT_COMMITTED)

    def test_it_ends_in_time(self) -> None:
        site = self.site()
        with site.transaction(3.0) as t:
            t.lower("stock", 3)
        time.sleep(3.1)
        self.assertEqual(site.outcome(t.id), Outcome.COMMITTED)
        self.assertEqual(site.share("stock"), Share(17, 33))

    def test_it_expires_before_its_begin_went_out_over_a_site_that_is_down(self) -> None:
        gate = self.gated()
        site = gate.site
        gate.stop()
        with self.assertRaises(escrow.Over):
            site.transaction(0.05).lower("stock", 3)  # told in time, not once the site stands
        gate.open()
        self.assertEqual(site.share("stock"), Share(20, 30))
        self.assertEqual((site.epoch, site.open, site.pipeline.begun), (2, 0, 0))

    def test_it_expires_before_its_begin_went_out_where_no_place_is_free(self) -> None:
        site = self.site(LARGE)
        held = [site.transaction() for _ in range(63)]
        for t in held:
            t.lower("stock", 1)
        with self.assertRaises(escrow.Over):
            site.transaction(0.05).lower("stock", 1)
        for t in held:
            t.abort()
        self.assertEqual((site.open, site.pipeline.begun), (0, 63))
        self.assertEqual(site.share("stock"), Share(500_000, 500_000))

    def test_a_task_that_is_cancelled_before_its_begin_went_out_leaves_nothing(self) -> None:
        gate = self.gated()

        async def holds(shop: escrow.AsyncSite) -> None:
            async with shop.transaction() as t:
                await t.lower("stock", 3)

        async def calls() -> None:
            shop = escrow.AsyncSite(gate.site)
            gate.stop()
            with self.assertRaises(asyncio.TimeoutError):
                await asyncio.wait_for(holds(shop), 0.05)
            gate.open()
            self.assertEqual(await shop.share("stock"), Share(20, 30))

        asyncio.run(calls())
        self.assertEqual((gate.site.epoch, gate.site.open, gate.site.pipeline.begun), (2, 0, 0))

    def test_limits_of_any_length_under_kills_leave_nothing(self) -> None:
        site = self.site(SHOP, backoff=escrow.Backoff(0.01, 0.1))
        killer, sold = Killer(site, 10, 0.1, seed=5), [0] * 6

        def reserves(place: int) -> None:
            luck = random.Random(place)
            while killer.at_work:
                try:
                    with site.transaction(luck.choice((0.0, 0.001, 0.005, 0.05))) as t:
                        t.lower("stock", 1)
                        t.raise_("stock", 1)
                    sold[place] += 1
                except (escrow.Over, escrow.Lost, escrow.Short):
                    pass

        threads = [threading.Thread(target=reserves, args=(place,)) for place in range(6)]
        with killer:
            for thread in threads:
                thread.start()
            for thread in threads:
                thread.join()
        wait_until(lambda: site.open == 0)
        self.assertEqual(site.share("stock"), Share(20, 30))
        site.close()
        self.assertEqual(len(commits(site.folder, SHOP)), sum(sold))


if __name__ == "__main__":
    unittest.main()
