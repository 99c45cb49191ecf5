"""`change(before=)`: the caller knows the id ahead of the commit, and nothing is committed under another."""

from __future__ import annotations

import asyncio
import os
import random
import signal
import subprocess
import sys
import threading
import time
import unittest

from programs import LARGE, SHOP, Killer, SiteTest, commits, escrow_site, is_ended, kill, of_shop, pid_of, records, wait_until
from test_site_stops import CUT
import escrow
from escrow import Outcome, Share

KILLS = 30
SELLER = """
import os, sys, threading
import programs, escrow
site = escrow.Site(sys.argv[1], program=sys.argv[2], wait=60.0)
def tell(word, what):
    os.write(1, f"{word} {what}\\n".encode())
def sell():
    while True:
        tell("sold", site.change("stock", -1, before=lambda id: tell("asks", id)))
tell("stands", site.pid)
threads = [threading.Thread(target=sell, daemon=True) for _ in range(4)]
for thread in threads: thread.start()
threads[0].join()
"""
"""A client that writes each id down before it is committed, and again once it was answered."""


class Slip(Exception):
    """The caller's own books can't be written."""


def slips(id: str) -> None:
    """Can't write it down."""
    raise Slip(id)


class BeforeTest(SiteTest):
    """Threads."""

    def test_it_is_told_ahead_of_the_commit(self) -> None:
        site, told = self.site(), []  # type: escrow.Site, list[object]

        def before(id: str) -> None:
            told.extend((id, site.outcome(id), site.share("stock"), len(records(site.folder))))

        self.assertEqual(site.change("stock", -3, before=before), of_shop("1.1"))
        self.assertEqual(told, [of_shop("1.1"), Outcome.OPEN, Share(17, 30), 1])  # of the log the start alone
        self.assertEqual(site.outcome(of_shop("1.1")), Outcome.COMMITTED)
        self.assertEqual((site.share("stock"), site.open), (Share(17, 33), 0))
        site.close()
        self.assertEqual(commits(site.folder, SHOP), {of_shop("1.1"): (("stock", -3),)})

    def test_others_that_begin_in_between_have_ids_of_their_own(self) -> None:
        site, told = self.site(), []  # type: escrow.Site, list[str]

        def before(id: str) -> None:
            told.append(id)
            told.append(site.change("stock", -2))

        self.assertEqual(site.change("stock", -3, before=before), of_shop("1.1"))
        self.assertEqual(told, [of_shop("1.1"), of_shop("1.2")])
        site.close()
        self.assertEqual(commits(site.folder, SHOP), {of_shop("1.1"): (("stock", -3),), of_shop("1.2"): (("stock", -2),)})

    def test_what_it_raises_comes_through_and_nothing_stays(self) -> None:
        site = self.site()
        with self.assertRaises(Slip) as raised:
            site.change("stock", -3, before=slips)
        self.assertEqual(str(raised.exception), of_shop("1.1"))
        self.assertEqual((site.open, site.outcome(of_shop("1.1"))), (0, Outcome.NOT_COMMITTED))
        self.assertEqual((site.share("stock"), records(site.folder)), (Share(20, 30), [["R", "1"]]))

    def test_faults_of_the_client_that_it_raises_come_through_too(self) -> None:
        """As of a transaction that it ends: they aren't taken for those of this one, which would be begun anew."""
        site, faults = self.site(), (escrow.Over("its own"), escrow.Lost("its own"), escrow.Unknown("its own", of_shop("7.1")))
        for fault in faults:

            def before(_: str, fault: Exception = fault) -> None:
                raise fault

            with self.assertRaises(type(fault)) as raised:
                site.change("stock", -3, before=before)
            self.assertIs(raised.exception, fault)
        self.assertEqual((site.open, site.share("stock"), site.pipeline.begun), (0, Share(20, 30), 3))

    def test_what_is_refused_is_not_told(self) -> None:
        site, told = self.site(), []  # type: escrow.Site, list[str]
        for field, change, refusal in (("stock", -21, escrow.Refusal.SHORT), ("stock", 0, escrow.Refusal.ZERO),
                                       ("chairs", -1, escrow.Refusal.NO_FIELD)):  # fmt: skip
            with self.assertRaises(escrow.Refused) as raised:
                site.change(field, change, before=told.append)
            self.assertEqual(raised.exception.number, refusal)
        self.assertEqual((told, site.open, site.share("stock")), ([], 0, Share(20, 30)))

    def test_what_would_have_to_be_awaited_is_refused(self) -> None:
        site = self.site()

        class Later:
            """As what an `async def` returns."""

            def __await__(self) -> object:
                raise AssertionError

        with self.assertRaises(TypeError):
            site.change("stock", -3, before=lambda _: Later())
        self.assertEqual((site.open, site.share("stock")), (0, Share(20, 30)))

    def test_a_closed_site(self) -> None:
        site, told = self.site(), []  # type: escrow.Site, list[str]
        site.close()
        with self.assertRaises(escrow.Down):
            site.change("stock", -3, before=told.append)
        self.assertEqual(told, [])


class StoppedTest(SiteTest):
    """The process is stopped around it."""

    def test_a_stop_ahead_of_the_commit_is_told_as_another_id(self) -> None:
        site, told = self.site(), []  # type: escrow.Site, list[str]

        def before(id: str) -> None:
            told.append(id)
            if len(told) < 3:
                pid = pid_of(site)
                kill(site)
                wait_until(lambda: is_ended(pid))
                if len(told) == 1:  # the first commit finds no process, the second the next one
                    wait_until(lambda: site.up and site.epoch == 2)

        self.assertEqual(site.change("stock", -3, before=before), of_shop("3.1"))
        self.assertEqual(told, [of_shop("1.1"), of_shop("2.1"), of_shop("3.1")])
        self.assertEqual([site.outcome(id) for id in told], [Outcome.NOT_COMMITTED] * 2 + [Outcome.COMMITTED])
        site.close()
        self.assertEqual(commits(site.folder, SHOP), {of_shop("3.1"): (("stock", -3),)})

    def cut(self) -> escrow.Site:
        """A site whose first process is heard for begin and escrow, and not for the commit, which is in its log."""
        program, first = os.path.join(self.place, "cut"), os.path.join(self.place, "first")
        with open(program, "w", encoding="ascii") as file:
            file.write(CUT.format(real=escrow_site(), first=first, lines=4))
        os.chmod(program, 0o755)
        with open(first, "w", encoding="ascii"):
            pass
        site = escrow.Site(self.folder(), program=program)
        self.addCleanup(site.close)
        return site

    def test_a_stop_behind_the_commit_is_not_seen(self) -> None:
        site, told = self.cut(), []  # type: escrow.Site, list[str]
        self.assertEqual(site.change("stock", -3, before=told.append), of_shop("1.1"))
        self.assertEqual((told, site.epoch), ([of_shop("1.1")], 2))
        site.close()
        self.assertEqual(commits(site.folder, SHOP), {of_shop("1.1"): (("stock", -3),)})

    def test_a_task_does_not_see_it_either(self) -> None:
        site, told = self.cut(), []  # type: escrow.Site, list[str]

        async def sells() -> str:
            return await escrow.AsyncSite(site).change("stock", -3, before=told.append)

        self.assertEqual(asyncio.run(sells()), of_shop("1.1"))
        self.assertEqual((told, site.epoch), ([of_shop("1.1")], 2))
        site.close()
        self.assertEqual(commits(site.folder, SHOP), {of_shop("1.1"): (("stock", -3),)})

    def test_kills_under_threads_and_tasks(self) -> None:
        """Of the ids that a call told, the last one is committed, and no other: each change once."""
        site = self.site(LARGE, backoff=escrow.Backoff(0.01, 0.1), patience=60.0)
        killer, sold = Killer(site, KILLS, 0.08, seed=11), []  # type: Killer, list[list[str]]

        def sells(seed: int) -> None:
            luck = random.Random(seed)
            while killer.at_work:
                told: list[str] = []

                def before(id: str, told: list[str] = told) -> None:
                    told.append(id)
                    time.sleep(luck.uniform(0.0, 0.02))

                self.assertEqual(site.change("stock", -1, before=before), told[-1])
                sold.append(told)

        async def task_sells(shop: escrow.AsyncSite, seed: int) -> None:
            luck = random.Random(seed)
            while killer.at_work:
                told: list[str] = []

                async def before(id: str, told: list[str] = told) -> None:
                    told.append(id)
                    await asyncio.sleep(luck.uniform(0.0, 0.02))

                self.assertEqual(await shop.change("stock", -1, before=before), told[-1])
                sold.append(told)

        async def tasks() -> None:
            shop = escrow.AsyncSite(site)
            await asyncio.gather(*(task_sells(shop, 100 + seed) for seed in range(4)))

        threads = [threading.Thread(target=sells, args=(seed,)) for seed in range(4)]
        with killer:
            for thread in threads:
                thread.start()
            asyncio.run(tasks())
            for thread in threads:
                thread.join()
        self.assertEqual((site.share("stock").lower, site.open), (500_000 - len(sold), 0))
        site.close()
        self.assertEqual(set(commits(site.folder, LARGE)), {told[-1] for told in sold})
        self.assertGreater(sum(len(told) > 1 for told in sold), 0)

    def test_a_client_that_is_killed_knows_its_ids(self) -> None:
        folder, luck = self.folder(LARGE), random.Random(5)
        asked: set[str] = set()
        sold: set[str] = set()
        for _ in range(4):
            told = self.run_and_kill(folder, luck.uniform(0.1, 0.4))
            asked |= {id for word, id in told if word == "asks"}
            sold |= {id for word, id in told if word == "sold"}
        site = self.served(folder)
        outcomes = {id: site.outcome(id) for id in asked}
        site.close()
        kept = set(commits(folder, LARGE))
        self.assertGreater(len(sold), 4)
        self.assertEqual((sold - kept, kept - asked), (set(), set()))
        self.assertEqual({id for id, outcome in outcomes.items() if outcome is Outcome.COMMITTED}, kept)

    def run_and_kill(self, folder: str, seconds: float) -> list[list[str]]:
        """What a client told that was killed so long after its second sale."""
        words = [sys.executable, "-S", "-c", SELLER, folder, escrow_site()]
        here = os.path.dirname(os.path.abspath(__file__))
        with subprocess.Popen(words, stdout=subprocess.PIPE, text=True, cwd=here) as client:
            assert client.stdout is not None
            self.assertEqual(client.stdout.readline().split()[0], "stands")
            lines: list[str] = []
            while sum(it.startswith("sold ") for it in lines) < 2 and (line := client.stdout.readline()):
                lines.append(line)
            time.sleep(seconds)
            client.send_signal(signal.SIGKILL)
            lines += client.stdout.read().split("\n")[:-1]
            return [line.split() for line in lines]


class TaskTest(SiteTest):
    """Tasks."""

    def test_what_it_returns_is_awaited(self) -> None:
        site, told = self.site(), []  # type: escrow.Site, list[object]

        async def sells() -> list[str]:
            shop = escrow.AsyncSite(site)

            async def before(id: str) -> None:
                await asyncio.sleep(0.01)
                told.extend((id, await shop.outcome(id)))

            first = await shop.change("stock", -3, before=before)
            return [first, await shop.change("stock", -2, before=told.append)]

        self.assertEqual(asyncio.run(sells()), [of_shop("1.1"), of_shop("1.2")])
        self.assertEqual(told, [of_shop("1.1"), Outcome.OPEN, of_shop("1.2")])
        site.close()
        self.assertEqual(commits(site.folder, SHOP), {of_shop("1.1"): (("stock", -3),), of_shop("1.2"): (("stock", -2),)})

    def test_what_it_raises_and_a_cancelled_task_leave_nothing(self) -> None:
        site, told = self.site(), []  # type: escrow.Site, list[str]

        async def before(id: str) -> None:
            told.append(id)
            await asyncio.sleep(600)

        async def calls() -> None:
            shop = escrow.AsyncSite(site)
            with self.assertRaises(Slip):
                await shop.change("stock", -3, before=slips)
            sale = asyncio.create_task(shop.change("stock", -3, before=before))
            while not told and not sale.done():
                await asyncio.sleep(0.01)
            with self.assertRaises(asyncio.TimeoutError):
                await asyncio.wait_for(sale, 0.01)
            with self.assertRaises(escrow.Short):
                await shop.change("stock", -21, before=before)

        asyncio.run(calls())
        self.assertEqual(told, [of_shop("1.2")])
        self.assertEqual((site.open, site.share("stock"), records(site.folder)), (0, Share(20, 30), [["R", "1"]]))


if __name__ == "__main__":
    unittest.main()
