"""How a site is begun and ended: two clients, closing, a log that is refused, a disk that is full, programs that answer wrongly."""

from __future__ import annotations

import asyncio
import os
import random
import signal
import subprocess
import sys
import threading
import time
import unittest
import unittest.mock

from programs import (
    LARGE,
    LONG,
    SHOP,
    Act,
    SiteTest,
    commits,
    escrow_site,
    is_ended,
    kill,
    makes_sums,
    of_large,
    of_shop,
    pid_of,
    records,
    wait_until,
)
import escrow
from escrow import Kind, Outcome, Share, Statement
from escrow.calls import Change, Kept
from escrow.metrics import Metrics, text_of
from escrow.waiters import ThreadWaiter

FAKE = os.path.join(os.path.dirname(os.path.abspath(__file__)), "fake_site.py")
ACCEPTED = Statement(1, 0, "stock", Kind.LOWER, 1)


async def accepts(site: escrow.Site) -> int:
    """Accepts a statement, in a task."""
    return await escrow.AsyncSite(site).accept(ACCEPTED)


class TwoTest(SiteTest):
    """Never two of one folder."""

    def test_a_second_site_is_refused_at_once(self) -> None:
        site = self.site()
        began = time.monotonic()
        with self.assertRaises(escrow.Down) as raised:
            escrow.Site(site.folder, program=escrow_site(), wait=2 * LONG)
        self.assertLess(time.monotonic() - began, LONG)
        self.assertEqual(raised.exception.status, 6)
        site.change("stock", -1)
        site.close()
        self.assertEqual(records(site.folder), [["R", "1"], ["C", "1", "1", "0", "-1"]])
        self.assertEqual(self.served(site.folder).epoch, 2)

    def test_a_site_that_a_program_serves_is_refused_after_a_while(self) -> None:
        folder = self.folder()
        pipe = subprocess.PIPE
        with subprocess.Popen([escrow_site(), "serve", folder], stdin=pipe, stdout=pipe) as other:
            assert other.stdout is not None and other.stdin is not None
            other.stdout.readline()
            with self.assertRaises(escrow.Down) as raised:
                escrow.Site(folder, program=escrow_site(), wait=3.0)  # in which it is tried once
            self.assertEqual(raised.exception.status, 6)
            self.assertIn("in use", str(raised.exception))
            other.stdin.close()
        self.assertEqual(self.served(folder).epoch, 2)

    def test_one_that_is_about_to_end_is_waited_for(self) -> None:
        folder = self.folder()
        with subprocess.Popen([escrow_site(), "serve", folder], stdin=subprocess.PIPE, stdout=subprocess.PIPE) as other:
            assert other.stdout is not None and other.stdin is not None
            other.stdout.readline()
            ends = threading.Timer(0.3, other.stdin.close)
            ends.start()
            self.assertEqual(self.served(folder).epoch, 2)
            ends.join()

    def test_a_fork_has_no_site(self) -> None:
        site = self.site()
        pid = pid_of(site)
        child = os.fork()
        if child == 0:
            try:
                site.change("stock", -1)
            except escrow.Down:
                site.close()  # it isn't the fork's to close
                time.sleep(600)
            os._exit(1)
        try:
            site.change("stock", -1)
            site.close(LONG)
            wait_until(lambda: is_ended(pid))
            self.assertEqual(site.last_status, 0)
            self.assertEqual(self.served(site.folder).epoch, 2)
            self.assertEqual(os.waitpid(child, os.WNOHANG), (0, 0))
        finally:
            os.kill(child, signal.SIGKILL)
            os.waitpid(child, 0)


class CloseTest(SiteTest):
    """A clean close."""

    def test_calls_that_were_asked_are_answered_and_others_are_told(self) -> None:
        site = self.site(LARGE)
        for _ in range(63):
            site.transaction().lower("stock", 1)
        told: list[str] = []

        def waits() -> None:
            try:
                site.transaction().lower("stock", 1)
            except escrow.Down as fault:
                told.append(str(fault))

        sold: list[str] = []

        async def sells(shop: escrow.AsyncSite) -> None:
            try:
                while True:
                    sold.append(await shop.change("stock", -2))
            except escrow.Down as fault:
                told.append(str(fault))

        async def closes() -> None:
            while not sold and len(told) == 0:
                await asyncio.sleep(0.01)
            await asyncio.sleep(0.3)
            site.close(LONG)

        async def calls() -> None:
            shop = escrow.AsyncSite(site)
            await asyncio.gather(closes(), *(sells(shop) for _ in range(32)))

        threads = [threading.Thread(target=waits) for _ in range(8)]
        for thread in threads:
            thread.start()
        wait_until(lambda: site.unanswered == 8)
        asyncio.run(calls())
        for thread in threads:
            thread.join()
        self.assertEqual(told, ["the site was closed"] * 40)
        self.assertEqual((site.last_status, site.pid), (0, None))
        self.assertEqual(commits(site.folder, LARGE), {id: (("stock", -2),) for id in sold})
        self.assertGreater(len(sold), 0)

    def test_a_closed_site_is_down(self) -> None:
        site = self.site()
        t = site.transaction()
        t.lower("stock", 1)
        site.close()
        site.close()
        calls: list[Act] = [t.commit, lambda: site.read("stock"), lambda: site.change("stock", -1), lambda: t.lower("stock", 1)]
        for call in calls:
            with self.assertRaises(escrow.Down):
                call()
        t.abort()
        self.assertEqual(records(site.folder), [["R", "1"]])

    def test_a_process_that_does_not_end_is_ended(self) -> None:
        site = self.site()
        pid = pid_of(site)
        told = self.interrupted(site, lambda: site.change("stock", -1), lambda: site.close(0.2))
        self.assertTrue(is_ended(pid))
        # It was asked, and isn't answered: nothing is guessed, and the next one can tell.
        self.assertEqual((type(told), told.id), (escrow.Unknown, of_shop("1.1")))
        self.assertEqual(self.served(site.folder).outcome(of_shop("1.1")), Outcome.NOT_COMMITTED)

    def test_what_was_asked_is_in_doubt_and_what_was_not_is_down(self) -> None:
        site = self.site()
        site.give(1, "stock", Kind.LOWER, 1)
        told = self.interrupted(site, lambda: site.give(1, "stock", Kind.LOWER, 1), lambda: site.close(0.1))
        self.assertEqual((type(told), told.id), (escrow.Unknown, None))
        site = self.served(site.folder)
        told = self.interrupted(site, lambda: site.accept(ACCEPTED), lambda: site.close(0.1))
        self.assertEqual((type(told), told.id), (escrow.Unknown, None))
        site = self.served(site.folder)
        told = self.interrupted(site, lambda: asyncio.run(accepts(site)), lambda: site.close(0.1))
        self.assertEqual((type(told), told.id), (escrow.Unknown, None))
        site = self.served(site.folder)
        told = self.interrupted(site, lambda: site.read("stock"), lambda: site.close(0.1))
        self.assertEqual(type(told), escrow.Down)

    def test_a_call_that_comes_as_it_is_closed_is_answered(self) -> None:
        site = self.site()
        call = Kept(of_shop("1.1"), "1.1")
        waiter = call.waiter = ThreadWaiter()
        with self.assertRaises(ValueError):
            site.outcome(of_shop("1.1"))
        site.change("stock", -1)
        site.pipeline.submit((call,))
        closes = threading.Thread(target=site.close, args=(LONG,))
        closes.start()
        wait_until(lambda: site.pipeline.dead)
        site.pipeline.flush()
        closes.join(LONG)
        self.assertFalse(closes.is_alive())
        self.assertEqual((waiter.wait(), site.last_status), (Outcome.COMMITTED, 0))

    def test_lines_of_one_that_comes_as_the_input_is_ended_go_out_ahead(self) -> None:
        """It finds another one at the pipe, who ends its input, and leaves that one its lines."""
        site, came = self.site(), threading.Event()
        call = Kept(of_shop("1.1"), "1.1")
        waiter = call.waiter = ThreadWaiter()
        site.change("stock", -1)
        site.pipeline.submit((call,))
        site.pipeline.die(escrow.Down("the site was closed"))
        finish = site.pipeline.finish

        def finishes() -> None:
            came.set()
            finish()

        with unittest.mock.patch.object(site.pipeline, "finish", finishes):
            asks = threading.Thread(target=site.pipeline.flush)
            with site.pipeline._writing:
                asks.start()
                self.assertTrue(came.wait(20))  # it has found the pipe in use
            asks.join()
        self.assertTrue(waiter.comes(20))
        self.assertIs(waiter.wait(), Outcome.COMMITTED)
        wait_until(lambda: site.last_status is not None)
        self.assertEqual(site.last_status, 0)

    def test_nothing_is_open_behind_its_end(self) -> None:
        site = self.site()
        for _ in range(2):
            site.transaction().lower("stock", 1)
        self.assertEqual(site.open, 2)
        site.close()
        self.assertEqual((site.open, site.unanswered), (0, 0))

    def test_the_last_client_to_go_takes_the_process_along(self) -> None:
        lines = f"import programs, escrow, os\ns = escrow.Site({self.folder()!r}, {escrow_site()!r})\nos.write(1, b'%d' % s.pid)\n"
        here = os.path.dirname(FAKE)
        told = subprocess.run([sys.executable, "-S", "-c", lines], cwd=here, capture_output=True, check=True, timeout=LONG).stdout
        wait_until(lambda: is_ended(int(told)))


class PipeTest(SiteTest):
    """More lines than the pipe takes."""

    def test_a_loop_is_not_held_up_by_a_full_pipe(self) -> None:
        site = self.site(LARGE, sync=False)
        pid, many = pid_of(site), 4000  # some 200,000 bytes of lines

        async def calls() -> list[str]:
            shop = escrow.AsyncSite(site)
            os.kill(pid, signal.SIGSTOP)
            asked = [asyncio.create_task(shop.change("stock", -1)) for _ in range(many)]
            for _ in range(20):
                await asyncio.sleep(0.01)
            self.assertEqual(site.unanswered, many)
            os.kill(pid, signal.SIGCONT)
            return await asyncio.gather(*asked)

        self.assertEqual(asyncio.run(calls()), [of_large(f"1.{number}") for number in range(1, many + 1)])
        site.close()
        self.assertEqual(len(commits(site.folder, LARGE)), many)

    def test_lines_keep_their_order_where_the_pipe_takes_a_part(self) -> None:
        site, write = self.site(), os.write
        calls = [Change(), Change()]
        for call, change in zip(calls, (-1, -2)):
            call.shape, call.waiter = site.pipeline.shape("stock", change), ThreadWaiter()
        later = [calls[1]]

        def takes_a_part(to: int, piece: bytes) -> int:
            if not later:
                return write(to, piece)
            site.pipeline.submit((later.pop(),))  # it comes while the first is being written
            return write(to, piece[:5])

        with unittest.mock.patch("os.write", takes_a_part):
            site.pipeline.submit(calls[:1])
            site.pipeline.flush()
            for call in calls:
                assert isinstance(call.waiter, ThreadWaiter)
                call.waiter.wait()
        site.close()
        self.assertEqual(commits(site.folder, SHOP), {of_shop("1.1"): (("stock", -1),), of_shop("1.2"): (("stock", -2),)})

    def test_it_is_closed_over_a_full_pipe(self) -> None:
        site = self.site(LARGE, sync=False)
        pid, many = pid_of(site), 4000

        async def calls() -> list[str]:
            shop = escrow.AsyncSite(site)
            os.kill(pid, signal.SIGSTOP)
            asked = [asyncio.create_task(shop.change("stock", -1)) for _ in range(many)]
            await asyncio.sleep(0.05)
            asyncio.get_running_loop().call_later(0.1, os.kill, pid, signal.SIGCONT)
            await asyncio.to_thread(site.close, LONG)
            return await asyncio.gather(*asked)

        self.assertEqual(len(asyncio.run(calls())), many)
        self.assertEqual(site.last_status, 0)
        self.assertEqual(len(commits(site.folder, LARGE)), many)


class RefusedTest(SiteTest):
    """A folder, a log or a disk that the program refuses."""

    def damaged(self, folder: str) -> None:
        """Another hand writes to the log."""
        with open(f"{folder}/log", "ab") as file:
            file.write(b"C 1 1 0 -1 and more\n")

    def test_a_damaged_log(self) -> None:
        site = self.site()
        site.change("stock", -1)
        site.close()
        self.damaged(site.folder)
        with self.assertRaises(escrow.Down) as raised:
            escrow.Site(site.folder, program=escrow_site())
        self.assertEqual((str(raised.exception), raised.exception.status), (self.told(site.folder), 3))

    def test_a_log_that_is_damaged_while_the_site_is_served(self) -> None:
        site = self.site()
        t = site.transaction()
        t.lower("stock", 1)
        self.damaged(site.folder)
        told = self.interrupted(site, t.commit, lambda: kill(site))
        self.assertEqual((type(told), told.id), (escrow.Unknown, t.id))
        calls: list[Act] = [lambda: site.read("stock"), lambda: site.change("stock", -1)]
        for call in calls:
            with self.assertRaises(escrow.Down) as down:
                call()
            self.assertEqual(down.exception.status, 3)

    def flip(self, folder: str, record: bytes) -> None:
        """One bit of the first byte of a record is another one on the disk."""
        with open(f"{folder}/log", "r+b") as file:
            text = file.read()
            at = text.index(record)
            file.seek(at)
            file.write(bytes([text[at] ^ 1]))

    def told(self, folder: str) -> str:
        """What the program itself tells of it."""
        ran = subprocess.run([escrow_site(), "serve", folder], input="", capture_output=True, text=True, check=False)
        self.assertEqual((ran.returncode, ran.stdout), (3, ""))
        self.assertIn(f"{folder}/log: ", ran.stderr)
        return ran.stderr.strip()

    def test_a_flipped_bit_is_told_in_the_words_of_the_program(self) -> None:
        """And nothing is served, nor tried again; the log stays as it is."""
        site, metrics = self.site(LARGE), Metrics(0)
        for _ in range(5):
            site.change("stock", -1)
        site.close()
        self.flip(site.folder, b"C 1 3 0 -1\n")
        with open(f"{site.folder}/log", "rb") as file:
            before = file.read()
        with self.assertRaises(escrow.Down) as raised:
            escrow.Site(site.folder, program=escrow_site(), metrics=metrics)
        self.assertEqual((str(raised.exception), raised.exception.status), (self.told(site.folder), 3))
        time.sleep(0.5)
        stops = [line for line in text_of([metrics]).split("\n") if line.startswith("escrow_stops_total") and line[-1] != "0"]
        self.assertEqual(stops, ['escrow_stops_total{site="0",status="3"} 1'])
        with open(f"{site.folder}/log", "rb") as file:
            self.assertEqual(file.read(), before)

    @unittest.skipUnless(makes_sums(), "the program makes logs without sums")
    def test_any_flipped_bit_of_a_log_with_sums(self) -> None:
        """Of its head, its batches and their sums."""
        site, dice = self.site(LARGE), random.Random(11)
        for _ in range(5):
            site.change("stock", -1)
        site.close()
        with open(f"{site.folder}/log", "rb") as file:
            text = file.read()
        for bit in dice.sample(range(8 * len(text)), 24):
            with open(f"{site.folder}/log", "wb") as file:
                file.write(text[: bit // 8] + bytes([text[bit // 8] ^ 1 << bit % 8]) + text[bit // 8 + 1 :])
            with self.assertRaises(escrow.Down) as raised:
                escrow.Site(site.folder, program=escrow_site())
            self.assertEqual(raised.exception.status, 3)
            self.assertRegex(str(raised.exception), "/log: (line [0-9]+: the batch that begins there is damaged|isn't the log of this site)")
        with open(f"{site.folder}/log", "wb") as file:
            file.write(text)
        self.assertEqual(self.served(site.folder).share("stock").lower, 500_000 - 5)

    def test_a_bit_that_flips_while_the_site_is_served_ends_it_at_its_next_start(self) -> None:
        site = self.site(LARGE)
        for _ in range(5):
            site.change("stock", -1)
        self.flip(site.folder, b"C 1 3 0 -1\n")
        site.change("stock", -1)  # the process has read its log, and goes on
        pid = pid_of(site)
        kill(site)
        wait_until(lambda: is_ended(pid) and not site.up)
        for _ in range(3):
            with self.assertRaises(escrow.Down) as down:
                site.change("stock", -1)
            self.assertEqual((str(down.exception), down.exception.status), (self.told(site.folder), 3))
        time.sleep(0.5)
        self.assertEqual((site.counts.starts, site.counts.stops, site.pid), (1, 2, None))

    def test_a_folder_that_is_none(self) -> None:
        with self.assertRaises(escrow.Down) as raised:
            escrow.Site(self.place, program=escrow_site())
        self.assertEqual(raised.exception.status, 3)
        folder = self.folder()
        with open(f"{folder}/site", "a", encoding="ascii") as file:
            file.write("more\n")
        with self.assertRaises(escrow.Down) as raised:
            escrow.Site(folder, program=escrow_site())
        self.assertEqual(raised.exception.status, 3)

    def test_a_program_that_is_none(self) -> None:
        with self.assertRaises(escrow.Down) as raised:
            escrow.Site(self.folder(), program=f"{self.place}/nothing")
        self.assertEqual(raised.exception.status, 2)

    def test_a_disk_that_is_full(self) -> None:
        program = os.path.join(self.place, "small")
        with open(program, "w", encoding="ascii") as file:
            # Files of at most 1,024 bytes.
            file.write(f"#!/bin/sh\ntrap '' XFSZ\nulimit -f 2\nexec {escrow_site()!r} \"$@\"\n")
        os.chmod(program, 0o755)
        folder = self.folder(LARGE)
        subprocess.run([escrow_site(), "show", folder], check=True, capture_output=True)
        site = escrow.Site(folder, program=program)
        self.addCleanup(site.close)
        sold: list[str] = []
        with self.assertRaises(escrow.Unknown) as raised:
            for _ in range(200):
                sold.append(site.change("stock", -1))
        with self.assertRaises(escrow.Down) as down:
            site.read("stock")
        self.assertEqual((down.exception.status, site.counts.stops), (5, 1))
        site.close()
        # There is room again: all that was answered is there, and what wasn't is told.
        doubt = raised.exception.id
        assert doubt is not None
        again = self.served(folder)
        self.assertEqual({again.outcome(id) for id in sold}, {Outcome.COMMITTED})
        self.assertEqual(again.outcome(doubt), Outcome.NOT_COMMITTED)
        self.assertEqual(again.share("stock"), Share(500_000 - len(sold), 500_000 + len(sold)))


class PatienceTest(SiteTest):
    """A site that doesn't stand for long."""

    def test_calls_are_told_and_the_site_goes_on(self) -> None:
        gate = self.gated(patience=0.3)
        site = gate.site
        t = site.transaction()
        t.lower("stock", 3)
        told = self.interrupted(site, t.commit, gate.stop)
        self.assertEqual((type(told), told.id), (escrow.Unknown, t.id))
        with self.assertRaises(escrow.Down):
            site.change("stock", -1)
        gate.open()
        wait_until(lambda: site.up)
        self.assertEqual(site.outcome(t.id), Outcome.NOT_COMMITTED)
        self.assertEqual(site.change("stock", -1), of_shop("2.1"))


class FakeTest(SiteTest):
    """Programs that answer as the real one never does."""

    def program(self, how: str) -> str:
        """A program that answers so."""
        path = os.path.join(self.place, how)
        os.symlink(FAKE, path)
        return path

    def test_another_version_is_refused(self) -> None:
        for how, told in (("version", "the program is newer than this client"), ("other", "isn't one that this client knows")):
            with self.assertRaises(escrow.Down) as raised:
                escrow.Site(self.folder(name=f"shop-{how}"), program=self.program(how))
            self.assertIn(told, str(raised.exception))

    def test_a_program_that_is_never_ready(self) -> None:
        with self.assertRaises(escrow.Down):
            escrow.Site(self.folder(), program=self.program("silence"), wait=0.3)

    def test_answers_that_fit_no_line_end_the_process(self) -> None:
        site = escrow.Site(self.folder(), program=self.program("misfit"), backoff=escrow.Backoff(0.02, 0.05), patience=0.5)
        self.addCleanup(site.close)
        with self.assertRaises(escrow.Unknown):
            site.change("stock", -1)
        self.assertIn("doesn't answer", site.last_error)

    def test_a_begin_that_is_refused_commits_nothing(self) -> None:
        site = escrow.Site(self.folder(), program=self.program("full"))
        self.addCleanup(site.close)
        with self.assertRaises(escrow.Refused) as raised:
            site.change("stock", -1)
        self.assertEqual(raised.exception.number, escrow.Refusal.NUMBERS_FULL)
        with self.assertRaises(escrow.Refused):
            site.transaction().lower("stock", 1)


class WatchTest(SiteTest):
    """What is counted."""

    def test_numbers_to_watch(self) -> None:
        metrics = Metrics(0)
        site = self.site(metrics=metrics)
        for _ in range(3):
            site.change("stock", -1)
        with self.assertRaises(escrow.Short):
            site.change("stock", -50)
        site.give(1, "stock", Kind.LOWER, 1)
        site.share("seats")
        t = site.transaction()
        t.lower("stock", 1)
        kill(site)
        wait_until(lambda: site.up and site.epoch == 2)
        with self.assertRaises(escrow.Over):
            t.commit()
        site.read("stock")
        site.close()
        told = text_of([metrics])
        for line in (
            'escrow_answers_total{site="0",command="change"} 4',
            'escrow_answers_total{site="0",command="escrow"} 1',
            'escrow_answers_total{site="0",command="give"} 1',
            'escrow_refusals_total{site="0",command="change",number="7",reason="short"} 1',
            'escrow_share_rights{site="0",field="stock",kind="lower"} 17',
            'escrow_share_rights{site="0",field="seats",kind="lower"} 6',
            'escrow_share_rights{site="0",field="seats",kind="raise"} 0',
            'escrow_missed_total{site="0",outcome="over"} 1',
            'escrow_starts_total{site="0"} 2',
            'escrow_stops_total{site="0",status="-9"} 1',
            'escrow_stops_total{site="0",status="0"} 1',
            'escrow_epoch{site="0"} 2',
            'escrow_up{site="0"} 0',
        ):
            self.assertIn(line + "\n", told)
        self.assertEqual((site.counts.starts, site.counts.stops), (2, 2))


if __name__ == "__main__":
    unittest.main()
