"""Tests of the module, over the real library: python3 -m escrow_native.tests. It tells how fast it is, too."""

from __future__ import annotations

import os
import tempfile
import threading
import time
import unittest
from collections.abc import Callable

import escrow

from . import Fault, Site, create

WORLD = '{"sites":2,"fields":[{"name":"stock","floor":0,"ceiling":100,"value":40}]}'
WIDE = '{"sites":1,"fields":[{"name":"stock","floor":0,"ceiling":1000000,"value":500000}]}'


class SiteTests(unittest.TestCase):
    def setUp(self) -> None:
        folder = tempfile.TemporaryDirectory()
        self.addCleanup(folder.cleanup)
        self.folder = folder.name
        self.log = self.new_log("shop0.log")

    def path(self, name: str) -> str:
        return os.path.join(self.folder, name)

    def new_log(self, name: str) -> str:
        create(self.path(name))
        return self.path(name)

    def bytes_of_log(self) -> bytes:
        with open(self.log, "rb") as file:
            return file.read()

    def test_a_transaction_is_in_the_file_once_it_is_committed(self) -> None:
        with Site(WORLD, 0, self.log) as site:
            with site.transaction() as t:
                t.lower("stock", 3)
                self.assertEqual(self.bytes_of_log(), b"R 1\n")
            self.assertEqual(t.id, "1.1")
            self.assertEqual(self.bytes_of_log(), b"R 1\nC 1 1 0 -3\n")
            self.assertEqual(site.read("stock"), escrow.Interval(lo=17, hi=67))
            self.assertEqual(site.share("stock"), escrow.Share(lower=17, raise_=33))

    def test_a_stop_inside_a_record_is_cut_off(self) -> None:
        with Site(WORLD, 0, self.log) as site:
            site.change("stock", -20)
        with open(self.log, "ab") as file:
            file.write(b"C 1 9")
        with Site(WORLD, 0, self.log) as site:
            self.assertEqual((site.epoch, self.bytes_of_log()), (2, b"R 1\nC 1 1 0 -20\nR 2\n"))
            self.assertEqual(site.share("stock"), escrow.Share(lower=0, raise_=50))

    def test_refusals_are_those_of_a_served_site(self) -> None:
        with Site(WORLD, 0, self.log) as site:
            with self.assertRaises(escrow.Short) as short, site.transaction() as t:
                t.lower("stock", 21)
            told = short.exception
            self.assertEqual((told.share, told.field, told.kind), (20, "stock", escrow.Kind.LOWER))
            with self.assertRaises(escrow.Over):
                t.commit()
            with self.assertRaises(escrow.NothingGiven):
                site.restate(1, "stock", escrow.Kind.LOWER)
            with self.assertRaises(escrow.Refused) as refused:
                site.read("seats")
            self.assertEqual(refused.exception.number, escrow.Refusal.NO_FIELD)

    def test_a_number_that_has_no_room_is_no_other_number(self) -> None:
        for number in (-1, 65536):
            self.assertRaises(ValueError, Site, WORLD, number, self.log)
        with Site(WORLD, 0, self.log) as site, site.transaction() as t:
            for change in (2**64 - 7, 2**63, -2**63 - 1):
                self.assertRaises(ValueError, t.change, "stock", change)
            for amount in (-1, 2**64):
                self.assertRaises(ValueError, t.lower, "stock", amount)
                self.assertRaises(ValueError, t.raise_, "stock", amount)
                self.assertRaises(ValueError, site.give, 1, "stock", escrow.Kind.LOWER, amount)
                self.assertRaises(ValueError, site.spare, 1, "stock", escrow.Kind.LOWER, amount)
                self.assertRaises(ValueError, site.tighten, "stock", escrow.Kind.LOWER, amount)
            self.assertRaises(ValueError, site.give, 65537, "stock", escrow.Kind.LOWER, 1)
            self.assertRaises(ValueError, site.restate, 65537, "stock", escrow.Kind.LOWER)
            self.assertRaises(ValueError, site.accept, escrow.Statement(65537, 0, "stock", escrow.Kind.LOWER, 1))
        self.assertEqual(self.bytes_of_log(), b"R 1\n")

    def test_a_fork_does_not_have_the_site(self) -> None:
        """Both would sell the same: nothing is asked there, and what it closes is its own descriptor."""
        with Site(WORLD, 0, self.log) as site:
            with site._lock:                                # as where another thread asks while it is forked
                child = os.fork()
                if child == 0:
                    os._exit(self.asked_in_a_fork(site))
            self.assertEqual(os.waitstatus_to_exitcode(os.waitpid(child, 0)[1]), 7)
            site.change("stock", -1)
            self.assertRaises(BlockingIOError, Site, WORLD, 0, self.log)
        self.assertEqual(self.bytes_of_log(), b"R 1\nC 1 1 0 -1\n")

    @staticmethod
    def asked_in_a_fork(site: Site) -> int:
        refused = 0
        calls: tuple[Callable[[], object], ...] = (
            lambda: site.change("stock", -1), lambda: site.tell("0 read stock"), lambda: site.read("stock"),
        )  # fmt: skip
        for call in calls:
            try:
                call()
            except Fault as fault:
                refused += "fork" in str(fault)
        site.close()
        return refused + 4

    def test_who_closes_waits_for_the_calls(self) -> None:
        """All that the log has was told, whenever another thread closes the site."""
        for number in range(20):
            told: list[str] = []
            log = self.new_log(f"closed{number}.log")
            site = Site(WIDE, 0, log, sync=False)

            def sell() -> None:
                try:
                    while True:
                        told.append(site.change("stock", -1))
                except Fault as fault:
                    self.assertEqual(str(fault), "the site is closed: open it anew")

            threads = [threading.Thread(target=sell) for _ in range(4)]
            for thread in threads:
                thread.start()
            time.sleep(0.005)
            site.close()
            for thread in threads:
                thread.join()
            with open(log, encoding="ascii") as file:
                self.assertEqual(len([line for line in file if line.startswith("C")]), len(told))

    def test_rights_go_from_site_to_site(self) -> None:
        with Site(WORLD, 0, self.log) as one, Site(WORLD, 1, self.new_log("shop1.log")) as other:
            told = other.give(0, "stock", escrow.Kind.LOWER, 7)
            self.assertEqual(told, escrow.Statement(1, 0, "stock", escrow.Kind.LOWER, 7))
            self.assertEqual((one.accept(told), one.accept(told)), (7, 0))
            spared = one.spare(1, "stock", escrow.Kind.LOWER, 100)
            self.assertEqual((spared.amount, other.accept(spared.statement)), (14, 14))
            self.assertEqual(one.restate(1, "stock", escrow.Kind.LOWER).total, 14)
            self.assertEqual(one.tighten("stock", escrow.Kind.RAISE, 2), 2)
            with self.assertRaises(escrow.Forged):
                one.accept(escrow.Statement(1, 0, "stock", escrow.Kind.LOWER, 1000))

    def test_lines_are_told_as_entries(self) -> None:
        with Site(WORLD, 0, self.log) as site:
            self.assertEqual(site.tell("0 begin"), "0 begin -> begun 1.1")
            for line, status in (("1 begin", 9), ("0 sell", 8), ("0 begin\n", 7), ("a" * 257, 7)):
                with self.assertRaises(Fault) as fault:
                    site.tell(line)
                self.assertEqual(fault.exception.status, status)
        with self.assertRaises(Fault) as closed:
            site.tell("0 begin")
        self.assertEqual(closed.exception.status, 2)

    def test_what_isnt_opened(self) -> None:
        with open(self.log, "wb") as file:
            file.write(b"C 0 1 0 -20\nC 0 2 0 -20\n")
        for world, number, status, line in ((WORLD, 0, 6, 2), (WORLD, 2, 5, 0), ('{"sites":1,"fields":[]}', 0, 4, 0)):
            with self.assertRaises(Fault) as fault:
                Site(world, number, self.log)
            self.assertEqual((fault.exception.status, fault.exception.line), (status, line))
        with Site(WORLD, 0, self.new_log("other.log")), self.assertRaises(BlockingIOError):
            Site(WORLD, 0, self.path("other.log"))

    def test_a_lost_log_is_not_made_anew(self) -> None:
        with Site(WORLD, 0, self.log) as site:
            site.change("stock", -20)
        kept = self.path("kept")
        os.rename(self.log, kept)
        with self.assertRaises(FileNotFoundError) as lost:
            Site(WORLD, 0, self.log)
        self.assertIn("put its newest log back", str(lost.exception))
        os.rename(kept, self.log)
        with self.assertRaises(FileExistsError):
            create(self.log)
        with Site(WORLD, 0, self.log) as site, self.assertRaises(escrow.Short):
            site.change("stock", -1)

    def test_threads_share_a_site(self) -> None:
        with Site(WIDE, 0, self.log, sync=False) as site:
            threads = [threading.Thread(target=lambda: [site.change("stock", -1) for _ in range(50)]) for _ in range(4)]
            for thread in threads:
                thread.start()
            for thread in threads:
                thread.join()
            self.assertEqual(site.read("stock"), escrow.Interval(499_800, 499_800))

    def test_a_file_that_fails_closes_the_site(self) -> None:
        with Site(WORLD, 0, self.log) as site:
            with open(os.devnull, "rb") as nothing:
                os.dup2(nothing.fileno(), site._file)
            with self.assertRaises(OSError):
                site.change("stock", -1)
            with self.assertRaises(Fault):
                site.read("stock")


def rounds_a_second(rounds: int) -> float:
    """How many changes a second a site makes over a file that isn't synced."""
    with tempfile.TemporaryDirectory() as folder:
        log = os.path.join(folder, "log")
        create(log)
        with Site(WIDE, 0, log, sync=False) as site:
            began = time.perf_counter()
            for number in range(rounds):
                site.change("stock", 20 if number % 2 else -20)
            return rounds / (time.perf_counter() - began)


if __name__ == "__main__":
    ran = unittest.main(exit=False, verbosity=0).result
    if not ran.wasSuccessful():
        raise SystemExit(1)
    print(f"Python: {ran.testsRun} tests passed; {rounds_a_second(5000):.0f} changes a second, unsynced")
