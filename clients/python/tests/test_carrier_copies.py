"""A folder that was restored from a copy isn't served: its carrier finds the mark of the newer log, over a broker and
over a folder of files. Bytes of records are counted by hand."""
from __future__ import annotations

import fcntl
import os
import shutil
import signal
import subprocess
import sys
import tempfile
import threading
import time
import unittest
from typing import Optional
from unittest.mock import patch

from broker import MISSING, Broker
from programs import LONG, PACKAGES, commits, escrow_site, records, wait_until
from relay import Relay
from test_carrier_sites import CALM, NEVER, SHOPS, Sites

from escrow import Down, Kind, Mark, Site, show
from escrow_carrier import Carrier, Folder, Medium, last_mark
from escrow_carrier.marks import marks_of

if not MISSING:
    from escrow_carrier import Mqtt

# `R 1`, a start, has 4 bytes with the line feed; `C 1 1 0 -3`, a sale of 3, has 11.
START, SALE = 4, 11


class Copied(Sites):
    """Site 0, its folder, and a copy of it."""

    def setUp(self) -> None:
        super().setUp()
        self.copy = os.path.join(self.folder, "copy")
        self.shop = self.sites[0].folder

    def take_copy(self) -> None:
        """Of the folder of site 0, which is served."""
        shutil.copytree(self.shop, self.copy)

    def put_back(self, folder: str) -> None:
        """This folder stands in the place of that of site 0, which is kept beside it."""
        os.rename(self.shop, f"{folder}.other")
        os.rename(folder, self.shop)

    def serve(self) -> Site:
        self.sites[0] = Site(self.shop, trace=True)
        self.addCleanup(self.sites[0].close)
        return self.sites[0]

    def refused(self, medium: Medium, **more: float) -> str:
        """Why the site can't be carried for; nothing is sold then."""
        site = self.sites[0]
        sold = commits(self.shop, SHOPS)
        with self.assertRaises(Down) as refused:        # as soon as the mark comes
            Carrier(site, medium, CALM, 0.1, **{"wait": LONG, **more})    # type: ignore[arg-type]
        with self.assertRaises(Down) as down:
            site.change("stock", -1)
        self.assertEqual((refused.exception.status, down.exception.status), (3, 3))
        self.assertEqual(str(down.exception), str(refused.exception))
        self.assertEqual((commits(self.shop, SHOPS), site.up, site.pid), (sold, False, None))
        return str(refused.exception)


class Played(Copied):
    """What is played over each medium, also by a shop in a process of its own."""

    def medium(self) -> Medium:
        """For one carrier."""
        raise NotImplementedError

    def address(self) -> str:
        """The same for a process of its own."""
        raise NotImplementedError

    def shop_process(self) -> subprocess.Popen[str]:
        program = os.path.join(PACKAGES, "tests", "carrying.py")
        words = [sys.executable, program, self.shop, escrow_site(), self.address()]
        shop = subprocess.Popen(words, stdout=subprocess.PIPE, stderr=subprocess.DEVNULL, text=True)
        self.addCleanup(shop.kill)
        assert shop.stdout
        self.addCleanup(shop.stdout.close)
        return shop

    def await_sales(self, shop: subprocess.Popen[str], count: int) -> None:
        assert shop.stdout
        for _ in range(count):
            self.assertRegex(shop.stdout.readline(), "^sold ")

    def await_end(self) -> None:
        """The program has seen the end of its client."""
        with open(os.path.join(self.shop, "log"), "rb") as log:
            fcntl.flock(log, fcntl.LOCK_EX)

    def copy_is_refused(self) -> None:
        """A copy is refused, and the true folder goes on."""
        site = self.sites[0]
        site.change("stock", -3)
        self.take_copy()                                # epoch 1, a start and a sale
        carrier = self.carrier(0, CALM, 0.1, self.medium())
        wait_until(lambda: last_mark(self.shop, self.medium()))     # the medium had time to bring one that it keeps
        site.change("stock", -3)
        carrier.close()
        site.close()
        self.put_back(self.copy)
        self.serve()
        why = self.refused(self.medium())
        wanted = (f"{self.shop}/log: epoch 1, length {START + SALE}: older than its mark, epoch 1, "
                  f"length {START + 2 * SALE}: put the newest log back")
        self.assertEqual(why[:len(wanted)], wanted)
        self.put_back(f"{self.copy}.other")
        site = self.serve()
        carrier = self.carrier(0, CALM, 0.1, self.medium(), wait=LONG)
        self.assertEqual(carrier.found_mark, Mark(1, START + 2 * SALE))
        site.change("stock", -3)
        self.assertEqual((site.share("stock").lower, carrier.last_fault), (1, None))

    def shop_is_killed(self) -> None:
        """A copy is refused also where the shop was killed, and the true folder isn't."""
        self.sites[0].close()
        shop = self.shop_process()
        self.take_copy()
        self.await_sales(shop, 60)                      # some ten looks of its carrier
        older = show(self.copy, escrow_site()).mark
        wait_until(lambda: (last_mark(self.shop, self.medium()) or older) > older)
        shop.kill()
        shop.wait()
        self.await_end()
        sold = commits(self.copy, SHOPS)
        self.put_back(self.copy)
        again = self.shop_process()
        out, _ = again.communicate(timeout=120)
        self.assertEqual((again.returncode, out.count("sold")), (3, 0), out)
        self.assertRegex(out, "^refused .*: older than its mark, epoch 2, .*: put the newest log back")
        self.assertEqual(commits(self.shop, SHOPS), sold)
        self.put_back(f"{self.copy}.other")
        for _ in range(3):                              # a kill of the true shop stops nothing
            shop = self.shop_process()
            self.await_sales(shop, 10)
            shop.kill()
            shop.wait()
            self.await_end()


class FolderCopiesTest(Played):
    """Over a folder of files."""

    def medium(self) -> Medium:
        return Folder(self.address(), 0.05)

    def address(self) -> str:
        return os.path.join(self.folder, "shared")

    def test_a_copy_is_refused_and_the_true_folder_goes_on(self) -> None:
        self.copy_is_refused()

    def test_a_shop_that_is_killed(self) -> None:
        self.shop_is_killed()


@unittest.skipIf(MISSING, MISSING)
class BrokerCopiesTest(Played):
    """Over mosquitto."""

    def setUp(self) -> None:
        super().setUp()
        folder = tempfile.TemporaryDirectory()
        self.addCleanup(folder.cleanup)
        self.broker = Broker(folder.name)
        self.addCleanup(self.broker.stop)

    def medium(self) -> Medium:
        return Mqtt(port=self.broker.port)

    def address(self) -> str:
        return str(self.broker.port)

    def test_a_copy_is_refused_and_the_true_folder_goes_on(self) -> None:
        self.copy_is_refused()

    def test_a_shop_that_is_killed(self) -> None:
        self.shop_is_killed()

    def told(self) -> Optional[Mark]:
        """What the broker has."""
        return last_mark(self.shop, self.medium(), 5.0)

    def sold_behind_a_copy(self) -> Mark:
        """Takes a copy, sells, tells, and puts the copy back: the mark of the newer log."""
        site = self.sites[0]
        site.change("stock", -3)
        self.take_copy()
        carrier = self.carrier(0, CALM, NEVER, self.medium())
        wait_until(lambda: carrier.counts.connects)
        time.sleep(carrier._wait)                       # the medium had time to bring a mark that it keeps
        site.change("stock", -3)
        mark = site.newest_mark()
        carrier.close()
        site.close()
        self.put_back(self.copy)
        return mark

    def test_a_broker_that_comes_later_stops_a_copy_then(self) -> None:
        mark = self.sold_behind_a_copy()
        site, relay = self.serve(), Relay(self.broker.port)
        self.addCleanup(relay.close)
        relay.cut()
        with self.assertLogs("escrow.carrier", "WARNING") as logs:
            carrier = self.carrier(0, CALM, 0.1, Mqtt(port=relay.port), wait=0.2)
        self.assertIn("no mark of this site came from its medium", logs.output[0])
        self.assertIsNone(carrier.found_mark)
        for _ in range(5):                              # what it sells meanwhile makes its log longer than the mark
            site.change("stock", 1)
        with self.assertLogs("escrow.carrier", "ERROR"):
            relay.mend()
            wait_until(lambda: site.pid is None)
        with self.assertRaises(Down) as down:
            site.change("stock", -1)
        self.assertEqual((down.exception.status, str(carrier.last_fault)), (3, str(down.exception)))
        self.assertIn(": older than its mark, epoch 1, ", str(carrier.last_fault))
        carrier.close()
        self.assertEqual((carrier.found_mark, self.told()), (mark, mark))

    def test_it_waits_only_until_a_mark_came(self) -> None:
        began = time.monotonic()
        first = self.carrier(0, CALM, NEVER, self.medium(), wait=0.5)
        self.assertIsNone(first.found_mark)
        self.assertLess(0.4, time.monotonic() - began)
        wait_until(lambda: self.told() == Mark(1, START))
        time.sleep(0.3)                                 # and its own, which it hears too, isn't one that it found
        self.assertIsNone(first.found_mark)
        first.close()
        self.sites[0].close()
        self.serve()
        began = time.monotonic()
        second = self.carrier(0, CALM, NEVER, self.medium(), wait=2 * LONG)
        self.assertLess(time.monotonic() - began, LONG)
        self.assertEqual(second.found_mark, Mark(1, START))

    def test_its_own_marks_are_not_taken_for_those_of_others(self) -> None:
        site, relay = self.sites[0], Relay(self.broker.port)
        self.addCleanup(relay.close)
        carrier = self.carrier(0, CALM, 0.05, Mqtt(port=relay.port, keepalive=3), wait=0.2)
        for turn in range(6):
            for _ in range(10):
                site.change("stock", -1)
                site.change("stock", 1)
            (relay.cut, relay.mend)[turn % 2]()
            os.kill(site.pid or 0, signal.SIGKILL)
            site.change("stock", -1)
            time.sleep(0.3)
        wait_until(lambda: carrier.medium.is_connected)
        mark = site.newest_mark()
        wait_until(lambda: self.told() == mark)
        self.assertEqual((site.share("stock").lower, carrier.last_fault), (4, None))


class MarksTest(Copied):
    """Which marks are newer than a log, over a medium in memory."""

    def mark(self) -> str:
        return self.hub.kept.get(f"{self.top}/0/mark", "")

    def test_a_copy_is_known_however_long_it_has_sold(self) -> None:
        site = self.sites[0]
        self.take_copy()                                # epoch 1, a start
        carrier = self.carrier(0)
        os.kill(site.pid or 0, signal.SIGKILL)
        site.change("stock", -3)
        carrier.close()
        self.assertEqual(self.mark(), f"2 {2 * START + SALE}")
        site.close()
        self.put_back(self.copy)
        site = self.serve()
        for turn in range(3):
            os.kill(site.pid or 0, signal.SIGKILL)
            for _ in range(2):
                site.change("stock", 3)
            self.assertEqual(site.epoch, 3 + turn)
        self.refused(self.hub.port())
        self.assertEqual(self.mark(), f"2 {2 * START + SALE}")

    def test_the_true_log_is_served_however_often_it_was_started_before(self) -> None:
        self.carrier(0).close()
        for _ in range(3):
            os.kill(self.sites[0].pid or 0, signal.SIGKILL)
            self.sites[0].change("stock", -3)
        self.sites[0].close()
        site = self.serve()
        for _ in range(3):
            os.kill(site.pid or 0, signal.SIGKILL)
            site.change("stock", 3)
        self.carrier(0).close()                         # and one carrier after another of one site
        site.change("stock", 3)
        carrier = self.carrier(0)
        wait_until(lambda: self.mark() == " ".join(map(str, site.newest_mark())))
        self.assertIsNone(carrier.last_fault)

    def test_a_later_epoch_or_more_bytes_is_newer(self) -> None:
        site = self.sites[0]
        site.change("stock", -3)
        site.close()
        marks = marks_of(self.serve())                  # the second start, over epoch 1 and 15 bytes
        self.assertEqual(marks.start, Mark(1, START + SALE))
        newer = {it: marks.is_newer(it) for it in (Mark(1, 15), Mark(0, 0), Mark(1, 16), Mark(2, 4), Mark(2, 19))}
        self.assertEqual(list(newer.values()), [False, False, True, True, True])
        self.assertEqual([marks.tell(it) for it in (Mark(2, 19), Mark(2, 30), Mark(2, 19), Mark(1, 99))],
                         [Mark(2, 19), Mark(2, 30), Mark(2, 30), Mark(2, 30)])
        own = {it: marks.is_newer(it) for it in (Mark(2, 19), Mark(2, 25), Mark(2, 30), Mark(2, 31), Mark(2, 18))}
        self.assertEqual(list(own.values()), [False, False, False, True, True])

    def test_a_start_with_a_summary_is_found_and_one_far_behind(self) -> None:
        site = self.sites[0]
        for _ in range(499):
            site.change("stock", -1)
            site.change("stock", 1)
        site.close()
        length = sum(len(" ".join(words)) + 1 for words in records(self.shop))
        site = self.serve()
        self.assertEqual([it[:2] for it in records(self.shop)[-2:]], [["R", "2"], ["S", "2"]])
        with patch("escrow.records.WINDOW", 8):
            os.kill(site.pid or 0, signal.SIGKILL)
            site.change("stock", -1)
            self.assertEqual(marks_of(site).start, Mark(1, length))

    def test_a_copy_carries_nothing(self) -> None:
        topic = f"{self.top}/0/given/1/stock/lower"
        self.sites[0].give(1, "stock", Kind.LOWER, 1)
        self.take_copy()
        carrier = self.carrier(0)
        self.sites[0].give(1, "stock", Kind.LOWER, 2)
        wait_until(lambda: self.hub.kept.get(topic) == "3")
        carrier.close()
        self.sites[0].close()
        self.put_back(self.copy)
        self.serve()
        self.refused(self.hub.port())
        self.assertEqual(self.hub.kept[topic], "3")

    def test_a_newer_mark_that_comes_later_is_kept_and_ends_the_site(self) -> None:
        site, carrier = self.sites[0], self.carrier(0, refresh=0.1)
        wait_until(lambda: self.mark() == f"1 {START}")
        self.hub.tell(f"{self.top}/0/mark", "7 900", False)     # it was kept until this one told its own
        with self.assertRaises(Down):
            site.change("stock", -1)                    # at once
        wait_until(lambda: site.pid is None)
        self.assertIn("older than its mark, epoch 7, length 900", str(carrier.last_fault))
        time.sleep(0.3)
        self.assertEqual(self.mark(), "7 900")

    def test_a_newer_mark_at_the_very_end_is_kept_too(self) -> None:
        site, carrier = self.sites[0], self.carrier(0)
        wait_until(lambda: self.mark() == f"1 {START}")
        pid = site.pid or 0
        os.kill(pid, signal.SIGSTOP)                    # the carrier waits for an answer, and hears the mark meanwhile
        self.hub.tell(f"{self.top}/1/given/0/stock/lower", "1", False)
        wait_until(lambda: site.unanswered == 1)
        ended = threading.Thread(target=carrier.close)
        ended.start()
        wait_until(lambda: not site.on_start)
        self.hub.tell(f"{self.top}/0/mark", "7 900", False)
        os.kill(pid, signal.SIGCONT)
        ended.join()
        self.assertEqual((self.mark(), site.pid), ("7 900", None))

    def test_of_two_folders_that_are_served_at_once_the_one_started_last_goes_on(self) -> None:
        site, first = self.sites[0], self.carrier(0, refresh=0.1)
        wait_until(lambda: self.mark() == f"1 {START}")
        self.take_copy()
        with Site(self.copy, trace=True) as other, Carrier(other, self.hub.port(), CALM, 0.1) as second:
            wait_until(lambda: site.pid is None)
            with self.assertRaises(Down) as down:
                site.change("stock", -1)
            self.assertIn(f"older than its mark, epoch 2, length {2 * START}", str(down.exception))
            other.change("stock", -3)
            wait_until(lambda: self.mark() == f"2 {2 * START + SALE}")
            self.assertEqual((str(first.last_fault), second.last_fault), (str(down.exception), None))

    def test_a_new_site_is_no_warning(self) -> None:
        with self.assertLogs("escrow.carrier", "INFO") as logs:
            carrier = self.carrier(0)
        self.assertEqual((carrier.found_mark, [it.levelname for it in logs.records]), (None, ["INFO"]))
        carrier.close()
        self.hub.kept.clear()
        self.sites[0].close()
        self.serve()
        with self.assertLogs("escrow.carrier", "INFO") as logs:
            self.carrier(0)
        self.assertEqual([it.levelname for it in logs.records], ["WARNING"])


if __name__ == "__main__":
    unittest.main()
