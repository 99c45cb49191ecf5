"""How far a site's log has come, as its carrier tells: what is safe by now, at each look and at the end, and never
less than before. The bytes of the records are counted by hand."""
from __future__ import annotations

import asyncio
import os
import signal
import sys
import threading
import time
import unittest
from unittest.mock import patch

from hub import Hub
from programs import SiteTest, wait_until
from test_carrier_sites import CALM, NEVER, Sites

from escrow import AsyncSite, Down, Mark, Site
from escrow_carrier import Carrier

# `R 1` and `R 2`, the starts, have 4 bytes with the line feed; `C 1 1 0 -3`, a sale of 3, has 11.
START, SALE = 4, 11


def rests(carrier: Carrier) -> bool:
    """Whether it has told all at its start and its connection, and waits for what comes: it asks the site nothing."""
    if carrier.counts.connects == 0:
        return False
    frame = sys._current_frames().get(carrier._worker.ident or 0)
    return frame is not None and frame.f_code.co_name == "_next" and carrier._events.empty()


class NewestMarkTest(Sites):
    """`Site.newest_mark`."""

    def test_it_has_what_was_sold_since_the_start(self) -> None:
        site = self.sites[0]
        self.assertEqual((site.mark, site.newest_mark()), (Mark(1, START), Mark(1, START)))
        site.change("stock", -3)
        self.assertEqual((site.mark, site.newest_mark()), (Mark(1, START), Mark(1, START + SALE)))
        os.kill(site.pid or 0, signal.SIGKILL)
        site.change("stock", -3)
        self.assertEqual(site.newest_mark(), Mark(2, START + SALE + START + SALE))

    def test_tasks_have_it_too(self) -> None:
        site = self.sites[0]
        site.change("stock", -3)
        self.assertEqual(asyncio.run(AsyncSite(site).newest_mark()), Mark(1, START + SALE))

    def test_a_start_over_the_same_log_is_not_refused(self) -> None:
        site = self.sites[0]
        site.change("stock", -3)
        mark = site.newest_mark()
        site.close()
        with Site(site.folder, trace=True, not_before=mark) as again:
            self.assertEqual(again.share("stock").lower, 7)
        with self.assertRaises(Down) as down:
            Site(site.folder, trace=True, not_before=Mark(2, mark.length + START + 1))
        self.assertEqual(down.exception.status, 3)

    def test_what_a_stop_left_half_written_is_not_told(self) -> None:
        site = self.sites[0]
        site.change("stock", -3)
        told: list[Mark] = []
        asks = threading.Thread(target=lambda: told.append(site.newest_mark()))
        pid = site.pid or 0
        os.kill(pid, signal.SIGSTOP)
        with open(os.path.join(site.folder, "log"), "ab") as log:
            log.write(b"C 1 2 0 -3 0 -3 0 -3 0 -3")     # of a batch that isn't whole, nor synced
        asks.start()
        wait_until(lambda: site.unanswered == 1)
        os.kill(pid, signal.SIGKILL)
        asks.join()
        self.assertEqual(told, [Mark(2, START + SALE + START)])

    def test_a_log_of_another_length_in_its_place_makes_it_no_less_than_at_the_start(self) -> None:
        site = self.sites[0]
        path = os.path.join(site.folder, "log")
        with open(path, "rb") as log:
            text = log.read()
        os.rename(path, f"{path}.old")
        with open(path, "wb") as log:
            log.write(text[: text.index(b"R 1\n")])
        self.assertEqual(site.newest_mark(), Mark(1, START))

    def test_while_it_sells_and_is_killed_it_never_falls(self) -> None:
        site, marks, ended = self.sites[0], [Mark(0, 0)], threading.Event()

        def sell() -> None:
            while not ended.is_set():
                site.change("stock", -1)
                site.change("stock", 1)
        sellers = [threading.Thread(target=sell) for _ in range(4)]
        for it in sellers:
            it.start()
        for turn in range(200):
            marks.append(site.newest_mark())
            if turn % 20 == 10:
                os.kill(site.pid or os.getpid(), signal.SIGKILL) if site.pid else None
        ended.set()
        for it in sellers:
            it.join()
        self.assertEqual(marks, sorted(marks))
        self.assertEqual([it.length for it in marks], sorted(it.length for it in marks))
        self.assertGreaterEqual(marks[-1].epoch, 5)
        site.close()
        self.sites[0] = Site(site.folder, trace=True, not_before=marks[-1])
        self.addCleanup(self.sites[0].close)


class GatedTest(SiteTest):
    """A site whose process can be held up."""

    def test_the_end_does_not_wait_for_a_site_between_two_starts(self) -> None:
        gate = self.gated()
        carrier = Carrier(gate.site, Hub().port(), CALM, NEVER)
        wait_until(lambda: rests(carrier))
        gate.stop()
        with patch("escrow_carrier.carrier.CLOSING", 120):
            began = time.monotonic()
            carrier.close()
            self.assertLess(time.monotonic() - began, 60)
        gate.open()


class ToldMarkTest(Sites):
    """What a carrier tells of it."""

    def kept(self) -> str:
        return self.hub.kept.get(f"{self.top}/0/mark", "")

    def test_each_look_tells_what_is_safe_by_now(self) -> None:
        self.carrier(0, refresh=0.1)
        self.await_it(lambda: self.kept() == f"1 {START}")
        self.sites[0].change("stock", -3)
        self.await_it(lambda: self.kept() == f"1 {START + SALE}")
        self.sites[0].change("stock", -3)
        self.await_it(lambda: self.kept() == f"1 {START + 2 * SALE}")

    def test_where_nothing_was_answered_it_is_told_anew_and_the_site_is_not_asked(self) -> None:
        carrier = self.carrier(0, refresh=0.1)
        self.await_it(lambda: self.kept() == f"1 {START}")
        wait_until(lambda: rests(carrier) and carrier._answers == self.sites[0].counts.answers)     # no look asks any more
        answers = self.sites[0].counts.answers
        for _ in range(3):
            self.hub.kept.clear()
            wait_until(lambda: self.kept() == f"1 {START}")     # (`await_it` asks the sites)
        self.assertEqual(self.sites[0].counts.answers, answers)

    def test_a_sale_between_the_questions_of_a_look_is_seen_by_the_next(self) -> None:
        site, is_awaited = self.sites[0], threading.Event()
        newest = site.newest_mark

        def sells_behind_it() -> Mark:
            mark = newest()
            if is_awaited.is_set():
                is_awaited.clear()
                site.change("stock", -3)
            return mark
        with patch.object(site, "newest_mark", sells_behind_it):
            self.carrier(0, refresh=0.1)
            time.sleep(0.5)
            is_awaited.set()
            site.change("stock", -3)
            wait_until(lambda: self.kept() == f"1 {START + 2 * SALE}")

    def test_the_end_tells_it_at_once_and_last(self) -> None:
        told: list[str] = []
        carrier = self.carrier(0, refresh=NEVER)
        self.await_it(lambda: self.kept() == f"1 {START}")
        publish = carrier.medium.publish

        def note(topic: str, payload: str, is_kept: bool) -> None:
            told.append(topic)
            publish(topic, payload, is_kept)
        with patch.object(carrier.medium, "publish", note):
            self.sites[0].change("stock", -3)
            carrier.close()
        self.assertEqual((self.kept(), told[-1]), (f"1 {START + SALE}", f"{self.top}/0/mark"))

    def test_a_site_that_is_down_at_the_end_has_nothing_new_told(self) -> None:
        carrier = self.carrier(0, refresh=NEVER)
        self.await_it(lambda: self.kept() == f"1 {START}")
        wait_until(lambda: rests(carrier))              # its first look doesn't see the sale
        self.sites[0].change("stock", -3)
        self.sites[0].close()
        with patch("escrow_carrier.carrier.CLOSING", 120):
            began = time.monotonic()
            carrier.close()
            self.assertLess(time.monotonic() - began, 60)
        self.assertEqual(self.kept(), f"1 {START}")

    def test_the_end_does_not_wait_for_ever_for_a_site_that_stands_still(self) -> None:
        carrier = self.carrier(0, refresh=NEVER)
        self.await_it(lambda: self.kept() == f"1 {START}")
        pid = self.sites[0].pid or 0
        os.kill(pid, signal.SIGSTOP)
        self.addCleanup(os.kill, pid, signal.SIGCONT)
        with patch("escrow_carrier.carrier.CLOSING", 0.5):
            began = time.monotonic()
            carrier.close()
            self.assertLess(time.monotonic() - began, 5)

    def test_a_mark_that_is_less_is_not_told(self) -> None:
        site = self.sites[0]
        site.change("stock", -3)
        self.carrier(0, refresh=0.1)
        self.await_it(lambda: self.kept() == f"1 {START + SALE}")
        with patch.object(site, "newest_mark", return_value=Mark(1, START)):
            site.change("stock", -3)
            time.sleep(0.5)
            self.assertEqual(self.kept(), f"1 {START + SALE}")

    def test_a_start_of_the_process_is_told(self) -> None:
        self.carrier(0, refresh=NEVER)
        self.await_it(lambda: self.kept() == f"1 {START}")
        self.sites[0].change("stock", -3)
        os.kill(self.sites[0].pid or 0, signal.SIGKILL)
        self.await_it(lambda: self.kept() == f"2 {START + SALE + START}")


if __name__ == "__main__":
    unittest.main()
