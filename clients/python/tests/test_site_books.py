"""What ties a site to the caller's own books: an id in them that the log has to have."""

from __future__ import annotations

import os
import shutil
import time
import unittest

from programs import LONG, SiteTest, escrow_site, is_ended, of_shop, records
from test_site_stops import CUT
import escrow

MUTE = """#!/bin/sh
echo $$ > '{pid}'
echo 'ready 1 2 4'
echo '0 restart -> restarted 2 nothing'
exec sleep 600
"""
"""A program that stands, and answers nothing."""


class LastIdTest(SiteTest):
    """The newest id that the caller's books have as committed."""

    def sold(self, many: int) -> str:
        """A folder in which so many were sold one by one, in the first epoch, and then its copy after one of them."""
        site = self.site()
        for number in range(1, many + 1):
            self.assertEqual(site.change("stock", -1), of_shop(f"1.{number}"))
            if number == 1:
                shutil.copytree(site.folder, self.copy)
        site.close()
        return site.folder

    def setUp(self) -> None:
        super().setUp()
        self.copy = os.path.join(self.place, "copy")

    def refused(self, folder: str, last_id: str) -> str:
        """What a start is told that is refused for its log, at once."""
        began = time.monotonic()
        with self.assertRaises(escrow.Down) as raised:
            escrow.Site(folder, program=escrow_site(), last_id=last_id, wait=2 * LONG)
        self.assertLess(time.monotonic() - began, LONG)
        self.assertEqual(raised.exception.status, 3)
        return str(raised.exception)

    def test_a_log_that_has_it_is_served(self) -> None:
        folder = self.sold(3)
        site = self.served(folder, last_id=of_shop("1.3"))
        self.assertEqual((site.epoch, site.share("stock")), (2, escrow.Share(17, 33)))
        self.assertEqual(site.change("stock", -1), of_shop("2.1"))

    def test_an_older_log_is_refused(self) -> None:
        folder = self.sold(3)
        told = self.refused(self.copy, of_shop("1.3"))
        self.assertTrue(told.startswith(f"{self.copy}/log: transaction {of_shop('1.3')} isn't in it: "), told)
        self.assertIn("an older log: put the newest log back; where there is none", told)
        # Nothing was started. The folder is free, and the newest log is served.
        self.assertEqual(records(self.copy), [["R", "1"], ["C", "1", "1", "0", "-1"]])
        self.served(self.copy, last_id=of_shop("1.1")).close()
        self.assertEqual(self.served(folder, last_id=of_shop("1.3")).epoch, 2)

    def test_an_id_of_a_later_start_is_refused_again_and_again(self) -> None:
        """Of the epoch that the refused start itself begins, of the one before at the next try, and of a later one."""
        self.sold(1)
        for last_id in (of_shop("2.1"), of_shop("2.1"), of_shop("9.1")):
            self.assertIn(f"transaction {last_id} isn't in it", self.refused(self.copy, last_id))

    def test_a_transaction_that_was_aborted_is_refused(self) -> None:
        site = self.site()
        t = site.transaction()
        t.lower("stock", 1)
        t.abort()
        site.close()
        self.assertIn(f"transaction {t.id} isn't in it", self.refused(site.folder, of_shop("1.1")))

    def test_what_is_no_id_starts_nothing(self) -> None:
        folder = self.folder()
        for word in ("", "1", "1.", "01.1", "1.-1", "stock"):
            with self.assertRaises(ValueError):
                escrow.Site(folder, program=escrow_site(), last_id=word)
        self.assertEqual(records(folder), [])
        self.assertEqual(self.served(folder).epoch, 1)

    def test_it_is_asked_again_behind_a_stop(self) -> None:
        """The first process is killed before it has answered. The copy has the commit in a torn batch alone."""
        folder, program, first = self.sold(2), os.path.join(self.place, "cut"), os.path.join(self.place, "first")
        with open(os.path.join(self.copy, "log"), "ab") as log:
            log.write(b"C 1 2 0 -1 ")
        with open(program, "w", encoding="ascii") as file:
            file.write(CUT.format(real=escrow_site(), first=first, lines=2))
        os.chmod(program, 0o755)
        for place, last_id, epoch in ((folder, of_shop("1.2"), 3), (self.copy, of_shop("1.2"), 0)):
            with open(first, "w", encoding="ascii"):
                pass
            try:
                site = escrow.Site(place, program=program, last_id=last_id)
                self.addCleanup(site.close)
                self.assertEqual((site.epoch, site.counts.stops), (epoch, 1))
            except escrow.Down as fault:
                self.assertEqual((epoch, fault.status), (0, 3))
            self.assertFalse(os.path.exists(first))

    def test_a_program_that_does_not_answer_is_waited_for_in_vain(self) -> None:
        program, pid = os.path.join(self.place, "mute"), os.path.join(self.place, "pid")
        with open(program, "w", encoding="ascii") as file:
            file.write(MUTE.format(pid=pid))
        os.chmod(program, 0o755)
        folder, began = self.sold(1), time.monotonic()
        with self.assertRaises(escrow.Down) as raised:
            escrow.Site(folder, program=program, last_id=of_shop("1.1"), wait=3.0)  # in which it stands
        self.assertLess(time.monotonic() - began, 3.0 + 4.5)
        self.assertIn("wasn't answered in time", str(raised.exception))
        with open(pid, encoding="ascii") as file:
            self.assertTrue(is_ended(int(file.read())))
        self.assertEqual(self.served(folder).epoch, 2)


if __name__ == "__main__":
    unittest.main()
