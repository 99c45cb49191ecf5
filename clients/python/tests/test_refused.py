"""A folder whose log was refused as an older copy stays refused, however often it is tried and by whom, until the newest log is
back; and no refused start makes its log longer. Bytes of records are counted by hand."""
from __future__ import annotations

import os
import shutil
import subprocess
from unittest.mock import patch

from doors import Door
from programs import SHOP, SiteTest, commits, escrow_site, records, wait_until
from test_carrier_copies import START, Copied
from test_carrier_sites import SHOPS

import escrow
from escrow import Down, Mark, Site
from escrow.records import lacks_commit
from escrow.refused import keep_mark, wanted_mark

STAYS = ("the file may stay, a log that has come so far passes it; only where nothing was sold or given since, and the "
         "medium's mark was removed too, remove the file")
NO_MARKS = ("", "1", "1 2 3", "one two", "-1 2", "18446744073709551616 0", "1 2\ncopy 3\n")


class OlderTest(Copied):
    """Site 0 serves an older copy of its folder."""

    def file(self) -> str:
        return os.path.join(self.shop, "not_before")

    def text(self) -> str:
        with open(self.file(), encoding="ascii") as file:
            return file.read()

    def log(self) -> bytes:
        with open(os.path.join(self.shop, "log"), "rb") as log:
            return log.read()

    def sell_behind_a_copy(self) -> Mark:
        """Takes a copy, sells, and puts the copy in the folder's place: how far the newest log has come."""
        site = self.sites[0]
        site.change("stock", -3)
        self.take_copy()
        carrier = self.carrier(0)
        site.change("stock", -3)
        mark = site.newest_mark()
        carrier.close()
        site.close()
        self.put_back(self.copy)
        return mark

    def put_newest_log_back(self) -> None:
        """Into the folder as it stands."""
        for name in ("log", "trace"):
            shutil.copy(os.path.join(f"{self.copy}.other", name), os.path.join(self.shop, name))

    def refused_start(self, not_before: Mark | None = None) -> str:
        """Why a start is refused, which writes nothing."""
        before = self.log()
        with self.assertRaises(Down) as down:
            Site(self.shop, trace=True, not_before=not_before)
        self.assertEqual((down.exception.status, self.log()), (3, before))
        return str(down.exception)

    def told(self, mark: Mark) -> str:
        return f": {self.file()} holds the mark that refused it, epoch {mark.epoch}, length {mark.length}: {STAYS}"

    def test_it_is_refused_however_often_it_is_tried(self) -> None:
        mark = self.sell_behind_a_copy()
        self.serve()
        self.assertIn("older than its mark", self.refused(self.hub.port()))
        self.assertEqual(self.text(), f"{mark.epoch} {mark.length}\n")
        restarted = mark.length - 11 + START            # a sale less, and the restart of the copy
        for _ in range(7):                              # with four of them it would come so far
            self.assertEqual(self.refused_start(), f"escrow_site: {self.shop}/log: epoch 2, length {restarted}: older than "
                             f"--not-before: put the newest log back{self.told(mark)}")
        self.assertEqual(len(commits(self.shop, SHOPS)), 1)
        self.put_newest_log_back()
        site = self.serve()
        self.carrier(0)
        site.change("stock", -3)
        self.assertEqual((site.share("stock").lower, self.text()), (1, f"{mark.epoch} {mark.length}\n"))

    def test_a_mark_that_comes_later_is_kept_too(self) -> None:
        site, carrier = self.sites[0], self.carrier(0)
        wait_until(lambda: f"{self.top}/0/mark" in self.hub.kept)
        self.hub.tell(f"{self.top}/0/mark", "7 900", False)
        wait_until(lambda: site.pid is None)
        carrier.close()
        self.assertEqual(self.text(), "7 900\n")
        self.assertIn(self.told(Mark(7, 900)), self.refused_start())

    def test_a_door_refuses_it_too(self) -> None:
        mark = self.sell_behind_a_copy()
        keep_mark(self.shop, mark)
        before = self.log()
        door = Door(self.shop, os.path.join(self.folder, "door"), "--trace")
        self.addCleanup(door.close)
        self.assertEqual((door.close(), self.log()), (3, before))
        self.assertIn(f"older than --not-before: put the newest log back{self.told(mark)}", door.text())

    def test_with_a_mark_of_the_caller_the_greater_counts(self) -> None:
        mark = self.sell_behind_a_copy()
        keep_mark(self.shop, mark)
        self.assertIn(self.told(mark), self.refused_start(Mark(1, 0)))
        self.put_newest_log_back()
        self.assertTrue(self.refused_start(Mark(2, 0)).endswith("older than --not-before: put the newest log back"))
        self.serve().close()

    def test_what_it_sold_before_it_was_refused_lets_it_pass_no_mark(self) -> None:
        mark, away = self.sell_behind_a_copy(), self.hub.port()
        self.hub.kept.clear()
        site, away.is_connected = self.serve(), False   # its medium is away as it begins
        carrier = self.carrier(0, medium=away)
        for _ in range(5):
            site.change("stock", 1)
        self.hub.tell(f"{self.top}/0/mark", f"{mark.epoch} {mark.length}", False)
        wait_until(lambda: not carrier._worker.is_alive())
        for _ in range(3):
            self.assertEqual(self.refused_start(), f"{self.shop}/log: older than its mark, epoch {mark.epoch}, length "
                             f"{mark.length}, though it was served beyond: put the newest log back{self.told(mark)}")
        self.put_newest_log_back()
        site = self.serve()
        self.carrier(0)
        site.change("stock", -3)
        self.assertEqual(self.text().split("\n")[0], f"{mark.epoch} {mark.length}")

    def test_a_copy_that_lacks_a_start_alone_keeps_the_newest_log_from_nothing(self) -> None:
        self.sites[0].close()
        self.take_copy()
        site = self.serve()                             # no sale behind the copy: both logs begin alike
        carrier = self.carrier(0)
        wait_until(lambda: f"{self.top}/0/mark" in self.hub.kept)
        mark = site.newest_mark()
        carrier.close()
        site.close()
        self.put_back(self.copy)
        self.serve()
        self.assertIn("older than its mark", self.refused(self.hub.port()))
        self.assertEqual(self.text(), f"{mark.epoch} {mark.length}\n")
        self.put_newest_log_back()
        site = self.serve()
        self.carrier(0)
        site.change("stock", -3)

    def test_a_file_without_a_mark_is_told_and_nothing_is_started(self) -> None:
        self.sites[0].close()
        for text in NO_MARKS:
            with open(self.file(), "w", encoding="ascii") as file:
                file.write(text)
            with self.subTest(text), patch("subprocess.Popen", side_effect=AssertionError("it was started")):
                self.assertEqual(self.refused_start()[:len(self.file()) + 19], f"{self.file()}: isn't two numbers")
        os.unlink(self.file())
        self.serve()

    def test_a_folder_that_takes_no_file_is_told_in_the_log(self) -> None:
        self.sell_behind_a_copy()
        os.mkdir(f"{self.file()}.new")
        self.serve()
        with self.assertLogs("escrow.carrier", "ERROR") as logs:
            self.refused(self.hub.port())
        self.assertIn(f"{self.shop}: the mark that refuses this older log isn't kept in its folder: ", "\n".join(logs.output))

    def test_a_mark_only_rises(self) -> None:
        self.assertIsNone(wanted_mark(self.shop))
        for given, kept in (Mark(2, 30), "2 30\n"), (Mark(1, 50), "2 50\n"), (Mark(1, 1), "2 50\n"):
            keep_mark(self.shop, given)
            self.assertEqual((self.text(), wanted_mark(self.shop)), (kept, Mark(*map(int, kept.split()))))
        self.assertFalse(os.path.exists(f"{self.file()}.new"))

    def test_by_hand_it_is_refused_too(self) -> None:
        mark = self.sell_behind_a_copy()
        keep_mark(self.shop, mark)
        before, words = self.log(), [escrow_site(), "serve", "--trace", self.shop]
        told = (f"escrow_site: {self.shop}/log: epoch 1, length {mark.length - 11}: older than its mark in not_before, epoch "
                f"{mark.epoch}, length {mark.length}: put the newest log back\n")
        for _ in range(3):
            ran = subprocess.run(words, input="", capture_output=True, text=True, check=False)
            self.assertEqual((ran.returncode, ran.stdout, ran.stderr, self.log()), (3, "", told, before))
        self.put_newest_log_back()
        subprocess.run(words, input="", capture_output=True, text=True, check=True)

    def test_a_log_that_has_come_to_its_mark_passes_each_task(self) -> None:
        folders = [it.folder for it in self.sites]
        for site in self.sites:
            site.close()
            keep_mark(site.folder, Mark(1, 4))
        runs = [["show", folders[0]], ["verify", folders[0]], ["check", *folders], ["settle", *folders]]
        for words in runs:
            subprocess.run([escrow_site(), *words], capture_output=True, check=True)


class LastIdTest(SiteTest):
    """By the newest id of the books a log is looked through before the start."""

    def test_an_older_log_is_left_as_it_is(self) -> None:
        folder, copy = self.folder(), os.path.join(self.place, "copy")
        with escrow.Site(folder, program=escrow_site()) as site:
            first = site.change("stock", -1)
            shutil.copytree(folder, copy)
            last = site.change("stock", -1)
        held = records(copy)
        for _ in range(3):
            with self.assertRaises(Down) as down, patch("subprocess.Popen", side_effect=AssertionError("it was started")):
                escrow.Site(copy, program=escrow_site(), last_id=last)
            self.assertEqual(down.exception.status, 3)
            self.assertIn(f"{copy}/log: transaction {last} isn't in it: last_id names it as committed", str(down.exception))
        self.assertEqual(records(copy), held)
        for place, id in (copy, first), (folder, last):
            self.served(place, last_id=id).close()

    def test_which_logs_lack_a_commit(self) -> None:
        path = os.path.join(self.place, "log")
        self.assertFalse(lacks_commit(path, 1, 1))
        front = b"number 0\nworld 00\n"
        for version, is_whole in (1, True), (2, True), (3, False), (4, False):
            with open(path, "wb") as log:
                log.write(b"escrow log %d\n" % version + front)
                log.write(b"head 0 0\nsum 00\nR 1\nC 1 11 0 -1\nK 1.2 x\nC 1 3 0 -1\n")
            told = [lacks_commit(path, 1, number) for number in (1, 2, 3, 11)]
            self.assertEqual(told, [is_whole, is_whole, False, False])


class ReadTest(SiteTest):
    """The file `site` of a folder that can't be read."""

    def test_why_it_cannot_be_read(self) -> None:
        path = f"{self.folder(SHOP)}/site"
        for fault, remedy, status in (
            (PermissionError(13, "Permission denied"), "let this user read it", 5),
            (PermissionError(1, "Operation not permitted"), "let this user read it", 5),
            (OSError(5, "Input/output error"), "look whether its disk is", 5),
            (FileNotFoundError(2, "No such file or directory"), "a site's folder is made by create, once", 3),
        ):
            with self.subTest(fault), patch("escrow.schema.open", side_effect=fault, create=True):
                with self.assertRaises(Down) as down:
                    escrow.Site(os.path.dirname(path), program=escrow_site())
            why = "isn't there: look whether its disk is" if status == 3 else fault.strerror
            self.assertEqual((str(down.exception), down.exception.status), (f"{path}: {why}: {remedy}", status))

    def test_a_file_of_the_folder_is_none(self) -> None:
        named = f"{self.folder(SHOP)}/log"
        told = f"{named}/site: isn't in a folder: name the one that create made, not a file in it"
        with self.assertRaises(Down) as down:
            escrow.Site(named, program=escrow_site())
        self.assertEqual((str(down.exception), down.exception.status), (told, 3))


if __name__ == "__main__":
    import unittest

    unittest.main()
