"""The log of a site in this process is made once, by a call of its own: no start makes one. No library is needed here."""

from __future__ import annotations

import os
import unittest
from unittest import mock

from programs import SiteTest
import escrow_native
import escrow_native.library
import escrow_native.site

WORLD = '{"sites":1,"fields":[{"name":"stock","floor":0,"ceiling":100,"value":40}]}'


class LogTest(SiteTest):
    """Over a library that answers 0 to everything, and adds nothing to a log."""

    def setUp(self) -> None:
        super().setUp()
        library = mock.Mock()
        for call in ("open", "ask", "log", "close"):
            getattr(library, f"escrow_site_{call}").return_value = 0
        held = mock.patch.object(escrow_native.site, "load", return_value=library)
        held.start()
        self.addCleanup(held.stop)
        self.log = os.path.join(self.place, "shop.log")

    def test_a_lost_log_is_not_made_anew(self) -> None:
        """It would have the site's first rights, and sell what was sold. It is told what to do, and nothing is made."""
        with self.assertRaises(FileNotFoundError) as lost:
            escrow_native.Site(WORLD, 0, self.log)
        self.assertRegex(str(lost.exception), "put its newest log back.*shop.log")
        self.assertEqual(os.listdir(self.place), [])

    def test_a_log_is_made_once(self) -> None:
        """Not over another one, and not behind a link to a disk that isn't there."""
        escrow_native.create(self.log)
        escrow_native.Site(WORLD, 0, self.log).close()
        with open(self.log, "w", encoding="ascii") as file:
            file.write("R 1\n")
        other = os.path.join(self.place, "link")
        os.symlink(os.path.join(self.place, "disk", "shop.log"), other)
        for path in (self.log, other):
            with self.assertRaises(FileExistsError):
                escrow_native.create(path)
        with open(self.log, encoding="ascii") as file:
            self.assertEqual(file.read(), "R 1\n")
        with self.assertRaises(FileNotFoundError):
            escrow_native.Site(WORLD, 0, other)

    def test_its_name_is_safe(self) -> None:
        """`create` syncs the folder behind the file, before it returns."""
        synced: list[str] = []
        with mock.patch.object(os, "fsync", lambda file: synced.append(os.readlink(f"/proc/self/fd/{file}"))):
            escrow_native.create(self.log)
        self.assertEqual(synced, [self.place])


class FindTest(SiteTest):
    """Where the library is."""

    def test_it_says_what_to_do(self) -> None:
        """Of packages that were copied without it."""
        lost = os.path.join(self.place, "a", "b", "c", "d", "library.py")
        with mock.patch.object(escrow_native.library, "__file__", lost), \
                mock.patch.dict(os.environ), mock.patch("escrow_programs.path", return_value=None):
            os.environ.pop("ESCROW_LIBRARY", None)
            with self.assertRaisesRegex(FileNotFoundError, "install the wheel that has it"):
                escrow_native.library.load()


if __name__ == "__main__":
    unittest.main()
