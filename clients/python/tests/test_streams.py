"""Programs whose standard streams go to a file of a site's folder: nothing is told there."""

from __future__ import annotations

import os
import subprocess
import sys
import unittest

from programs import LONG, PACKAGES, SHOP, SiteTest

SAME = "send that elsewhere\n"


class StreamsTest(SiteTest):
    """A door, a board and the list of a carrier, by `>> FOLDER/log` and `2>> FOLDER/log`."""

    def setUp(self) -> None:
        super().setUp()
        site = self.site()
        site.change("stock", -3)
        site.close()
        self.log = os.path.join(site.folder, "log")
        self.commands = [
            ("escrow.door", [site.folder]),  # without a socket it is refused
            ("escrow.door", ["--nothing"]),
            ("escrow_board", [site.folder, "--once"]),
            ("escrow_board", ["--nothing"]),
            ("escrow_carrier", [site.folder]),
            ("escrow_carrier", ["--nothing"]),
        ]

    def ran(self, module: str, words: list[str], *streams: str, path: str) -> tuple[int, str, str]:
        """The status and what it told, where these streams go to this file."""
        with open(path, "ab") as file:
            goes = {name: file if name in streams else subprocess.PIPE for name in ("stdout", "stderr")}
            command = [sys.executable, "-S", "-m", module, *words]
            ran = subprocess.run(command, cwd=PACKAGES, text=True, timeout=LONG, check=False, **goes)  # type: ignore[call-overload]
        return ran.returncode, ran.stdout or "", ran.stderr or ""

    def test_nothing_is_told_into_a_log(self) -> None:
        with open(self.log, "rb") as file:
            before = file.read()
        for module, words in self.commands:
            with self.subTest(f"{module} {words}"):
                told = f"{module}: {self.log}: is where standard error goes: {SAME}"
                self.assertEqual(self.ran(module, words, "stderr", path=self.log), (3, told, ""))
                told = f"{module}: {self.log}: is where standard output goes: {SAME}"
                self.assertEqual(self.ran(module, words, "stdout", path=self.log), (3, "", told))
                self.assertEqual(self.ran(module, words, "stdout", "stderr", path=self.log), (3, "", ""))
        with open(self.log, "rb") as file:
            self.assertEqual(file.read(), before)

    def test_each_file_of_a_folder_by_any_name(self) -> None:
        folder = os.path.dirname(self.log)
        for name in ("site", "trace", "not_before"):
            path = os.path.join(folder, name)
            told = f"escrow_carrier: {path}: is where standard error goes: {SAME}"
            self.assertEqual(self.ran("escrow_carrier", [], "stderr", path=path), (3, told, ""))
        other = os.path.join(folder, "other")
        os.link(self.log, other)
        told = f"escrow_carrier: {self.log}: is where standard error goes: {SAME}"
        self.assertEqual(self.ran("escrow_carrier", [], "stderr", path=other), (3, told, ""))

    def test_a_log_of_no_site_is_anybodys(self) -> None:
        path = os.path.join(self.place, "log")
        self.assertEqual(self.ran("escrow_carrier", [], "stderr", path=path), (2, "", ""))
        with open(path, encoding="ascii") as file:
            self.assertIn("name the folders of the sites", file.read())
        self.assertEqual(self.ran("escrow_carrier", [], "stderr", path=f"{self.log}.txt"), (2, "", ""))


if __name__ == "__main__":
    unittest.main()
