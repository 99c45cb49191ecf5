"""One number of the release stands in all packages, and tools/release writes another one into all of them."""

from __future__ import annotations

import os
import shutil
import subprocess
import tempfile
import unittest

from programs import TOP
import escrow
import escrow_board
import escrow_carrier
import escrow_native
import escrow_programs

PLACES = ("clients/python/VERSION", "clients/python/CHANGELOG.md", "clients/python/escrow/__init__.py", "clients/go/go.mod",
          "clients/rust/escrow/Cargo.toml", "clients/rust/served/Cargo.toml", "crates/escrow_site/src/main.rt",
          ".ci/site_misuse.py", "docs/FORMATS.md")


def release(top: str, *words: str) -> tuple[int, str, str]:
    """The status of tools/release, what it printed, and what it told."""
    done = subprocess.run([os.path.join(top, "tools", "release"), *words], capture_output=True, text=True, check=False)
    return done.returncode, done.stdout, done.stderr


class ReleaseTest(unittest.TestCase):
    """In the repository, and in a copy of what tells the number."""

    def setUp(self) -> None:
        held = tempfile.TemporaryDirectory(prefix="escrow-test-")
        self.addCleanup(held.cleanup)
        self.copy = held.name
        for name in ("tools/release", *PLACES):
            os.makedirs(os.path.dirname(os.path.join(self.copy, name)), exist_ok=True)
            shutil.copy(os.path.join(TOP, name), os.path.join(self.copy, name))

    def text_of(self, name: str) -> str:
        with open(os.path.join(self.copy, name), encoding="utf-8") as file:
            return file.read()

    def test_one_number(self) -> None:
        self.assertEqual(release(TOP, "--check"), (0, "", ""))
        told = {it.__version__ for it in (escrow, escrow_board, escrow_carrier, escrow_native, escrow_programs)}
        self.assertEqual({f"{number}\n" for number in told}, {release(TOP)[1]})

    def test_another_number(self) -> None:
        """It stands once in each place then, and nothing else has changed."""
        before = {name: self.text_of(name) for name in PLACES}
        number = release(TOP)[1].strip()
        self.assertEqual(release(self.copy, "9.8.7"), (0, "", ""))
        self.assertEqual(release(self.copy), (0, "9.8.7\n", ""))
        self.assertEqual(release(self.copy, "--check"), (0, "", ""))
        for name in PLACES:
            self.assertEqual(self.text_of(name), before[name].replace(number, "9.8.7", 1), name)

    def test_one_that_differs(self) -> None:
        path = os.path.join(self.copy, "clients/go/go.mod")
        text = self.text_of("clients/go/go.mod").replace(release(TOP)[1].strip(), "3.2.1", 1)
        with open(path, "w", encoding="utf-8") as file:
            file.write(text)
        number = release(TOP)[1].strip()
        told = f"tools/release: clients/go/go.mod: tells 3.2.1, and clients/python/VERSION {number}: tools/release {number}\n"
        self.assertEqual(release(self.copy, "--check"), (1, "", told))
        self.assertEqual(release(self.copy, "1.2")[0], 2)


if __name__ == "__main__":
    unittest.main()
