"""Wrong bodies of the client and the carrier: each file of `wrong` names a mistake that somebody could make, and the
test that sees it. Each is made in a copy of the packages, where that test has to fail; unmade, all of them have to pass.

A file has a line `file:` (of the packages), pairs of lines `old:` and `new:`, each `old` exactly once in the file, and a
line `test:`."""
from __future__ import annotations

import concurrent.futures
import glob
import os
import shutil
import subprocess
import sys
import tempfile
import unittest
from typing import NamedTuple

from programs import PACKAGES, TOP

WRONG = os.path.join(PACKAGES, "tests", "wrong")
AT_ONCE = 3


class Edit(NamedTuple):
    """A mistake: where it is made, what stands there, what is put in its place, and the test that sees it."""

    file: str
    pairs: list[tuple[str, str]]
    test: str


def read_edit(path: str) -> Edit:
    file, pairs, test, old = "", [], "", ""
    with open(path, encoding="utf-8") as lines:
        for line in lines:
            word, _, text = line.rstrip("\n").partition(": ")
            if word == "file":
                file = text
            elif word == "old":
                old = text
            elif word == "new":
                pairs.append((old, text))
            elif word == "test":
                test = text
    return Edit(file, pairs, test)


def make_mistake(packages: str, edit: Edit) -> None:
    path = os.path.join(packages, edit.file)
    with open(path, encoding="utf-8") as it:
        text = it.read()
    for old, new in edit.pairs:
        if text.count(old) != 1:
            raise ValueError(f"{edit.file}: {old!r} stands {text.count(old)} times in it")
        text = text.replace(old, new)
    with open(path, "w", encoding="utf-8") as it:
        it.write(text)


def copy_packages(top: str) -> str:
    """A copy of the packages in a folder that has all else of the repository by links: where the packages are."""
    for name in os.listdir(TOP):
        if name != "clients":
            os.symlink(os.path.join(TOP, name), os.path.join(top, name))
    packages = os.path.join(top, "clients", "python")
    shutil.copytree(PACKAGES, packages, ignore=shutil.ignore_patterns("__pycache__"))
    return packages


def failure(packages: str, *tests: str, long: int = 120) -> str:
    """What they told, where they don't pass, or nothing. `long` is what they wait at most, in seconds, for what is sure to come."""
    words, env = [sys.executable, "-m", "unittest", "-q", *tests], {**os.environ, "ESCROW_LONG": str(long)}
    folder = os.path.join(packages, "tests")
    ran = subprocess.run(words, cwd=folder, env=env, capture_output=True, text=True, timeout=400, check=False)
    return ran.stderr or "failed" if ran.returncode else ""


def by_module(edits: list[Edit]) -> list[list[str]]:
    """The tests of all these, of each module together."""
    found: dict[str, set[str]] = {}
    for edit in edits:
        found.setdefault(edit.test.partition(".")[0], set()).add(edit.test)
    return [sorted(tests) for tests in found.values()]


def failure_unmade(tests: list[str]) -> str:
    """What these told, where they don't pass without any mistake."""
    with tempfile.TemporaryDirectory() as top:
        return failure(copy_packages(top), *tests)


def is_seen(edit: Edit) -> bool:
    """Whether its test fails where this mistake is made."""
    with tempfile.TemporaryDirectory() as top:
        packages = copy_packages(top)
        make_mistake(packages, edit)
        return bool(failure(packages, edit.test, long=15))


class WrongBodiesTest(unittest.TestCase):
    """Each mistake is seen by its test, which passes without it."""

    def test_each_is_seen(self) -> None:
        paths = sorted(glob.glob(os.path.join(WRONG, "*.edit")))
        self.assertTrue(paths)
        edits = [read_edit(path) for path in paths]
        with concurrent.futures.ThreadPoolExecutor(AT_ONCE) as pool:
            unmade = [pool.submit(failure_unmade, tests) for tests in by_module(edits)]
            seen = [pool.submit(is_seen, edit) for edit in edits]
            for run in unmade:
                self.assertFalse(run.result(), f"one fails without the mistake:\n{run.result()}")
            for path, it in zip(paths, seen):
                with self.subTest(os.path.basename(path)):
                    self.assertTrue(it.result(), "the mistake isn't seen")


if __name__ == "__main__":
    unittest.main()
