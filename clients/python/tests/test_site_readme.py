"""The examples of the page README.md do what stands there: a first sale, two web services, carts, several processes, and orders by key,
with their positions too."""

from __future__ import annotations

import contextlib
import importlib.util
import os
import re
import shutil
import socket
import sqlite3
import subprocess
import sys
import textwrap
import unittest

from forgetful_site import read_commits, tell
from programs import PACKAGES, SHOP, SiteTest, escrow_site
import escrow

FORGETFUL = os.path.join(os.path.dirname(os.path.abspath(__file__)), "forgetful_site.py")
UVICORN = importlib.util.find_spec("uvicorn") is not None
NAMES = ["sale.py", "shop.py", "app.py", "carts.py", "worker.py", "once.py", "position.py"]
"""What is typed first in each."""


def blocks() -> list[str]:
    """The indented blocks of the page, as they would be typed."""
    with open(os.path.join(PACKAGES, "README.md"), encoding="utf-8") as file:
        pieces = re.findall(r"(?:^    .*\n|^\n)+", file.read(), re.M)
    return [text for text in (textwrap.dedent(piece).strip("\n") + "\n" for piece in pieces) if text != "\n"]


def examples() -> list[tuple[str, str]]:
    """What is typed to make and run a script, and what it prints, one after another."""
    found = [piece for block in blocks() if block.startswith("cat > ") for piece in [block.rpartition("\n\n")]]
    return [(f"{typed}\n", printed) for typed, _, printed in found]


def free_port() -> int:
    """A port that nobody has now."""
    with socket.create_server(("127.0.0.1", 0)) as it:
        return int(it.getsockname()[1])


CARTS = """
import sys
with escrow.Site(sys.argv[1], program=sys.argv[2], timeout=5.0) as site:
    resolve(site)
print(books.execute("select id, state from carts order by id").fetchall())
"""
"""What stands here behind the functions of the example carts.py."""


class ReadmeTest(SiteTest):
    """What is typed, and what it prints."""

    def types(self, text: str, printed: str) -> None:
        """Types it, and compares what it prints."""
        if "curl " in text and not shutil.which("curl"):
            self.skipTest("curl isn't there")
        environment = {**os.environ, "PYTHONUNBUFFERED": "", "ESCROW_SITE": escrow_site(), "PYTHONPATH": PACKAGES}
        text = text.replace("python3 ", f'"{sys.executable}" ').replace("8080", str(free_port()))
        told = subprocess.run(["sh", "-c", text], cwd=self.place, env=environment, capture_output=True, text=True, check=False)
        self.assertEqual((told.stdout, told.stderr), (printed, ""))

    def test_each_example(self) -> None:
        found = examples()
        self.assertEqual([typed.split()[2] for typed, _ in found], NAMES)
        for text, printed in found:
            if "uvicorn " not in text:
                self.types(text, printed)

    def resolves(self, folder: str) -> subprocess.CompletedProcess[str]:
        """What becomes of the carts, by the functions of the example."""
        (typed,) = [typed for typed, _ in examples() if typed.split()[2] == "carts.py"]
        script = typed.partition("\n")[2].partition("with escrow.Site.create(")[0] + CARTS
        words, environment = [sys.executable, "-c", script, folder, FORGETFUL], {**os.environ, "PYTHONPATH": PACKAGES}
        return subprocess.run(words, cwd=self.place, env=environment, capture_output=True, text=True, check=False, timeout=60)

    def test_a_cart_that_the_log_has_let_go_of(self) -> None:
        """It is set aside for a person, at this start and at each later one, and the others go on."""
        folder = self.folder(escrow.Schema(1, SHOP.fields[:1]))
        escrow.Site(folder, program=FORGETFUL).close()
        tell(folder, horizon=[1, 9])
        self.resolves(folder)
        rows = [("1.1", "", "reserving"), ("1.2", "1.3", "giving back"), ("1.4", "", "giving back"), ("1.5", "", "held")]
        with contextlib.closing(sqlite3.connect(os.path.join(self.place, "carts.db"))) as books, books:
            books.executemany("insert into carts values (?, 2, 0, ?, ?)", rows)
        states = ["forgotten, reserving", "forgotten, giving back", "given back", "held"]
        for many in (2, 0):
            told = self.resolves(folder)
            self.assertEqual((told.returncode, told.stderr.count("never ask for the same anew")), (0, many), told)
            self.assertEqual(told.stdout, f"{[(id, state) for (id, _, _), state in zip(rows, states)]}\n")
            self.assertEqual([it.change for it in read_commits(folder)], [2])

    @unittest.skipUnless(UVICORN, "uvicorn isn't there: python3-uvicorn of Debian")
    def test_workers_of_uvicorn(self) -> None:
        (example,) = [(text, printed) for text, printed in examples() if "uvicorn " in text]
        self.types(*example)

    def test_each_exception_has_a_row(self) -> None:
        with open(os.path.join(PACKAGES, "README.md"), encoding="utf-8") as file:
            rows = file.read().partition("## What is raised")[2].partition("\n## ")[0]
        for name, it in vars(escrow).items():
            if isinstance(it, type) and issubclass(it, escrow.EscrowError) and it is not escrow.EscrowError:
                self.assertRegex(rows, rf"(?m)^\|[^|]*`{name}`", name)


if __name__ == "__main__":
    unittest.main()
