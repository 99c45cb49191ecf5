"""The shops of examples/three_shops_live, from their start to their end, with a kill of a site between."""
from __future__ import annotations

import os
import signal
import subprocess
import tempfile
import time
import unittest

from broker import MISSING
from programs import TOP

EXAMPLE = os.path.join(TOP, "examples", "three_shops_live")
ESCROW = os.environ.get("ESCROW") or os.path.join(TOP, "escrow")


@unittest.skipIf(MISSING, MISSING)
class ExampleTest(unittest.TestCase):
    """examples/three_shops_live, from its start to its end."""

    def test_three_shops_live(self) -> None:
        with tempfile.TemporaryDirectory() as folder:
            world = os.path.join(folder, "world")
            started = subprocess.run([f"{EXAMPLE}/start", world], capture_output=True, text=True, check=False)
            self.assertEqual((started.returncode, started.stderr), (0, ""))
            try:
                self.await_lines(world, "sold", 5)
                with open(f"{world}/site1.pid", encoding="ascii") as file:
                    os.kill(int(file.read()), signal.SIGKILL)
                self.await_lines(world, "its site stands: epoch 2", 1)
                self.await_lines(world, "gave rights", 1)
            finally:
                stopped = subprocess.run([f"{EXAMPLE}/stop", world], capture_output=True, text=True, check=False)
            self.assertEqual((stopped.returncode, stopped.stderr), (0, ""))
            told = self.told(world)
            sold, taken = (sum(int(line[len(word):].split(":")[0]) for line in told if line.startswith(word))
                           for word in ("sold ", "took in "))
            self.assertIn(f"\nfield bikes value {45 - sold + taken} floor 0 ceiling 60\n", stopped.stdout)
            self.assertRegex(stopped.stdout, "\nlegal [0-9]+\n")
            with open(f"{world}/picture.svg", encoding="utf-8") as file:
                self.assertTrue(file.read().startswith("<svg "))

    def test_the_run_that_is_kept_is_legal_and_drawn(self) -> None:
        with open(f"{EXAMPLE}/run.out", "rb") as trace, open(f"{EXAMPLE}/run.svg", encoding="utf-8") as picture:
            audit = subprocess.run([ESCROW, "audit"], stdin=trace, capture_output=True, text=True, check=False)
            drawn = subprocess.run([f"{TOP}/tools/picture.py", f"{EXAMPLE}/run.out", "bikes"],
                                   capture_output=True, text=True, check=False)
            self.assertEqual((audit.stdout, drawn.stderr), ("legal 200\n", ""))
            self.assertEqual(drawn.stdout, picture.read())

    def told(self, world: str) -> list[str]:
        """What the shops told so far."""
        lines = []
        for number in range(3):
            with open(f"{world}/shop{number}.told", encoding="utf-8") as file:
                lines += file.read().splitlines()
        return lines

    def await_lines(self, world: str, word: str, count: int) -> None:
        """Waits for so many lines that begin with these words."""
        end = time.monotonic() + 180
        while sum(line.startswith(word) for line in self.told(world)) < count:
            self.assertLess(time.monotonic(), end, f"{word}: {self.told(world)}")
            time.sleep(0.1)


if __name__ == "__main__":
    unittest.main()
