"""What `tools/install_clients` asks Debian for, where nothing is there yet."""

from __future__ import annotations

import os
import subprocess
import tempfile
import unittest

from programs import TOP

SCRIPT = os.path.join(TOP, "tools", "install_clients")
APT = """#!/bin/sh
[ "$1" = install ] || { shift; while [ "$1" != install ] && [ $# -gt 1 ]; do shift; done; }
[ "$1" != install ] || eval "echo \\${$#}" >>'{asked}'
"""


class InstallTest(unittest.TestCase):
    """A copy of the script that finds nothing installed, with an apt-get that only tells what it was asked for."""

    def setUp(self) -> None:
        held = tempfile.TemporaryDirectory(prefix="escrow-test-")
        self.addCleanup(held.cleanup)
        self.copy, self.asked = (os.path.join(held.name, name) for name in ("install_clients", "asked"))
        with open(SCRIPT, encoding="utf-8") as file:
            front, has, behind = file.read().partition("has() {\n")
        self.assertTrue(has)
        self.write(self.copy, f"{front}{has}    return 1\n{behind}")
        self.write(os.path.join(held.name, "apt-get"), APT.replace("{asked}", self.asked))
        self.env = {**os.environ, "PATH": f"{held.name}:{os.environ['PATH']}"}

    def write(self, path: str, text: str) -> None:
        """A script."""
        with open(path, "w", encoding="utf-8") as file:
            file.write(text)
        os.chmod(path, 0o755)

    def run_copy(self, *words: str) -> tuple[int, str, list[str]]:
        """The status, what was told, and the packages that Debian was asked for."""
        done = subprocess.run([self.copy, *words], env=self.env, capture_output=True, text=True, check=False,
                              timeout=60)
        if not os.path.exists(self.asked):
            return done.returncode, done.stderr, []
        with open(self.asked, encoding="utf-8") as file:
            asked = file.read().split()
        os.unlink(self.asked)
        return done.returncode, done.stderr, asked

    def test_each_machine(self) -> None:
        """A shop gets the client, the broker's machine the broker, and neither a browser, nor what only the tests need."""
        shop, broker = ["python3-paho-mqtt"], ["mosquitto"]
        tests = [*broker, *shop, "python3-uvicorn", "chromium", "fonts-dejavu-core", "mypy", "golang-go"]
        gate = ["gcc", "libc6-dev", "valgrind", "curl", "openssl", "python3-pytest", "python3-pip", *tests]
        asked: list[tuple[list[str], list[str]]] = [
            (["--shop"], shop), (["--broker"], broker), ([], broker + shop), (["--tests"], tests), (["--gate"], gate)]
        for words, packages in asked:
            told = "".join(f"install_clients: {it} is missing\n" for it in packages)
            self.assertEqual(self.run_copy(*words), (1, told, packages))
            self.assertEqual(self.run_copy("--check", *words), (1, told, []))

    def test_other_words(self) -> None:
        """A word that is none installs nothing."""
        told = "install_clients: --test is no flag: --shop, --broker, --tests, --gate and --check are\n"
        self.assertEqual(self.run_copy("--test"), (2, told, []))


if __name__ == "__main__":
    unittest.main()
