"""The examples of clients/go/README.md and clients/rust/README.md, typed as they stand there, print what stands there."""

from __future__ import annotations

import os
import re
import shutil
import subprocess
import textwrap
import unittest

from programs import TOP, SiteTest


class OtherClientsTest(SiteTest):
    """A program in a folder of its own, which names the client by its path, without a network."""

    def run_page(self, name: str, **more: str) -> None:
        """Types the blocks of the page of this client, one behind the other, in a folder beside the checkout."""
        with open(os.path.join(TOP, "clients", name, "README.md"), encoding="utf-8") as file:
            blocks = [it for it in re.findall(r"(?:^    .*\n|^\n)+", file.read(), re.M) if it.strip()]
        each = [textwrap.dedent(it).strip("\n").rpartition("\n\n") for it in blocks]
        self.assertEqual(len(each), 2)
        typed, printed = ("\n".join(it[place] for it in each) for place in (0, 2))
        folder = os.path.join(self.place, "seller")
        os.mkdir(folder)
        os.symlink(TOP, os.path.join(self.place, "escrow"))
        told = subprocess.run(["sh", "-ec", typed], cwd=folder, env={**os.environ, **more}, capture_output=True, text=True, check=False)
        self.assertEqual((told.returncode, told.stdout), (0, f"{printed}\n"), told.stderr)

    @unittest.skipUnless(shutil.which("go"), "go isn't there")
    def test_go(self) -> None:
        self.run_page("go", GOPROXY="off", GOFLAGS="-buildvcs=false")

    @unittest.skipUnless(shutil.which("cargo"), "cargo isn't there")
    def test_rust(self) -> None:
        self.run_page("rust", CARGO_TARGET_DIR=os.path.join(self.place, "target"))


if __name__ == "__main__":
    unittest.main()
