"""The script of escrow_carrier/README.md, typed as it stands there, prints what stands there."""
from __future__ import annotations

import os
import re
import subprocess
import sys
import tempfile
import textwrap
import unittest

from programs import PACKAGES, escrow_site


class PageTest(unittest.TestCase):
    """A page shows no line that wasn't typed and printed."""

    def test_two_shops_and_a_folder(self) -> None:
        with open(os.path.join(PACKAGES, "escrow_carrier", "README.md"), encoding="utf-8") as file:
            blocks = re.findall("(?:^    .*\n|^\n)+", file.read(), re.M)
        typed, printed = "".join(blocks).split("    PYTHONPATH=clients/python python3 shops.py\n")
        script = textwrap.dedent(typed).strip("\n").split("\n")
        self.assertEqual((script[0], script[-1]), ("cat > shops.py <<'END'", "END"))
        with tempfile.TemporaryDirectory() as folder:
            ran = subprocess.run([sys.executable, "-c", "\n".join(script[1:-1])],
                                 cwd=folder, capture_output=True, text=True, check=False,
                                 env={**os.environ, "PYTHONPATH": PACKAGES, "ESCROW_SITE": escrow_site()})
        self.assertEqual((ran.stdout, ran.stderr), (textwrap.dedent(printed).strip("\n") + "\n", ""))


if __name__ == "__main__":
    unittest.main()
