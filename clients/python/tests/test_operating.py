"""The examples of docs/OPERATING.md, typed as they stand there, print what stands there; and a folder of version 1, as
the first program that was packed made it, is served."""

from __future__ import annotations

import os
import subprocess
import unittest

from programs import TOP, SiteTest, escrow_site, kill, makes_sums
import escrow
from escrow import Mark, Outcome, Share
from escrow_carrier.marks import marks_of

WORLD = "number 0\nworld 145aa8408cfe4e170aa9ab522fe2e8b9b4c23917b59218cbdada91cf44b1183a\n"
VERSION_1 = {
    "site": f'escrow site 1\n{WORLD}{{"sites":2,"fields":[{{"name":"stock","floor":0,"ceiling":100,"value":40}}]}}\n',
    "log": f"escrow log 1\n{WORLD}R 1\nT 0 r 5\nG 1 0 l 7\nA 1 0 l 3\nC 1 1 0 -2\n"
           "S 1 1 14 27 g 1 0 l 7 a 1 0 l 3 t 0 r 5\n",
    "trace": f"escrow trace 1\n{WORLD}0 restart -> restarted 1 nothing\n0 tighten stock raise 5 -> tightened 5\n"
             "0 give 1 stock lower 7 -> given 7\n0 accept 1 0 stock lower 3 -> accepted 3\n0 begin -> begun 1.1\n"
             "0 escrow 1.1 stock -2 -> granted\n0 commit 1.1 -> committed\n",
}  # fmt: skip
"""Each kind of record: of 20 rights to lower 7 were given, 3 accepted and 2 spent; of 30 to raise 5 given up, and 2
came."""
LOST = "escrow_site: the logs of these sites are lost: 1 2: {}put the newest ones back to settle\n"
SECTIONS = {
    "Choose floors and ceilings": LOST.format("nothing was closed: " if makes_sums() else ""),
    "Reservations that last": "",
    "Begin a new world": "",
}
"""What stands on standard error, by section."""


def blocks(section: str) -> list[str]:
    """The indented blocks of a section of the page, as they would be typed."""
    with open(os.path.join(TOP, "docs", "OPERATING.md"), encoding="utf-8") as file:
        text = file.read().partition(f"\n## {section}\n\n")[2].partition("\n## ")[0]
    pieces = [piece.rstrip("\n").split("\n") for piece in text.split("\n\n") if piece.startswith("    ")]
    return ["".join(f"{line[4:]}\n" for line in lines) for lines in pieces]


class OperatingTest(SiteTest):
    """What is typed, and what it prints: the sections one after another in one folder."""

    def test_examples(self) -> None:
        programs = os.path.join(self.place, "bin")
        os.mkdir(programs)
        os.symlink(escrow_site(), os.path.join(programs, "escrow_site"))
        environment = {**os.environ, "PATH": f"{programs}:{os.environ['PATH']}"}
        for section, fault in SECTIONS.items():
            with self.subTest(section):
                typed, printed = blocks(section)
                words = ["sh", "-c", typed]
                told = subprocess.run(words, cwd=self.place, env=environment, capture_output=True, text=True,
                                      check=False, timeout=60)
                self.assertEqual((told.stdout, told.stderr), (printed, fault))


class VersionTest(SiteTest):
    """Folders of version 1, and of another one."""

    def written(self, files: dict[str, str]) -> str:
        """A folder of these files."""
        folder = os.path.join(self.place, "shop")
        os.makedirs(folder, exist_ok=True)
        for name, text in files.items():
            with open(os.path.join(folder, name), "w", encoding="ascii") as file:
                file.write(text)
        return folder

    def serve(self, files: dict[str, str]) -> subprocess.CompletedProcess[str]:
        """What a folder of these files answers."""
        words, lines = [escrow_site(), "serve", self.written(files), "--trace"], "kept 1.1\n0 share stock\n"
        return subprocess.run(words, input=lines, capture_output=True, text=True, check=False, timeout=60)

    def test_version_1(self) -> None:
        """43 bytes of records, a summary of 40 and the restart, of 4."""
        told = "ready 1 2 87\n0 restart -> restarted 2 nothing\nkept 1.1 -> yes\n0 share stock -> share 14 27\n"
        done = self.serve(VERSION_1)
        self.assertEqual((done.returncode, done.stdout, done.stderr), (0, told, ""))

    def test_a_client_of_version_1(self) -> None:
        """Its ids and marks: the world is named by its header alone, and the log has no sums, also behind a kill."""
        with escrow.Site(self.written(VERSION_1), program=escrow_site(), trace=True, last_id="145aa840-1.1") as site:
            self.assertEqual((site.mark, site.newest_mark()), (Mark(2, 87), Mark(2, 87)))
            id = site.change("stock", -1)               # `C 2 1 0 -1`, of 11 bytes with its line feed
            self.assertEqual((id, site.newest_mark()), ("145aa840-0-2.1", Mark(2, 98)))
            self.assertEqual({site.outcome(it) for it in ("1.1", "145aa840-1.1", id)}, {Outcome.COMMITTED})
            kill(site)
            self.assertEqual((site.share("stock"), site.newest_mark()), (Share(13, 28), Mark(3, 102)))
            self.assertEqual(marks_of(site).start, Mark(1, 83))
        with open(os.path.join(self.place, "shop", "log"), encoding="ascii") as file:
            self.assertEqual(file.read(), VERSION_1["log"] + "R 2\nC 2 1 0 -1\nR 3\n")

    def test_another_version(self) -> None:
        for name, why in (("site", "isn't of escrow site 1 or 2: serve it by the version that made it, or put it back from a copy"),
                          ("log", "isn't the log of this site, or is a later program's: serve it by that, or put its own newest log back"),
                          ("trace", "isn't the trace of this site: put its own newest trace back")):  # fmt: skip
            with self.subTest(name):
                later = VERSION_1[name].replace(" 1\n", " 9\n", 1)
                done = self.serve({**VERSION_1, name: later})
                told = f"escrow_site: {self.place}/shop/{name}: {why}\n"
                self.assertEqual((done.returncode, done.stdout, done.stderr), (3, "", told))
                with open(os.path.join(self.place, "shop", name), encoding="ascii") as file:
                    self.assertEqual(file.read(), later)


if __name__ == "__main__":
    unittest.main()
