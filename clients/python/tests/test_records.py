"""Reading the file of a log, of each version: how long its records are, as far as it has come, and where a start stands.
The texts are typed by docs/FORMATS.md, and their sums made up: nobody looks at them here."""

from __future__ import annotations

import io
import os
import random
import tempfile
import unittest
from collections.abc import Sequence
from unittest.mock import patch

import programs  # noqa: F401  (finds the package)
from escrow import Down, Mark
from escrow.records import Records, find_last, length_before_start, served_between

HEAD_1 = b"escrow log 1\nnumber 0\nworld 00ff\n"
HEAD_2 = b"escrow log 2\nnumber 0\nworld 00ff\nhead 0 0\nsum 0123456789abcdef\n"
HEAD_3 = b"escrow log 3\nnumber 0\nworld 00ff\nhead 1000 70\nhorizon 1 2 1\nsum 0123456789abcdef\n"
"""Of one that has let go of 1,000 bytes."""
BATCHES = (b"R 1\n", b"C 1 1 0 -3\nC 1 2 0 -3\n", b"G 1 0 l 7\n", b"R 2\nS 2 1 0 50\nC 2 1 0 -1\n")
"""4, 22, 10 and 26 bytes."""
WINDOWS = (8, 21, 64, 1 << 16)


def text_1(batches: Sequence[bytes] = BATCHES, torn: bytes = b"") -> bytes:
    """A log of version 1."""
    return HEAD_1 + b"".join(batches) + torn


def text_2(batches: Sequence[bytes] = BATCHES, torn: bytes = b"") -> bytes:
    """A log of version 2, each batch with its sum."""
    return HEAD_2 + b"".join(b"%ssum %016x\n" % (it, place) for place, it in enumerate(batches)) + torn


def text_3(batches: Sequence[bytes] = BATCHES, torn: bytes = b"") -> bytes:
    """A log of version 3: as one of version 2, behind another head."""
    return HEAD_3 + text_2(batches, torn)[len(HEAD_2) :]


class LogTest(unittest.TestCase):
    """A log in a folder of its own."""

    def setUp(self) -> None:
        folder = tempfile.TemporaryDirectory()
        self.addCleanup(folder.cleanup)
        self.folder, self.path = folder.name, os.path.join(folder.name, "log")

    def write(self, text: bytes) -> None:
        """The log is this, in the file that it is in."""
        with open(self.path, "wb") as file:
            file.write(text)

    def add(self, text: bytes) -> None:
        """And this behind it."""
        with open(self.path, "ab") as file:
            file.write(text)


class LengthTest(LogTest):
    """How long the records are."""

    def test_each_version(self) -> None:
        """In the third with what was let go of."""
        for make, gone in ((text_1, 0), (text_2, 0), (text_3, 1000)):
            for many, length in ((0, 0), (1, 4), (2, 26), (3, 36), (4, 62)):
                self.write(make(BATCHES[:many]))
                self.assertEqual(Records(self.path).length(), gone + length, (make, many))
        self.write(text_3(torn=b"C 2 2 0 -1\nsum 00"))
        self.assertEqual(Records(self.path).length(), 1062)

    def test_a_log_is_shortened_while_it_is_looked_at(self) -> None:
        """It is put in the place of the other, and its length only grows: a note of a key was let go of too."""
        self.write(text_2((b"K 1 1 4B\nC 1 1 0 -3\n", *BATCHES)))
        found = Records(self.path)
        self.assertEqual(found.length(), 11 + 62)
        with open(f"{self.path}.new", "wb") as file:
            file.write(text_3(BATCHES[2:]).replace(b"head 1000 70", b"head 37 4"))
        os.replace(f"{self.path}.new", self.path)
        self.assertEqual(found.length(), 11 + 62)
        self.add(b"C 2 2 0 -1\nsum 00000000000000ff\n")
        self.assertEqual(found.length(), 11 + 62 + 11)

    def test_a_torn_end(self) -> None:
        """In version 1 it counts, as what stands in the file; in version 2 what no sum closes doesn't, wherever it is torn."""
        self.write(text_1(torn=b"C 2 2 0"))
        self.assertEqual(Records(self.path).length(), 62 + 7)
        torn = b"C 2 2 0 -1\nC 2 3 0 -1\nsum 00000000000000ff\n"
        for end in range(len(torn)):
            self.write(text_2(torn=torn[:end]))
            self.assertEqual(Records(self.path).length(), 62, torn[:end])
        self.write(text_2(torn=torn))
        self.assertEqual(Records(self.path).length(), 62 + 22)

    def test_it_reads_on_from_where_it_was(self) -> None:
        """A look behind each byte that is added, and behind pieces: with windows that end anywhere."""
        text, ends = text_2(), [len(text_2(BATCHES[:many])) for many in range(5)]
        lengths = [0, 4, 26, 36, 62]
        dice = random.Random(7)
        for window in WINDOWS:
            with patch("escrow.records.WINDOW", window):
                for most in (1, 5, 60):
                    self.write(HEAD_2)
                    found, at = Records(self.path), len(HEAD_2)
                    while at < len(text):
                        more = dice.randint(1, most)
                        self.add(text[at : at + more])
                        at = min(len(text), at + more)
                        expected = max(length for end, length in zip(ends, lengths) if end <= at)
                        self.assertEqual(found.length(), expected, (window, at))
                    os.unlink(self.path)

    def test_notes_of_keys_do_not_count(self) -> None:
        """Wherever windows and looks end: in version 1 a note that isn't whole yet doesn't either."""
        noted = (b"R 1\n", b"K 1 1 6F72\nC 1 1 0 -3\n", b"K 1 2 4B\nK 1 3 2E\nC 1 2 0 -3\nC 1 3 0 -3\n", b"K 1 4 4B20\n")
        lengths = (4, 15, 37, 37)
        for window in WINDOWS:
            with patch("escrow.records.WINDOW", window):
                for make in (text_1, text_2):
                    for many in range(4):
                        self.write(make(noted[: many + 1]))
                        self.assertEqual(Records(self.path).length(), lengths[many], (window, make, many))
                    self.write(make(()))
                    found = Records(self.path)
                    for many in range(4):
                        self.add(make(noted[: many + 1])[len(make(noted[:many])) :])
                        self.assertEqual(found.length(), lengths[many], (window, make, many))
        for torn, more in ((b"K", 0), (b"K 1 5 6", 0), (b"C 1", 3)):
            self.write(text_1(noted, torn))
            self.assertEqual(Records(self.path).length(), 37 + more, torn)

    def test_what_was_read_is_not_read_again(self) -> None:
        self.write(text_2())
        found = Records(self.path)
        self.assertEqual(found.length(), 62)
        with open(self.path, "r+b") as file:  # nobody does so: it is seen by it what was read
            file.seek(len(HEAD_2))
            file.write(b"-" * (len(text_2()) - len(HEAD_2)))
        self.add(b"C 2 2 0 -1\nsum 00000000000000ff\n")
        self.assertEqual(found.length(), 62 + 11)

    def test_a_torn_end_is_cut_and_the_log_goes_on(self) -> None:
        self.write(text_2(torn=b"C 2 2 0 -1\nsum 00"))
        found = Records(self.path)
        self.assertEqual(found.length(), 62)
        os.truncate(self.path, len(text_2()))
        self.assertEqual(found.length(), 62)
        self.add(b"R 3\nsum 00000000000000ff\n")
        self.assertEqual(found.length(), 66)

    def test_another_log_in_its_place(self) -> None:
        """A shorter one in the same file, and one in a file of its own, also of the other version."""
        self.write(text_2())
        found = Records(self.path)
        self.assertEqual(found.length(), 62)
        self.write(text_2(BATCHES[:2]))
        self.assertEqual(found.length(), 26)
        for text, length in ((text_1(BATCHES[:3]), 36), (text_2(), 62)):
            os.rename(self.path, f"{self.path}.old")
            self.write(text)
            self.assertEqual(found.length(), length)

    def test_what_is_no_log(self) -> None:
        with self.assertRaises(OSError):
            Records(self.path).length()
        for text in (b"", b"escrow log 1", text_2().replace(b"log 2", b"log 4", 1)):
            self.write(text)
            with self.assertRaises(Down) as down:
                Records(self.path).length()
            self.assertEqual(down.exception.status, 3)


class StartTest(LogTest):
    """Where a start stands."""

    def test_the_length_before_it(self) -> None:
        for make, gone in ((text_1, 0), (text_2, 0), (text_3, 1000)):
            for window in WINDOWS:
                with patch("escrow.records.WINDOW", window):
                    self.write(make())
                    self.assertEqual([length_before_start(self.path, it) for it in (1, 2, 3)], [gone, gone + 36, None])
        self.write(text_3(BATCHES[3:]))  # the first start was let go of
        self.assertEqual([length_before_start(self.path, it) for it in (1, 2)], [None, 1000])
        self.write(text_2((b"R 1\n", b"C 1 1 0 -1\nR 2\nC 2 1 0 -1\n")))  # a start within a batch
        self.assertEqual(length_before_start(self.path, 2), 15)
        for make in (text_1, text_2):  # and notes of keys in front of it
            self.write(make((b"R 1\n", b"K 1 1 4B\nC 1 1 0 -1\nR 2\nK 2 1 4C\nC 2 1 0 -1\n")))
            self.assertEqual(length_before_start(self.path, 2), 15)

    def test_whether_somebody_else_served_between(self) -> None:
        """Our run began epoch 1, and sold; the one that has just begun is of epoch 3."""
        nobody = (b"R 1\n", b"C 1 1 0 -3\n", b"R 2\n", b"R 3\nS 3 1 0 50\n")
        sold = (b"R 1\n", b"C 1 1 0 -3\n", b"R 2\n", b"C 2 1 0 -3\n", b"R 3\nS 3 1 0 50\n")
        other = (b"R 1\n", b"R 3\n")
        for make in (text_1, text_2, text_3):
            for batches, is_so in ((nobody, False), (sold, True), (other, True)):
                self.write(make(batches))
                self.assertIs(served_between(self.folder, Mark(1, 4), Mark(3, 0)), is_so, (make, batches))
                self.assertFalse(served_between(self.folder, Mark(2, 4), Mark(3, 0)))
        self.write(text_3((b"S 2 1 0 50\n", b"R 3\n")))  # what would tell was let go of
        self.assertTrue(served_between(self.folder, Mark(1, 4), Mark(3, 0)))
        os.unlink(self.path)
        self.assertTrue(served_between(self.folder, Mark(1, 4), Mark(3, 0)))

    def test_bytes_are_found_across_windows(self) -> None:
        with patch("escrow.records.WINDOW", 8):
            for place in range(40):
                text = b"-" * place + b"\nR 2\n" + b"-" * 20
                self.assertEqual(find_last(io.BytesIO(text), b"\nR 2\n", len(text)), place)
                self.assertEqual(find_last(io.BytesIO(text), b"\nR 3\n", len(text)), -1)
                self.assertEqual(find_last(io.BytesIO(text), b"\nR 2\n", place + 4), -1)


if __name__ == "__main__":
    unittest.main()
