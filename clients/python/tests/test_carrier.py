"""The parts of a carrier that need neither a site nor a broker: topics and payloads, the policy, and the folder of
files."""
from __future__ import annotations

import os
import subprocess
import sys
import tempfile
import time
import unittest
from typing import Optional

from programs import PACKAGES

from escrow import Kind, Mark, Share, Statement
from escrow.schema import Field, Schema
from escrow_carrier import Ask, Folder, Garbage, Gift, Marked, Message, Policy, Shares, Topics

SHOPS = Topics("c0ffee", Schema(3, (Field("stock", 0, 100, 40), Field("seats", -3, 9, 5))))


class MessagesTest(unittest.TestCase):
    """Each message has one topic and one payload, as docs/FORMATS.md has them."""

    spelled: dict[tuple[str, str], Message] = {
        ("escrow/c0ffee/0/given/2/stock/lower", "17"): Statement(0, 2, "stock", Kind.LOWER, 17),
        ("escrow/c0ffee/1/given/0/seats/raise", "1000000000000000000"): Statement(1, 0, "seats", Kind.RAISE, 10**18),
        ("escrow/c0ffee/2/ask/1/stock/lower", "30"): Ask(2, 1, "stock", Kind.LOWER, 30),
        ("escrow/c0ffee/1/shares", "stock 20 30\nseats 0 7\n"):
            Shares(1, {"stock": Share(20, 30), "seats": Share(0, 7)}),
        ("escrow/c0ffee/2/mark", "7 1234"): Marked(2, Mark(7, 1234)),
    }

    def test_each_is_spelled_and_read(self) -> None:
        for (topic, payload), message in self.spelled.items():
            self.assertEqual(SHOPS.spelled(message), (topic, payload))
            self.assertEqual(SHOPS.read(topic, payload.encode()), message)

    def test_all_else_is_garbage(self) -> None:
        good = "escrow/c0ffee/0/given/2/stock/lower"
        told = [(good, it) for it in (
            b"", b"-1", b"017", b"1.0", b" 1", b"1\n", b"1e3", b"18446744073709551616", b"\xff", b"9" * 70_000)]
        told += [(it, b"1") for it in (
            "", "escrow", "escrow/c0ffee", "escrow/c0ffee/0", "escrow/other/0/given/2/stock/lower",
            "escrow/c0ffee/3/given/2/stock/lower", "escrow/c0ffee/0/given/3/stock/lower",
            "escrow/c0ffee/0/given/2/tea/lower", "escrow/c0ffee/0/given/2/stock/both", "escrow/c0ffee/0/given/2/stock",
            f"{good}/more", "escrow/c0ffee/0/told/2/stock/lower", "escrow/c0ffee/00/given/2/stock/lower",
            "escrow/c0ffee/x/given/2/stock/lower", "escrow/c0ffee/3/shares")]
        told += [("escrow/c0ffee/0/shares", it) for it in (
            b"", b"stock 1 2\n", b"stock 1 2\nstock 1 2\n", b"stock 1 2\nseats 1 2\nseats 1 2\n",
            b"stock 1\nseats 1 2\n", b"stock 1 2 3\nseats 1 2\n", b"tea 1 2\nseats 1 2\n",
            b"stock -1 2\nseats 1 2\n", b"stock 1 2\n\nseats 1 2\n")]
        told += [("escrow/c0ffee/0/mark", it) for it in (b"", b"1", b"1 2 3", b"1 -2", b"1\n2")]
        for topic, payload in told:
            with self.subTest(topic=topic, payload=payload[:20]), self.assertRaises(Garbage):
                SHOPS.read(topic, payload)

    def test_what_a_broker_lets_a_site_do(self) -> None:
        self.assertEqual(SHOPS.access(1), [
            "topic write escrow/c0ffee/1/#",
            "topic read escrow/c0ffee/+/given/1/+/+",
            "topic read escrow/c0ffee/+/ask/1/+/+",
            "topic read escrow/c0ffee/+/shares",
            "topic read escrow/c0ffee/1/mark",
        ])


class ListTest(unittest.TestCase):
    """`python3 -m escrow_carrier FOLDER..`."""

    WORLD = "3b0aa9c2a2a6e4a3d4e7c2c3b1f7f4f6e5b9d1c0a8e7f6d5c4b3a29180706050"

    def setUp(self) -> None:
        folder = tempfile.TemporaryDirectory()
        self.addCleanup(folder.cleanup)
        self.folder = folder.name
        header = '{"sites":2,"fields":[{"name":"stock","floor":0,"ceiling":9,"value":5}]}'
        self.write("shop0", f"escrow site 1\nnumber 0\nworld {self.WORLD}\n{header}\n")

    def write(self, name: str, text: str) -> None:
        os.makedirs(f"{self.folder}/{name}")
        with open(f"{self.folder}/{name}/site", "w", encoding="ascii") as file:
            file.write(text)

    def asked(self, *folders: str) -> tuple[int, str, str]:
        told = subprocess.run([sys.executable, "-m", "escrow_carrier", *folders], cwd=self.folder, capture_output=True,
                              text=True, check=False, env={**os.environ, "PYTHONPATH": PACKAGES})
        return told.returncode, told.stdout, told.stderr

    def test_a_list(self) -> None:
        top = f"escrow/{self.WORLD}"
        self.assertEqual(self.asked("shop0"), (0, f"user site0\ntopic write {top}/0/#\ntopic read {top}/+/given/0/+/+\n"
                         f"topic read {top}/+/ask/0/+/+\ntopic read {top}/+/shares\ntopic read {top}/0/mark\n\n", ""))

    def test_a_list_of_a_world_with_a_name_of_its_own(self) -> None:
        header = '{"sites":2,"fields":[{"name":"stock","floor":0,"ceiling":9,"value":5}]}'
        self.write("shop1", f"escrow site 2\nnumber 1\nname concert-17\nworld {self.WORLD}\n{header}\n")
        status, out, told = self.asked("shop1")
        self.assertEqual((status, out.split("\n")[:2], told), (0, ["user site1", f"topic write escrow/{self.WORLD}/1/#"], ""))

    def test_what_is_no_site_is_one_line_and_no_list(self) -> None:
        self.write("torn", "escrow site 1\nnumber 0\n")
        made = "isn't there: look whether its disk is: a site's folder is made by create, once"
        self.assertEqual(self.asked("shop0", "shop1"), (
            3, "", f"escrow_carrier: shop1/site: {made}\n"))
        self.assertEqual(self.asked("shop0", "torn"), (
            3, "", "escrow_carrier: torn/site: isn't as create wrote it: put it back from a copy\n"))
        status, out, told = self.asked()
        self.assertEqual((status, out, told.count("\n")), (2, "", 1))


class PolicyTest(unittest.TestCase):
    """Who is asked, for how many, and how rights are evened out."""

    def test_the_richest_is_asked_first_then_the_unknown_and_the_empty(self) -> None:
        shares: dict[int, Optional[int]] = {0: 5, 1: 90, 2: None, 3: 0, 4: 90}
        asked: list[Optional[int]] = []
        while asked[-1:] != [None]:
            asked.append(Policy().giver(shares, {it for it in asked if it is not None}))
        self.assertEqual(asked, [1, 4, 0, 2, 3, None])

    def test_ten_times_what_is_wanted_is_asked_for(self) -> None:
        self.assertEqual(Policy().wanted(3), 30)
        self.assertEqual(Policy().wanted(10**15), 2 * 10**15)

    def plan(self, shares: dict[int, int]) -> dict[int, list[Gift]]:
        return {giver: Policy(slack=0).gifts(giver, shares) for giver in shares}

    def test_even_parts(self) -> None:
        self.assertEqual(self.plan({0: 30, 1: 0, 2: 0}), {0: [Gift(1, 10), Gift(2, 10)], 1: [], 2: []})
        self.assertEqual(self.plan({0: 0, 1: 25, 2: 20}), {0: [], 1: [Gift(0, 10)], 2: [Gift(0, 5)]})
        self.assertEqual(self.plan({0: 40, 1: 0, 2: 60, 3: 0}),
                         {0: [Gift(1, 15)], 1: [], 2: [Gift(1, 10), Gift(3, 25)], 3: []})
        # (the parts of 11 are 4, 4 and 3, of the sites that are there)
        self.assertEqual(self.plan({1: 11, 5: 0, 7: 0}), {1: [Gift(5, 4), Gift(7, 3)], 5: [], 7: []})

    def test_what_is_even_enough_stays(self) -> None:
        for shares in ({0: 10, 1: 8}, {0: 1, 1: 0, 2: 0}, {0: 0, 1: 0}, {3: 7}):
            for giver in shares:
                self.assertEqual(Policy().gifts(giver, shares), [])
        self.assertEqual(Policy().gifts(0, {0: 13, 1: 7}), [Gift(1, 3)])


class FolderTest(unittest.TestCase):
    """Files carry messages as a broker does: each that is new, the last of each topic to who comes later, questions
    once."""

    def test_a_folder_carries_messages(self) -> None:
        with tempfile.TemporaryDirectory() as path:
            near, far = Folder(path, 0.01), Folder(path, 0.01)
            heard: list[tuple[str, bytes]] = []
            near.open("near", [], lambda _topic, _payload: None, lambda: None)
            near.publish("w/0/given/1/stock/lower", "5", True)
            near.publish("w/0/ask/1/stock/lower", "7", False)
            far.open("far", ["w/+/given/1/+/+", "w/+/ask/1/+/+"], lambda *it: heard.append((it[0], it[1])),
                     lambda: heard.append(("opened", b"")))
            given, asked = ("w/0/given/1/stock/lower", b"5"), ("w/0/ask/1/stock/lower", b"9")
            self.await_heard(heard, [given, ("opened", b"")])    # what is kept comes first
            near.publish("w/0/ask/1/stock/lower", "9", False)
            near.publish("w/0/given/2/stock/lower", "6", True)
            self.await_heard(heard, [given, ("opened", b""), asked])
            near.publish("w/0/given/1/stock/lower", "5", True)
            self.await_heard(heard, [given, ("opened", b""), asked, given])
            near.close()
            far.close()
            self.assertEqual(sorted(os.listdir(f"{path}/w/0/given/1/stock")), ["lower"])

    def await_heard(self, heard: list[tuple[str, bytes]], wanted: list[tuple[str, bytes]]) -> None:
        end = time.monotonic() + 60
        while len(heard) < len(wanted) and time.monotonic() < end:
            time.sleep(0.01)
        time.sleep(0.05)
        self.assertEqual(heard, wanted)


if __name__ == "__main__":
    unittest.main()
