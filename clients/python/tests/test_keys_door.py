"""Keys of callers through a door: whoever comes in by it, each key once."""

from __future__ import annotations

import os
import signal
import threading
import time
import unittest

import test_keys
from doors import Between, DoorTest, children_of
from programs import LARGE, LONG, SHOP, commits, escrow_site, of_shop, stand_still, wait_until
from test_door_calls import OverDoor
import escrow
from escrow import Outcome, Share

ENDED = "refused 4 no transaction: it has ended, or was begun by no line of this connection"
BAD = "bad line: the door takes no such line"


class OnceOverDoorTest(OverDoor, test_keys.OnceTest):
    """What calls with keys are told doesn't differ."""


class LinesTest(DoorTest):
    """The lines of a connection."""

    def test_a_commit_with_a_key_ends_the_transaction(self) -> None:
        door = self.door(SHOP)
        ours, others = self.hand(door), self.hand(door)
        self.assertEqual(ours.told("kept key a", "0 begin", "0 escrow .1 stock -3", "0 commit .1 key a", "kept key a"),
                         ["kept key a -> no", "0 begin -> begun 1.1", "0 escrow 1.1 stock -3 -> granted",
                          "0 commit 1.1 -> committed", "kept key a -> 1.1"])  # fmt: skip
        told = others.told("0 begin", "0 escrow .1 stock -3", "0 commit .1 key a", "0 commit 1.2", "0 share stock", "kept 1.2")
        share = "0 share stock -> share 17 33"
        self.assertEqual(told[2:], ["kept key a -> 1.1", f"0 commit 1.2 -> {ENDED}", share, "kept 1.2 -> no"])
        for count in range(2, 72):  # no place is lost
            told = others.told("0 begin", f"0 escrow .{count} stock -17", f"0 commit .{count} key a")
            self.assertTrue(told[1].endswith(" -> granted"))
            self.assertEqual(told[2], "kept key a -> 1.1")

    def test_lines_that_are_none_end_nothing(self) -> None:
        hand = self.hand(self.door(SHOP))
        hand.told("0 begin", "0 escrow .1 stock -3")
        for line in ("0 commit .1 key", "0 commit .1 key a b", "0 commit .1 key a/b", "0 commit .1 word a", "0 abort .1 key a",
                     f"0 commit .1 key {'x' * 65}", "kept key", "kept key a b", "kept key a/b", f"kept key {'x' * 65}"):  # fmt: skip
            told = hand.told(line)
            self.assertIn(told, ([BAD], [f"{line} -> no"]) if line == "kept key" else ([BAD],))
        told = hand.told("0 commit .2 key a", "0 commit .1 key a")
        self.assertEqual(told, [f"0 commit .2 -> {ENDED}", "0 commit 1.1 -> committed"])


class SharedTest(DoorTest):
    """Several clients."""

    def test_two_connections(self) -> None:
        door = self.door(SHOP)
        ours, others = self.connected(door), self.connected(door)
        id = ours.change("stock", -3, key="order")
        self.assertEqual((others.change("stock", -3, key="order"), others.kept_key("order")), (id, id))
        with others.transaction() as t:
            t.lower("stock", 17)
            self.assertEqual(t.commit(key="order"), id)
        self.assertEqual((others.outcome(t.id), ours.share("stock")), (Outcome.NOT_COMMITTED, Share(17, 33)))
        others.change("stock", -17)
        self.assertEqual((ours.change("stock", -3, key="order"), ours.open, others.open), (id, 0, 0))
        with self.assertRaises(escrow.Short):
            others.change("stock", -3, key="new")
        mark = others.newest_mark()
        door.close()
        self.assertEqual(mark, escrow.show(door.folder, escrow_site()).mark)
        self.assertEqual(list(commits(door.folder, SHOP)), [of_shop("1.1"), of_shop("1.4")])

    def test_both_ask_at_once(self) -> None:
        door = self.door(LARGE)
        sites = [self.connected(door) for _ in range(2)]
        told: list[tuple[str, str]] = []

        def buys(site: escrow.Site) -> None:
            for number in range(30):
                told.append((f"order-{number}", site.change("stock", -1, key=f"order-{number}")))

        threads = [threading.Thread(target=buys, args=(site,)) for site in sites * 3]
        for thread in threads:
            thread.start()
        for thread in threads:
            thread.join()
        self.assertEqual((len(told), len(set(told)), len({id for _, id in told})), (180, 30, 30))
        self.assertEqual(sites[0].share("stock").lower, 500_000 - 30)

    def test_a_commit_that_is_under_way(self) -> None:
        """The other is told the id of the first, though it is asked before that is answered."""
        door = self.door(SHOP)
        ours, others = self.hand(door), self.hand(door)
        for hand in (ours, others):
            hand.told("0 begin", "0 escrow .1 stock -3")
        serve = children_of(door.process.pid)[0]
        stand_still(serve)
        ours.ask("0 commit .1 key order")
        self.assertEqual(ours.line(), "door took 1 1.3")
        others.ask("0 commit .1 key order")
        self.assertEqual(others.line(), "door took 1 1.3")
        os.kill(serve, signal.SIGCONT)
        self.assertEqual((ours.line(), others.line()), ("0 commit 1.1 -> committed", "kept key order -> 1.1"))
        self.assertEqual(ours.told("0 share stock"), ["0 share stock -> share 17 33"])

    def test_a_commit_in_doubt_is_asked_for_again(self) -> None:
        door = self.door(SHOP)
        site, serve = self.connected(door), children_of(door.process.pid)[0]

        def before(_: str) -> None:
            stand_still(serve)

        began = time.monotonic()
        with self.assertRaises(escrow.Unknown) as raised:
            site.change("stock", -20, before, key="order", timeout=5.0)  # its first trip is made in time
        self.assertLess(time.monotonic() - began, 5.0 + 3.5)
        os.kill(serve, signal.SIGCONT)
        self.assertEqual((raised.exception.id, raised.exception.key), (of_shop("1.1"), "order"))
        self.assertEqual(site.change("stock", -20, key="order"), of_shop("1.1"))
        self.assertEqual((site.kept_key("order"), site.share("stock")), (of_shop("1.1"), Share(0, 50)))

    def test_a_door_that_dies_before_it_takes_a_commit(self) -> None:
        door = self.door(SHOP)
        site, told = self.connected(door, backoff=escrow.Backoff(0.01, 0.05)), []  # type: escrow.Site, list[str]

        def before(id: str) -> None:
            told.append(id)
            if len(told) == 1:
                door.kill()
                wait_until(lambda: not site.up)
                door.start()

        self.assertEqual(site.change("stock", -3, before, key="order"), of_shop("2.1"))
        self.assertEqual((told, site.kept_key("order")), ([of_shop("1.1"), of_shop("2.1")], of_shop("2.1")))
        self.assertEqual(site.share("stock"), Share(17, 33))

    def test_what_a_program_in_between_leaves_in_doubt_is_asked_for_again(self) -> None:
        """Nobody knows whether the door had taken it, so whether it is done yet: with its key it is done once."""
        door = self.door(SHOP)
        between = Between(f"{door.path}.far", door.path)
        self.addCleanup(between.close)
        site = escrow.Site.connect(f"{door.path}.far", timeout=LONG, wait=LONG, backoff=escrow.Backoff(0.01, 0.05))
        self.addCleanup(site.close)
        t, told = site.transaction(), []  # type: escrow.Transaction, list[object]
        t.lower("stock", 3)
        door.stand_still()

        def commits_it() -> None:
            try:
                told.append(t.commit(key="order"))
            except escrow.EscrowError as fault:
                told.append(fault)

        thread = threading.Thread(target=commits_it)
        thread.start()
        wait_until(lambda: b"0 commit 1.1 key order\n" in between.passed)
        site.pipeline.cut()  # type: ignore[attr-defined]
        thread.join()
        fault = told[0]
        assert isinstance(fault, escrow.Unknown), fault
        self.assertEqual((fault.id, fault.key), (of_shop("1.1"), "order"))
        door.go_on()
        self.assertEqual(site.change("stock", -3, key="order"), of_shop("1.1"))
        door.stand_still()
        with self.assertRaises(escrow.Unknown) as raised:
            site.change("stock", -2, key="other", timeout=0.5)
        self.assertEqual((raised.exception.id, raised.exception.key), (None, "other"))
        door.go_on()
        id = site.change("stock", -2, key="other")
        self.assertEqual((site.change("stock", -2, key="other"), site.share("stock")), (id, Share(15, 35)))

    def test_a_program_that_does_not_know_keys(self) -> None:
        program = os.path.join(self.place, "older")
        with open(program, "w", encoding="ascii") as file:
            file.write(test_keys.OLDER.format(real=escrow_site()))
        os.chmod(program, 0o755)
        door = self.door(SHOP, program=program)
        site = self.connected(door)
        for change in (-3, -21):
            with self.assertRaises(escrow.NoKeys):
                site.change("stock", change, key="order")
        with self.assertRaises(escrow.NoKeys):
            site.kept_key("order")
        self.assertEqual((site.share("stock"), site.open, site.counts.stops), (Share(20, 30), 0, 0))
        self.assertEqual(site.change("stock", -3), of_shop("1.3"))


if __name__ == "__main__":
    unittest.main()
