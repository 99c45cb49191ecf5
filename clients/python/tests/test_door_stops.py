"""A door, its site and who comes in by it are killed or stand still: what was told is in the log, and nothing twice."""

from __future__ import annotations

import asyncio
import errno
import os
import random
import signal
import socket
import threading
import time
import types
import unittest
import unittest.mock
from collections.abc import Sequence

from doors import Between, Door, DoorTest, Pusher, children_of, kill_child
from programs import LARGE, LONG, SHOP, Act, commits, of_shop, stand_still, wait_until
import escrow
from escrow import Outcome, Share
from escrow.pipeline import Taken
from escrow.shared import SharedPipeline
from escrow.steps import share
from escrow.waiters import ThreadWaiter

TASKS = 16
Told = dict[str, set[str]]


def joined(all_told: list[Told], word: str) -> set[str]:
    """The ids that any process told so. Fails where two told the same."""
    found: set[str] = set()
    for told in all_told:
        assert not found & told.get(word, set())
        found |= told.get(word, set())
    return found


def began(door: Door, hows: Sequence[str], timeout: float = LONG) -> list[Pusher]:
    """Processes that have come in, and sell so."""
    return [pusher.begin() for pusher in [Pusher(door.path, TASKS, how, timeout) for how in hows]]


class ManyTest(DoorTest):
    """Processes that sell at once."""

    def test_two_and_four_processes_sell(self) -> None:
        for many in (2, 4):
            folder = self.folder(LARGE, 0, f"shop{many}")
            door = self.opened(Door(folder, os.path.join(self.place, f"door{many}")))
            pushers = began(door, ("change", "mixed", "before", "change")[:many])
            time.sleep(0.5)
            all_told = [pusher.end() for pusher in pushers]
            site = self.connected(door)
            share = site.share("stock")
            door.close()
            kept = commits(folder, LARGE)
            sold = joined(all_told, "sold")
            self.assertEqual(sold, set(kept))
            self.assertTrue(all(told["sold"] for told in all_told))
            moved = sum(change for changes in kept.values() for field, change in changes if field == "stock")
            self.assertEqual(share, Share(500_000 + moved, 500_000 - moved))


class KilledTest(DoorTest):
    """SIGKILL, at any moment."""

    def judge(self, door: Door, all_told: list[Told], killed: int) -> None:
        """What was told is so. Nobody knows the ids of what was under way in a process that was killed."""
        self.assertEqual(door.close(), 0)
        kept = set(commits(door.folder, LARGE))
        sold, found, lost = (joined(all_told, word) for word in ("sold", "found", "lost"))
        self.assertEqual((sold | found) - kept, set())
        self.assertEqual(lost & kept, set())
        self.assertEqual(sold & found, set())
        self.assertLessEqual(len(kept - sold - found), killed * TASKS)
        self.assertTrue(sold)

    def test_a_door_that_is_killed_and_started_again(self) -> None:
        door, luck = self.door(LARGE), random.Random(5)
        pushers = began(door, ("change", "mixed"))
        for _ in range(3):
            time.sleep(luck.uniform(0.1, 0.3))
            door.kill()
            door.start()
        time.sleep(0.3)
        self.judge(door, [pusher.end() for pusher in pushers], 0)

    def test_its_site_is_killed(self) -> None:
        door, luck = self.door(LARGE), random.Random(6)
        pushers = began(door, ("change", "mixed"), 0.3)
        for _ in range(5):
            time.sleep(luck.uniform(0.1, 0.3))
            kill_child(door)
        wait_until(lambda: any(pusher.has_told("sold") for pusher in pushers))  # on a busy machine few calls are in time
        self.judge(door, [pusher.end() for pusher in pushers], 0)
        self.assertIn("the site stopped, status -9", door.text())

    def test_what_is_busy_over_a_door_that_stands_still_is_never_made(self) -> None:
        door, luck = self.door(LARGE), random.Random(8)
        pushers = began(door, ("change", "mixed"), 0.05)
        for turn in range(200):  # on a busy machine few of them leave a call waiting
            time.sleep(luck.uniform(0.05, 0.2))
            door.stand_still()
            time.sleep(luck.uniform(0.05, 0.2) * min(10, max(1, turn - 16)))
            door.go_on()
            if turn >= 17 and any(pusher.has_told("busy") for pusher in pushers):
                break
        wait_until(lambda: any(pusher.has_told("sold") for pusher in pushers))
        all_told = [pusher.end() for pusher in pushers]
        self.assertTrue(any(told.get("busy") for told in all_told))
        self.judge(door, all_told, 0)

    def test_processes_that_are_killed(self) -> None:
        door, luck = self.door(LARGE), random.Random(7)
        pushers, all_told = began(door, ("mixed",) * 3), []
        for _ in range(3):
            time.sleep(luck.uniform(0.1, 0.2))
            all_told.append(pushers.pop(0).kill())
            pushers += began(door, ("mixed",))
        all_told += [pusher.end() for pusher in pushers]
        site = self.connected(door)
        share = site.share("stock")
        self.judge(door, all_told, 3)
        moved = sum(change for it in commits(door.folder, LARGE).values() for field, change in it if field == "stock")
        self.assertEqual(share, Share(500_000 + moved, 500_000 - moved))  # nothing is set aside any more

    def test_a_change_that_was_taken_and_not_answered_is_told_by_its_id(self) -> None:
        door = self.door(SHOP)
        site = self.connected(door, patience=0.3, backoff=escrow.Backoff(0.01, 0.05))
        fault = self.taken_as_it_dies(door, site)
        assert isinstance(fault, escrow.Unknown)
        self.assertEqual(fault.id, of_shop("1.1"))
        door.start()
        wait_until(lambda: site.up)
        outcome = site.outcome(of_shop("1.1"))
        self.assertEqual(site.change("stock", -1), of_shop("2.1"))
        door.close()
        kept = commits(door.folder, SHOP)
        self.assertEqual(of_shop("1.1") in kept, outcome is Outcome.COMMITTED)
        self.assertEqual(kept[of_shop("2.1")], (("stock", -1),))

    def taken_as_it_dies(self, door: Door, site: escrow.Site) -> BaseException:
        """What a change raises whose door dies once it has taken it, and doesn't come again in time."""
        serve = wait_for_child(door)
        told: list[object] = []
        stand_still(serve)

        def changes() -> None:
            try:
                told.append(site.change("stock", -3))
            except escrow.EscrowError as fault:
                told.append(fault)

        thread = threading.Thread(target=changes)
        thread.start()
        wait_until(lambda: site.unanswered == 1 and not site.pipeline._untaken)  # type: ignore[attr-defined]
        door.kill()
        os.kill(serve, signal.SIGCONT)
        thread.join()
        assert isinstance(told[0], BaseException)
        return told[0]


def wait_for_child(door: Door) -> int:
    """The process of its site, once there is one."""
    wait_until(lambda: children_of(door.process.pid))
    return children_of(door.process.pid)[0]


class StillTest(DoorTest):
    """SIGSTOP: a door that stands still has taken nothing."""

    def test_what_a_door_has_not_taken_is_busy_and_never_made(self) -> None:
        door = self.door(SHOP)
        site = self.connected(door, timeout=0.3, backoff=escrow.Backoff(0.01, 0.05))
        t = site.transaction()
        t.lower("stock", 2, timeout=LONG)
        door.stand_still()
        acts: list[Act] = [lambda: site.change("stock", -1), lambda: site.read("stock"),
                           lambda: site.give(1, "stock", escrow.Kind.LOWER, 1)]  # fmt: skip
        for act in acts:
            began = time.monotonic()
            with self.assertRaises(escrow.Busy):
                act()
            self.assertLess(time.monotonic() - began, 1.0)
        with self.assertRaises(escrow.Over) as raised:
            t.commit()
        self.assertEqual(raised.exception.cause, escrow.Cause.STOPPED)
        door.go_on()
        wait_until(lambda: site.up)
        self.assertEqual(site.share("stock", timeout=LONG), Share(20, 30))
        self.assertEqual(site.change("stock", -1, timeout=LONG), of_shop("1.2"))
        door.close()
        self.assertEqual(list(commits(door.folder, SHOP)), [of_shop("1.2")])

    def test_tasks_are_told_in_time(self) -> None:
        door = self.door(LARGE)

        async def tasks() -> list[object]:
            async with escrow.AsyncSite.connect(door.path, timeout=0.3) as shop:
                await asyncio.gather(*(shop.change("stock", -1, timeout=LONG) for _ in range(64)))
                door.stand_still()
                began = time.monotonic()
                told = await asyncio.gather(*(shop.change("stock", -1) for _ in range(64)), return_exceptions=True)
                self.assertLess(time.monotonic() - began, 1.5)
                door.go_on()
                return list(told)

        told = asyncio.run(tasks())
        self.assertEqual({type(it) for it in told}, {escrow.Busy})
        door.close()
        self.assertEqual(len(commits(door.folder, LARGE)), 64)

    def test_what_it_has_taken_is_in_doubt_with_its_id(self) -> None:
        door = self.door(SHOP)
        site = self.connected(door, timeout=5.0)  # in which the door takes it, also on a busy machine
        serve = wait_for_child(door)
        stand_still(serve)
        with self.assertRaises(escrow.Unknown) as raised:
            site.change("stock", -1)
        os.kill(serve, signal.SIGCONT)
        self.assertEqual(raised.exception.id, of_shop("1.1"))
        self.assertEqual(site.outcome(of_shop("1.1"), timeout=LONG), Outcome.COMMITTED)
        self.assertEqual((site.epoch, site.counts.stops), (1, 0))


class ScarceTest(DoorTest):
    """No descriptor is free for a moment."""

    def test_the_next_connection_is_made_once_there_is_one(self) -> None:
        door = self.door(SHOP)
        site = self.connected(door, backoff=escrow.Backoff(0.01, 0.05))
        left = [OSError(errno.EMFILE, os.strerror(errno.EMFILE)) for _ in range(3)]

        def comes_in(*words: int) -> socket.socket:
            if left:
                raise left.pop()
            return socket.socket(*words)

        with unittest.mock.patch("escrow.connector.socket", types.SimpleNamespace(**{**vars(socket), "socket": comes_in})):
            door.kill()
            wait_until(lambda: not left)
            door.start()
            self.assertEqual(site.change("stock", -1), of_shop("2.1"))


class PieceTest(DoorTest):
    """What comes in pieces, and what is no line of a door."""

    def pipeline(self) -> SharedPipeline:
        """One over a connection whose other end is the test's."""
        pipeline = SharedPipeline(0, "0" * 64, frozenset(["stock"]), lambda statement: None, None)
        near, far = socket.socketpair()
        self.addCleanup(near.close)
        self.addCleanup(far.close)
        self.addCleanup(pipeline.reading.close)
        pipeline.join(1, near, True, False)
        return pipeline

    def test_lines(self) -> None:
        pipeline = self.pipeline()
        for piece in (b"d", b"oor e", b"nd of it", b"\n"):
            self.assertEqual(pipeline.take(piece), Taken([], set(), None))
        self.assertEqual(pipeline.told_end, "of it")
        for line in ("door busy", "door took 1 1.1", "door took x 1.1", "door took", "door", "door what", "0 begin -> no"):
            self.assertIsNotNone(self.pipeline().take(f"{line}\n".encode()).fault, line)

    def test_who_is_late_is_told_where_the_connection_is_not_read_to_its_end(self) -> None:
        """What has come fits no line: whether the door had taken it isn't known, and it isn't asked again, though it may be."""
        pipeline, waiter = self.pipeline(), ThreadWaiter()
        call = share(0, "stock")
        call.answer, call.waiter = None, waiter
        pipeline.submit((call,))
        self.assertIsNone(pipeline.withdraw(call))  # it is told as the connection has ended
        pipeline.doubt_all()
        pipeline.detach()
        pipeline.fall()
        self.assertTrue(waiter.comes(0.0))
        with self.assertRaises(escrow.Busy):
            waiter.wait()
        self.assertEqual(pipeline.unanswered, 0)


class BetweenTest(DoorTest):
    """A program in between, as one that knows TLS: it may have the door's word and not pass it on."""

    def test_what_was_not_told_of_is_in_doubt(self) -> None:
        door = self.door(SHOP)
        between = Between(f"{door.path}.far", door.path)
        self.addCleanup(between.close)
        site = escrow.Site.connect(f"{door.path}.far", timeout=0.5, wait=LONG)
        self.addCleanup(site.close)
        self.assertEqual(site.change("stock", -1, timeout=LONG), of_shop("1.1"))
        door.stand_still()
        with self.assertRaises(escrow.Unknown) as raised:
            site.change("stock", -2)
        self.assertIsNone(raised.exception.id)
        door.go_on()
        wait_until(lambda: site.share("stock", timeout=LONG) == Share(17, 33))
        with site.transaction(timeout=LONG) as t:
            t.lower("stock", 1)
        self.assertEqual(site.outcome(t.id, timeout=LONG), Outcome.COMMITTED)

    def test_a_connection_that_ends(self) -> None:
        door = self.door(SHOP)
        between = Between(f"{door.path}.far", door.path)
        self.addCleanup(between.close)
        site = escrow.Site.connect(f"{door.path}.far", timeout=LONG, wait=LONG, backoff=escrow.Backoff(0.01, 0.05))
        self.addCleanup(site.close)
        t = site.transaction()
        t.lower("stock", 3)
        door.stand_still()
        told: list[object] = []
        threads = [threading.Thread(target=self.tries, args=(act, told)) for act in (lambda: site.change("stock", -2), t.commit)]
        for thread in threads:
            thread.start()
        wait_until(lambda: b"0 change stock -2\n" in between.passed and b"0 commit 1.1\n" in between.passed)
        site.pipeline.cut()  # type: ignore[attr-defined]
        for thread in threads:
            thread.join()
        self.assertEqual([type(it) for it in told], [escrow.Unknown] * 2)
        self.assertEqual({getattr(it, "id") for it in told}, {None, t.id})
        door.go_on()
        wait_until(lambda: site.up and site.share("stock") == Share(15, 35))  # both were passed on
        self.assertEqual(site.outcome(t.id), Outcome.COMMITTED)

    def tries(self, act: Act, told: list[object]) -> None:
        """Keeps what it raises."""
        try:
            told.append(act())
        except escrow.EscrowError as fault:
            told.append(fault)


if __name__ == "__main__":
    unittest.main()
