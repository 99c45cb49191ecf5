"""More who come in than a door has room for, and doors that find no descriptor."""

from __future__ import annotations

import errno
import os
import resource
import socket
import time
import unittest
import unittest.mock

from doors import Door, DoorTest, Hand, children_of, kill_child
from programs import LONG, SHOP, escrow_site, of_shop, wait_until
import escrow
from escrow.door.run import most_connections
from escrow.door.served import Served

MOST = 512
"""How many connections a door has at most."""
SPARE = 32
"""How many descriptors it keeps for itself."""
NONE = 4
"""At this limit it gets no further one: it has those in front of it itself."""


def limit(door: Door, descriptors: int) -> None:
    """The door has so many descriptors at most, from now on."""
    hard = resource.prlimit(door.process.pid, resource.RLIMIT_NOFILE)[1]
    resource.prlimit(door.process.pid, resource.RLIMIT_NOFILE, (descriptors, hard))


def worked(door: Door) -> float:
    """The seconds that it has used of a processor."""
    with open(f"/proc/{door.process.pid}/stat", encoding="ascii") as file:
        words = file.read().rsplit(")", 1)[1].split()
    return (int(words[11]) + int(words[12])) / os.sysconf("SC_CLK_TCK")


class CrowdTest(DoorTest):
    """As many as may come in, and one more."""

    def setUp(self) -> None:
        super().setUp()
        soft, hard = resource.getrlimit(resource.RLIMIT_NOFILE)
        resource.setrlimit(resource.RLIMIT_NOFILE, (min(hard, max(soft, 2 * MOST)), hard))
        self.addCleanup(resource.setrlimit, resource.RLIMIT_NOFILE, (soft, hard))

    def peer(self, door: Door) -> socket.socket:
        """Somebody at its socket, who may not be let in."""
        peer = socket.socket(socket.AF_UNIX)
        self.addCleanup(peer.close)
        peer.settimeout(LONG)
        peer.connect(door.path)
        return peer

    def told(self, door: Door) -> str:
        """What the next who comes is told first."""
        return self.peer(door).recv(1 << 10).decode().partition("\n")[0]

    def fill(self, door: Door, many: int) -> list[Hand]:
        """So many come in."""
        return [self.hand(door) for _ in range(many)]

    def test_one_too_many_is_told_so_and_one_that_has_gone_ends_nobody(self) -> None:
        door = self.door(SHOP)
        hands = self.fill(door, MOST)
        self.assertEqual(self.told(door), "door end 512 connections are there, and no more may be: end some")
        door.stand_still()
        for _ in range(3):
            self.peer(door).close()
        door.go_on()
        self.assertEqual(hands[0].told("0 share stock"), ["0 share stock -> share 20 30"])
        hands[1].close()
        wait_until(lambda: self.told(door) == "escrow door 1")
        self.assertEqual(hands[-1].told("0 begin"), ["0 begin -> begun 1.1"])

    def test_a_door_of_few_descriptors_keeps_some_for_itself(self) -> None:
        """By them its site is started, and the log read, also while all that may have come in."""
        door = self.door(SHOP)
        door.close()
        soft, hard = resource.getrlimit(resource.RLIMIT_NOFILE)
        resource.setrlimit(resource.RLIMIT_NOFILE, (SPARE + 8, hard))
        try:
            door.start()
        finally:
            resource.setrlimit(resource.RLIMIT_NOFILE, (soft, hard))
        site = self.connected(door)
        hands = self.fill(door, 7)
        self.assertEqual(self.told(door), "door end 8 connections are there, and no more may be: end some, or let the door have "
                         "more descriptors (ulimit -n)")
        self.assertEqual(site.change("stock", -3, key="order", since=site.position()), of_shop("2.1"))
        hands[0].close()
        wait_until(lambda: self.told(door) == "escrow door 1")

    def test_how_many_may_be_there(self) -> None:
        for limit, many in ((resource.RLIM_INFINITY, 512), (1 << 20, 512), (544, 512), (543, 511), (33, 1), (3, 1)):
            with unittest.mock.patch("resource.getrlimit", lambda _, soft=limit: (soft, resource.RLIM_INFINITY)):
                self.assertEqual(most_connections(), many)

    def test_who_finds_no_descriptor_waits_and_the_door_rests(self) -> None:
        door = self.door(SHOP)
        site = self.connected(door)
        limit(door, NONE)
        late = self.peer(door)
        wait_until(lambda: "nobody can come in for a moment: Too many open files" in door.text())
        began = worked(door)
        time.sleep(1.5)
        self.assertLess(worked(door) - began, 0.5)
        self.assertEqual(site.change("stock", -3), of_shop("1.1"))
        limit(door, 2 * MOST)
        self.assertEqual(late.recv(11), b"escrow door")
        self.assertEqual(door.close(), 0)

    def test_a_door_ends_while_nobody_can_come_in(self) -> None:
        door = self.door(SHOP)
        limit(door, NONE)
        self.peer(door)
        wait_until(lambda: "nobody can come in" in door.text())
        self.assertEqual(door.close(), 0)

    def test_a_site_that_finds_no_descriptor_is_started_once_there_is_one(self) -> None:
        door = self.door(SHOP)
        site = self.connected(door, backoff=escrow.Backoff(0.01, 0.05))
        self.assertEqual(site.change("stock", -3), of_shop("1.1"))
        limit(door, NONE)
        kill_child(door)
        wait_until(lambda: "the site isn't started for a moment" in door.text())
        self.assertIsNone(door.process.poll())
        limit(door, 2 * MOST)
        self.assertEqual(site.change("stock", -3), of_shop("2.1"))

    def test_a_log_that_can_not_be_looked_at_ends_the_connections_and_not_the_door(self) -> None:
        door = self.door(SHOP)
        site = self.connected(door, backoff=escrow.Backoff(0.01, 0.05))
        self.assertEqual(site.change("stock", -3), of_shop("1.1"))
        limit(door, NONE)
        with self.assertRaises(escrow.EscrowError):
            site.newest_mark(timeout=3.0)
        wait_until(lambda: "the connections are ended: Too many open files" in door.text())
        limit(door, 2 * MOST)
        self.assertEqual(site.change("stock", -3), of_shop("2.1"))

    def test_a_thread_that_is_not_to_be_had_ends_a_start_alone(self) -> None:
        with unittest.mock.patch("escrow.door.served.Complaints", side_effect=RuntimeError("can't start new thread")):
            with self.assertRaises(OSError) as raised:
                Served([escrow_site(), "serve", self.folder()], None)
        self.assertEqual(raised.exception.errno, errno.EAGAIN)
        self.assertEqual(children_of(os.getpid()), [])


if __name__ == "__main__":
    unittest.main()
