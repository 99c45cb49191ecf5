"""The tests of a `Site`'s calls, over a door: what they are told doesn't differ."""

from __future__ import annotations

import os
import unittest
import unittest.mock

import test_site_calls
import test_site_loops
import test_site_time
from doors import Door, DoorTest, children_of
import escrow


class OverDoor(DoorTest):
    """Each site is behind a door of its own."""

    def served(self, folder: str, **options: object) -> escrow.Site:
        """The site of this folder, behind a door. It tells the process of its site, and the folder."""
        door = self.opened(Door(folder, f"{folder}.door"))
        site = self.connected(door, **options)
        site._supervisor.pid = children_of(door.process.pid)[0]  # type: ignore[misc]
        site.folder = os.path.abspath(folder)
        return site


class TasksOverDoorTest(OverDoor, test_site_calls.AsyncCallTest):
    """Calls of tasks."""


class StillOverDoorTest(OverDoor, test_site_time.StillTransactionTest):
    """A site that stands still."""

    def setUp(self) -> None:
        super().setUp()
        limit = unittest.mock.patch("test_site_time.LIMIT", 3.0)  # in which the door takes a line, also on a busy machine
        limit.start()
        self.addCleanup(limit.stop)

    # Of 64 at once a connection has 32: test_door_stops has that. The other takes long, and the door has no part in it.
    test_in_tasks = None  # type: ignore[assignment]
    test_what_is_told_ahead_raises_over_a_serve_that_stands_still = None  # type: ignore[assignment]


class ReadingOverDoorTest(OverDoor, test_site_loops.TurnTest):
    """Who reads the answers."""

    # Both ask for the status of the site's process, which the door alone knows.
    test_a_loop_that_has_ended_is_left = None  # type: ignore[assignment]
    test_it_is_closed_while_a_loop_reads = None  # type: ignore[assignment]


if __name__ == "__main__":
    unittest.main()
