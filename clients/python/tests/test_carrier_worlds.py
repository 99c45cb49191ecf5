"""Worlds of one header over one medium, at once and one after the other: each has a name of its own, so none spends what another
gave, nothing is sold twice, and none is taken for an old copy of another."""
from __future__ import annotations

import contextlib
import os
import shutil
import subprocess
import tempfile
import threading
import time
import unittest
from collections.abc import Callable
from functools import partial
from typing import NamedTuple

from broker import MISSING, Broker
from programs import commits, escrow_site

from escrow import Down, Kind, Mark, OtherWorld, Short, Site, create
from escrow.schema import Field, Schema
from escrow_carrier import Carrier, Folder, Medium, Policy, last_mark

if not MISSING:
    from escrow_carrier import Mqtt

# Of 500 seats each of the two sites of a hall may sell 250.
HALL = Schema(2, (Field("seats", 0, 500, 500),))
CALM = Policy(quiet=3_600.0, patience=1.0)


class World(NamedTuple):
    """Two sites of a world, with their carriers."""

    sites: list[Site]
    carriers: list[Carrier]

    def lower(self) -> list[int]:
        """What each may sell."""
        return [it.share("seats").lower for it in self.sites]

    def taken(self) -> list[tuple[int, int, int]]:
        """What each carrier has accepted, and what it heard that was none of its world's."""
        return [(it.counts.accepted, it.counts.forged, it.counts.garbage) for it in self.carriers]

    def close(self) -> None:
        """Ends all of it."""
        for carrier in self.carriers:
            carrier.close()
        for site in self.sites:
            site.close()


class Worlds(unittest.TestCase):
    """Halls, in a folder of the test's own, and what is played over each medium."""

    def setUp(self) -> None:
        folder = tempfile.TemporaryDirectory()
        self.addCleanup(folder.cleanup)
        self.folder = folder.name

    def medium(self) -> Medium:
        """For one carrier."""
        raise NotImplementedError

    # What each test begins with.

    def created(self, concert: str, place: str = "", schema: Schema = HALL) -> list[str]:
        """The folders of a new world."""
        folders = [os.path.join(self.folder, f"{place or concert}-{number}") for number in range(2)]
        for number, folder in enumerate(folders):
            create(folder, schema, number, name=concert)
        return folders

    def served(self, folders: list[str]) -> World:
        """Its sites, served and carried for."""
        sites = [Site(it) for it in folders]
        for site in sites:
            self.addCleanup(site.close)
        carriers = [Carrier(it, self.medium(), CALM, 0.2, wait=0.5) for it in sites]
        for carrier in carriers:
            self.addCleanup(carrier.close)
        world = World(sites, carriers)
        self.await_it(lambda: all(None not in it.known("seats", Kind.LOWER).values() for it in carriers))
        return world

    def await_it(self, is_so: Callable[[], bool]) -> None:
        end = time.monotonic() + 120
        while not is_so():
            self.assertLess(time.monotonic(), end, "it doesn't come")
            time.sleep(0.02)

    def await_change(self, carrier: Carrier, change: int) -> str:
        """Commits it, once the other site's rights have come: on a busy machine that site may answer behind the patience."""
        ids: list[str] = []

        def is_committed() -> bool:
            with contextlib.suppress(Short):
                ids.append(carrier.change("seats", change))
            return bool(ids)
        self.await_it(is_committed)
        return ids[0]

    def sell_out(self, world: World) -> None:
        """Both sites sell three at a time, as long as there are any anywhere; then one sells what is left of the 500."""
        sold = []

        def sell(carrier: Carrier) -> None:
            try:
                while True:
                    carrier.change("seats", -3)
                    sold.append(3)
            except Short:
                pass
        threads = [threading.Thread(target=sell, args=(it,)) for it in world.carriers]
        for thread in threads:
            thread.start()
        for thread in threads:
            thread.join()

        def is_sold_out() -> bool:
            try:
                if sum(sold) < 500:
                    world.carriers[0].change("seats", -1)
                    sold.append(1)
            except Short:                               # it is on its way
                pass
            return sum(sold) == 500
        self.await_it(is_sold_out)

    def judge(self, folders: list[str], value: int) -> None:
        """What was committed at both comes to this value, by the logs and by the program."""
        sold = sum(change for folder in folders for changes in commits(folder, HALL).values() for _, change in changes)
        told = subprocess.run([escrow_site(), "check", *folders], capture_output=True, text=True, check=True).stdout
        self.assertEqual((500 + sold, told.splitlines()[-1]), (value, f"field seats value {value} floor 0 ceiling 500"))

    def refused(self, act: Callable[[], object]) -> str:
        """Why a site isn't served."""
        with self.assertRaises(Down) as down:
            act()
        self.assertEqual(down.exception.status, 3)
        return str(down.exception)

    # What happens.

    def test_a_gift_in_one_world_is_none_in_the_other(self) -> None:
        first, second = (self.served(self.created(it)) for it in ("concert-17", "concert-18"))
        self.assertNotEqual(first.sites[0].world, second.sites[0].world)
        self.await_it(lambda: first.carriers[1].fetch("seats", Kind.LOWER, 300))
        self.await_it(lambda: sum(first.lower()) == 500)
        heard = [it.counts.heard for it in second.carriers]
        self.await_it(lambda: all(it.counts.heard > less for it, less in zip(second.carriers, heard)))
        self.assertEqual((second.lower(), second.taken()), ([250, 250], [(0, 0, 0)] * 2))
        first.sites[1].change("seats", -300)
        second.sites[0].change("seats", -250)
        with self.assertRaises(Short):
            second.sites[1].change("seats", -251)

    def test_a_rehearsal_and_the_real_world_sell_out_at_once(self) -> None:
        folders = [self.created(it) for it in ("rehearsal", "opening-night")]
        worlds = [self.served(it) for it in folders]
        threads = [threading.Thread(target=self.sell_out, args=(it,)) for it in worlds]
        for thread in threads:
            thread.start()
        for thread in threads:
            thread.join()
        for world in worlds:
            self.assertEqual(world.lower(), [0, 0])
            self.assertEqual([(forged, garbage) for _, forged, garbage in world.taken()], [(0, 0)] * 2)
            with self.assertRaises(Short):
                world.carriers[1].change("seats", -1)
            world.close()
        for it in folders:
            self.judge(it, 0)

    def test_the_real_world_begins_behind_the_rehearsal(self) -> None:
        """At the same paths, over what the medium has kept of it: statements, shares and marks."""
        folders = self.created("rehearsal", "hall")
        rehearsal = self.served(folders)
        self.await_change(rehearsal.carriers[0], -300)
        ids = [self.await_change(rehearsal.carriers[number], -1) for number in (1, 0)]
        marks = [site.newest_mark() for site in rehearsal.sites]
        rehearsal.close()
        self.judge(folders, 198)
        self.assertEqual([last_mark(it, self.medium(), 60.0) for it in folders], marks)
        for it in folders:
            os.rename(it, f"{it}-rehearsal")
        real = self.served(self.created("opening-night", "hall"))
        self.assertEqual([it.found_mark for it in real.carriers], [None, None])
        self.assertEqual((real.lower(), real.taken()), ([250, 250], [(0, 0, 0)] * 2))
        for site, id in zip(real.sites, ids):
            with self.assertRaises(OtherWorld):
                site.outcome(id)
        self.sell_out(real)
        real.close()
        self.judge(folders, 0)
        self.judge([f"{it}-rehearsal" for it in folders], 198)

    def test_a_copy_of_a_world_that_was_settled(self) -> None:
        """It was made before the last sale. Neither with a carrier nor without one it is served, and neither is its own
        folder; the world that goes on, of the same header, has nothing of it."""
        folders = self.created("monday", "hall")
        old = self.served(folders)
        first = old.carriers[0].change("seats", -1)
        shutil.copytree(folders[0], f"{folders[0]}-copy")
        last = old.carriers[0].change("seats", -1)
        back = old.carriers[0].change("seats", 2)       # so that the header is as it was
        old.close()
        header = subprocess.run([escrow_site(), "settle", *folders], capture_output=True, text=True, check=True).stdout
        self.assertEqual(Schema.parse(header), HALL)
        new = self.served(self.created("tuesday"))
        self.assertEqual(new.lower(), [250, 250])
        self.assertIn("was settled", self.refused(lambda: Site(folders[0])))
        os.rename(folders[0], f"{folders[0]}-settled")
        os.rename(f"{folders[0]}-copy", folders[0])
        for id in (last, back):
            self.assertIn(f"transaction {id} isn't in it", self.refused(partial(Site, folders[0], last_id=id)))
        mark = last_mark(folders[0], self.medium(), 60.0)
        self.assertIn("older than --not-before", self.refused(lambda: Site(folders[0], not_before=mark)))
        with Site(folders[0], last_id=first) as site:   # its books have no later one: the carrier's mark is newer
            with self.assertLogs("escrow.carrier", "ERROR"):
                self.assertIn("older than its mark", self.refused(lambda: Carrier(site, self.medium(), CALM, 0.2, wait=60.0)))
            self.refused(lambda: site.change("seats", -1))
        self.assertEqual(len(commits(folders[0], HALL)), 1)
        self.sell_out(new)
        self.assertEqual((new.lower(), [it.counts.forged for it in new.carriers]), ([0, 0], [0, 0]))

    def test_a_copy_without_a_carrier(self) -> None:
        """By the newest id of the caller's own books, or by the mark that they have: either refuses it, and sells nothing."""
        folder = self.created("monday")[0]
        with Site(folder) as site:
            site.change("seats", -1)
            shutil.copytree(folder, f"{folder}-copy")
            id = site.change("seats", -1)
            mark = site.newest_mark()
        copy = f"{folder}-copy"
        self.assertIn("older than --not-before", self.refused(lambda: Site(copy, not_before=mark)))
        self.assertIn("older than --not-before", self.refused(lambda: Site(copy, not_before=Mark(mark.epoch + 1, 0))))
        self.assertIn(f"transaction {id} isn't in it", self.refused(lambda: Site(copy, last_id=id)))
        self.assertEqual(len(commits(copy, HALL)), 1)
        with Site(folder, not_before=mark, last_id=id) as site:
            self.assertEqual(site.share("seats").lower, 248)


class FolderWorldsTest(Worlds):
    """Over one folder of files."""

    def medium(self) -> Medium:
        return Folder(os.path.join(self.folder, "share"), 0.05)


@unittest.skipIf(MISSING, MISSING)
class BrokerWorldsTest(Worlds):
    """Over one broker."""

    def setUp(self) -> None:
        super().setUp()
        self.broker = Broker(os.path.join(self.folder, "broker"))
        self.addCleanup(self.broker.stop)

    def medium(self) -> Medium:
        return Mqtt(port=self.broker.port)


del Worlds                                              # it is no test by itself


if __name__ == "__main__":
    unittest.main()
