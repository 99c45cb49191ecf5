"""Ids of a world that was settled: the new world's sites, whose ids begin anew, tell nothing of them."""

from __future__ import annotations

import asyncio
import subprocess
import unittest
from collections.abc import Callable
from typing import NamedTuple

from programs import SiteTest, escrow_site, records, short_name
import escrow
from escrow import Field, OtherWorld, Outcome, Schema

HALL = Schema(1, (Field("seats", 0, 500, 500),))


class Settled(NamedTuple):
    """Two worlds, one after the other: the folder of the old one, the ids that it committed and one that it didn't, and
    the site of the new one, which has given each of these numbers again: of 1.1, 1.2 and 1.3 it aborted the first."""

    old: str
    committed: list[str]
    aborted: str
    site: escrow.Site


class OtherWorldTest(SiteTest):
    """A site of a new world is asked of an id of the old one."""

    def sold(self, folder: str) -> tuple[list[str], str]:
        """What was committed, 1.1 and 1.2, and what wasn't, 1.3."""
        with escrow.Site(folder, program=escrow_site()) as site:
            told: list[str] = []
            committed = [site.change("seats", -2), site.change("seats", -3, before=told.append)]
            self.assertEqual(told, committed[1:])
            t = site.transaction()
            t.lower("seats", 7)
            t.abort()
            return committed, t.id

    def settled(self) -> Settled:
        """The old world is settled, and the new one begun with what it left."""
        old = self.folder(HALL, name="old", world="concert-17")
        committed, aborted = self.sold(old)
        header = subprocess.run([escrow_site(), "settle", old], capture_output=True, text=True, check=True).stdout
        schema = Schema.parse(header)
        self.assertEqual(schema.fields[0].value, 495)
        site = self.served(self.folder(schema, name="new", world="concert-18"))
        t = site.transaction()
        t.lower("seats", 1)
        t.abort()
        site.change("seats", -1, before=lambda _: None)
        self.assertEqual(site.change("seats", -1), f"{short_name(schema, 'concert-18')}-0-1.3")
        return Settled(old, committed, aborted, site)

    def told(self, world: Settled, ask: Callable[[str], object], id: str) -> str:
        """What is raised where it asks of this id; the site isn't."""
        answers = world.site.counts.answers
        with self.assertRaises(OtherWorld) as raised:
            ask(id)
        fault = raised.exception
        self.assertEqual((fault.id, fault.world, fault.own), (id, id[:8], world.site.world[:8]))
        self.assertIsInstance(fault, ValueError)
        self.assertEqual(world.site.counts.answers, answers)
        return str(fault)

    def test_an_id_of_the_old_world_is_refused(self) -> None:
        world = self.settled()
        shop = escrow.AsyncSite(world.site)
        asks: list[Callable[[str], object]] = [world.site.outcome, lambda id: asyncio.run(self.outcome(shop, id))]
        front = short_name(HALL, "concert-17")
        self.assertEqual([*world.committed, world.aborted], [f"{front}-0-1.{number}" for number in (1, 2, 3)])
        for ask in asks:
            for id in (*world.committed, world.aborted, f"{front}-9.9"):
                told = self.told(world, ask, id)
                self.assertIn(f"{id}: this id is of another world ({front})", told)
                self.assertIn("of what the log still holds; where it let go of some", told)

    async def outcome(self, shop: escrow.AsyncSite, id: str) -> Outcome:
        """What a task is told."""
        return await shop.outcome(id)

    def test_one_that_was_missed_is_looked_up_by_hand(self) -> None:
        """As the text says: what it has to type finds the record of what was committed, and nothing of what wasn't."""
        world = self.settled()
        for id, record in zip((*world.committed, world.aborted), ("C 1 1 0 -2\n", "C 1 2 0 -3\n", "")):
            command = self.told(world, world.site.outcome, id).split(": ")[-1].split(" finds")[0]
            words = ["sh", "-c", command.replace("FOLDER", world.old)]
            self.assertEqual(subprocess.run(words, capture_output=True, text=True, check=False).stdout, record)

    def test_the_old_folder_is_not_served_again(self) -> None:
        world = self.settled()
        with self.assertRaises(escrow.Down) as raised:
            escrow.Site(world.old, program=escrow_site())
        self.assertEqual(raised.exception.status, 3)
        self.assertIn("was settled", str(raised.exception))

    def test_one_that_tells_no_world_is_taken_for_one_of_this(self) -> None:
        site = self.settled().site
        outcomes = [site.outcome(f"1.{number}") for number in (1, 2, 3)]
        self.assertEqual(outcomes, [Outcome.NOT_COMMITTED, Outcome.COMMITTED, Outcome.COMMITTED])
        self.assertEqual(site.outcome(f"{site.world[:8]}-1.1"), Outcome.NOT_COMMITTED)

    def test_the_last_id_of_the_old_world_starts_nothing(self) -> None:
        committed, _ = self.sold(self.folder(HALL, name="old", world="concert-17"))
        new = self.folder(HALL, name="new", world="concert-18")
        with self.assertRaises(OtherWorld) as raised:
            escrow.Site(new, program=escrow_site(), last_id=committed[-1])
        self.assertEqual((raised.exception.id, records(new)), (committed[-1], []))
        site = self.served(new)
        mine = site.change("seats", -2)
        site.close()
        self.served(new, last_id=mine)

    def test_what_is_no_id(self) -> None:
        site = self.settled().site
        front = site.world[:8]
        for word in (f"{front}-", f"{front}-1", f"{front}.1.1", "-1.1", f"{front}-01.1", f"{front.upper()}x-1.1", f"{front}0-1.1",
                     f"{front[:7]}-1.1", f"{front}-{front}-1.1", f"{front}-1.1\n", f" {front}-1.1", f"{front}-1.4294967296"):  # fmt: skip
            with self.assertRaises(ValueError) as raised:
                site.outcome(word)
            self.assertNotIsInstance(raised.exception, OtherWorld, word)


if __name__ == "__main__":
    unittest.main()
