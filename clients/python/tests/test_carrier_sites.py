"""Carriers between real sites: over a medium in memory, and over a folder of files. Each number is counted by hand."""
from __future__ import annotations

import asyncio
import os
import shutil
import signal
import tempfile
import time
import unittest
from collections.abc import Callable
from typing import Optional

from hub import Hub

from escrow import AsyncSite, Down, Interval, Kind, Mark, Share, Short, Site, create
from escrow.metrics import Metrics, text_of
from escrow.schema import Field, Schema, identity
from escrow_carrier import AsyncCarrier, Carrier, Folder, Medium, Policy, last_mark

# Each of the three begins with 10 rights to lower the stock, and 24, 23 and 23 to raise it.
SHOPS = Schema(3, (Field("stock", 0, 100, 30),))
NEVER = 3_600.0
PATIENCE = 30.0
"""Seconds in which who is asked answers, also on a busy machine."""
CALM = Policy(quiet=NEVER, patience=PATIENCE)


class Sites(unittest.TestCase):
    """Three sites in folders of their own, with carriers where a test makes them."""

    def setUp(self) -> None:
        folder = tempfile.TemporaryDirectory()
        self.addCleanup(folder.cleanup)
        self.folder, self.hub = folder.name, Hub()
        self.sites = [self.site(number) for number in range(3)]
        self.top = f"escrow/{identity(self.sites[0].folder).world}"

    def site(self, number: int) -> Site:
        folder = os.path.join(self.folder, f"shop{number}")
        create(folder, SHOPS, number, name="shops")
        site = Site(folder, trace=True)
        self.addCleanup(site.close)
        return site

    def carrier(self, number: int, policy: Policy = CALM, refresh: float = 30.0,
                medium: Optional[Medium] = None, wait: float = 2.0) -> Carrier:
        made = Carrier(self.sites[number], medium or self.hub.port(), policy, refresh, wait=wait)
        self.addCleanup(made.close)
        return made

    def carriers(self) -> list[Carrier]:
        return self.met([self.carrier(number) for number in range(3)])

    def met(self, carriers: list[Carrier]) -> list[Carrier]:
        """Once each knows what the others have."""
        self.await_it(lambda: all(None not in it.known("stock", kind).values() for it in carriers for kind in Kind))
        return carriers

    def lower(self) -> list[int]:
        return [site.share("stock").lower for site in self.sites]

    def await_it(self, is_so: Callable[[], bool], seconds: float = 60.0) -> None:
        end = time.monotonic() + seconds
        while not is_so():
            self.assertLess(time.monotonic(), end, f"it doesn't come: {self.lower()}, {self.hub.kept}")
            time.sleep(0.02)


class CarrierTest(Sites):
    """What a carrier does for a site."""

    def test_who_is_short_asks_the_richest(self) -> None:
        carriers = self.carriers()
        carriers[0].change("stock", -10)
        self.assertEqual(self.lower(), [0, 10, 10])
        carriers[0].change("stock", -4)                 # 40 are asked of site 1, which gives 5, half of its 10
        self.assertEqual(self.lower(), [1, 5, 10])
        carriers[0].change("stock", -4)                 # site 2 is the richest now
        self.assertEqual(self.lower(), [2, 5, 5])
        carriers[0].change("stock", -7)                 # 3 of site 1 and then 3 of site 2: half, rounded up
        self.assertEqual(self.lower(), [1, 2, 2])
        carriers[0].change("stock", -5)                 # and all that is left: 1 of each, and again
        self.assertEqual(self.lower(), [0, 0, 0])
        with self.assertRaises(Short):
            carriers[0].change("stock", -1)
        self.assertEqual([site.read("stock").lo for site in self.sites], [0, 0, 0])

    def test_who_was_empty_is_asked_once_it_tells_of_more(self) -> None:
        carriers = self.met([self.carrier(number, CALM, 0.2) for number in range(3)])
        for site in self.sites:
            site.change("stock", -10)
        self.await_it(lambda: carriers[0].known("stock", Kind.LOWER) == {1: 0, 2: 0})
        with self.assertRaises(Short):
            carriers[0].change("stock", -1)
        self.sites[2].change("stock", 12)
        self.await_it(lambda: carriers[0].known("stock", Kind.LOWER) == {1: 0, 2: 12})
        carriers[0].change("stock", -5)                 # 50 are asked of site 2, which gives 6, half of its 12
        self.assertEqual((self.lower(), carriers[0].counts.asked), ([1, 0, 6], 1))

    def test_what_all_together_have_not_got_is_asked_of_nobody(self) -> None:
        carriers = self.carriers()
        began = time.monotonic()
        with self.assertRaises(Short) as short:
            carriers[0].change("stock", -31)
        self.assertLess(time.monotonic() - began, PATIENCE / 2)
        self.assertEqual((short.exception.share, self.lower(), carriers[0].counts.asked), (10, [10, 10, 10], 0))
        carriers[0].change("stock", -30)                # and that holds up no other sale
        self.assertEqual(self.lower(), [0, 0, 0])

    def test_who_has_told_nothing_is_asked_and_no_more_once_it_has_told(self) -> None:
        carrier = self.carrier(0, Policy(quiet=NEVER, patience=1.5))
        self.hub.tell(f"{self.top}/1/shares", "stock 10 23\n", True)
        self.await_it(lambda: carrier.known("stock", Kind.LOWER) == {1: 10, 2: None})
        self.assertFalse(carrier.fetch("stock", Kind.LOWER, 31))
        self.assertEqual(carrier.counts.asked, 2)       # of site 1 and site 2, for which nobody answers
        time.sleep(1.5)                                 # until then nobody is asked again
        ears = self.hub.port()                          # site 2 tells as soon as site 1 is asked
        ears.open("ears", [f"{self.top}/0/ask/1/+/+"],
                  lambda _topic, _payload: self.hub.tell(f"{self.top}/2/shares", "stock 10 23\n", True), lambda: None)
        self.assertFalse(carrier.fetch("stock", Kind.LOWER, 31))
        self.assertEqual(carrier.counts.asked, 3)
        ears.close()

    def test_tasks_sell_all_that_there_is(self) -> None:
        carriers = self.carriers()

        async def buy(carrier: AsyncCarrier) -> int:
            sold = 0
            try:
                while True:
                    await carrier.change("stock", -2)
                    sold += 2
            except Short:
                return sold

        async def sell() -> list[int]:
            carrier = AsyncCarrier(carriers[0], AsyncSite(self.sites[0]))
            return await asyncio.gather(*(buy(carrier) for _ in range(8)))

        self.assertEqual(sum(asyncio.run(sell())), 30)
        self.assertEqual(self.lower(), [0, 0, 0])

    def test_rights_to_raise_are_carried_too(self) -> None:
        carriers = self.carriers()
        carriers[1].change("stock", 23)
        carriers[1].change("stock", 20)                 # 12 of the 24 of site 0, and 12 of the 23 of site 2
        self.assertEqual([site.share("stock") for site in self.sites], [Share(10, 12), Share(53, 4), Share(10, 11)])

    def test_what_was_given_before_is_told_at_the_start(self) -> None:
        self.sites[1].give(0, "stock", Kind.LOWER, 3)
        self.carrier(0)
        self.carrier(1)
        self.await_it(lambda: self.lower() == [13, 7, 10])
        self.assertEqual(self.hub.kept[f"{self.top}/1/given/0/stock/lower"], "3")

    def test_what_a_medium_lost_is_told_after_a_start_of_the_site(self) -> None:
        topic = f"{self.top}/1/given/0/stock/lower"
        site, first = self.sites[1], self.carrier(1)
        site.give(0, "stock", Kind.LOWER, 3)
        self.await_it(lambda: topic in self.hub.kept)
        first.close()
        self.hub.kept.clear()
        self.carrier(1)
        self.await_it(lambda: topic in self.hub.kept)
        self.assertEqual(self.hub.kept[topic], "3")

    def test_what_a_medium_lost_is_told_again_in_time(self) -> None:
        topic = f"{self.top}/1/given/0/stock/lower"
        self.carrier(1, refresh=0.3)
        self.sites[1].give(0, "stock", Kind.LOWER, 3)
        self.await_it(lambda: topic in self.hub.kept)
        for _ in range(2):
            self.hub.kept.clear()
            self.await_it(lambda: topic in self.hub.kept)
        self.carrier(0)
        self.await_it(lambda: self.lower() == [13, 7, 10])

    def test_a_kill_of_a_site_stops_no_right(self) -> None:
        carriers = self.carriers()
        for turn in range(1, 6):
            for site in self.sites:
                if site.pid:
                    os.kill(site.pid, signal.SIGKILL)
            self.sites[1].give(0, "stock", Kind.LOWER, 1)
            self.await_it(lambda: self.lower() == [10 + turn, 10 - turn, 10])
        self.assertEqual(carriers[0].counts.gained, 5)

    def test_a_forged_total_hides_no_true_one(self) -> None:
        carriers = self.carriers()
        topic = f"{self.top}/1/given/0/stock/lower"
        for total in (10**17, 10**18, 10**19):          # the room is 66: 100 less 34; above 10^18 it is too large
            self.hub.tell(topic, str(total), True)
        self.sites[1].give(0, "stock", Kind.LOWER, 3)
        self.await_it(lambda: self.lower() == [13, 7, 10])
        self.assertEqual((carriers[0].counts.forged, carriers[0].counts.garbage), (2, 1))
        self.assertEqual(self.hub.kept[topic], "3")

    def test_messages_come_twice_late_and_in_another_order(self) -> None:
        carriers = self.carriers()
        topic = f"{self.top}/1/given/0/stock/lower"
        for _ in range(3):
            self.sites[1].give(0, "stock", Kind.LOWER, 1)
        for total in ("2", "3", "1", "1", "3", "2"):
            self.hub.tell(topic, total, True)
        self.await_it(lambda: self.lower() == [13, 7, 10])
        self.await_it(lambda: carriers[0].counts.stale >= 6)
        self.assertEqual((self.lower(), carriers[0].counts.gained), ([13, 7, 10], 3))

    def test_in_quiet_times_rights_are_evened_out(self) -> None:
        self.sites[0].change("stock", -10)
        for number in range(3):                         # (each look is late on a busy machine, and who looks too late is away)
            self.carrier(number, Policy(quiet=0.3), 0.5)
        left: list[int] = []

        def is_even() -> bool:                          # (parts are 7, 7 and 6, and what is within a quarter stays)
            left[:] = self.lower()
            return min(left) >= 5 and max(left) <= 8 and sum(left) == 20 and self.raise_() == 80

        def stays() -> bool:
            is_well = is_even()
            time.sleep(2 if is_well else 0)
            return is_well and self.lower() == left and self.raise_() == 80
        self.await_it(stays)
        self.assertEqual((min(left) >= 5, max(left) <= 8, sum(left)), (True, True, 20))

    def raise_(self) -> int:
        """How many rights to raise are free at all sites together."""
        return sum(site.share("stock").raise_ for site in self.sites)

    def test_what_is_on_its_way_is_not_given_twice(self) -> None:
        carriers = self.met([self.carrier(number, CALM, 2.0) for number in range(3)])
        carriers[2].close()                             # of the others one is left to give
        self.sites[0].change("stock", -10)
        self.await_it(lambda: carriers[1].known("stock", Kind.LOWER) == {0: 0})
        pid, given = self.sites[0].pid, 0
        assert pid is not None
        for _ in range(8):                              # (on a busy machine a look comes late, and finds site 0 away)
            os.kill(pid, signal.SIGSTOP)
            carriers[1].policy = Policy(quiet=0.3)
            time.sleep(5)                               # two or three looks, before site 0 is held for away
            carriers[1].policy, given = CALM, carriers[1].counts.evened
            os.kill(pid, signal.SIGCONT)
            if given:
                break
            last = carriers[1]._reports[0].at           # site 0 tells anew that it has none
            self.await_it(lambda last=last: carriers[1]._reports[0].at > last)  # type: ignore[misc]
        self.assertEqual(given, 5)
        self.await_it(lambda: self.lower() == [5, 5, 10])

    def test_who_is_away_is_neither_asked_nor_given_to(self) -> None:
        policy = Policy(quiet=0.3, patience=PATIENCE)
        carriers = self.met([self.carrier(number, policy, 2.0) for number in range(3)])
        carriers[2].close()
        self.await_it(lambda: all(2 not in it.known("stock", Kind.LOWER) for it in carriers[:2]))
        self.sites[0].change("stock", -10)
        self.await_it(lambda: self.lower() == [5, 5, 10])
        with self.assertRaises(Short):
            carriers[0].change("stock", -11)            # the two that are there have 10
        self.assertEqual((self.lower()[:2], carriers[0].counts.asked), ([5, 5], 0))
        carriers[0].change("stock", -7)                 # site 1 gives 3, half of its 5
        self.assertEqual((sum(self.lower()[:2]), carriers[0].counts.asked), (3, 1))
        self.assertEqual(self.sites[2].read("stock"), Interval(10, 77))

    def test_an_old_copy_of_a_log_is_found(self) -> None:
        site = self.sites[0]
        copy = os.path.join(self.folder, "copy")
        site.close()
        shutil.copytree(site.folder, copy)
        self.sites[0] = Site(site.folder, trace=True)   # its second start, and the copy has had one
        self.addCleanup(self.sites[0].close)
        carrier = self.carrier(0)
        self.await_it(lambda: f"{self.top}/0/mark" in self.hub.kept)
        carrier.close()
        self.sites[0].close()
        mark = last_mark(copy, self.hub.port())
        self.assertEqual(mark, Mark(2, 8))              # R 1 and R 2, each with its line feed
        with self.assertRaises(Down) as down:
            Site(copy, trace=True, not_before=mark)
        self.assertEqual(down.exception.status, 3)
        self.assertIsNone(last_mark(self.sites[1].folder, self.hub.port(), 0.1))
        self.sites[0] = Site(site.folder, trace=True, not_before=mark)
        self.addCleanup(self.sites[0].close)

    def test_what_it_counts_stands_among_the_numbers_of_its_site(self) -> None:
        numbers = Metrics(0)
        carrier = Carrier(self.sites[0], self.hub.port(), CALM, metrics=numbers)
        self.addCleanup(carrier.close)
        with self.assertLogs("escrow.carrier", "ERROR") as logs:
            self.hub.tell(f"{self.top}/1/given/0/stock/lower", str(10**17), False)
            self.await_it(lambda: carrier.counts.forged == 1)
        self.assertEqual([it.getMessage() for it in logs.records], [
            f"{self.sites[0].folder}: a forged statement: that site 1 gave {10**17} rights to lower stock, where there "
            "is room for 66: see who can write to its topics"])
        self.sites[1].give(0, "stock", Kind.LOWER, 3)
        self.carrier(1)
        self.await_it(lambda: self.lower() == [13, 7, 10])
        told = text_of([numbers]).splitlines()
        for line in ('escrow_carrier_forged_total{site="0",giver="1",field="stock"} 1',
                     'escrow_carrier_forged_total{site="0",giver="2",field="stock"} 0',
                     'escrow_carrier_gained_total{site="0"} 3', 'escrow_carrier_accepted_total{site="0"} 1',
                     'escrow_carrier_connected{site="0"} 1'):
            self.assertIn(line, told)
        self.assertEqual(sum(it.startswith("escrow_carrier_forged") for it in told), 2)

    def test_garbage_is_counted_and_does_nothing(self) -> None:
        carriers = self.carriers()
        for payload in ("", "-5", "tea", "1 2", "007"):
            self.hub.tell(f"{self.top}/1/given/0/stock/lower", payload, False)
        self.await_it(lambda: carriers[0].counts.garbage == 5)
        self.assertEqual(self.lower(), [10, 10, 10])


class FolderCarrierTest(Sites):
    """The same over a folder of files: nothing depends on a broker."""

    def test_rights_travel_by_files(self) -> None:
        shared = os.path.join(self.folder, "shared")
        carriers = self.met([self.carrier(number, CALM, 1.0, Folder(shared, 0.05)) for number in range(3)])
        carriers[0].change("stock", -10)
        carriers[0].change("stock", -8)                 # 5 of site 1, and 5 of site 2
        self.assertEqual(self.lower(), [2, 5, 5])
        with open(f"{shared}/{self.top}/1/given/0/stock/lower", encoding="ascii") as file:
            self.assertEqual(file.read(), "5")


if __name__ == "__main__":
    unittest.main()
