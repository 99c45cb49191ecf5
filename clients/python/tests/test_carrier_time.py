"""How long a carrier waits: the defaults of `Folder` and `Policy` fit one another, and a `timeout` ends each call."""
from __future__ import annotations

import asyncio
import os
import signal
import tempfile
import time
import unittest
from collections.abc import Callable

from hub import Hub

from programs import escrow_site
from escrow import AsyncSite, Busy, Field, Kind, Schema, Share, Short, Site, Unknown, create
from escrow_carrier import AsyncCarrier, Carrier, Folder, Medium, Policy

SHOPS = Schema(2, (Field("stock", 0, 100, 40),))


class Two(unittest.TestCase):
    """Two sites, with 20 rights to lower the stock each."""

    def setUp(self) -> None:
        folder = tempfile.TemporaryDirectory()
        self.addCleanup(folder.cleanup)
        self.place = folder.name
        self.sites = [self.site(number) for number in (0, 1)]

    def site(self, number: int) -> Site:
        folder = os.path.join(self.place, f"shop{number}")
        create(folder, SHOPS, number, name="shops", program=escrow_site())
        site = Site(folder, program=escrow_site())
        self.addCleanup(site.close)
        return site

    def carrier(self, number: int, medium: Medium, policy: Policy = Policy()) -> Carrier:
        made = Carrier(self.sites[number], medium, policy)
        self.addCleanup(made.close)
        return made


class DefaultsTest(Two):
    """A folder and a policy, both as they come."""

    def test_rights_that_are_there_are_found(self) -> None:
        carriers = [self.carrier(number, Folder(os.path.join(self.place, "share"))) for number in (0, 1)]
        end = time.monotonic() + 20
        while carriers[0].known("stock", Kind.LOWER) != {1: 20}:
            self.assertLess(time.monotonic(), end)
            time.sleep(0.05)
        carriers[0].change("stock", -28)                # 8 more than it has: site 1 gives 10, half of its 20
        self.assertEqual([it.share("stock").lower for it in self.sites], [2, 10])
        self.assertEqual(carriers[0].counts.asked, 1)


class TimeoutTest(Two):
    """A time limit of a carrier's call."""

    def test_others_that_do_not_answer(self) -> None:
        """Nobody is there who could give: it is asked until the time is up, and nothing is sold."""
        hub = Hub()
        carrier = self.carrier(0, hub.port(), Policy(patience=5.0))
        shop = AsyncCarrier(carrier, AsyncSite(self.sites[0], timeout=1.0))
        for sell in (self.sell_here(carrier), self.sell_in_a_task(shop)):
            began = time.monotonic()
            with self.assertRaises(Short):
                sell()
            self.assertLess(time.monotonic() - began, 4.5)  # of the 5 seconds of the policy, a dozen times
        self.assertFalse(carrier.fetch("stock", Kind.LOWER, 28, timeout=1.0))
        self.assertEqual(self.sites[0].share("stock"), Share(20, 30))

    def sell_here(self, carrier: Carrier) -> Callable[[], object]:
        """More than there is here."""
        return lambda: carrier.change("stock", -28, timeout=1.0)

    def sell_in_a_task(self, shop: AsyncCarrier) -> Callable[[], object]:
        """The same in a task, by the time limit of its site."""

        async def sell() -> str:
            return await shop.change("stock", -28)

        return lambda: asyncio.run(sell())

    def test_a_site_that_stands_still(self) -> None:
        carrier, pid = self.carrier(0, Hub().port()), self.sites[0].pid
        assert pid is not None
        os.kill(pid, signal.SIGSTOP)
        try:
            with self.assertRaises(Unknown) as raised:
                carrier.change("stock", -1, timeout=0.3)
            with self.assertRaises(Busy):
                carrier.fetch("stock", Kind.LOWER, 21, timeout=0.3)
        finally:
            os.kill(pid, signal.SIGCONT)
        self.assertIsNotNone(raised.exception.id)
        self.assertEqual(self.sites[0].share("stock").lower, 19)


if __name__ == "__main__":
    unittest.main()
