"""What a stop left in doubt, where the next start is slow: it is told as not known, with what to do, and never as not begun. Over
`forgetful_site.py`, which commits, ends without an answer, and doesn't stand again before the test lets it."""

from __future__ import annotations

import asyncio
import unittest
from collections.abc import Callable
from typing import Optional

from forgetful_site import tell
from test_forgotten import ForgetfulTest
import escrow
from escrow import Outcome, Unknown

Sale = Callable[[escrow.Site, Optional[str]], object]


def change(site: escrow.Site, key: Optional[str]) -> None:
    """Sells 1 in one trip; with a key once."""
    site.change("stock", -1, key=key)


def change_before(site: escrow.Site, key: Optional[str]) -> None:
    """The same, and tells the id ahead of the commit."""
    site.change("stock", -1, lambda id: None, key=key)


def transact(site: escrow.Site, key: Optional[str]) -> None:
    """By a transaction."""
    with site.transaction() as t:
        t.lower("stock", 1)
        t.commit(key=key)


def change_as_task(site: escrow.Site, key: Optional[str]) -> None:
    """By a task."""
    asyncio.run(_change(escrow.AsyncSite(site), key))


async def _change(shop: escrow.AsyncSite, key: Optional[str]) -> None:
    await shop.change("stock", -1, key=key)


def transact_as_task(site: escrow.Site, key: Optional[str]) -> None:
    """By a transaction of a task."""
    asyncio.run(_transact(escrow.AsyncSite(site), key))


async def _transact(shop: escrow.AsyncSite, key: Optional[str]) -> None:
    async with shop.transaction() as t:
        await t.lower("stock", 1)
        await t.commit(key=key)


SALES: dict[str, Sale] = {
    "change": change, "before": change_before, "transaction": transact, "task": change_as_task,
    "task, transaction": transact_as_task,
}  # fmt: skip


class OverFolderTest(ForgetfulTest):
    """By a client that serves the folder."""

    def setUp(self) -> None:
        super().setUp()
        self.shop = self.forgetful()
        self.client = self.opened_site(self.shop, timeout=4.0)  # in which it is asked, also on a busy machine

    def left(self, sale: Sale, key: Optional[str]) -> Unknown:
        """What a sale is told that was committed, and whose answer a stop left out. Then the site stands again."""
        tell(self.shop, stop="behind", then={"shut": True})
        with self.assertRaises(Unknown) as raised:
            sale(self.client, key)
        tell(self.shop)
        text = str(raised.exception)
        self.assertIs(type(raised.exception), Unknown)
        self.assertNotIn("nothing was begun", text)
        self.assertNotIn("before it was asked", text)
        self.assertIn("it isn't known whether it happened", text)
        return raised.exception

    def test_a_sale(self) -> None:
        for many, (name, sale) in enumerate(SALES.items(), 1):
            with self.subTest(name):
                fault = self.left(sale, None)
                assert fault.id is not None
                self.assertIn(f"transaction {fault.id}: ", str(fault))
                self.assertIn("ask outcome of this id later", str(fault))
                self.assertIs(self.client.outcome(fault.id, timeout=60.0), Outcome.COMMITTED)
                self.assertEqual((self.sold(self.shop)[-1], len(self.sold(self.shop))), ((fault.id, -1), many))

    def test_a_sale_by_a_key(self) -> None:
        for many, (name, sale) in enumerate(SALES.items(), 1):
            with self.subTest(name):
                fault = self.left(sale, f"order-{many}")
                self.assertEqual(fault.key, f"order-{many}")
                self.assertIn(f"key order-{many}: ", str(fault))
                self.assertIn("with the same key", str(fault))
                self.assertEqual(self.client.kept_key(f"order-{many}", timeout=60.0), fault.id)
                self.assertEqual(self.client.change("stock", -1, key=f"order-{many}", timeout=60.0), fault.id)
                self.assertEqual((self.sold(self.shop)[-1], len(self.sold(self.shop))), ((fault.id, -1), many))


class OverDoorTest(OverFolderTest):
    """By a door."""

    over_a_door = True


if __name__ == "__main__":
    unittest.main()
