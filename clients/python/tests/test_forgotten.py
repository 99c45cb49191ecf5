"""A log that lets go of its front, over `forgetful_site.py`, which stands in for the program: what it has let go of is neither sold
nor not sold, and nothing is sold twice by it. `test_shortened` is the same over the real program."""

from __future__ import annotations

import asyncio
import os
import socket
import threading
import unittest
from collections.abc import Callable
from typing import Any, Optional

from doors import Door, DoorTest
from forgetful_site import LENGTH, read_commits, spelled, tell
from programs import SHOP, escrow_site, of_shop, wait_until
import escrow
from escrow import Faulty, Forgotten, Outcome, Share
from escrow.metrics import Metrics, text_of
from escrow.program import show
from escrow.supervisor import Ready, read_ready, ready_line
from escrow.transaction import Before
from escrow_board.board import Board
from escrow_carrier.marks import marks_of

PROGRAM = os.path.join(os.path.dirname(os.path.abspath(__file__)), "forgetful_site.py")
QUICK = escrow.Backoff(0.02, 0.1)
STOCK = escrow.Schema(2, SHOP.fields[:1])
Does = Callable[[], object]


def numbers_of(id: str) -> list[int]:
    """The epoch that an id or a position tells, and the number in it."""
    return [int(word) for word in id.rpartition("-")[2].split(".")]


class ForgetfulTest(DoorTest):
    """A test over sites that let go of the front of their logs."""

    over_a_door = False

    def forgetful(self, schema: escrow.Schema = SHOP, **told: object) -> str:
        """The folder of a new site, which answers so."""
        folder = self.folder(schema)
        tell(folder, **told)
        return folder

    def opened_site(self, folder: str, **options: Any) -> escrow.Site:
        """A client of it until the test ends, over the folder or over a door."""
        options = {"timeout": 60.0, "wait": 60.0, "backoff": QUICK, **options}
        if self.over_a_door:
            door = self.opened(Door(folder, os.path.join(self.place, "door"), program=PROGRAM))
            site = escrow.Site.connect(door.path, **options)
        else:
            site = escrow.Site(folder, program=PROGRAM, **options)
        self.addCleanup(site.close)
        return site

    def sold(self, folder: str) -> list[tuple[str, int]]:
        """What was committed, also what was let go of."""
        return [(of_shop(spelled(it.id)), it.change) for it in read_commits(folder)]

    def forgets(self, does: Does) -> Forgotten:
        """What it raises, which has to be that."""
        with self.assertRaises(escrow.Unknown) as raised:
            does()
        self.assertIs(type(raised.exception), Forgotten)
        assert isinstance(raised.exception, Forgotten)
        self.assertIn("never ask for the same anew", str(raised.exception))
        return raised.exception

    def is_quiet(self, site: escrow.Site, lower: int) -> None:
        """Nothing is open, and so much may be sold."""
        self.assertEqual((site.share("stock").lower, site.open), (lower, 0))


class OverFolderTest(ForgetfulTest):
    """What each call tells."""

    def test_a_site_whose_log_may_be_shortened(self) -> None:
        folder = self.forgetful()
        site = self.opened_site(folder)
        self.assertEqual((site.change("stock", -3), site.share("stock")), (of_shop("1.1"), Share(17, 33)))
        with site.transaction() as t:
            t.lower("stock", 2)
        self.assertEqual([site.outcome(it) for it in (of_shop("1.1"), t.id)], [Outcome.COMMITTED] * 2)
        self.assertTrue(site.pipeline.may_forget)
        self.assertEqual(self.sold(folder), [(of_shop("1.1"), -3), (t.id, -2)])

    def test_a_log_that_is_whole(self) -> None:
        site = self.opened_site(self.forgetful(version=1))
        self.assertEqual((site.change("stock", -3, key="order"), site.pipeline.may_forget), (of_shop("1.1"), False))

    def test_an_outcome(self) -> None:
        folder = self.forgetful()
        site = self.opened_site(folder)
        ids = [site.change("stock", -1) for _ in range(3)]
        tell(folder, horizon=[1, 2])
        answers = site.counts.answers
        for id in ids[:2]:
            fault = self.forgets(lambda id=id: site.outcome(id))  # type: ignore[misc]
            self.assertEqual((fault.id, fault.key), (id, None))
            self.assertIn(f"transaction {id}", str(fault))
        self.assertEqual((site.counts.answers, site.counts.stops), (answers + 2, 0))
        self.assertIs(site.outcome(ids[2]), Outcome.COMMITTED)

        async def asks() -> Outcome:
            return await escrow.AsyncSite(site).outcome(ids[0])

        self.assertEqual(self.forgets(lambda: asyncio.run(asks())).id, ids[0])

    def test_what_a_stop_left_is_never_made_again(self) -> None:
        """Whether it was committed or not: nobody can tell."""
        folder = self.forgetful()
        site, sold = self.opened_site(folder), 0
        for stop in ("ahead", "behind"):
            for name, does in self.sales(site).items():
                with self.subTest(name, stop=stop):
                    tell(folder, stop=stop, then={"horizon": [99, 0]})
                    stops = site.counts.stops
                    fault = self.forgets(does)
                    sold += stop == "behind"
                    self.assertEqual((fault.key, site.counts.stops, len(self.sold(folder))), (None, stops + 1, sold))
                    self.assertEqual(stop == "behind", fault.id in dict(self.sold(folder)))
                    self.is_quiet(site, 20 - sold)

    def sales(self, site: escrow.Site) -> dict[str, Does]:
        """Calls that sell 1."""

        def sells() -> None:
            with site.transaction() as t:
                t.lower("stock", 1)

        async def changes(before: Optional[Before]) -> None:
            await escrow.AsyncSite(site).change("stock", -1, before)

        async def sells_as_task() -> None:
            async with escrow.AsyncSite(site).transaction() as t:
                await t.lower("stock", 1)

        found: dict[str, Does] = {
            "change": lambda: site.change("stock", -1), "before": lambda: site.change("stock", -1, lambda id: None),
            "transaction": sells, "task": lambda: asyncio.run(changes(None)),
            "task, before": lambda: asyncio.run(changes(lambda id: None)),
            "task, transaction": lambda: asyncio.run(sells_as_task()),
        }  # fmt: skip
        return {name: found[name] for name in ("change", "task, transaction")} if self.over_a_door else found

    def test_a_word_that_is_not_known(self) -> None:
        """It isn't taken for no, and isn't asked again for ever."""
        folder = self.forgetful()
        site = self.opened_site(folder)
        id = site.change("stock", -3, key="order")
        tell(folder, word="perhaps", keyed="perhaps")
        calls: list[Does] = [
            lambda: site.outcome(id), lambda: site.kept_key("order"), lambda: site.change("stock", -3, key="order"),
            lambda: asyncio.run(escrow.AsyncSite(site).outcome(id)),
            lambda: asyncio.run(escrow.AsyncSite(site).kept_key("order")),
            lambda: asyncio.run(escrow.AsyncSite(site).change("stock", -3, key="order")),
        ]  # fmt: skip
        for does in calls:
            with self.assertRaises(Faulty) as raised:
                does()
            self.assertIn("'perhaps', which this client doesn't know", str(raised.exception))
        self.assertEqual((site.counts.stops, len(self.sold(folder))), (0, 1))
        self.is_quiet(site, 17)

    def test_a_word_that_is_not_known_behind_a_stop(self) -> None:
        folder = self.forgetful()
        site, sold = self.opened_site(folder), 0
        for stop, key in (("ahead", None), ("ahead", "one"), ("behind", None), ("behind", "two")):
            with self.subTest(stop=stop, key=key):
                tell(folder, stop=stop, then={"word": "perhaps"})
                id = of_shop(f"{site.epoch}.1")
                with self.assertRaises(escrow.Unknown) as raised:
                    site.change("stock", -1, key=key)
                fault = raised.exception
                sold += stop == "behind"
                self.assertEqual((type(fault), fault.id, fault.key), (escrow.Unknown, id, key))
                self.assertEqual(len(self.sold(folder)), sold)

    def test_they_are_counted(self) -> None:
        folder, metrics = self.forgetful(), Metrics(0)
        site = self.opened_site(folder, metrics=metrics)
        id = site.change("stock", -1, key="order")
        tell(folder, horizon=[9, 0])
        for does in (lambda: site.outcome(id), lambda: site.kept_key("order"), lambda: site.change("stock", -1, key="order")):
            self.forgets(does)
        wait_until(lambda: 'escrow_missed_total{site="0",outcome="forgotten"} 3' in text_of([metrics]))
        self.assertIn('escrow_missed_total{site="0",outcome="unknown"} 0', text_of([metrics]))


class KeysOverFolderTest(ForgetfulTest):
    """A key that was let go of is never sold a second time."""

    def test_once_while_it_is_held(self) -> None:
        folder = self.forgetful()
        site = self.opened_site(folder)
        self.assertEqual([site.change("stock", -3, key="order") for _ in range(3)], [of_shop("1.1")] * 3)
        with site.transaction() as t:
            t.lower("stock", 5)
            self.assertEqual(t.commit(key="order"), of_shop("1.1"))
        self.assertEqual((site.kept_key("order"), site.kept_key("other")), (of_shop("1.1"), None))

        async def buys() -> list[str]:
            shop = escrow.AsyncSite(site)
            async with shop.transaction() as t:
                await t.lower("stock", 5)
                first = await shop.change("stock", -3, key="order")
                return [first, await t.commit(key="order"), await shop.change("stock", -2, key="two")]

        *same, other = asyncio.run(buys())
        self.assertEqual((same, self.sold(folder)), ([of_shop("1.1")] * 2, [(of_shop("1.1"), -3), (other, -2)]))
        self.is_quiet(site, 15)

    def test_one_that_was_let_go_of(self) -> None:
        folder = self.forgetful()
        site = self.opened_site(folder)
        site.change("stock", -3, key="order")
        tell(folder, horizon=[1, 1])
        told: list[str] = []

        def commits() -> None:
            with site.transaction() as t:
                t.lower("stock", 3)
                t.commit(key="order")

        async def commits_as_task() -> None:
            async with escrow.AsyncSite(site).transaction() as t:
                await t.lower("stock", 3)
                await t.commit(key="order")

        async def changes(amount: int) -> None:
            await escrow.AsyncSite(site).change("stock", -amount, told.append, key="order")

        calls: list[Does] = [
            lambda: site.kept_key("order"), lambda: site.change("stock", -3, key="order"), commits,
            lambda: site.change("stock", -3, told.append, key="order"), lambda: site.change("stock", -300, key="order"),
            lambda: site.transaction().commit(key="order"), lambda: asyncio.run(escrow.AsyncSite(site).kept_key("order")),
            lambda: asyncio.run(commits_as_task()), lambda: asyncio.run(changes(3)), lambda: asyncio.run(changes(300)),
        ]  # fmt: skip
        for does in calls:
            fault = self.forgets(does)
            self.assertEqual((fault.id, fault.key), (None, "order"))
            self.assertIn("key order", str(fault))
        self.assertEqual(self.sold(folder), [(of_shop("1.1"), -3)])
        tell(folder)
        self.assertEqual([site.outcome(id) for id in told], [Outcome.NOT_COMMITTED] * 2)
        self.is_quiet(site, 17)

    def test_a_new_one_without_its_position(self) -> None:
        """Nobody can tell that it is new."""
        folder = self.forgetful(horizon=[0, 9])
        site = self.opened_site(folder)
        self.assertEqual(self.forgets(lambda: site.change("stock", -3, key="new")).key, "new")
        self.assertEqual(self.forgets(lambda: site.kept_key("new")).key, "new")
        self.assertEqual(self.sold(folder), [])
        self.is_quiet(site, 20)

    def test_a_program_that_tells_it_at_the_commit(self) -> None:
        folder = self.forgetful(version=1, keyed="forgotten")
        site = self.opened_site(folder)
        fault = self.forgets(lambda: site.change("stock", -3, key="order"))
        self.assertEqual((fault.id, fault.key), (None, "order"))
        with site.transaction() as t:
            t.lower("stock", 3)
            fault = self.forgets(lambda: t.commit(key="order"))
        self.assertEqual((fault.id, fault.key, self.sold(folder), site.counts.stops), (None, "order", [], 0))
        self.is_quiet(site, 20)

    def test_a_stop_at_the_commit(self) -> None:
        """What it left is told by the key, and where that was let go of meanwhile it is in doubt."""
        folder = self.forgetful()
        site, sold = self.opened_site(folder), 0
        for stop in ("ahead", "behind"):
            for name, does in self.sales(site).items():
                with self.subTest(name, stop=stop):
                    key = f"{name}-{stop}"
                    tell(folder, stop=stop, then={"horizon": [99, 0]})
                    fault = self.forgets(lambda: does(key))
                    sold += stop == "behind"
                    self.assertEqual((fault.key, len(self.sold(folder))), (key, sold))
                    self.assertEqual(stop == "behind", fault.id in dict(self.sold(folder)))
                    fault = self.forgets(lambda: does(key))
                    self.assertEqual((fault.id, fault.key, len(self.sold(folder))), (None, key, sold))

    def sales(self, site: escrow.Site) -> dict[str, Callable[[str], object]]:
        """Calls that sell 1 by a key."""

        def commits(key: str) -> None:
            with site.transaction() as t:
                t.lower("stock", 1)
                t.commit(key=key)

        async def changes(key: str) -> None:
            await escrow.AsyncSite(site).change("stock", -1, key=key)

        return {
            "change": lambda key: site.change("stock", -1, key=key), "commit": commits,
            "task": lambda key: asyncio.run(changes(key)),
        }  # fmt: skip

    def test_a_stop_at_the_commit_of_a_log_that_is_held(self) -> None:
        folder = self.forgetful(stop="behind")
        site = self.opened_site(folder)
        self.assertEqual(site.change("stock", -3, key="order"), of_shop("1.1"))
        tell(folder, stop="ahead")
        self.assertEqual(site.change("stock", -2, key="two"), of_shop("3.1"))
        self.assertEqual(self.sold(folder), [(of_shop("1.1"), -3), (of_shop("3.1"), -2)])

    def test_a_question_that_is_not_answered_in_time(self) -> None:
        folder = self.forgetful(slow=3.0)
        site = self.opened_site(folder)
        calls: list[Does] = [
            lambda: site.change("stock", -300, key="order", timeout=1.5), lambda: site.kept_key("order", timeout=1.5),
            lambda: asyncio.run(escrow.AsyncSite(site).change("stock", -300, key="order", timeout=1.5)),
        ]  # fmt: skip
        for does in calls:
            with self.assertRaises(escrow.Busy):
                does()
            self.is_quiet(site, 20)
        self.assertEqual(self.sold(folder), [])


class LastIdTest(ForgetfulTest):
    """A log that has let go of what the caller's books have last isn't an older one."""

    def start(self, folder: str) -> escrow.Site:
        """With an id of an earlier start in the books. The log is of the version that may let go."""
        with open(os.path.join(folder, "log"), "w", encoding="ascii") as log:
            log.write("escrow log 3\n")
        return self.opened_site(folder, last_id=of_shop("0.1"))

    def test_it_is_taken(self) -> None:
        folder = self.forgetful(horizon=[0, 5])
        with self.assertLogs("escrow", "WARNING") as told:
            site = self.start(folder)
        self.assertTrue(site.up)
        self.assertIn(f"transaction {of_shop('0.1')} can't be told", "".join(told.output))

    def test_it_is_taken_over_a_door(self) -> None:
        self.over_a_door = True
        self.assertTrue(self.start(self.forgetful(horizon=[0, 5])).up)

    def test_one_that_has_not_got_it_is_refused(self) -> None:
        with self.assertRaises(escrow.Down) as raised:
            self.start(self.forgetful())
        self.assertEqual(raised.exception.status, 3)

    def test_a_word_that_is_not_known(self) -> None:
        with self.assertRaises(escrow.Down) as raised:
            self.start(self.forgetful(word="perhaps"))
        self.assertIsNone(raised.exception.status)
        self.assertIn("'perhaps'", str(raised.exception))


class PositionsOverFolderTest(ForgetfulTest):
    """Keys with their positions: a new one is sold over a shortened log, and one that was let go of never again."""

    def lines(self, folder: str, word: str) -> list[str]:
        """The lines that have this word, as the program took them."""
        with open(os.path.join(folder, "lines"), encoding="ascii") as file:
            return [line for line in file.read().split("\n") if word in line.split(" ")]

    def sales(self, site: escrow.Site) -> dict[str, Callable[[str, str], str]]:
        """Calls that sell 1 by a key and its position: the id."""

        def commits(key: str, since: str) -> str:
            with site.transaction() as t:
                t.lower("stock", 1)
                return t.commit(key=key, since=since)

        async def changes(key: str, since: str, before: Optional[Before]) -> str:
            return await escrow.AsyncSite(site).change("stock", -1, before, key=key, since=since)

        async def commits_as_task(key: str, since: str) -> str:
            async with escrow.AsyncSite(site).transaction() as t:
                await t.lower("stock", 1)
                return await t.commit(key=key, since=since)

        return {
            "change": lambda key, since: site.change("stock", -1, key=key, since=since), "commit": commits,
            "before": lambda key, since: site.change("stock", -1, lambda id: None, key=key, since=since),
            "task": lambda key, since: asyncio.run(changes(key, since, None)),
            "task, before": lambda key, since: asyncio.run(changes(key, since, lambda id: None)),
            "task, commit": lambda key, since: asyncio.run(commits_as_task(key, since)),
        }  # fmt: skip

    def newest(self, folder: str) -> list[int]:
        """The last commit, to let go of all up to there."""
        return list(read_commits(folder)[-1].id)

    def test_where_it_is(self) -> None:
        site = self.opened_site(self.forgetful(stop="ahead"))
        self.assertEqual(site.position(), of_shop("1.0"))
        with self.assertRaises(escrow.Lost):
            with site.transaction() as t:
                t.lower("stock", 1)
                self.assertEqual((t.id, site.position()), (of_shop("1.1"), of_shop("1.1")))
        wait_until(lambda: site.up)
        self.assertEqual(site.position(), of_shop("2.0"))
        site.change("stock", -1)
        site.share("stock")
        self.assertEqual(site.position(), of_shop("2.1"))

        async def asks() -> str:
            shop = escrow.AsyncSite(site)
            await asyncio.gather(*(shop.change("stock", -1) for _ in range(3)))
            return await shop.position()

        self.assertEqual(asyncio.run(asks()), of_shop("2.4"))

    def test_a_new_key_is_sold(self) -> None:
        """With a position at the horizon, and with one behind it."""
        folder = self.forgetful()
        site, sold = self.opened_site(folder), 1
        site.change("stock", -1)
        for name, sells in self.sales(site).items():
            with self.subTest(name):
                since = [site.position()]
                site.change("stock", -1)
                since.append(site.position())
                tell(folder, horizon=numbers_of(since[0]))
                ids = [sells(f"order-{sold + at}", since[at]) for at in (0, 1)]
                sold += 3
                self.assertEqual(([id for id, _ in self.sold(folder)][-2:], len(self.sold(folder))), (ids, sold))
        self.is_quiet(site, 20 - sold)
        commits = self.lines(folder, "commit")
        self.assertEqual(len([it for it in commits if "since" in it]), len([it for it in commits if "key" in it]))
        self.assertEqual(self.lines(folder, "kept"), [])

    def test_a_new_key_whose_position_is_too_old(self) -> None:
        folder = self.forgetful()
        site = self.opened_site(folder)
        since = site.position()
        site.change("stock", -1)
        tell(folder, horizon=[1, 1])
        for name, sells in self.sales(site).items():
            with self.subTest(name):
                fault = self.forgets(lambda sells=sells: sells("new", since))  # type: ignore[misc]
                self.assertEqual((fault.id, fault.key), (None, "new"))
        self.is_quiet(site, 19)
        self.assertEqual(len(self.sold(folder)), 1)

    def test_a_key_is_asked_for_again(self) -> None:
        """With the position of the first time: while it is held it is told, and then it is forgotten, and sold no second time."""
        folder = self.forgetful()
        site, sold = self.opened_site(folder), 0
        for number, (name, sells) in enumerate(self.sales(site).items()):
            with self.subTest(name):
                key, since = f"order-{number}", site.position()
                id = sells(key, since)
                sold += 1
                self.assertEqual((sells(key, since), site.kept_key(key, since=since)), (id, id))
                tell(folder, horizon=[1, 0])
                self.assertEqual((sells(key, since), site.kept_key(key, since=since)), (id, id))
                tell(folder, horizon=self.newest(folder))
                for _ in range(2):
                    fault = self.forgets(lambda: sells(key, since))  # noqa: B023
                    self.assertEqual((fault.id, fault.key), (None, key))
                    fault = self.forgets(lambda: site.kept_key(key, since=since))  # noqa: B023
                    self.assertEqual(fault.key, key)
                self.assertEqual((site.kept_key("new", since=site.position()), len(self.sold(folder))), (None, sold))
                tell(folder)
        self.is_quiet(site, 20 - sold)

    def test_it_is_short(self) -> None:
        """What is short is told as short only where it is known not to be sold."""
        folder = self.forgetful()
        site = self.opened_site(folder)
        since = site.position()
        site.change("stock", -20, key="order", since=since)
        tell(folder, horizon=[1, 1])

        async def buys(key: str, since: str) -> str:
            return await escrow.AsyncSite(site).change("stock", -20, key=key, since=since)

        calls: list[Callable[[str, str], object]] = [
            lambda key, since: site.change("stock", -20, key=key, since=since), lambda key, since: asyncio.run(buys(key, since)),
        ]  # fmt: skip
        for call in calls:
            self.assertEqual(self.forgets(lambda: call("order", since)).key, "order")  # noqa: B023
            with self.assertRaises(escrow.Short):
                call("new", site.position())
        self.is_quiet(site, 0)

    def test_a_stop_at_the_commit(self) -> None:
        """What it left is asked about with the position: what isn't sold is sold then, though the log was shortened meanwhile."""
        folder = self.forgetful()
        site, sold = self.opened_site(folder), 0
        changes = {name: sells for name, sells in self.sales(site).items() if name in ("change", "task")}
        for stop in ("ahead", "behind"):
            for name, sells in changes.items():
                with self.subTest(name, stop=stop):
                    key, since, stops = f"{name}-{stop}", site.position(), site.counts.stops
                    tell(folder, stop=stop, then={"horizon": numbers_of(since)})
                    id = sells(key, since)
                    sold += 1
                    self.assertEqual((len(self.sold(folder)), self.sold(folder)[-1]), (sold, (id, -1)))
                    self.assertEqual((site.counts.stops, sells(key, since)), (stops + 1, id))
                    asked = f"kept key {key} since {since.rpartition('-')[2]}"
                    self.assertEqual([it for it in self.lines(folder, "kept") if key in it], [asked])
        self.is_quiet(site, 20 - sold)

    def test_a_stop_at_the_commit_that_was_let_go_of(self) -> None:
        folder = self.forgetful()
        site, sold = self.opened_site(folder), 0
        for stop in ("ahead", "behind"):
            for name, sells in self.sales(site).items():
                with self.subTest(name, stop=stop):
                    key, since = f"{name.replace(', ', '-')}-{stop}", site.position()
                    tell(folder, stop=stop, then={"horizon": [99, 0]})
                    fault = self.forgets(lambda: sells(key, since))  # noqa: B023
                    sold += stop == "behind"
                    self.assertEqual((fault.key, len(self.sold(folder))), (key, sold))
                    self.assertEqual(stop == "behind", fault.id in dict(self.sold(folder)))
                    self.forgets(lambda: sells(key, since))  # noqa: B023
                    self.assertEqual(len(self.sold(folder)), sold)

    def test_a_log_that_is_whole_is_told_no_position(self) -> None:
        """Nor is a program that doesn't know the word."""
        folder = self.forgetful(version=1)
        site = self.opened_site(folder)
        since = site.position()
        for sells in self.sales(site).values():
            self.assertEqual(sells("order", since), of_shop("1.1"))
        self.assertEqual(site.kept_key("order", since=since), of_shop("1.1"))
        self.assertEqual(self.lines(folder, "since"), [])

    def test_what_is_no_position(self) -> None:
        """Of another world or site, of a transaction to come, or none at all: nothing is committed."""
        site = self.opened_site(self.forgetful())
        site.change("stock", -1)
        world, later = of_shop("").partition("-")[0], "is later than any of the log"
        cases: list[tuple[str, type[Exception], str]] = [
            ("0123abcd-0-1.0", escrow.OtherWorld, "another world"), (f"{world}-1-1.0", escrow.OtherSite, "site 1"),
            (of_shop("2.0"), escrow.Unknown, later), (of_shop("1.900"), ValueError, "1.900: "),
            ("now", ValueError, "isn't the id"), ("", ValueError, "isn't the id"), (of_shop("1"), ValueError, "isn't the id"),
        ]  # fmt: skip
        for since, kind, told in cases:
            for sells in (lambda key, since: site.kept_key(key, since=since), *self.sales(site).values()):
                with self.subTest(since), self.assertRaises(kind) as raised:
                    sells("order", since)
                self.assertIn(told, str(raised.exception))
                self.assertNotIn("grep", str(raised.exception))
        without: list[Does] = [
            lambda: site.change("stock", -1, since=of_shop("1.0")), lambda: site.transaction().commit(since=of_shop("1.0")),
            lambda: asyncio.run(escrow.AsyncSite(site).change("stock", -1, since=of_shop("1.0"))),
        ]  # fmt: skip
        for act in without:
            self.assertRaises(TypeError, act)
        wait_until(lambda: site.open == 0)
        self.is_quiet(site, 19)
        for since in ("1.0", of_shop("0.17"), f"{world}-1.1"):  # as ids of earlier clients
            self.assertEqual(site.kept_key("order", since=since), None)

    def test_a_position_behind_the_transaction(self) -> None:
        """By it a later retry would take its commit for another's. It stays open."""
        folder = self.forgetful()
        site = self.opened_site(folder)
        ahead = site.position()
        with site.transaction() as t:
            t.lower("stock", 3)
            for since in (site.position(), t.id):
                with self.assertRaises(ValueError) as raised:
                    t.commit(key="order", since=since)
                self.assertIn("isn't ahead of transaction 1.1", str(raised.exception))
            self.assertEqual(t.commit(key="order", since=ahead), t.id)

        async def sells() -> None:
            async with escrow.AsyncSite(site).transaction() as t:
                await t.lower("stock", 2)
                with self.assertRaises(ValueError):
                    await t.commit(key="other", since=site.position())
                await t.abort()

        asyncio.run(sells())
        self.assertEqual(self.sold(folder), [(t.id, -3)])
        self.is_quiet(site, 17)

    def test_one_that_was_busy_keeps_its_position(self) -> None:
        folder = self.forgetful(horizon=[0, 9])
        site = self.opened_site(folder)
        since = site.position()
        with site.transaction() as t:
            t.lower("stock", 3)
            with self.assertRaises(escrow.Busy):
                t.commit(key="order", since=since, timeout=0.0)
        self.assertEqual((site.kept_key("order"), self.sold(folder)), (t.id, [(t.id, -3)]))


class OverDoorTest(OverFolderTest):
    """The same over a door."""

    over_a_door = True


class KeysOverDoorTest(KeysOverFolderTest):
    """The same over a door."""

    over_a_door = True


class PositionsOverDoorTest(PositionsOverFolderTest):
    """The same over a door."""

    over_a_door = True

    def test_others_begin_too(self) -> None:
        """What one connection was told counts what all have begun."""
        site = self.opened_site(self.forgetful())
        other = escrow.Site.connect(site.folder, timeout=60.0, wait=60.0)
        self.addCleanup(other.close)
        for _ in range(3):
            other.change("stock", -1)
        self.assertEqual((site.position(), other.position()), (of_shop("1.3"), of_shop("1.3")))
        with other.transaction() as t:
            t.lower("stock", 1)
            self.assertEqual((t.id, site.position()), (of_shop("1.4"), of_shop("1.4")))

    def test_lines(self) -> None:
        """The door looks at what tells a key, and knows of each position whether it is so far."""
        hand = self.hand(self.opened(Door(self.forgetful(), os.path.join(self.place, "door"), program=PROGRAM)))
        self.assertEqual(hand.told("position", "0 begin", "position"),
                         ["position -> 1.0", "0 begin -> begun 1.1", "position -> 1.1"])  # fmt: skip
        asked = [f"kept key a since {since}" for since in ("1.0", "1.1", "1.2", "2.0", "0.99")]
        replies = ("no", "no", "unbegun", "later", "no")
        self.assertEqual(hand.told(*asked), [f"{line} -> {reply}" for line, reply in zip(asked, replies)])
        bad = [f"{front} key a {words}" for front in ("kept", "0 commit .1") for words in ("since", "since 1", "since 1.0 b", "before 1.0")]
        for line in (*bad, "kept key a/b since 1.0", "0 commit .1 key a since .1", "0 commit .1 since 1.0", "0 abort .1 key a since 1.0",
                     "position a"):  # fmt: skip
            self.assertEqual(hand.told(line), ["bad line: the door takes no such line"], line)
        told = hand.told("0 escrow .1 stock -3", "0 commit .1 key a since 1.0", "kept key a since 1.0")
        self.assertEqual(told[1:], ["0 commit 1.1 -> committed", "kept key a since 1.0 -> 1.1"])


HEAD_3 = "escrow log 3\nnumber 0\nworld {}\nhead 16000123 1000000\nhorizon 7 1000431\nsum 0123456789abcdef\n"


class VersionTest(ForgetfulTest):
    """The versions of the ready line."""

    def test_lines(self) -> None:
        for line, forgets in ((b"ready 1 7 40\n", False), (b"ready 2 7 40\n", True)):
            told = read_ready(line)
            self.assertEqual((told, ready_line(told).encode()), (Ready(escrow.Mark(7, 40), forgets), line))
        for line in (b"ready 3 7 40\n", b"ready 3\n", b"ready 31 7 40 and more\n"):
            with self.assertRaises(escrow.Down) as raised:
                read_ready(line)
            self.assertIn("is newer than this client", str(raised.exception))
        for line in (b"", b"ready\n", b"ready 0 7 40\n", b"ready 2 7\n", b"ready 2 7 40 1\n", b"ready x 7 40\n", b"Ready 1 7 40\n"):
            with self.assertRaises(escrow.Down) as raised:
                read_ready(line)
            self.assertIn("isn't one that this client knows", str(raised.exception))

    def test_a_program_that_is_newer(self) -> None:
        with self.assertRaises(escrow.Down) as raised:
            self.opened_site(self.forgetful(version=3))
        self.assertIn("up to version 2, and not version 3: use a client of that program's release", str(raised.exception))

    def test_a_door_over_one(self) -> None:
        door = Door(self.forgetful(version=3), os.path.join(self.place, "door"), program=PROGRAM)
        self.assertEqual(door.process.wait(60), 1)
        self.assertIn("the program is newer than this client", door.text())

    def test_a_door_that_is_newer(self) -> None:
        path, listener = os.path.join(self.place, "newer"), socket.socket(socket.AF_UNIX)
        self.addCleanup(listener.close)
        listener.bind(path)
        listener.listen()

        def greets() -> None:
            peer, _ = listener.accept()
            with peer:
                peer.sendall(f"escrow door 1\nnumber 0\nworld {'0' * 64}\n{SHOP.line()}\nready 3 1 4\n".encode())

        greeter = threading.Thread(target=greets)
        greeter.start()
        with self.assertRaises(escrow.Down) as raised:
            escrow.Site.connect(path)
        greeter.join()
        self.assertIn("the program is newer than this client", str(raised.exception))

    def test_a_door_tells_its_program(self) -> None:
        folder = self.forgetful(horizon=[9, 0])
        hand = self.hand(self.opened(Door(folder, os.path.join(self.place, "door"), program=PROGRAM)))
        self.assertEqual(hand.hello[4].split()[:2], ["ready", "2"])
        self.assertEqual(hand.told("kept 0.1", "kept key order"), ["kept 0.1 -> forgotten", "kept key order -> forgotten"])
        self.assertEqual(self.hand(self.door_of_today()).hello[4].split()[:2], ["ready", "1"])

    def door_of_today(self) -> Door:
        """A door over the real program."""
        return self.opened(Door(self.folder(SHOP, name="today"), os.path.join(self.place, "today.door"), program=escrow_site()))

    def shortened(self, records: str, name: str = "shop") -> str:
        """A folder whose log was shortened, and has these records in one batch."""
        folder = self.folder(name=name)
        with open(os.path.join(folder, "log"), "w", encoding="ascii") as file:
            file.write(f"{HEAD_3.format('0' * 64)}{records}sum 0123456789abcdef\n")
        return folder

    def test_where_a_carrier_takes_it_to_begin(self) -> None:
        """What is told of it from elsewhere is compared with how far it had come before this start, let go or not."""
        cases = (("held", "S 7 1 20 30\nR 1\n", 16_000_123 + 12), ("gone", "S 7 1 20 30\n", LENGTH + 10))
        for name, records, length in cases:
            site = self.opened_site(self.shortened(records, name))
            self.assertEqual(marks_of(site).start, escrow.Mark(0, length))

    def test_how_far_a_shortened_log_has_come(self) -> None:
        """Also over a door, which reads the log itself."""
        folder = self.shortened("S 7 1 20 30\nR 8\n")
        for self.over_a_door in (False, True):
            site = self.opened_site(folder)
            self.assertEqual(site.newest_mark(), escrow.Mark(site.epoch, 16_000_123 + 12 + 4))
            site.close()


class ShownTest(ForgetfulTest):
    """What is shown of such a log."""

    def test_what_is_let_go_is_told(self) -> None:
        folder = self.forgetful()
        self.assertEqual((show(folder, PROGRAM).mark.length, show(folder, PROGRAM).gone), (LENGTH, 1000))
        self.assertEqual(show(self.folder(name="today"), escrow_site()).gone, 0)

    def test_on_the_board(self) -> None:
        told = Board(PROGRAM, [self.forgetful(STOCK)]).told()["folders"][0]
        self.assertEqual((told["fault"], told["length"], told["gone"]), (None, LENGTH, 1000))
        today = Board(escrow_site(), [self.folder(name="today")]).told()["folders"][0]
        self.assertEqual(today["gone"], 0)


if __name__ == "__main__":
    unittest.main()
