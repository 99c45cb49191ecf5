"""What one expects of a client: `async with`, `exist_ok`, a warning of what is dropped open, a log of starts and stops, faults of
a header by name, sites for tests, ids that tell sites apart, types and a version in each package."""

from __future__ import annotations

import asyncio
import gc
import importlib
import importlib.util
import logging
import os
import subprocess
import sys
import threading
import unittest
import warnings
from collections.abc import Callable

from programs import (
    PACKAGES,
    SHOP,
    WORLD,
    SiteTest,
    escrow_site,
    is_ended,
    kill,
    of_shop,
    pid_of,
    records,
    short_name,
    wait_until,
)
import escrow
from escrow import Field, Outcome, Schema, Share
from escrow.testing import STOCK, temporary_site, temporary_world


class AsyncWithTest(SiteTest):
    """`async with AsyncSite(..)`."""

    def test_of_a_folder(self) -> None:
        folder = self.folder()

        async def calls() -> tuple[str, escrow.Site]:
            async with escrow.AsyncSite(folder, program=escrow_site(), wait=60.0, timeout=60.0) as shop:
                async with shop.transaction() as t:
                    await t.lower("stock", 3)
                self.assertEqual((shop.timeout, shop.site.up), (60.0, True))
                return t.id, shop.site

        id, site = asyncio.run(calls())
        self.assertEqual((id, site.up, site.last_status), (of_shop("1.1"), False, 0))
        with self.assertRaises(escrow.Down):
            site.share("stock")
        self.assertEqual(self.served(folder).outcome(id), Outcome.COMMITTED)

    def test_of_a_site_that_is_anothers(self) -> None:
        site = self.site()

        async def calls() -> None:
            async with escrow.AsyncSite(site) as shop:
                await shop.change("stock", -1)
            self.assertTrue(site.up)
            await shop.close()

        asyncio.run(calls())
        self.assertFalse(site.up)

    def test_what_fails(self) -> None:
        async def calls() -> None:
            async with escrow.AsyncSite(os.path.join(self.place, "none")):
                pass

        with self.assertRaises(escrow.Down) as raised:
            asyncio.run(calls())
        self.assertEqual(raised.exception.status, 3)
        shop = escrow.AsyncSite(self.folder())
        with self.assertRaisesRegex(RuntimeError, "async with"):
            shop.transaction()
        with self.assertRaises(AttributeError):
            shop.other  # type: ignore[attr-defined]
        with self.assertRaises(TypeError):
            escrow.AsyncSite(self.served(self.folder(name="other")), wait=1.0)


class CreateTest(SiteTest):
    """`Site.create`."""

    def made(self, **words: object) -> escrow.Site:
        """A site of the folder `made`, served until the test ends."""
        told = {"folder": os.path.join(self.place, "made"), "schema": SHOP, "number": 0, "name": WORLD, **words}
        site = escrow.Site.create(program=escrow_site(), **told)  # type: ignore[arg-type]
        self.addCleanup(site.close)
        return site

    def refused(self, **words: object) -> str:
        """What it tells that refuses the folder."""
        with self.assertRaises(escrow.ProgramError) as raised:
            self.made(exist_ok=True, **words)
        self.assertEqual(raised.exception.status, 3)
        return str(raised.exception)

    def test_a_script_that_runs_twice(self) -> None:
        for epoch in (1, 2):
            site = self.made(exist_ok=True, timeout=60.0)
            self.assertEqual((site.epoch, site.timeout, site.change("stock", -1)), (epoch, 60.0, of_shop(f"{epoch}.1")))
            site.close()
        with self.assertRaises(escrow.ProgramError) as raised:
            self.made()
        self.assertEqual(raised.exception.status, 3)
        with self.assertRaises(TypeError):
            self.made(exist_ok=True, name=None)

    def test_a_folder_of_another_is_refused_and_left(self) -> None:
        self.made().close()
        before = records(os.path.join(self.place, "made"))
        self.assertIn("of another world than 'other'", self.refused(name="other"))
        self.assertIn("is of site 0 of this world", self.refused(number=1))
        self.assertIn("of another world", self.refused(schema=Schema(2, SHOP.fields[:1])))
        spaced = os.path.join(self.place, "schema.json")  # the same values, and another header: so another world
        with open(spaced, "w", encoding="ascii") as file:
            file.write(SHOP.line().replace(",", ", ") + "\n")
        self.assertIn("of another world", self.refused(schema=spaced))
        self.assertEqual(records(os.path.join(self.place, "made")), before)
        os.mkdir(os.path.join(self.place, "else"))
        self.assertIn("is there already", self.refused(folder=os.path.join(self.place, "else")))
        self.made(exist_ok=True).close()

    def test_a_file_of_a_schema(self) -> None:
        path = os.path.join(self.place, "schema.json")
        with open(path, "w", encoding="ascii") as file:
            file.write(SHOP.line().replace(",", ", ") + "\n")
        for epoch in (1, 2):
            site = self.made(schema=path, exist_ok=True)
            self.assertEqual(site.epoch, epoch)
            site.close()


class DroppedTest(SiteTest):
    """A site that nobody has any more, and that wasn't closed."""

    def test_it_is_warned_of_and_ends(self) -> None:
        folder, threads = self.folder(), set(threading.enumerate())
        site = escrow.Site(folder, program=escrow_site())
        site.change("stock", -1)
        pid = pid_of(site)
        with warnings.catch_warnings(record=True) as told:
            warnings.simplefilter("always")
            del site
            gc.collect()
        found = [str(it.message) for it in told if it.category is ResourceWarning]
        self.assertEqual(found, [f"{folder}: a Site was dropped open: close it, or use it by with"])
        wait_until(lambda: is_ended(pid) and {it.name for it in set(threading.enumerate()) - threads} <= {"escrow dropped"})
        self.assertEqual(self.served(folder).epoch, 2)

    def test_one_that_is_used_or_closed_is_not(self) -> None:
        with warnings.catch_warnings(record=True) as told:
            warnings.simplefilter("always")
            t = escrow.Site(self.folder(), program=escrow_site()).transaction()
            gc.collect()
            t.lower("stock", 1)
            t.commit()
            self.assertEqual([str(it.message) for it in told], [])
            site = t._site
            assert isinstance(site, escrow.Site)
            site.close()
            del site, t
            gc.collect()
            with self.assertRaises(escrow.Down):
                escrow.Site(os.path.join(self.place, "none"))
            gc.collect()
        self.assertEqual([str(it.message) for it in told], [])


class LogTest(SiteTest):
    """What is told under `escrow`."""

    def test_starts_and_stops(self) -> None:
        folder = self.folder()
        with self.assertLogs("escrow", logging.DEBUG) as told:
            site = escrow.Site(folder, program=escrow_site())
            pids = [pid_of(site)]
            kill(site)
            wait_until(lambda: site.up and site.epoch == 2)
            pids.append(pid_of(site))
            with open(os.path.join(folder, "site"), "ab") as file:
                file.write(b"damaged\n")
            kill(site)
            wait_until(lambda: len(told.records) == 6)
            site.close()
        levels, texts = [it.levelno for it in told.records], [it.getMessage() for it in told.records]
        info, warning, error = logging.INFO, logging.WARNING, logging.ERROR
        self.assertEqual(levels, [info, warning, info, warning, warning, error])
        for number, place in ((0, 0), (1, 2)):
            self.assertEqual(texts[place], f"{folder}: the site stands: epoch {number + 1}, process {pids[number]}")
        for place in (1, 3):
            self.assertTrue(texts[place].startswith(f"{folder}: the site stopped, status -9: "), texts[place])
        self.assertTrue(texts[4].startswith(f"{folder}: the site stopped, status 3: escrow_site: {folder}/site"), texts[4])
        self.assertTrue(texts[5].startswith(f"{folder}: the site isn't started again: "), texts[5])

    def test_a_close(self) -> None:
        folder = self.folder()
        with self.assertLogs("escrow", logging.DEBUG) as told:
            escrow.Site(folder, program=escrow_site()).close()
        self.assertEqual([it.levelno for it in told.records], [logging.INFO, logging.INFO])
        self.assertEqual(told.records[1].getMessage(), f"{folder}: the site's process has ended")


class HeaderTest(SiteTest):
    """A header that is refused: which field breaks which rule."""

    def told(self, schema: object) -> str:
        """What is told of it, with the program's own words in front."""
        with self.assertRaises(escrow.ProgramError) as raised:
            escrow.create(os.path.join(self.place, "shop"), schema, 0, program=escrow_site(), name=WORLD)  # type: ignore[arg-type]
        self.assertEqual(raised.exception.status, 2)
        return str(raised.exception)

    def test_schemas(self) -> None:
        well, most = Field("tea", 0, 9, 9), 10**15
        name, order = "a name is 1 to 32 of a-z, 0-9 and _", "aren't in this order"
        rows: list[tuple[Schema, str, str]] = [
            *((Schema(2, (well, Field(it, 0, 9, 9))), "S5", f"field {it!r}: {name}") for it in ("Seat A", "", "a-b", "a" * 33)),
            (Schema(2, (well, well)), "S6", "field 'tea': another one has this name"),
            (Schema(2, (well, Field("x", 0, most + 1, 5))), "S7", f"field 'x': ceiling {most + 1} isn't within -10^15 to 10^15"),
            (Schema(2, (Field("x", -most - 1, 9, 5),)), "S7", f"field 'x': floor {-most - 1} isn't within -10^15 to 10^15"),
            (Schema(2, (Field("x", 0, 9, 10),)), "S7", f"field 'x': floor 0, value 10 and ceiling 9 {order}"),
            (Schema(65, (well,)), "S3", "65 sites: there are 1 to 64"),
            (Schema(0, (well,)), "S3", "0 sites: there are 1 to 64"),
            (Schema(1, ()), "S4", "0 fields: there are 1 to 256"),
            (Schema(1, (Field("x", 0, 9, 5.0),)), "S2",  # type: ignore[arg-type]
             "field 0, counted from 0, has value 5.0, which isn't a whole number"),
        ]  # fmt: skip
        for schema, rule, why in rows:
            told = self.told(schema)
            self.assertIn(f": header {rule}: ", told)
            self.assertTrue(told.endswith(f": {why}"), told)
        widest = Schema(1, (Field("a" * 32, -most, most, most),))
        escrow.create(os.path.join(self.place, "most"), widest, 0, program=escrow_site(), name=WORLD)

    def test_files(self) -> None:
        path = os.path.join(self.place, "schema.json")
        rows = (
            ("{}", "the header has no sites"),
            ('{"sites":1,"fields":[{"name":"x","floor":0,"value":1}]}', "field 0, counted from 0, has no ceiling"),
            ('{"sites":1,"fields":[],"world":1}', "the header has a key 'world': it has sites, fields, and no others"),
            ('{"sites":1,"fields":{}}', "fields isn't a list"),
            ("[]", "the header isn't an object with the keys sites, fields"),
            ('{"sites":1,"fields":[{"name":1,"floor":0,"ceiling":1,"value":1}]}',
             "field 0, counted from 0, has the name 1, which isn't a text"),
        )  # fmt: skip
        for text, why in rows:
            with open(path, "w", encoding="ascii") as file:
                file.write(text + "\n")
            told = self.told(path)
            self.assertTrue(told.startswith(f"escrow_site: {path}: header S2: ") and told.endswith(f": {why}"), told)
        with open(path, "w", encoding="ascii") as file:
            file.write("no JSON\n")
        self.assertIn("header S1", self.told(path))


class IdsTest(SiteTest):
    """An id tells the site of its world."""

    def test_sites_of_one_world(self) -> None:
        near, far = self.site(), self.served(self.folder(number=1, name="far"))
        mine, theirs = near.change("stock", -1), far.change("stock", -1)
        self.assertEqual((mine, theirs), (f"{short_name(SHOP)}-0-1.1", f"{short_name(SHOP)}-1-1.1"))
        shop = escrow.AsyncSite(near)
        asks: list[Callable[[], object]] = [lambda: near.outcome(theirs), lambda: asyncio.run(self.outcome(shop, theirs))]
        for ask in asks:
            with self.assertRaises(escrow.OtherSite) as raised:
                ask()
            fault = raised.exception
            self.assertEqual((fault.id, fault.site, fault.own), (theirs, 1, 0))
            self.assertIsInstance(fault, ValueError)
        for id in (mine, f"{short_name(SHOP)}-1.1", "1.1"):  # and as clients of earlier days told them
            self.assertEqual(near.outcome(id), Outcome.COMMITTED)
        near.close()
        with self.assertRaises(escrow.OtherSite):
            escrow.Site(near.folder, program=escrow_site(), last_id=theirs)
        self.assertEqual(records(near.folder), [["R", "1"], ["C", "1", "1", "0", "-1"]])
        for id in (mine, f"{short_name(SHOP)}-1.1"):
            self.served(near.folder, last_id=id).close()

    async def outcome(self, shop: escrow.AsyncSite, id: str) -> Outcome:
        """What a task is told."""
        return await shop.outcome(id)

    def test_what_is_none(self) -> None:
        site, front = self.site(), short_name(SHOP)
        for id in (f"{front}--1.1", f"{front}-00-1.1", f"{front}-0-0-1.1", "0-1.1", f"{front}-123456-1.1", f"{front}-+1-1.1"):
            with self.assertRaises(ValueError) as raised:
                site.outcome(id)
            self.assertNotIsInstance(raised.exception, escrow.EscrowError, id)


TESTS = """
import pytest
from escrow import Field, Schema

def test_a_sale(escrow_site):
    assert escrow_site.change("stock", -1000).endswith("-0-1.1")

def test_another(escrow_site):
    assert escrow_site.share("stock") == (1000, 999000)
    assert escrow_site.folder.startswith("{place}")

class TestOwn:
    @pytest.fixture
    def escrow_schema(self):
        return Schema(2, (Field("seats", 0, 12, 12),))

    def test_a_schema_of_its_own(self, escrow_site):
        assert escrow_site.share("seats") == (6, 0)
"""


class TestingTest(SiteTest):
    """`escrow.testing`."""

    def test_a_site_and_a_world(self) -> None:
        with temporary_site(program=escrow_site()) as site:
            folder = site.folder
            self.assertEqual((site.change("stock", -3), site.schema), (f"{short_name(STOCK)}-0-1.1", STOCK))
            with open(f"/proc/{site.pid}/cmdline", encoding="ascii") as file:
                self.assertIn("--no-sync", file.read().split("\0"))
        self.assertFalse(os.path.exists(folder))
        with temporary_world(SHOP, program=escrow_site(), timeout=60.0) as (near, far):
            self.assertEqual(far.accept(near.give(1, "stock", escrow.Kind.LOWER, 5)), 5)
            self.assertEqual((near.share("stock"), far.share("stock"), far.timeout), (Share(15, 30), Share(25, 30), 60.0))
        self.assertFalse(near.up or far.up)

    @unittest.skipUnless(importlib.util.find_spec("pytest"), "pytest isn't there: python3-pytest of Debian")
    def test_fixtures(self) -> None:
        place = "/dev/shm/" if os.access("/dev/shm", os.W_OK) else "/"
        for name, text in (("conftest.py", 'pytest_plugins = ["escrow.testing"]\n'), ("test_it.py", TESTS.replace("{place}", place))):
            with open(os.path.join(self.place, name), "w", encoding="ascii") as file:
                file.write(text)
        words = [sys.executable, "-W", "error", "-m", "pytest", "-q", "-p", "no:cacheprovider", self.place]
        env = {**os.environ, "PYTHONPATH": PACKAGES, "ESCROW_SITE": escrow_site()}
        told = subprocess.run(words, cwd=self.place, env=env, capture_output=True, text=True, check=False, timeout=300)
        self.assertEqual(told.returncode, 0, told.stdout + told.stderr)
        self.assertIn("3 passed", told.stdout)


class PackagesTest(unittest.TestCase):
    """What each package has."""

    def test_types_and_a_version(self) -> None:
        """The number of the release is that of VERSION; that `py.typed` is installed is seen by test_wheel."""
        with open(os.path.join(PACKAGES, "VERSION"), encoding="ascii") as file:
            number = file.read()
        for name in ("escrow", "escrow_board", "escrow_carrier", "escrow_native", "escrow_programs"):
            self.assertTrue(os.path.exists(os.path.join(PACKAGES, name, "py.typed")), name)
            self.assertEqual(f"{importlib.import_module(name).__version__}\n", number)


if __name__ == "__main__":
    unittest.main()
