"""A full disk: it is told, nothing that was answered is lost, and the site goes on by itself once there is room."""

from __future__ import annotations

import asyncio
import errno
import os
import shutil
import subprocess
import threading
import time
import unittest
import unittest.mock
from typing import Optional

from doors import DoorTest
from programs import LARGE, LONG, SHOP, TOP, SiteTest, commits, escrow_site, of_large, wait_until
import escrow
from escrow import DeviceFault, Outcome, Share
from escrow.device import device_fault
from escrow.metrics import Metrics, text_of
from escrow.room import has_room

FULL = "the disk is full: make room on it: the site starts again by itself"
NO_ROOM = DeviceFault("log", "write", "No space left on device", errno.ENOSPC)
REFUSED = DeviceFault("log", "sync", "Input/output error", errno.EIO)
SHIM = os.path.join(TOP, ".ci", "refuse_syncs.c")
COMPILER = next((it for it in ("cc", "clang") if shutil.which(it)), "")
PIECE = bytes(4096)


class DiskTest(SiteTest):
    """A small disk of its own, in memory."""

    def setUp(self) -> None:
        super().setUp()
        self.disk = os.path.join(self.place, "disk")
        os.mkdir(self.disk)
        words = ["mount", "-t", "tmpfs", "-o", "size=512k", "tmpfs", self.disk]
        told = subprocess.run(words, capture_output=True, check=False)
        if told.returncode != 0:
            self.skipTest(f"no disk may be mounted here: {told.stderr.decode(errors='replace').strip()}")
        self.addCleanup(lambda: subprocess.run(["umount", "-l", self.disk], check=True))
        self.filler = os.path.join(self.disk, "filler")

    def fill(self) -> None:
        """Somebody else takes all the room that is left."""
        held = os.open(self.filler, os.O_WRONLY | os.O_CREAT | os.O_APPEND)
        try:
            while True:
                os.write(held, PIECE)
        except OSError as fault:
            self.assertEqual(fault.errno, errno.ENOSPC)
        finally:
            os.close(held)

    def make_room(self) -> None:
        """And gives it back."""
        os.unlink(self.filler)

    def small(self, **options: object) -> escrow.Site:
        """A site on this disk."""
        return self.served(self.folder(LARGE, name="disk/shop"), **options)

    def sell_until_full(self, site: escrow.Site) -> tuple[list[str], escrow.Unknown]:
        """The ids of what was sold until the disk was full, and what the last sale was told."""
        sold: list[str] = []
        with self.assertRaises(escrow.Unknown) as raised:
            for _ in range(2000):
                sold.append(site.change("stock", -1))
        return sold, raised.exception


class FullTest(DiskTest):
    """The disk is full for a while."""

    def test_it_is_told_and_the_site_goes_on_once_there_is_room(self) -> None:
        metrics = Metrics(0)
        site = self.small(patience=1.0, metrics=metrics)
        sold = [site.change("stock", -1)]
        self.fill()
        more, fault = self.sell_until_full(site)
        sold += more
        self.assertIn(FULL, str(fault))
        with self.assertRaises(escrow.Down) as down:
            site.read("stock")
        self.assertEqual(down.exception.status, 5)
        self.assertEqual((fault.device, down.exception.device), (NO_ROOM, NO_ROOM))
        self.assertIn(FULL, str(down.exception))
        self.assertIn(FULL, site.last_error)
        time.sleep(1.5)
        # It isn't tried while the disk is full.
        self.assertEqual((site.counts.starts, site.counts.stops, site.up), (1, 1, False))
        self.assertIn('escrow_stops_total{site="0",status="5"} 1\n', text_of([metrics]))
        self.assertIn('escrow_device_faults_total{site="0",file="log",call="write",reason="No space left on device",number="28"} 1\n',
                      text_of([metrics]))
        self.make_room()
        wait_until(lambda: site.up)
        self.assertEqual({site.outcome(id) for id in sold}, {Outcome.COMMITTED})
        assert fault.id is not None
        kept = site.outcome(fault.id) is Outcome.COMMITTED
        sold += [fault.id] * kept
        sold.append(site.change("stock", -1))
        self.assertEqual((sold[-1], site.counts.starts), (of_large("2.1"), 2))
        self.assertEqual(site.share("stock"), Share(500_000 - len(sold), 500_000 + len(sold)))
        site.close()
        # `commits` fails where one is there twice.
        self.assertEqual(commits(site.folder, LARGE), {id: (("stock", -1),) for id in sold})

    def test_calls_wait_for_room(self) -> None:
        """Threads and tasks that are patient see nothing of a disk that is full twice: each sale happens once."""
        site = self.small(patience=60.0)
        sold: list[str] = []
        is_over = threading.Event()

        def sells() -> None:
            while not is_over.is_set():
                sold.append(site.change("stock", -1))
                time.sleep(0.002)

        async def task_sells(shop: escrow.AsyncSite) -> None:
            while not is_over.is_set():
                sold.append(await shop.change("stock", -1, before=lambda _: None))
                await asyncio.sleep(0.002)

        async def tasks() -> None:
            shop = escrow.AsyncSite(site)
            await asyncio.gather(*(task_sells(shop) for _ in range(4)))

        threads = [threading.Thread(target=sells) for _ in range(4)]
        threads.append(threading.Thread(target=asyncio.run, args=(tasks(),)))
        for thread in threads:
            thread.start()
        for stops in (1, 2):
            self.fill()
            wait_until(lambda stops=stops: site.counts.stops == stops)  # type: ignore[misc]
            self.make_room()
            before = len(sold)
            wait_until(lambda: site.up and len(sold) > before + 20)
        is_over.set()
        for thread in threads:
            thread.join(LONG)
        self.assertEqual(site.share("stock"), Share(500_000 - len(sold), 500_000 + len(sold)))
        self.assertEqual(site.open, 0)
        site.close()
        self.assertEqual(len(sold), len(set(sold)))
        self.assertEqual(set(commits(site.folder, LARGE)), set(sold))

    def test_a_site_that_waits_for_room_is_closed_at_once(self) -> None:
        site = self.small(patience=0.2)
        self.fill()
        self.sell_until_full(site)
        began = time.monotonic()
        site.close(2 * LONG)
        self.assertLess(time.monotonic() - began, LONG)
        with self.assertRaises(escrow.Down):
            site.read("stock")


class StartTest(DiskTest):
    """A start over a full disk."""

    def full(self) -> str:
        """A folder in whose log not even a start has room."""
        folder = self.folder(LARGE, name="disk/shop")
        site = self.served(folder, patience=0.2)
        self.fill()
        self.sell_until_full(site)
        site.close()
        for _ in range(20):  # what is left behind a torn record
            ran = subprocess.run([escrow_site(), "serve", folder], input=b"", capture_output=True, check=False)
            if ran.returncode == 5:
                return folder
        raise AssertionError(ran)

    def test_it_is_waited_for(self) -> None:
        folder = self.full()
        began = time.monotonic()
        with self.assertRaises(escrow.Down) as raised:
            escrow.Site(folder, program=escrow_site(), wait=4.0)  # in which it is tried once
        self.assertLess(time.monotonic() - began, 4.0 + 2.8)
        self.assertEqual(raised.exception.status, 5)
        self.assertIn(FULL, str(raised.exception))
        metrics = Metrics(0)
        room = threading.Thread(target=self.make_room_behind_a_stop, args=(metrics,))
        room.start()
        site = self.served(folder, metrics=metrics)
        room.join()
        self.assertEqual(site.counts.stops, 1)
        self.assertIsInstance(site.change("stock", -1), str)

    def make_room_behind_a_stop(self, metrics: Metrics) -> None:
        """Once a start has failed."""
        wait_until(lambda: 'escrow_stops_total{site="0",status="5"} 1\n' in text_of([metrics]))
        time.sleep(0.7)
        self.make_room()


class RoomTest(DiskTest):
    """What counts as full."""

    def test_less_than_64_kib(self) -> None:
        self.assertTrue(has_room(self.disk))
        self.fill()
        self.assertFalse(has_room(self.disk))
        size = os.stat(self.filler).st_size
        os.truncate(self.filler, size - 60 * 1024)
        self.assertFalse(has_room(self.disk))
        os.truncate(self.filler, size - 64 * 1024)
        self.assertTrue(has_room(self.disk))
        self.assertEqual(os.listdir(self.disk), ["filler"])
        self.assertTrue(has_room(self.disk))  # the last look left nothing there

    def test_without_files_that_have_no_name(self) -> None:
        with unittest.mock.patch("os.open", side_effect=OSError(errno.EOPNOTSUPP, "none such")):
            self.assertTrue(has_room(self.disk))
        self.fill()
        with unittest.mock.patch("os.open", side_effect=OSError(errno.EOPNOTSUPP, "none such")):
            self.assertFalse(has_room(self.disk))

    def test_what_cannot_be_looked_at_is_not_full(self) -> None:
        self.assertTrue(has_room(os.path.join(self.disk, "nothing")))

    def test_what_the_program_told_decides(self) -> None:
        told = "escrow_site: shop/log: device fault: {}: nothing more is answered: what to do"
        for why, is_full in (("write: No space left on device (os error 28)", True),
                             ("write: Disk quota exceeded (os error 122)", True),
                             ("write: Input/output error (os error 5)", False),
                             ("sync: No space left on device (os error 28)", False)):  # fmt: skip
            fault = device_fault(told.format(why))
            assert fault is not None
            self.assertEqual((fault.lacks_room, f"{fault.call}: {fault.reason} (os error {fault.number})"), (is_full, why))
        self.assertIsNone(device_fault("escrow_site: shop/log: device fault: nothing more is answered"))

    def test_a_fault_with_room_is_final(self) -> None:
        """As a sync that fails: it isn't started again, and no calls wait for it."""
        program = os.path.join(self.place, "small")
        with open(program, "w", encoding="ascii") as file:
            # Files of at most 1,024 bytes.
            file.write(f"#!/bin/sh\ntrap '' XFSZ\nulimit -f 2\nexec {escrow_site()!r} \"$@\"\n")
        os.chmod(program, 0o755)
        site = escrow.Site(self.folder(LARGE, name="disk/shop"), program=program)
        self.addCleanup(site.close)
        began = time.monotonic()
        _, fault = self.sell_until_full(site)
        with self.assertRaises(escrow.Down) as down:
            site.read("stock")
        self.assertLess(time.monotonic() - began, LONG)
        self.assertEqual(down.exception.status, 5)
        self.assertEqual(down.exception.device, DeviceFault("log", "write", "File too large", errno.EFBIG))
        for text in (str(fault), str(down.exception)):
            self.assertIn("after a sync that failed start the machine anew", text)
            self.assertNotIn("the disk is full", text)
        time.sleep(1.2)
        self.assertEqual((site.counts.starts, site.counts.stops), (1, 1))


class LimitTest(DoorTest):
    """A limit of file sizes, RLIMIT_FSIZE: the program isn't killed by it, and tells it."""

    TOLD = DeviceFault("log", "write", "File too large", errno.EFBIG)

    def limited(self, blocks: int = 2) -> str:
        """A program whose files have at most so many blocks of 512 bytes."""
        program = os.path.join(self.place, "limited")
        with open(program, "w", encoding="ascii") as file:
            file.write(f"#!/bin/sh\nulimit -f {blocks}\nexec {escrow_site()!r} \"$@\"\n")
        os.chmod(program, 0o755)
        return program

    def sell_until_fault(self, site: escrow.Site) -> None:
        with self.assertRaises(escrow.EscrowError):
            for _ in range(2000):
                site.change("stock", -1)

    def test_a_site_tells_it(self) -> None:
        site = escrow.Site(self.folder(LARGE), program=self.limited())
        self.addCleanup(site.close)
        self.sell_until_fault(site)
        with self.assertRaises(escrow.Down) as down:
            site.read("stock")
        self.assertEqual((down.exception.status, down.exception.device), (5, self.TOLD))
        self.assertIn("device fault: write: File too large", str(down.exception))

    def test_a_door_tells_it(self) -> None:
        door = self.door(LARGE, program=self.limited())
        self.sell_until_fault(self.connected(door, patience=0.2))
        self.assertEqual(door.process.wait(LONG), 5)
        self.assertIn("device fault: write: File too large", door.text())

    def test_create_tells_it(self) -> None:
        with self.assertRaises(escrow.ProgramError) as raised:
            escrow.create(os.path.join(self.place, "new"), SHOP, 0, program=self.limited(0), name="none")
        self.assertEqual(raised.exception.status, 5)
        self.assertIn("File too large", str(raised.exception))


class BarredTest(DoorTest):
    """A file of the folder that this user may not read, and what stands where `log.new` is to be: nothing is wrong with the disk."""

    TOLD = {
        "log: Permission denied (os error 13)": "serve the site as the owner of its files",
        "log: Operation not permitted (os error 1)": "let this user read and write them",
        "log.new: Operation not permitted (os error 1)": "move it away, or let this user do so: nothing in it counts",
    }

    def stub(self, why: str) -> str:
        """A program that ends so."""
        program = os.path.join(self.place, "barred")
        with open(program, "w", encoding="ascii") as file:
            file.write(f"#!/bin/sh\necho 'escrow_site: shop/{why}' >&2\nexit 5\n")
        os.chmod(program, 0o755)
        return program

    def says(self, text: str, remedy: str) -> None:
        """It tells that, and nothing of the disk."""
        self.assertIn(remedy, text)
        for word in ("make room", "mend the disk", "start the machine anew"):
            self.assertNotIn(word, text)

    def test_who_may_read_it(self) -> None:
        folder = self.folder()
        for why, remedy in self.TOLD.items():
            with self.subTest(why), self.assertRaises(escrow.Down) as raised:
                escrow.Site(folder, program=self.stub(why))
            self.assertEqual(raised.exception.status, 5)
            self.says(str(raised.exception), remedy)

    def test_of_a_door(self) -> None:
        why, remedy = next(iter(self.TOLD.items()))
        door = self.door(SHOP, program=self.stub(why))
        self.assertEqual(door.close(), 5)
        self.says(door.text(), remedy)

    def test_a_folder_in_place_of_the_new_log(self) -> None:
        folder = self.folder()
        os.mkdir(os.path.join(folder, "log.new"))
        with self.assertRaises(escrow.Down) as raised:
            escrow.Site(folder, program=escrow_site())
        self.assertEqual(raised.exception.status, 5)
        self.says(str(raised.exception), "log.new: Is a directory (os error 21): move it away")

    def test_other_faults_at_a_start(self) -> None:
        with self.assertRaises(escrow.Down) as raised:
            escrow.Site(self.folder(), program=self.stub("log: Input/output error (os error 5)"))
        self.assertIn("make room or mend the disk", str(raised.exception))


@unittest.skipIf(not COMPILER, "no C compiler is installed here")
class SyncTest(SiteTest):
    """A sync of the log that fails, by the library of .ci/refuse_syncs.c in front of the program's."""

    def refusing(self, number: int) -> str:
        """A program whose so manieth sync is refused."""
        library, program = os.path.join(self.place, "refuse.so"), os.path.join(self.place, "refusing")
        words = [COMPILER, "-O2", "-fPIC", "-shared", "-nostdlib", "-o", library, SHIM]
        subprocess.run(words, check=True, capture_output=True)
        with open(program, "w", encoding="ascii") as file:
            file.write(f"#!/bin/sh\nLD_PRELOAD={library!r} REFUSE_AT={number} REFUSE_TELL=9 exec {escrow_site()!r} \"$@\"\n")
        os.chmod(program, 0o755)
        return program

    def sold(self, folder: str, program: str, metrics: Metrics) -> Optional[escrow.EscrowError]:
        """What a start, or a sale behind it, was told."""
        try:
            site = escrow.Site(folder, program=program, metrics=metrics)
            self.addCleanup(site.close)
            site.change("stock", -1)
            return None
        except escrow.EscrowError as fault:
            return fault

    def test_each_sync_that_fails_is_told_and_final(self) -> None:
        """Of a start and a sale behind it: the reason is in what is raised and among the numbers, and it is over."""
        sample = 'escrow_device_faults_total{site="0",file="log",call="sync",reason="Input/output error",number="5"} 1\n'
        refused = 0
        for number in range(1, 20):
            metrics = Metrics(0)
            fault = self.sold(self.folder(name=f"shop{number}"), self.refusing(number), metrics)
            if fault is None:
                break
            refused += 1
            self.assertEqual(fault.device, REFUSED)
            self.assertIn("start the machine anew", str(fault))
            wait_until(lambda: sample in text_of([metrics]))  # it is counted behind what its callers are told
            self.assertIn('escrow_stops_total{site="0",status="5"} 1\n', text_of([metrics]))
        self.assertIsNone(fault)
        self.assertGreater(refused, 1)


if __name__ == "__main__":
    unittest.main()
