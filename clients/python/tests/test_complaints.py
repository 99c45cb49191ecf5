"""Standard error of the program while it serves: a log that isn't shortened is warned of at once, and is no part of a fault."""

from __future__ import annotations

import logging
import os
import signal
import sys
import threading
import time
import unittest
import unittest.mock

from doors import Door, DoorTest
from forgetful_site import tell
from programs import LONG, SHOP, kill, of_shop, wait_until
import escrow
from escrow import DeviceFault, Share, complaints
from escrow.complaints import MOST, Complaints

PROGRAM = os.path.join(os.path.dirname(os.path.abspath(__file__)), "forgetful_site.py")
QUICK = escrow.Backoff(0.02, 0.1)
BARRED = ("escrow_site: shop0/log: isn't shortened: make log.new: Permission denied (os error 13): it grows on until that is "
          "mended")  # fmt: skip
MOVED = "escrow_site: shop0/log: isn't shortened: it was moved, or another process has log.new: it grows on until that is mended"
FAULT = "escrow_site: shop0/log: device fault: sync: Input/output error (os error 5): nothing more is answered"
EIO = DeviceFault("log", "sync", "Input/output error", 5)
log = logging.getLogger("escrow.test")
HEIR = """#!{python} -S
import os, subprocess, sys
nothing = subprocess.DEVNULL
left = subprocess.Popen(["sleep", "600"], stdin=nothing, stdout=nothing, start_new_session=True)
with open(sys.argv[0] + ".pids", "a", encoding="ascii") as file:
    print(left.pid, file=file)
os.execv("{real}", ["{real}", *sys.argv[1:]])
"""


class TextTest(unittest.TestCase):
    """What is kept of a pipe, and what is told of it."""

    def setUp(self) -> None:
        patience = unittest.mock.patch.object(complaints, "LAST", LONG)  # where the end comes it isn't left out
        patience.start()
        self.addCleanup(patience.stop)

    def begun(self) -> tuple[Complaints, int]:
        """One over a new pipe, and the end to write into."""
        heard, end = os.pipe()
        return Complaints(os.fdopen(heard, "rb", 0), log), end

    def text_of(self, *pieces: bytes) -> str:
        """The text behind the end of the pipe."""
        told, end = self.begun()
        for piece in pieces:
            os.write(end, piece)
        os.close(end)
        return told.text()

    def test_without_a_warning_it_is_what_stood_there(self) -> None:
        with self.assertNoLogs("escrow.test"):
            for told in (b"", b"\n", b"one", b"one\n", b" one\r\n\n two \n\n", b"\xff\xc3", b"\xe2\x82\n\xe2\x82", FAULT.encode(),
                         f"{FAULT}\n: isn't shortened:\n".encode()):  # fmt: skip
                self.assertEqual(self.text_of(told), told.decode(errors="replace").strip())

    def test_a_warning_is_told_as_it_comes(self) -> None:
        told, end = self.begun()
        with self.assertLogs("escrow.test", "WARNING") as logs:
            os.write(end, f"{BARRED}\n".encode())
            wait_until(lambda: logs.records)
            os.write(end, f"one\n{MOVED}\n{FAULT}\n".encode())
            os.close(end)
            self.assertEqual(told.text(), f"one\n{FAULT}")
        self.assertEqual([it.getMessage() for it in logs.records], [BARRED, MOVED])

    def test_in_any_two_pieces(self) -> None:
        whole = f"one\n{MOVED}\n{FAULT}\n".encode()
        for at in range(len(whole) + 1):
            told, end = self.begun()
            with self.assertLogs("escrow.test", "WARNING") as logs:
                os.write(end, whole[:at])
                if at % 8 == 0:  # most often both are read at once
                    time.sleep(0.002)
                os.write(end, whole[at:])
                os.close(end)
                self.assertEqual(told.text(), f"one\n{FAULT}")
            self.assertEqual([it.getMessage() for it in logs.records], [MOVED])

    def test_a_last_line_without_a_line_feed(self) -> None:
        with self.assertLogs("escrow.test", "WARNING") as logs:
            self.assertEqual(self.text_of(f"{FAULT}\n{MOVED}".encode()), FAULT)
        self.assertEqual([it.getMessage() for it in logs.records], [MOVED])

    def test_the_last_64_kib_are_kept(self) -> None:
        line = b"x" * 99 + b"\n"
        for noise in (line * 50, b"x" * 5000):
            text = self.text_of(*[noise] * 1000, f"\n{FAULT}\n".encode())
            self.assertTrue(text.endswith(f"\n{FAULT}"))
            self.assertTrue(MOST - 200 < len(text) <= MOST, len(text))

    def test_another_that_holds_the_pipe_open(self) -> None:
        told, end = self.begun()
        late = threading.Timer(2 * LONG, os.close, (end,))
        late.start()
        with unittest.mock.patch.object(complaints, "LAST", 2.0):  # in which it is read
            os.write(end, b"one\ntw")
            began = time.monotonic()
            self.assertEqual(told.text(), "one\ntw")
            self.assertLess(time.monotonic() - began, 5.8)
        late.cancel()
        with self.assertLogs("escrow.test", "WARNING"):  # it is read on, so that nobody is stopped
            os.write(end, b"x" * 200_000 + f"\n{MOVED}\n".encode())
            os.close(end)
            told.text()

    def test_a_handler_that_raises(self) -> None:
        with unittest.mock.patch.object(log, "warning", side_effect=ValueError):
            self.assertEqual(self.text_of(f"{MOVED}\n".encode(), b"x" * 200_000, f"\n{FAULT}\n".encode())[-len(FAULT):], FAULT)

    def test_the_pipe_is_closed_and_the_thread_ends(self) -> None:
        told, end = self.begun()
        os.close(end)
        self.assertEqual((told.text(), told._pipe.closed, told._thread.is_alive()), ("", True, False))


class SiteTest(DoorTest):
    """A site whose program tells so while it serves."""

    def opened_site(self, folder: str, program: str = PROGRAM) -> escrow.Site:
        """Over `forgetful_site.py`, until the test ends."""
        site = escrow.Site(folder, program=program, timeout=LONG, wait=LONG, backoff=QUICK)
        self.addCleanup(site.close)
        return site

    def asked_with(self, site: escrow.Site, folder: str, said: str) -> None:
        """An answer ahead of which the program says that."""
        tell(folder, complains=said)
        site.share("stock")
        tell(folder)

    def test_it_is_warned_of_while_it_serves(self) -> None:
        folder = self.folder()
        site = self.opened_site(folder)
        with self.assertLogs("escrow", "WARNING") as logs:
            self.asked_with(site, folder, f"{BARRED}\n")
            wait_until(lambda: logs.records)
            self.assertEqual(site.change("stock", -1), of_shop("1.1"))
        self.assertEqual([(it.name, it.getMessage()) for it in logs.records], [("escrow", BARRED)])
        self.assertEqual((site.up, site.last_error, site.counts.stops), (True, "", 0))
        self.assertEqual(site.share("stock"), Share(19, 31))

    def test_a_fault_behind_it_is_told_alone(self) -> None:
        folder = self.folder()
        site = self.opened_site(folder)
        with self.assertLogs("escrow", "WARNING") as logs:
            self.asked_with(site, folder, f"{MOVED}\n")
            tell(folder, stop="behind", fault=f"{FAULT}\n")
            with self.assertRaises(escrow.Unknown) as raised:
                site.change("stock", -1)
            with self.assertRaises(escrow.Down) as down:
                site.read("stock")
            wait_until(lambda: len(logs.records) == 3)
        self.assertEqual((site.last_error, raised.exception.device), (FAULT, EIO))
        self.assertEqual((str(down.exception), down.exception.device, down.exception.status),
                         (f"{FAULT}: make room or mend the disk; after a sync that failed start the machine anew before the site", EIO, 5))
        self.assertEqual([it.getMessage() for it in logs.records][:2],
                         [MOVED, f"{folder}: the site stopped, status 5: {FAULT}"])  # fmt: skip

    def test_an_end_without_a_fault_behind_it(self) -> None:
        folder = self.folder()
        site = self.opened_site(folder)
        with self.assertLogs("escrow", "WARNING"):
            self.asked_with(site, folder, f"{MOVED}\n")
            kill(site)
            wait_until(lambda: site.up and site.epoch == 2)
        self.assertEqual(site.last_error, "it ended with status -9")

    def test_megabytes_stop_nothing(self) -> None:
        folder = self.folder()
        site = self.opened_site(folder)
        tell(folder, complains="noise\n" * 40_000)
        for _ in range(10):
            site.change("stock", -1)
        self.assertEqual((site.share("stock").lower, site.counts.stops), (10, 0))
        site.close()
        self.assertTrue(MOST - 10 < len(site.last_error) <= MOST, len(site.last_error))
        self.assertEqual(set(site.last_error.split("\n")[1:]), {"noise"})

    def heir(self) -> str:
        """A program that leaves another one behind, in a group of its own, which holds standard error open."""
        program = os.path.join(self.place, "heir")
        with open(program, "w", encoding="ascii") as file:
            file.write(HEIR.format(python=sys.executable, real=PROGRAM))
        os.chmod(program, 0o755)
        self.addCleanup(self.end_heirs, f"{program}.pids")
        return program

    def end_heirs(self, path: str) -> None:
        """Ends those that it left."""
        with open(path, encoding="ascii") as file:
            for line in file:
                os.kill(int(line), signal.SIGKILL)

    def test_another_process_that_holds_it_open(self) -> None:
        """What was told until then is the text, and neither the next start nor a close waits for it."""
        folder = self.folder()
        site = self.opened_site(folder, self.heir())
        with unittest.mock.patch.object(complaints, "LAST", 2.0):
            began = time.monotonic()
            self.asked_with(site, folder, "one\n")
            kill(site)
            wait_until(lambda: site.up and site.epoch == 2)
            self.assertEqual(site.last_error, "one")
            site.close()
        self.assertLess(time.monotonic() - began, 13.0)


class OverDoorTest(DoorTest):
    """The same of a door, which tells it in its own log."""

    def begun(self) -> tuple[str, Door, escrow.Site]:
        """A folder, a door over it, and a client."""
        folder = self.folder(SHOP)
        door = self.opened(Door(folder, os.path.join(self.place, "door"), program=PROGRAM))
        return folder, door, self.connected(door, backoff=QUICK, patience=0.5)

    def test_it_is_warned_of_while_it_serves(self) -> None:
        folder, door, site = self.begun()
        tell(folder, complains=f"{BARRED}\n")
        site.share("stock")
        tell(folder)
        wait_until(lambda: f"escrow.door: {BARRED}\n" in door.text())
        self.assertEqual((site.change("stock", -1), door.process.poll()), (of_shop("1.1"), None))
        tell(folder, stop="behind", fault=f"{FAULT}\n")
        with self.assertRaises(escrow.EscrowError):
            site.change("stock", -1)
        self.assertEqual(door.process.wait(LONG), 5)
        self.assertIn(f"escrow.door: {folder}: the site stopped, status 5: {FAULT}\nescrow.door: {FAULT}: make room or mend", door.text())
        self.assertEqual(door.text().count(BARRED), 1)

    def test_megabytes_stop_nothing(self) -> None:
        folder, door, site = self.begun()
        tell(folder, complains="noise\n" * 40_000)
        for _ in range(10):
            site.change("stock", -1)
        self.assertEqual((site.share("stock").lower, site.epoch, door.close()), (10, 1, 0))


if __name__ == "__main__":
    unittest.main()
