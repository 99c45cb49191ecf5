"""A share that can't be written, or is none: it is told, once, and all is told anew when it is back. And what is told where the
broker's client isn't installed."""
from __future__ import annotations

import os
import subprocess
import sys
import tempfile
import time
import unittest

from programs import PACKAGES, wait_until
from test_carrier_sites import CALM, NEVER, Sites

from escrow.metrics import Metrics, text_of
from escrow_carrier import Carrier, Folder

REMEDY = "make it a folder that this user can write"


class ShareTest(unittest.TestCase):
    """A medium on its own."""

    def setUp(self) -> None:
        held = tempfile.TemporaryDirectory()
        self.addCleanup(held.cleanup)
        self.share = os.path.join(held.name, "share")

    def opened(self) -> Folder:
        medium = Folder(self.share, 0.05)
        medium.open("one", ["a"], lambda _topic, _payload: None, lambda: None)
        self.addCleanup(medium.close)
        return medium

    def block(self) -> None:
        """A file stands where the share is to be."""
        with open(self.share, "w", encoding="ascii"):
            pass

    def test_one_that_is_no_folder_is_told_from_the_start(self) -> None:
        self.block()
        with self.assertLogs("escrow.carrier", "INFO") as logs:
            medium = self.opened()
            fault = medium.last_fault
            self.assertEqual((fault, medium.is_connected), (f"{self.share}: Not a directory: {REMEDY}", False))
            for topic in ("w/0/mark", "w/0/shares", "w/0/mark"):
                medium.publish(topic, "1 4", True)
            self.assertEqual(medium.last_fault, fault)
            os.unlink(self.share)
            medium.publish("w/0/mark", "1 4", True)
        self.assertEqual((medium.last_fault, medium.is_connected), ("", True))
        self.assertEqual([it.getMessage() for it in logs.records], [fault, f"{self.share}: messages go out again"])
        self.assertEqual([it.levelname for it in logs.records], ["WARNING", "INFO"])

    def test_one_below_a_file_is_told_too(self) -> None:
        self.block()
        self.share = os.path.join(self.share, "below")
        self.assertEqual(self.opened().last_fault, f"{self.share}: Not a directory: {REMEDY}")

    def test_one_that_is_not_there_yet_is_made(self) -> None:
        medium = self.opened()
        self.assertTrue(medium.is_connected)
        medium.publish("w/0/mark", "1 4", True)
        self.assertEqual((os.listdir(self.share), medium.last_fault), (["w"], ""))

    def test_a_file_that_cannot_be_put_in_place(self) -> None:
        os.makedirs(os.path.join(self.share, "w/0/mark"))
        medium = self.opened()
        self.assertTrue(medium.is_connected)
        medium.publish("w/0/mark", "1 4", True)
        self.assertEqual(medium.last_fault, f"{self.share}: Is a directory: {REMEDY}")


class CarriedTest(Sites):
    """What a carrier tells of it."""

    def test_the_mark_is_told_once_the_share_is_back(self) -> None:
        share, numbers = os.path.join(self.folder, "share"), Metrics(0)
        with open(share, "w", encoding="ascii"):
            pass
        site = self.sites[0]
        carrier = Carrier(site, Folder(share, 0.05), CALM, 0.1, metrics=numbers)
        self.addCleanup(carrier.close)
        time.sleep(0.3)
        self.assertIn('escrow_carrier_connected{site="0"} 0', text_of([numbers]))
        self.assertEqual(str(carrier.last_fault), f"{share}: Not a directory: {REMEDY}")
        self.assertIsInstance(carrier.last_fault, ConnectionError)
        site.change("stock", -3)
        os.unlink(share)
        wait_until(lambda: self.told(share) == " ".join(map(str, site.newest_mark())))
        wait_until(lambda: carrier.last_fault is None)  # it is noted behind the file
        self.assertIn('escrow_carrier_connected{site="0"} 1', text_of([numbers]))
        self.assertIsNone(carrier.last_fault)

    def test_the_last_mark_is_told_to_a_share_that_was_away(self) -> None:
        share = os.path.join(self.folder, "share")
        carrier = self.carrier(0, CALM, NEVER, Folder(share, 0.05))
        wait_until(lambda: self.told(share))
        os.rename(share, f"{share}.away")
        with open(share, "w", encoding="ascii"):
            pass
        carrier._publish(carrier._own, True)
        self.assertFalse(carrier.medium.is_connected)
        os.unlink(share)
        os.rename(f"{share}.away", share)
        self.sites[0].change("stock", -3)
        mark = self.sites[0].newest_mark()
        carrier.close()
        self.assertEqual(self.told(share), f"{mark.epoch} {mark.length}")

    def told(self, share: str) -> str:
        try:
            with open(os.path.join(share, self.top, "0", "mark"), encoding="ascii") as file:
                return file.read()
        except OSError:
            return ""


class WithoutPahoTest(unittest.TestCase):
    """A Python that has no paho."""

    def told(self, statement: str) -> subprocess.CompletedProcess[str]:
        words = [sys.executable, "-S", "-c", statement]     # without what is installed
        return subprocess.run(words, cwd=PACKAGES, capture_output=True, text=True, check=False)

    def test_what_installs_it(self) -> None:
        statements = "from escrow_carrier import Mqtt", "import escrow_carrier as it; it.Mqtt", "import escrow_carrier.mqtt"
        for last in (self.told(it).stderr.strip().split("\n")[-1] for it in statements):
            self.assertEqual(last, "ModuleNotFoundError: Mqtt needs paho-mqtt, which this Python hasn't got: install Debian's "
                             "python3-paho-mqtt, for /usr/bin/python3, as tools/install_clients --shop does, or "
                             "`pip install paho-mqtt`")

    def test_all_else_is_there(self) -> None:
        told = self.told("from escrow_carrier import *; print(Folder.__name__, 'Mqtt' in dir())")
        self.assertEqual((told.stdout, told.stderr), ("Folder False\n", ""))


if __name__ == "__main__":
    unittest.main()
