"""Three shops with a broker between them, while sites are killed, the broker stops and starts, one shop is out of
its reach for a while, and somebody tells statements twice, late, in another order, and forged ones.

Nothing is sold past a bound, each answered commit is kept, what was told as not committed isn't, no right is made
or lost (`escrow_site check`), the woven trace is legal (`escrow audit`), and in the end the last right has come to
the shop that asked for it.

KILLS, GAP (seconds between two kills), PAUSE (seconds between two acts of a seller, at most), SALES (the part of
them that lowers a field), AWAY (seconds of the longest stop of the broker and of the longest partition) and SEED in
the environment make a longer run."""
from __future__ import annotations

import bisect
import os
import random
import signal
import statistics
import subprocess
import tempfile
import threading
import time
import unittest
from typing import NamedTuple

from broker import MISSING, Broker
from programs import TOP, escrow_site
from relay import Relay
from shop_world import End, Note, Seller, Shop, faults_of, log_of, sell_out

from escrow import create
from escrow.schema import Field, Schema
from escrow_carrier import Policy

if not MISSING:
    from escrow_carrier import Mqtt
    from meddler import Meddler

KILLS, GAP, PAUSE, SALES, AWAY, SEED = (float(os.environ.get(name, it)) for name, it in (
    ("KILLS", 60), ("GAP", 0.5), ("PAUSE", 0.02), ("SALES", 0.75), ("AWAY", 1.5), ("SEED", time.time_ns() % 10_000)))
SCHEMA = Schema(3, (Field("stock", 0, 60_000, 40_000), Field("seats", -3, 9_000, 6_000), Field("bikes", 0, 400, 300)))
FIELDS = [field.name for field in SCHEMA.fields]
SELLERS = 4                                             # of each shop
POLICY = Policy(quiet=2.0)


class Trouble(NamedTuple):
    """What was made worse, from when to when (by time.monotonic)."""

    what: str
    start: float
    end: float


class ThreeShops:
    """The shops, what lies between them, and the troubles that they have."""

    def __init__(self, folder: str, program: str, dice: random.Random) -> None:
        self.dice, self.troubles = dice, [Trouble("", 0, 0)] * 0
        self.kills: list[list[float]] = [[] for _ in range(SCHEMA.sites)]
        self.folders = [os.path.join(folder, f"shop{number}") for number in range(SCHEMA.sites)]
        self.broker = Broker(os.path.join(folder, "broker"))
        self.relays = [Relay(self.broker.port) for _ in self.folders]
        for number, it in enumerate(self.folders):
            create(it, SCHEMA, number, program=program, name="three-shops")
        self.shops = [Shop(it, program, Mqtt(port=relay.port, keepalive=3), POLICY, 2.0)
                      for it, relay in zip(self.folders, self.relays)]
        self.meddler = Meddler(self.broker.port, random.Random(dice.random()))
        self.sellers = [[Seller(shop, FIELDS, random.Random(dice.random()), PAUSE, SALES) for _ in range(SELLERS)]
                        for shop in self.shops]
        self._calm = threading.Event()

    def kill(self) -> None:
        """Kills the program of a site, wherever it is."""
        number = self.dice.randrange(SCHEMA.sites)
        pid = self.shops[number].site.pid
        if pid:
            try:
                os.kill(pid, signal.SIGKILL)
                self.kills[number].append(time.monotonic())
            except ProcessLookupError:
                pass

    def kill_sites(self) -> None:
        """Kills sites, and meanwhile stops the broker and cuts ways to it."""
        others = [threading.Thread(target=it, daemon=True) for it in (self._stop_broker, self._cut_ways)]
        for it in others:
            it.start()
        while sum(map(len, self.kills)) < KILLS:
            time.sleep(self.dice.random() * 2 * GAP)
            self.kill()
        self._calm.set()
        for it in others:
            it.join()

    def _stop_broker(self) -> None:
        dice = random.Random(self.dice.random())
        while not self._calm.wait(dice.uniform(1, 4) * max(AWAY, 1)):
            began = time.monotonic()
            self.broker.stop(dice.choice((signal.SIGTERM, signal.SIGKILL)))
            time.sleep(dice.random() * AWAY)
            self.broker.start()
            self.troubles.append(Trouble("broker away", began, time.monotonic()))

    def _cut_ways(self) -> None:
        dice = random.Random(self.dice.random())
        while not self._calm.wait(dice.uniform(1, 4) * max(AWAY, 1)):
            began, number = time.monotonic(), dice.randrange(SCHEMA.sites)
            self.relays[number].cut()
            time.sleep(dice.uniform(0.7, 1) * AWAY)
            self.relays[number].mend()
            self.troubles.append(Trouble(f"shop {number} cut off", began, time.monotonic()))

    def notes(self) -> list[list[Note]]:
        """What the sellers of each shop were told."""
        return [[note for seller in sellers for note in seller.notes] for sellers in self.sellers]

    def close(self) -> None:
        """Ends all of it; a second time does nothing more."""
        self.meddler.close()
        for shop in self.shops:
            shop.close()
        for relay in self.relays:
            relay.close()
        self.broker.stop()


def waits_of(notes: list[Note]) -> str:
    """How long sellers waited, in milliseconds."""
    waits = sorted(note.waited * 1_000 for note in notes) or [0.0]
    last = waits[min(len(waits) - 1, len(waits) * 99 // 100)]
    return f"wait median {statistics.median(waits):.1f} ms, 99 of 100 within {last:.0f} ms, longest {waits[-1]:.0f} ms"


def seen_by(notes: list[Note]) -> str:
    """How sales ended, and how long sellers waited."""
    ends = {end: sum(note.end is end for note in notes) for end in End}
    return ", ".join(f"{count} {end.value}" for end, count in ends.items() if count) + f"; {waits_of(notes)}"


@unittest.skipIf(MISSING, MISSING)
class WorldTest(unittest.TestCase):
    """Three shops in trouble."""

    def setUp(self) -> None:
        self.escrow, self.program = os.environ.get("ESCROW") or os.path.join(TOP, "escrow"), escrow_site()
        folder = tempfile.TemporaryDirectory()
        self.addCleanup(folder.cleanup)
        self.dice = random.Random(SEED)
        self.world = ThreeShops(folder.name, self.program, self.dice)
        self.addCleanup(self.world.close)

    def test_nothing_is_lost_or_sold_twice(self) -> None:
        world = self.world
        for sellers in world.sellers:
            for it in sellers:
                it.start()
        world.kill_sites()
        for sellers in world.sellers:
            for it in sellers:
                it.stop()
            for it in sellers:
                it.join(300)
                self.assertFalse(it.is_alive() or it.fault, f"seed {SEED}: {it.fault}")
        self.tell()
        notes = world.notes()
        for field in SCHEMA.fields:
            number = self.dice.randrange(SCHEMA.sites)
            notes[number] += sell_out(world.shops[number], field.name, self.value_of(field) - field.floor, 300)
        world.close()
        self.look_at_logs(notes)
        self.judge()

    def look_at_logs(self, notes: list[list[Note]]) -> None:
        """The logs have what sellers were told, and that comes to what `check` tells; in the end each field is at
        its floor."""
        logs = [log_of(it, FIELDS) for it in self.world.folders]
        faults = [f"shop {number}: {it}" for number, log in enumerate(logs) for it in faults_of(log, notes[number])]
        self.assertEqual(faults[:10], [], f"seed {SEED}: {len(faults)} faults")
        for field in SCHEMA.fields:
            self.assertEqual(self.value_of(field), field.floor, f"seed {SEED}: {field.name}")
        told = self.run_program(self.program, "check", *self.world.folders).splitlines()[2:]
        self.assertEqual(told, [f"field {it.name} value {it.floor} floor {it.floor} ceiling {it.ceiling}"
                                for it in SCHEMA.fields])

    def value_of(self, field: Field) -> int:
        """The value of a field, by the commits in all logs."""
        commits = [commit for it in self.world.folders for commit in log_of(it, FIELDS).commits.values()]
        return field.value + sum(change for commit in commits for name, change in commit if name == field.name)

    def judge(self) -> None:
        """The woven trace of all sites is a run of one central store."""
        woven = self.run_program(self.program, "weave", *self.world.folders)
        entries = woven.count("\n") - 1
        self.assertEqual(self.run_program(self.escrow, "audit", given=woven), f"legal {entries}\n")
        print(f"world: a woven trace of {entries} entries judged legal", flush=True)

    def run_program(self, *words: str, given: str = "") -> str:
        ended = subprocess.run(words, input=given, capture_output=True, text=True, check=False)
        self.assertEqual((ended.returncode, ended.stderr), (0, ""), f"seed {SEED}: {words}: {ended.stdout[:300]}")
        return ended.stdout

    def tell(self) -> None:
        """What happened, and what sellers saw of it."""
        world, of_shops = self.world, self.world.notes()
        notes = [note for it in of_shops for note in it]
        hit = [note for kills, it in zip(world.kills, of_shops) for note in it
               if bisect.bisect(kills, note.at) < bisect.bisect(kills, note.at + note.waited)]
        stops = [it for it in world.troubles if it.what == "broker away"]
        cuts = [it for it in world.troubles if it.what != "broker away"]
        meddler = world.meddler
        print(f"world: seed {SEED:.0f}: {sum(map(len, world.kills))} kills of sites, {len(stops)} stops of the broker, "
              f"{len(cuts)} partitions; {meddler.repeated} statements told again, {meddler.forged} forged, "
              f"{meddler.garbage} of garbage")
        print(f"world: sellers: {seen_by(notes)}")
        print(f"world: whose site was killed while they waited: {seen_by(hit)}")
        away = [note for note in notes if any(it.start <= note.at <= it.end for it in stops)]
        print(f"world: while the broker was away: {seen_by(away)}")
        off = [note for number, it in enumerate(of_shops) for note in it
               if any(cut.what == f"shop {number} cut off" and cut.start <= note.at <= cut.end for cut in cuts)]
        print(f"world: at a shop that was cut off: {seen_by(off)}")
        for number, shop in enumerate(world.shops):
            print(f"world: carrier {number}: {shop.carrier.counts}", flush=True)


if __name__ == "__main__":
    unittest.main()
