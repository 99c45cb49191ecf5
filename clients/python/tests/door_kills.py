"""Kills a door, its site and the processes that sell through it, so many times, and then judges what was told by the log.

    door_kills.py [KILLS [SEED]] [--spare]

KILLS (1000) is how often any of them is killed by SIGKILL, or stands still for a moment (SIGSTOP); SEED (1) is of the moments.
Four processes of 16 tasks each sell, by `change`, with `before`, and by transactions; two of them with a timeout of 0.3
seconds. With --spare no process that sells is killed, and each has a timeout of 0.03 to 0.3 seconds: then what was told is
the log, to the last sale. Ends with status 1 where something that was told isn't so.
"""

from __future__ import annotations

import argparse
import os
import random
import signal
import sys
import tempfile
import time

from doors import Door, Pusher, children_of
from programs import LARGE, WORLD, commits, escrow_site
import escrow

MANY, TASKS = 4, 16
SHORT = (0.03, 0.1, 0.3, 0.05)
"""Seconds that each process allows, where none is killed."""


class Kills:
    """Who is killed, and what was told by those that were."""

    def __init__(self, door: Door, seed: int, spares: bool) -> None:
        self.door, self.luck, self.spares = door, random.Random(seed), spares
        self.pushers = [self.pusher(number) for number in range(MANY)]
        self.told: list[dict[str, set[str]]] = []
        self.counts = dict.fromkeys(("door", "site", "process", "still"), 0)

    def pusher(self, number: int) -> Pusher:
        """A process that sells."""
        timeout = SHORT[number] if self.spares else 0.3 if number < 2 else 20.0
        return Pusher(self.door.path, TASKS, ("change", "mixed")[number % 2], timeout)

    def kill_one(self) -> None:
        """Kills one of them, or has one stand still for a moment."""
        time.sleep(self.luck.uniform(0.01, 0.25))
        draw = self.luck.random()
        if draw < 0.45:
            self.counts["door"] += 1
            self.door.kill()
            self.door.start()
        elif draw < 0.6:
            children = children_of(self.door.process.pid)
            if children:
                self.counts["site"] += 1
                os.kill(children[0], signal.SIGKILL)
        elif draw < 0.7 or self.spares:
            self.counts["still"] += 1
            self.door.stand_still()
            time.sleep(self.luck.uniform(0.0, 0.6))
            self.door.go_on()
        else:
            self.counts["process"] += 1
            number = self.luck.randrange(MANY)
            self.told.append(self.pushers[number].kill())
            self.pushers[number] = self.pusher(number)

    def all_of(self, word: str) -> list[str]:
        """What any process told so."""
        return [id for told in self.told for id in told.get(word, ())]


def judge(kills: Kills) -> bool:
    """Prints what was told and what is so: whether they fit."""
    kept = set(commits(kills.door.folder, LARGE))
    sold, found, lost, doubt = (kills.all_of(word) for word in ("sold", "found", "lost", "doubt"))
    told = set(sold) | set(found)
    print(f"killed or still: {kills.counts}; starts of the site: {kills.door.text().count('the site stands')}")
    print(f"told as sold {len(sold)}, in doubt {len(doubt)}: found {len(found)}, lost {len(lost)}")
    print(f"busy or down {len(kills.all_of('busy'))}")
    print(f"in the log {len(kept)}; told and not in it {len(told - kept)}; lost and in it {len(set(lost) & kept)}")
    print(f"in it and told by nobody {len(kept - told)}: of {kills.counts['process']} processes of {TASKS} tasks, killed")
    is_once = len(sold) == len(set(sold)) and len(told) == len(sold) + len(found)
    nobody = len(kept - told) <= kills.counts["process"] * TASKS
    return is_once and nobody and not told - kept and not set(lost) & kept


def main() -> int:
    """Kills, and judges."""
    parser = argparse.ArgumentParser(description="Kills a door, its site and processes that sell, and judges by the log.")
    parser.add_argument("kills", type=int, nargs="?", default=1000)
    parser.add_argument("seed", type=int, nargs="?", default=1)
    parser.add_argument("--spare", action="store_true", help="kill no process that sells")
    given = parser.parse_args()
    with tempfile.TemporaryDirectory(prefix="escrow-kills-") as place:
        folder, began = os.path.join(place, "shop"), time.monotonic()
        escrow.create(folder, LARGE, 0, program=escrow_site(), name=WORLD)
        kills = Kills(Door(folder, os.path.join(place, "door")), given.seed, given.spare)
        while sum(kills.counts.values()) < given.kills:
            kills.kill_one()
        time.sleep(1.0)
        kills.told += [pusher.end() for pusher in kills.pushers]
        status = kills.door.close()
        is_well = judge(kills) and status == 0
        took = time.monotonic() - began
        print(f"{'well' if is_well else 'NOT WELL'}: {given.kills} in {took:.0f} seconds, load {os.getloadavg()[0]:.1f}")
    return 0 if is_well else 1


if __name__ == "__main__":
    sys.exit(main())
