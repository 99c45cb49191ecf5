"""What the tests share: the program, folders of sites, and what their logs hold."""

from __future__ import annotations

import functools
import hashlib
import os
import random
import signal
import subprocess
import sys
import tempfile
import threading
import time
import unittest
from collections.abc import Callable
from typing import Any

PACKAGES = os.path.dirname(os.path.dirname(os.path.abspath(__file__)))
TOP = os.path.dirname(os.path.dirname(PACKAGES))
if PACKAGES not in sys.path:
    sys.path.insert(0, PACKAGES)

import escrow  # noqa: E402

WORLD = "test"
"""The name of the tests' worlds."""
LONG = float(os.environ.get("ESCROW_LONG", "120"))
"""So many seconds a test waits at most for what is sure to come: a busy machine takes its time. Fewer where a mistake is made, for
which it may not come."""
Act = Callable[[], object]
Changes = tuple[tuple[str, int], ...]
"""Fields and changes, in the order in which they were set aside."""

SHOP = escrow.Schema(2, (escrow.Field("stock", 0, 100, 40), escrow.Field("seats", 0, 12, 12)))
"""Of 40 stock site 0 has 20 rights to lower it and 30 to raise it; of 12 seats 6 and 0."""
LARGE = escrow.Schema(2, (escrow.Field("stock", 0, 2_000_000, 1_000_000), escrow.Field("seats", 0, 2_000_000, 1_000_000)))
"""So much that no test comes to an end of it."""


@functools.cache
def short_name(schema: escrow.Schema, name: str = WORLD) -> str:
    """What stands in front of the ids of a world, by docs/FORMATS.md: of the SHA-256 of its own name, a line feed and its
    header."""
    return hashlib.sha256(f"{name}\n{schema.line()}".encode("ascii")).hexdigest()[:8]


def of_shop(id: str) -> str:
    """The id of a transaction that lines of site 0 name so, in a test's world of the schema `SHOP`."""
    return f"{short_name(SHOP)}-0-{id}"


def of_large(id: str) -> str:
    """The same, of the schema `LARGE`."""
    return f"{short_name(LARGE)}-0-{id}"


@functools.cache
def escrow_site() -> str:
    """The path of the program: `$ESCROW_SITE`, or that which the script at the top of the repository would run."""
    named = os.environ.get("ESCROW_SITE")
    if named:
        return os.path.abspath(named)
    script = os.path.join(TOP, "escrow_site")
    told = subprocess.run([script, "version"], capture_output=True, text=True, check=True).stdout
    return next((line[len("file ") :] for line in told.splitlines() if line.startswith("file ")), script)


@functools.cache
def makes_sums() -> bool:
    """Whether the program makes logs of version 2, whose batches have sums."""
    with tempfile.TemporaryDirectory() as place:
        folder = os.path.join(place, "shop")
        escrow.create(folder, SHOP, 0, program=escrow_site(), name=WORLD)
        with open(os.path.join(folder, "log"), encoding="ascii") as log:
            return log.readline() == "escrow log 2\n"


class SiteTest(unittest.TestCase):
    """A test with a folder of its own, in which it makes folders of sites."""

    def setUp(self) -> None:
        held = tempfile.TemporaryDirectory(prefix="escrow-test-")
        self.addCleanup(held.cleanup)
        self.place = held.name

    def folder(self, schema: escrow.Schema = SHOP, number: int = 0, name: str = "shop", world: str = WORLD) -> str:
        """A new folder of this site."""
        path = os.path.join(self.place, name)
        escrow.create(path, schema, number, program=escrow_site(), name=world)
        return path

    def served(self, folder: str, **options: object) -> escrow.Site:
        """The site of this folder, served until the test ends."""
        site = escrow.Site(folder, program=escrow_site(), **{"wait": LONG, **options})  # type: ignore[arg-type]
        self.addCleanup(site.close)
        return site

    def site(self, schema: escrow.Schema = SHOP, number: int = 0, **options: object) -> escrow.Site:
        """A new site, served until the test ends."""
        return self.served(self.folder(schema, number), **options)

    def interrupted(self, site: escrow.Site, step: Act, stop: Act) -> Any:
        """What a step raises, or returns, that was asked of a process which is stopped before it takes it."""
        told: list[object] = []

        def takes() -> None:
            try:
                told.append(step())
            except escrow.EscrowError as fault:
                told.append(fault)

        thread = threading.Thread(target=takes)
        stand_still(pid_of(site))
        thread.start()
        wait_until(lambda: site.unanswered == 1)
        stop()
        thread.join()
        return told[0]

    def gated(self, **options: object) -> Gate:
        """A new site, whose next process can be held up."""
        return Gate(self, options)


GATED = """#!/bin/sh
[ "$1" != serve ] || until [ -e '{sign}' ]; do sleep 0.01; done
exec '{real}' "$@"
"""


class Gate:
    """A site whose processes wait, before they serve, until the gate is open."""

    def __init__(self, test: SiteTest, options: dict[str, object]) -> None:
        self._sign, program = os.path.join(test.place, "open"), os.path.join(test.place, "gated")
        with open(program, "w", encoding="ascii") as file:
            file.write(GATED.format(sign=self._sign, real=escrow_site()))
        os.chmod(program, 0o755)
        self.open()
        self.site = escrow.Site(test.folder(), program=program, **{"wait": LONG, **options})  # type: ignore[arg-type]
        test.addCleanup(self.site.close)

    def open(self) -> None:
        """The next process serves."""
        with open(self._sign, "w", encoding="ascii"):
            pass

    def stop(self) -> None:
        """Kills the process, and shuts the gate: returns once nobody serves the folder."""
        os.unlink(self._sign)
        pid = pid_of(self.site)
        kill(self.site)
        wait_until(lambda: not self.site.up and is_ended(pid))


def records(folder: str) -> list[list[str]]:
    """The words of the records of a log, by "Kept records" of docs/FORMATS.md."""
    return log_of(folder)[1]


def log_of(folder: str) -> tuple[str, list[list[str]]]:
    """What stands in front of the ids of a log, and the words of its records: in version 2 of those that a sum closes."""
    with open(os.path.join(folder, "log"), encoding="ascii") as file:
        version, number, world, *lines = file.read().split("\n")[:-1]
    assert version in ("escrow log 1", "escrow log 2") and number.startswith("number "), version
    if version == "escrow log 2":
        assert [line.split(" ")[0] for line in lines[:2]] == ["head", "sum"], lines[:2]
        last = max(at for at, line in enumerate(lines) if line.startswith("sum "))
        lines = [line for line in lines[2 : last + 1] if not line.startswith("sum ")]
    front = f"{world.removeprefix('world ')[:8]}-{number.removeprefix('number ')}-"
    return front, [line.split(" ") for line in lines]


def commits(folder: str, schema: escrow.Schema) -> dict[str, Changes]:
    """The changes of each commit of a log, by id. Fails where one stands twice."""
    found: dict[str, Changes] = {}
    front, kept = log_of(folder)
    for words in kept:
        if words[0] != "C":
            continue
        id = f"{front}{words[1]}.{words[2]}"
        assert id not in found, f"{id} is committed twice"
        pairs = zip(words[3::2], words[4::2])
        found[id] = tuple((schema.fields[int(field)].name, int(change)) for field, change in pairs)
    return found


def totals(folder: str, record: str) -> list[int]:
    """The totals of all records that begin so, as `G 1 0 l` or `T 0 r`, in their order."""
    front = record.split(" ")
    return [int(words[-1]) for words in records(folder) if words[: len(front)] == front]


class Killer:
    """Kills the process of a site at random moments, until it has killed it so many times."""

    def __init__(self, site: escrow.Site, kills: int, pause: float, seed: int) -> None:
        self._site, self._kills, self._pause = site, kills, pause
        self._random = random.Random(seed)
        self._thread = threading.Thread(target=self._run)
        self.killed = 0

    def __enter__(self) -> Killer:
        self._thread.start()
        return self

    def __exit__(self, *_: object) -> None:
        self._thread.join()

    @property
    def at_work(self) -> bool:
        """Whether kills are still to come."""
        return self._thread.is_alive()

    def _run(self) -> None:
        while self.killed < self._kills:
            if self._random.random() < 0.5:  # where a start takes longer than the pauses, it would never stand
                self._wait_for_start()
            time.sleep(self._random.uniform(0.2, 1.8) * self._pause)
            self.killed += kill(self._site)

    def _wait_for_start(self) -> None:
        """Waits until the site stands, unless nobody starts it any more."""
        end = time.monotonic() + LONG
        while not self._site.up and self._site.pipeline.dead is None and time.monotonic() < end:
            time.sleep(0.002)


def pid_of(site: escrow.Site) -> int:
    """The process of a site that is served."""
    pid = site.pid
    assert pid is not None
    return pid


def kill(site: escrow.Site) -> bool:
    """Kills the process of a site, where there is one."""
    pid = site.pid
    if pid is None:
        return False
    try:
        os.kill(pid, signal.SIGKILL)
    except ProcessLookupError:
        return False
    return True


def wait_until(holds: Callable[[], object], seconds: float = LONG) -> None:
    """Waits until this holds. Fails where it doesn't in time."""
    end = time.monotonic() + seconds
    while not holds():
        assert time.monotonic() < end, "it didn't come in time"
        time.sleep(0.005)


def state_of(pid: int) -> str:
    """The state of a process, as `ps` has it."""
    with open(f"/proc/{pid}/stat", encoding="ascii", errors="replace") as file:
        return file.read().rsplit(")", 1)[1].split()[0]


def stand_still(pid: int) -> None:
    """Has a process do nothing from now on: returns once it stands still."""
    os.kill(pid, signal.SIGSTOP)
    wait_until(lambda: state_of(pid) == "T")


def is_ended(pid: int) -> bool:
    """Whether a process has ended."""
    try:
        return state_of(pid) == "Z"
    except OSError:
        return True
