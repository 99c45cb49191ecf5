#!/usr/bin/env python3
"""Measures a site whose log is shortened while it is served (`escrow_site serve --keep`): what it takes, and what that costs.

    bench/shorten.py [--many N] [--keep BYTES] [--seconds S] [--turns N] [--program PATH] [--folder FOLDER] [--only PART ..]

PART is one of these, and all are run where none is named:

- `memory`: N transactions (10,000,000) through one process, `--keep BYTES` (1,048,576) `--no-sync`, 1,024 under way: resident
  memory and its peak behind 100,000, behind each tenth and at the end; the greatest size of the folder that was seen.
- `start`: over that folder, and over one behind 1,000,000 transactions: how long a start takes until the entry of its restart was
  read, and until it has answered `kept ID`, the first question of that run. The median of TURNS, with the least and the greatest.
- `pace`: transactions a second with and without `--keep`, 1 and 64 under way, with syncs, and 64 without syncs, by turns, S
  seconds each (3), TURNS of them (7): medians, and the ratio, the median of the ratios within a turn.
- `longest`: 64 under way with syncs: of how long each transaction took the half, 99 and 99.9 of 100 and the longest one, with and
  without `--keep 0`, which shortens the log as often as can be.

A transaction is a begin, an escrow of -1 and a commit on one field, and counts once its commit was answered.
"""
from __future__ import annotations

import argparse
import contextlib
import os
import shutil
import statistics
import subprocess
import sys
import tempfile
import time
from collections.abc import Iterator

import store

LINES = 3


def text_of(epoch: int, first: int, behind: int) -> bytes:
    return "".join(
        f"0 begin\n0 escrow {epoch}.{number} stock -1\n0 commit {epoch}.{number}\n" for number in range(first, behind)
    ).encode()


class Served:
    """A site that is served, and driven transaction by transaction."""

    def __init__(self, program: str, kept: str, words: list[str]) -> None:
        began = time.perf_counter()
        how = {"stdin": subprocess.PIPE, "stdout": subprocess.PIPE, "bufsize": 0}
        self.child = subprocess.Popen([program, "serve", kept, *words], **how)
        self.to, self.back = (it.fileno() for it in store.pipes(self.child))
        self.epoch = store.epoch_of(self.child)
        self.started = time.perf_counter() - began
        self.answered = 0

    def ask(self, line: str) -> bytes:
        os.write(self.to, f"{line}\n".encode())
        return os.read(self.back, 1 << 16)

    def drive(self, deep: int, many: int, seconds: float = 1e9) -> float:
        """So many transactions more at most, in so many seconds at most: how many a second."""
        sent = begun = self.answered // LINES
        start = time.perf_counter()
        while self.answered // LINES < begun + many and time.perf_counter() < start + seconds:
            upto = min(begun + many, self.answered // LINES + deep)
            if upto > sent:
                store.write_all(self.to, memoryview(text_of(self.epoch, sent + 1, upto + 1)))
                sent = upto
            self.take()
        pace = (self.answered // LINES - begun) / (time.perf_counter() - start)
        while self.answered < LINES * sent:
            self.take()
        return pace

    def take(self) -> None:
        told = os.read(self.back, 1 << 20)
        if not told:
            sys.exit(f"{self.child.args!r} ended")
        self.answered += told.count(b"\n")

    def times(self, deep: int, seconds: float) -> list[float]:
        """How long each transaction took, with so many under way."""
        took, sent, begun = [], [], 0
        end = time.perf_counter() + seconds
        while time.perf_counter() < end:
            done = self.answered // LINES
            now = time.perf_counter()
            fresh = done + deep - len(sent)
            if fresh > 0:
                store.write_all(self.to, memoryview(text_of(self.epoch, len(sent) + 1, len(sent) + fresh + 1)))
                sent += [now] * fresh
            self.take()
            now = time.perf_counter()
            took += [now - it for it in sent[begun : self.answered // LINES]]
            begun = self.answered // LINES
        while self.answered < LINES * len(sent):
            self.take()
        return sorted(took)

    def memory(self) -> tuple[float, float]:
        """Resident, and at most so far, in MB."""
        with open(f"/proc/{self.child.pid}/status", encoding="ascii") as file:
            found = dict(line.split(":", 1) for line in file)
        return int(found["VmRSS"].split()[0]) / 1024, int(found["VmHWM"].split()[0]) / 1024

    def end(self) -> None:
        store.pipes(self.child)[0].close()
        if self.child.wait(60):
            sys.exit(f"{self.child.args!r} ended with status {self.child.returncode}")


@contextlib.contextmanager
def served(program: str, kept: str, words: list[str]) -> Iterator[Served]:
    site = Served(program, kept, words)
    try:
        yield site
        site.end()
    finally:
        site.child.kill()
        site.child.wait()


def size_of(folder: str) -> int:
    """The bytes of the files in a folder, of which one may go meanwhile."""
    found = 0
    for name in os.listdir(folder):
        with contextlib.suppress(FileNotFoundError):
            found += os.path.getsize(os.path.join(folder, name))
    return found


def create(program: str, folder: str, name: str) -> str:
    kept, header = os.path.join(folder, name), os.path.join(folder, "header")
    shutil.rmtree(kept, ignore_errors=True)
    store.put(header, store.HEADER)
    subprocess.run([program, "create", kept, "--schema", header, "--site", "0", "--name", "hot-field"], check=True)
    return kept


def measure_memory(given: argparse.Namespace, kept: str, many: int, is_told: bool) -> None:
    """Serves so many transactions over the folder, and tells what that took."""
    with served(given.program, kept, ["--keep", str(given.keep), "--no-sync"]) as site:
        start, most, done = time.perf_counter(), 0, 0
        marks = [100_000, *(many * tenth // 10 for tenth in range(1, 11))]
        for mark in sorted(set(marks)):
            while done < mark:
                part = min(20_000, mark - done)
                site.drive(1_024, part)
                done += part
                most = max(most, size_of(kept))
            resident, peak = site.memory()
            if is_told:
                took = time.perf_counter() - start
                print(f"behind {done:>10,}: {resident:.1f} MB resident, {peak:.1f} at most; {size_of(kept):>9,} bytes, "
                      f"{most:,} at most; {done / took:,.0f} a second", flush=True)


def measure_starts(given: argparse.Namespace, kept: str, name: str) -> None:
    begun, asked = [], []
    for _ in range(given.turns):
        with served(given.program, kept, ["--keep", str(given.keep), "--no-sync"]) as site:
            began = time.perf_counter()
            told = site.ask(f"kept {site.epoch - 1}.1")
            begun.append(1000 * site.started)
            asked.append(1000 * (site.started + time.perf_counter() - began))
            if b"kept" not in told:
                sys.exit(f"{kept}: {told!r}")
    for what, took in (("ready", begun), ("answered kept", asked)):
        middle, least, most = statistics.median(took), min(took), max(took)
        print(f"a start behind {name}, {size_of(kept):,} bytes: {what} in {middle:.1f} ms ({least:.1f} to {most:.1f})", flush=True)


def measure_pace(given: argparse.Namespace, folder: str) -> None:
    rows = [(deep, is_synced) for deep, is_synced in ((1, True), (64, True), (64, False))]
    for deep, is_synced in rows:
        rates: dict[bool, list[float]] = {False: [], True: []}
        for turn in range(given.turns):
            for is_kept in (False, True) if turn % 2 else (True, False):
                kept = create(given.program, folder, "pace")
                words = [*(["--keep", str(given.keep)] if is_kept else []), *([] if is_synced else ["--no-sync"])]
                with served(given.program, kept, words) as site:
                    rates[is_kept].append(site.drive(deep, 1 << 40, given.seconds))
        ratios = [one / other for one, other in zip(rates[True], rates[False])]
        name = f"{deep} under way{'' if is_synced else ', --no-sync'}"
        print(f"{name}: {statistics.median(rates[True]):,.0f} a second with --keep {given.keep}, "
              f"{statistics.median(rates[False]):,.0f} without: {statistics.median(ratios):.3f} times "
              f"({min(ratios):.3f} to {max(ratios):.3f})", flush=True)


def measure_longest(given: argparse.Namespace, folder: str) -> None:
    for words in (["--keep", "0"], ["--keep", str(given.keep)], []):
        kept = create(given.program, folder, "longest")
        with served(given.program, kept, words) as site:
            took = site.times(64, 3 * given.seconds)
        half, most, few, last = (1000 * took[int(len(took) * it)] for it in (0.5, 0.99, 0.999, 1 - 1 / len(took)))
        print(f"64 under way, {' '.join(words) or 'without --keep'}: of {len(took):,} half took {half:.1f} ms at most, 99 of 100 "
              f"{most:.1f}, 99.9 {few:.1f}, the longest {last:.1f}", flush=True)


def main() -> None:
    parser = argparse.ArgumentParser(description=__doc__, formatter_class=argparse.RawDescriptionHelpFormatter)
    parser.add_argument("--many", type=int, default=10_000_000)
    parser.add_argument("--keep", type=int, default=1_048_576)
    parser.add_argument("--seconds", type=float, default=3.0)
    parser.add_argument("--turns", type=int, default=7)
    parser.add_argument("--program", default=store.site_program())
    parser.add_argument("--folder", default=None)
    parser.add_argument("--only", nargs="*", default=["memory", "start", "pace", "longest"])
    given = parser.parse_args()
    with tempfile.TemporaryDirectory(prefix="shorten-", dir=given.folder) as folder:
        if {"memory", "start"} & set(given.only):
            long = create(given.program, folder, "long")
            measure_memory(given, long, given.many, "memory" in given.only)
        if "start" in given.only:
            short = create(given.program, folder, "short")
            measure_memory(given, short, given.many // 10, False)
            measure_starts(given, short, f"{given.many // 10:,}")
            measure_starts(given, long, f"{given.many:,}")
        if "pace" in given.only:
            measure_pace(given, folder)
        if "longest" in given.only:
            measure_longest(given, folder)


if __name__ == "__main__":
    main()
