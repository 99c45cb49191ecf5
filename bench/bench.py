#!/usr/bin/env python3
"""Measures `escrow run` on long scripts, `escrow audit` on what that writes, and desks that threads call, each
beside a plain Rust program of the same shape.

    bench/bench.py [LINES [TURNS]] [--audit | --restarts | --desk | --work]

LINES is the length of the input, its header line included (1,000,000 if left out, which is the
most that `run` takes), and TURNS how often each program runs (5), the two in turn. It prints, for
the best turn of each program, the time, lines a second and peak memory, and the time of the middle
turn, and fails where the two programs differ in what they write. Needs `rt`, and `rustc` for the plain one.

The scripts:

- one site: a begin, an escrow, a commit and a read, over and over; the changes go down and up in
  turn, so every escrow is granted. It runs at a tenth of the length, at the whole length, and over
  a schema of 256 fields, at the last of which all commands are: lines a second stay as they were,
  since no command's cost grows with the history or with the number of fields.
- mixed: 4 sites and 8 fields; begins, escrows, commits, aborts, gifts, deliveries, tightenings,
  reads, shares, and 20 restarts, some of them after a torn commit. It runs at a tenth of the length
  and at the whole length, and then over 64 sites and 256 fields, each field at each site: the last
  line tells the cost of a line there as a multiple of that over 4 sites and 8 fields.
- the audit of what the mixed scripts write, in one pass and with `--fields`, and of what a script
  writes that has 912 escrows open at each of 4 sites all along: no command costs a walk over the
  history, or over other transactions' escrows. Both read the text alike, so a line tells what the
  judges alone take: an audit less that of the same text with an illegal first entry, at which the
  judge in one pass ends. Then traces in which all lines are gifts of one field and their
  arrivals, of 1 right each and of 2**32 each, at a tenth of the length and at the whole length: the
  statements issued, as many as there are lines at half, cost no more where they are alike. With
  --audit these alone.
- restarts: a quarter of all lines are restarts, at a tenth of the length and at the whole length;
  the last line tells the cost of a line at the whole length as a multiple of that at a tenth. And
  LINES / 100 restarts behind 1,000 gifts, and behind as many as fit: what one of them costs. The
  plain program reads its whole log at each restart, so it doesn't run these. With --restarts these
  alone.
- desks: a desk of one site called by 1, 2 and 4 threads, and four desks, each of a site and called by
  one thread, beside a Mutex of std round the plain program's site. Each thread makes LINES calls in
  all: a begin, an escrow, a commit and a read, over and over. The two programs run in turn, and tell
  the time themselves; each row has the best of each, and the load of the machine when it was done.
  With --desk these alone.
- work: counters over 4 sites, of which `escrow work` does each site's lines in threads of its own: on all processors,
  on one, and beside `escrow run` of the same lines in one thread, at a tenth of the length and at the whole
  length. A work reads all lines before it begins, and then weaves and judges what was done. With --work these
  alone.
"""
from __future__ import annotations

import argparse
import filecmp
import os
import shutil
import statistics
import subprocess
import sys
import tempfile
import time
from collections.abc import Iterable, Iterator, Sequence
from typing import NamedTuple, Optional

TOP = os.path.dirname(os.path.dirname(os.path.abspath(__file__)))
RESTARTS = 20
ILLEGAL = 3
Programs = tuple[str, Optional[str]]
"""The program, and the plain one where there is a compiler for it."""


class Turn(NamedTuple):
    """The seconds that passed, those of the processor, and the peak memory in KiB."""

    passed: float
    used: float
    memory: int


def header(sites: int, names: Sequence[str], floor: int, ceiling: int, value: int) -> str:
    rows = ",".join(
        f'{{"name":"{name}","floor":{floor},"ceiling":{ceiling},"value":{value}}}' for name in names
    )
    return f'{{"sites":{sites},"fields":[{rows}]}}\n'


def one_site(lines: int, fields: int) -> Iterator[str]:
    yield header(1, [f"stock{place}" for place in range(1, fields + 1)], 0, 100, 40)
    for place in range(lines - 1):
        number = place // 4 + 1
        change = "-20" if number % 2 == 1 else "20"
        yield (
            "0 begin\n",
            f"0 escrow 0.{number} stock{fields} {change}\n",
            f"0 commit 0.{number}\n",
            f"0 read stock{fields}\n",
        )[place % 4]


class Mixed:
    """The lines of so many sites over so many fields, with the ids that the sites will give out."""

    def __init__(self, lines: int, sites: int, fields: int) -> None:
        self.lines = lines
        self.sites = sites
        self.fields = fields
        self.epochs = [0] * sites
        self.numbers = [0] * sites
        self.issued = 0
        self.turn = 0

    def begin(self, site: int) -> str:
        self.numbers[site] += 1
        return f"{self.epochs[site]}.{self.numbers[site]}"

    def restart(self, site: int) -> str:
        self.epochs[site] += 1
        self.numbers[site] = 0
        return f"{site} restart\n"

    def round(self) -> Iterator[str]:
        site, place = self.turn % self.sites, self.turn + self.turn // self.sites
        field, second = (f"stock{number % self.fields + 1}" for number in (place, place + 3))
        other = (site + 1) % self.sites
        self.turn += 1
        txn = self.begin(site)
        yield f"{site} begin\n"
        yield f"{site} escrow {txn} {field} -2\n"
        yield f"{site} escrow {txn} {second} 3\n"
        yield f"{site} commit {txn}\n"
        self.issued += 1
        yield f"{site} give {other} {field} lower 1\n"
        yield f"deliver {self.issued}\n"
        txn = self.begin(site)
        yield f"{site} begin\n"
        yield f"{site} escrow {txn} {field} 5\n"
        yield f"{site} abort {txn}\n"
        yield f"{site} tighten {second} raise 1\n"
        yield f"{site} read {second}\n"
        yield f"{site} share {field}\n"

    def stop(self) -> Iterator[str]:
        site = self.turn % self.sites
        if self.turn % 2 == 0:
            txn = self.begin(site)
            yield f"{site} begin\n"
            yield f"{site} escrow {txn} stock1 -7\n"
            yield f"{site} commit {txn} torn {self.turn % 30}\n"
        yield self.restart(site)

    def all(self) -> Iterator[str]:
        names = [f"stock{place}" for place in range(1, self.fields + 1)]
        yield header(self.sites, names, 0, 10**12, 5 * 10**11)
        count, stops = 1, 0
        while True:
            due = stops < RESTARTS and count * (RESTARTS + 1) > (stops + 1) * self.lines
            stops += due
            for line in self.stop() if due else self.round():
                yield line
                count += 1
                if count == self.lines:
                    return


def held(lines: int, sites: int, fields: int) -> Iterator[str]:
    """The sites hold 57 transactions of 16 escrows each, and then begin, escrow, commit and read."""
    names = [f"stock{place}" for place in range(1, fields + 1)]
    yield header(sites, names, 0, 10**12, 5 * 10**11)
    count = 1
    for site in range(sites):
        for number in range(1, 58):
            yield f"{site} begin\n"
            for place in range(16):
                yield f"{site} escrow 0.{number} {names[place % fields]} {1 if place % 2 == 0 else -1}\n"
            count += 17
    for turn in range(lines - count):
        number, site = turn // (4 * sites) + 58, turn // 4 % sites
        name = names[(turn // 4) % fields]
        yield (
            f"{site} begin\n",
            f"{site} escrow 0.{number} {name} {-2 if number % 2 == 0 else 2}\n",
            f"{site} commit 0.{number}\n",
            f"{site} read {name}\n",
        )[turn % 4]


def gifts(lines: int, amount: int) -> Iterator[str]:
    """Site 0 gives so many rights to site 1, again and again; after each 1,000 gifts site 1 gives all of them back."""
    yield header(2, ["stock1"], -(10**15), 10**15, 10**15)
    for number in range(1, (lines + 1) // 2):
        back = number % 1_001 == 0
        giver, rights = (1, 1_000 * amount) if back else (0, amount)
        yield f"{giver} give {1 - giver} stock1 lower {rights}\n"
        yield f"deliver {number}\n"


def quarter_restarts(lines: int) -> Iterator[str]:
    yield header(1, ["stock1"], 0, 100, 40)
    for place in range(lines - 1):
        epoch = place // 4
        change = "-20" if epoch % 2 == 0 else "20"
        yield (
            "0 begin\n",
            f"0 escrow {epoch}.1 stock1 {change}\n",
            f"0 commit {epoch}.1\n",
            "0 restart\n",
        )[place % 4]


def gifts_and_restarts(gifts: int, restarts: int) -> Iterator[str]:
    yield header(2, ["stock1"], 0, 10**12, 5 * 10**11)
    yield from ["0 give 1 stock1 lower 1\n"] * gifts
    yield from ["0 restart\n"] * restarts


def run(words: Sequence[str], source: str, target: str, wanted: int = 0) -> Turn:
    """Runs it over this file, into that one."""
    with open(source, "rb") as stdin, open(target, "wb") as stdout:
        start = time.perf_counter()
        child = subprocess.Popen(words, stdin=stdin, stdout=stdout)
        _, status, usage = os.wait4(child.pid, 0)
        passed = time.perf_counter() - start
    child.returncode = os.waitstatus_to_exitcode(status)
    if child.returncode != wanted:
        sys.exit(f"{words[0]} ended with {child.returncode}")
    return Turn(passed, usage.ru_utime + usage.ru_stime, usage.ru_maxrss)


def tell(name: str, times: Sequence[Turn], lines: int) -> tuple[float, float]:
    """Prints the best turn, and the seconds of the middle one, and returns both."""
    passed, used, memory = min(times)
    middle = statistics.median(it.passed for it in times)
    print(
        f"{name:8} {passed:8.3f} s, median {middle:8.3f} s  {used:8.3f} s of processor  "
        f"{lines / passed:12,.0f} lines/s  {memory / 1024:8.1f} MiB  {memory * 1024 / lines:6.0f} bytes/line"
    )
    return passed, middle


def measure(name: str, words: Sequence[str], source: str, target: str, lines: int, turns: int) -> float:
    """The seconds of the best turn."""
    return tell(name, [run(words, source, target) for _ in range(turns)], lines)[0]


def beside(
    ours: Sequence[str], theirs: Sequence[str], source: str, targets: tuple[str, str], lines: int, turns: int
) -> float:
    """The seconds of our best turn, beside those of the plain program: the two take turns, so that what else the
    machine does falls on both."""
    pairs = [(run(ours, source, targets[0]), run(theirs, source, targets[1])) for _ in range(turns)]
    best, middle = tell("escrow", [pair[0] for pair in pairs], lines)
    plain_best, plain_middle = tell("plain", [pair[1] for pair in pairs], lines)
    if not filecmp.cmp(*targets, shallow=False):
        sys.exit("the two programs wrote different bytes")
    print(
        f"         same output; escrow takes {best / plain_best:.2f} times the plain program's time, "
        f"by medians {middle / plain_middle:.2f} times"
    )
    return best


def build_plain(folder: str) -> str | None:
    """The plain program, where there is a compiler for it."""
    if shutil.which("rustc") is None:
        print("no rustc here: nothing to compare with")
        return None
    plain = os.path.join(folder, "plain")
    source = os.path.join(TOP, "bench", "plain", "plain.rs")
    subprocess.run(["rustc", "--edition", "2024", "-O", "-o", plain, source], check=True)
    return plain


def build(folder: str) -> Programs:
    """The program, and the plain one where there is a compiler for it."""
    subprocess.run([os.path.join(TOP, "escrow"), "prove"], check=True)
    program = os.path.join(TOP, "crates", "escrow", "out", "escrow")
    return program, build_plain(folder)


def compare(name: str, script: Iterable[str], folder: str, programs: Programs, turns: int) -> float:
    """The seconds that `escrow run` takes."""
    source, proved, written = (os.path.join(folder, part) for part in ("script", "proved", "written"))
    with open(source, "w", encoding="ascii") as file:
        file.writelines(script)
    with open(source, "rb") as file:
        lines = sum(1 for _ in file)
    program, plain = programs
    print(f"{name}: {lines:,} lines, {os.path.getsize(source):,} bytes, best of {turns}")
    if plain is None:
        return measure("escrow", [program, "run"], source, proved, lines, turns)
    return beside([program, "run"], [plain], source, (proved, written), lines, turns)


def judges_alone(program: str, trace: str, folder: str, turns: int, ours: float, parts: float) -> None:
    """The seconds that the judge in one pass takes, and those of the one in parts, without the reading of the text."""
    behind, told = (os.path.join(folder, part) for part in ("behind", "told"))
    with open(trace, "rb") as source, open(behind, "wb") as target:
        target.write(source.readline() + b"0 begin -> granted\n")
        source.readline()
        shutil.copyfileobj(source, target)
    reading = min(run([program, "audit"], behind, told, ILLEGAL)[0] for _ in range(turns))
    one, fields = ours - reading, parts - reading
    if min(one, fields) <= 0:
        print(f"         {reading:.3f} s are reading: the machine is too busy to tell the judges' own time")
        return
    print(
        f"         {reading:.3f} s are reading; the judge takes {one:.3f} s, and with --fields {fields:.3f} s: "
        f"{fields / one:.2f} times"
    )


def audit(name: str, script: Iterable[str], folder: str, programs: Programs, turns: int) -> float:
    """The seconds that `escrow audit` takes on what `escrow run` writes."""
    source, trace, proved, written = (os.path.join(folder, part) for part in ("script", "trace", "proved", "written"))
    with open(source, "w", encoding="ascii") as file:
        file.writelines(script)
    program, plain = programs
    run([program, "run"], source, trace)
    with open(trace, "rb") as file:
        lines = sum(1 for _ in file)
    print(f"audit, {name}: {lines:,} lines, {os.path.getsize(trace):,} bytes, best of {turns}")
    if plain is None:
        ours = measure("escrow", [program, "audit"], trace, proved, lines, turns)
    else:
        ours = beside([program, "audit"], [plain, "audit"], trace, (proved, written), lines, turns)
    parts = measure("--fields", [program, "audit", "--fields"], trace, written, lines, turns)
    if not filecmp.cmp(proved, written, shallow=False):
        sys.exit("with --fields it wrote other bytes")
    judges_alone(program, trace, folder, turns, ours, parts)
    return ours


def audits(lines: int, folder: str, programs: Programs, turns: int) -> None:
    audit("one site", one_site(lines, 1), folder, programs, turns)
    audit("mixed", Mixed(lines // 10, 4, 8).all(), folder, programs, turns)
    audit("mixed", Mixed(lines, 4, 8).all(), folder, programs, turns)
    audit("mixed, 64 sites and 64 fields", Mixed(lines, 64, 64).all(), folder, programs, turns)
    audit("mixed, 64 sites and 256 fields", Mixed(lines, 64, 256).all(), folder, programs, turns)
    if lines >= 10_000:
        audit("912 escrows open at each site", held(lines, 4, 8), folder, programs, turns)
    for amount in (1, 2**32):
        name = f"gifts of {amount:,}"
        tenth = audit(name, gifts(lines // 10, amount), folder, programs, turns)
        whole = audit(name, gifts(lines, amount), folder, programs, turns)
        print(f"a line of {lines:,} takes {whole / tenth / 10:.2f} times one of {lines // 10:,}")


def restarts(lines: int, folder: str, program: str, turns: int) -> None:
    alone = (program, None)
    tenth = compare("a quarter restarts", quarter_restarts(lines // 10), folder, alone, turns)
    whole = compare("a quarter restarts", quarter_restarts(lines), folder, alone, turns)
    print(f"a line of {lines:,} takes {whole / tenth / 10:.2f} times one of {lines // 10:,}")
    count = lines // 100
    for gifts in (1_000, lines - count - 1):
        without = compare("gifts", gifts_and_restarts(gifts, 0), folder, alone, turns)
        with_them = compare("gifts, then restarts", gifts_and_restarts(gifts, count), folder, alone, turns)
        print(f"a restart behind {gifts:,} gifts takes {(with_them - without) / count * 1e6:.0f} microseconds")


def counters(lines: int, sites: int) -> Iterator[str]:
    """At each site in turn a begin, an escrow, a commit and a read, and a gift behind every fiftieth round."""
    yield header(sites, ["stock"], 0, 1_000_000_000, 500_000_000)
    done, number = 1, 0
    while done < lines:
        site, round_no = number % sites, number // sites + 1
        change = -20 if round_no % 2 else 20
        rows = ["begin", f"escrow 0.{round_no} stock {change}", f"commit 0.{round_no}", "read stock"]
        if number % 50 == 49:
            rows.append(f"give {(site + 1) % sites} stock lower 1")
        for row in rows[: lines - done]:
            yield f"{site} {row}\n"
        done, number = done + len(rows), number + 1


def works(lines: int, folder: str, program: str, turns: int) -> None:
    one_core = ["taskset", "-c", str(min(os.sched_getaffinity(0)))]
    # Each gift makes an acceptance more, and all entries with the header are to stay within the limit of lines.
    for asked in (lines // 10, lines - lines // 200):
        source, target = (os.path.join(folder, part) for part in ("script", "written"))
        with open(source, "w", encoding="ascii") as file:
            file.writelines(counters(asked, 4))
        print(f"work: {asked:,} lines over 4 sites, best of {turns}")
        measure("run", [program, "run"], source, target, asked, turns)
        measure("work, one processor", [*one_core, program, "work"], source, target, asked, turns)
        measure("work", [program, "work"], source, target, asked, turns)
        with open(target, "rb") as file:
            verdict = subprocess.run([program, "audit"], stdin=file, capture_output=True, text=True)
        print(f"         {verdict.stdout.strip()}")


def build_desks() -> str:
    """The program of desks."""
    folder = os.path.join(TOP, "crates", "desk_bench")
    subprocess.run(["rt", "run", "--", "1", "1", "1"], cwd=folder, stdout=subprocess.DEVNULL, check=True)
    return os.path.join(folder, "out", "desk_bench")


def serve(words: Sequence[str]) -> tuple[str, float]:
    """What it wrote, and the seconds that it tells."""
    ran = subprocess.run(["nice", "-n", "-5", *words], capture_output=True, text=True, check=True)
    return ran.stdout, int(ran.stderr.split()[-1]) / 1e9


def desks(lines: int, plain: str | None, turns: int) -> None:
    program = build_desks()
    rounds = str(lines // 4)
    print(f"desks: {lines // 4 * 4:,} calls a thread, best of {turns}")
    for desk_count, threads in ((1, 1), (1, 2), (1, 4), (4, 1)):
        asked = [str(desk_count), str(threads), rounds]
        programs = [[program, *asked]] + ([[plain, "desk", *asked]] if plain else [])
        runs = [[serve(words) for words in programs] for _ in range(turns)]
        if len({written for each in runs for written, _ in each}) > 1:
            sys.exit("the two programs served different calls")
        calls = lines // 4 * 4 * desk_count * threads
        best = [min(each[place][1] for each in runs) for place in range(len(programs))]
        told = f"desks {desk_count}, threads of each {threads}: {calls / best[0]:12,.0f} calls/s"
        if plain:
            told += f"  plain {calls / best[1]:12,.0f} calls/s  {best[0] / best[1]:5.2f} times its time"
        print(f"{told}  load {os.getloadavg()[0]:.1f}")


def read_words() -> argparse.Namespace:
    """What the command line asks for. Nothing is built or run before it was read."""
    parser = argparse.ArgumentParser(description=__doc__, formatter_class=argparse.RawDescriptionHelpFormatter)
    parser.add_argument("lines", type=int, nargs="?", default=1_000_000, help="1,000 or more")
    parser.add_argument("turns", type=int, nargs="?", default=5, help="1 or more")
    parts = parser.add_mutually_exclusive_group()
    for part in ("audit", "restarts", "desk", "work"):
        parts.add_argument(f"--{part}", dest="part", action="store_const", const=part, help="these rows alone")
    asked = parser.parse_args()
    if asked.lines < 1_000 or asked.turns < 1:
        parser.error("too few lines or turns")
    return asked


def main() -> None:
    asked = read_words()
    lines, turns = asked.lines, asked.turns
    with tempfile.TemporaryDirectory() as folder:
        if asked.part == "desk":
            desks(lines, build_plain(folder), turns)
            return
        programs = build(folder)
        if asked.part == "audit":
            audits(lines, folder, programs, turns)
            return
        if asked.part == "work":
            works(lines, folder, programs[0], turns)
            return
        if asked.part == "restarts":
            restarts(lines, folder, programs[0], turns)
            return
        compare("one site", one_site(lines // 10, 1), folder, programs, turns)
        compare("one site", one_site(lines, 1), folder, programs, turns)
        compare("one site, 256 fields", one_site(lines, 256), folder, programs, turns)
        compare("mixed", Mixed(lines // 10, 4, 8).all(), folder, programs, turns)
        few = compare("mixed", Mixed(lines, 4, 8).all(), folder, programs, turns)
        many = compare("mixed, 64 sites and 256 fields", Mixed(lines, 64, 256).all(), folder, programs, turns)
        print(f"a mixed line over 64 sites and 256 fields takes {many / few:.2f} times one over 4 and 8")
        audits(lines, folder, programs, turns)
        restarts(lines, folder, programs[0], turns)
        desks(lines, programs[1], turns)
        works(lines, folder, programs[0], turns)


if __name__ == "__main__":
    main()
