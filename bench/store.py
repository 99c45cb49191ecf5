#!/usr/bin/env python3
"""Measures durable commits a second on one hot field: a site that `escrow_site` serves, beside a plain program that
appends and syncs, PostgreSQL's hot row, and Redis that syncs each append.

    bench/store.py [SECONDS [TURNS]] [--folder FOLDER] [--versions | --door]

SECONDS is how long each row runs in a turn (2 if left out), TURNS how often all rows run, one after another (7), every
other time in the order turned round, and FOLDER where all of them keep their files (a temporary folder): one disk for all.
It prints the median of each row with its least and greatest, and then ratios: each is the median of the ratios within a
turn, since what else a disk does falls on all rows of a turn alike. What isn't installed is skipped, by name;
`bench/install` installs it. With --versions it runs the rows of a site alone, each over a log of version 2, as `create`
makes it, and over one of version 1, which has no sums. With --door it runs the rows of the Python client beside PostgreSQL's
and those of Redis, and tells how long a change takes: half of them, and 99 of 100, at most.

The rows:

- `site N deep`: one client has N transactions under way: a begin, an escrow of -1 and a commit, three lines each. A
  transaction counts once its commit was answered, which is behind the sync of its record.
- `site N deep, --no-sync`: the same without a sync.
- `.., log 1`: the same over a log of version 1.
- `client N tasks`: the Python client over a site of its own, in one process: N tasks of one loop, each with a change of -1 under
  way, by `change`.
- `door P x N tasks`: the same in P processes of N tasks each, over one door (`python3 -m escrow.door`); `door 1 of 4 x 1 tasks` is one
  of four that have come in, while the others ask nothing.
- `raw 1 deep`: a plain program (`bench/plain/raw_log.rs`) that the same client drives: it appends a record of 16 bytes,
  syncs it and answers.
- `postgres N clients`: an UPDATE of one row, prepared, with the bound as its condition; by pgbench, over a socket. With --door
  pgbench writes down how long each took.
- `redis N clients`: a script that tests the bound and lowers one key; by redis-benchmark, over a socket, `appendfsync
  always`. With `-P 64` each client has 64 of them under way.

Needs Linux, the program (where `rt ci` or `rt run` left none in crates/escrow_site/out, the packed one, which `./escrow_site`
unpacks), and `rustc` for the plain one.
"""
from __future__ import annotations

import argparse
import asyncio
import contextlib
import csv
import glob
import hashlib
import json
import os
import pwd
import re
import shutil
import statistics
import subprocess
import sys
import tempfile
import time
from collections.abc import Callable, Iterator
from dataclasses import dataclass
from functools import partial
from types import ModuleType
from typing import IO, TYPE_CHECKING, Any

if TYPE_CHECKING:
    from escrow import AsyncSite, Site

TOP = os.path.dirname(os.path.dirname(os.path.abspath(__file__)))
HEADER = '{"sites":1,"fields":[{"name":"stock","floor":0,"ceiling":1000000000000000,"value":500000000000000}]}\n'
DEPTHS = (1, 8, 64, 1_024)
UNSYNCED = (64, 1_024)
COMPARED = (1, 64)
TASKS = (1, 8, 64)
DOORS = (((1,), "1 x 1"), ((1, 0, 0, 0), "1 of 4 x 1"), ((2,) * 4, "4 x 2"), ((16,) * 4, "4 x 16"), ((64,), "1 x 64"))
"""The tasks of each process that comes in by the door."""
CLIENTS = (1, 8, 64)
MOST = 3_000_000
LOWER = "local v = tonumber(redis.call('GET', KEYS[1])) if v >= 1 then return redis.call('DECRBY', KEYS[1], 1) end return -1"
UPDATE = "UPDATE stock SET value = value - 1 WHERE id = 1 AND value >= 1;\n"


@dataclass(frozen=True)
class Row:
    """What is measured, and how: the commits a second of so many seconds."""

    name: str
    measure: Callable[[float], float]


class Took:
    """How long the changes of each row took, turn by turn: half of them at most, and 99 of 100, in milliseconds."""

    def __init__(self) -> None:
        self.turns: dict[str, list[tuple[float, float]]] = {}

    def add(self, name: str, half: float, most: float) -> None:
        self.turns.setdefault(name, []).append((half, most))

    def tell(self) -> None:
        for name, took in self.turns.items():
            half, most = (statistics.median(it[place] for it in took) for place in (0, 1))
            print(f"{name:32} a change takes {half:.2f} ms, 99 of 100 at most {most:.2f} ms")


class Texts:
    """The lines of many transactions in a row, and where each of them begins."""

    def __init__(self, transaction: Callable[[int], bytes]) -> None:
        pieces = [transaction(number) for number in range(1, MOST + 1)]
        self.bytes = b"".join(pieces)
        self.starts = [0]
        for piece in pieces:
            self.starts.append(self.starts[-1] + len(piece))

    def between(self, first: int, behind: int) -> memoryview:
        return memoryview(self.bytes)[self.starts[first] : self.starts[behind]]


def write_all(to: int, text: memoryview) -> None:
    while text:
        text = text[os.write(to, text) :]


def pipes(child: subprocess.Popen[Any]) -> tuple[IO[Any], IO[Any]]:
    """What it reads and what it writes, of one that has both."""
    assert child.stdin is not None and child.stdout is not None
    return child.stdin, child.stdout


def drive(child: subprocess.Popen[bytes], texts: Texts, lines: int, deep: int, seconds: float) -> float:
    """Keeps so many transactions under way, each answered by so many lines: how many were answered a second."""
    to, back = (it.fileno() for it in pipes(child))
    sent, answered, start = 0, 0, time.perf_counter()
    end = start + seconds
    while time.perf_counter() < end and sent < MOST:
        upto = min(MOST, answered // lines + deep)
        write_all(to, texts.between(sent, upto))
        sent = upto
        told = os.read(back, 1 << 20)
        if not told:
            sys.exit(f"{child.args!r} ended")
        answered += told.count(b"\n")
    return answered / lines / (time.perf_counter() - start)


@contextlib.contextmanager
def running(words: list[str], **how: Any) -> Iterator[subprocess.Popen[Any]]:
    child = subprocess.Popen(words, **how)
    try:
        yield child
    finally:
        child.terminate()
        child.wait()


def site_program() -> str | None:
    places = (os.path.join(TOP, *place, "out", "escrow_site") for place in (("crates", "escrow_site"), ("packed",)))
    return next((it for it in places if os.path.exists(it)), None)


def put(path: str, text: str) -> None:
    with open(path, "w", encoding="ascii") as file:
        file.write(text)


def make_first_version(kept: str) -> None:
    """The folder of a site as programs made it before logs had sums: no program makes one any more."""
    owner = f"number 0\nworld {hashlib.sha256(HEADER.rstrip().encode()).hexdigest()}\n"
    os.mkdir(kept)
    put(os.path.join(kept, "site"), f"escrow site 1\n{owner}{HEADER}")
    put(os.path.join(kept, "log"), f"escrow log 1\n{owner}")


@dataclass(frozen=True)
class Served:
    """How a site is served: how many transactions are under way, whether it is synced, and the version of its log."""

    deep: int
    is_synced: bool = True
    version: int = 2

    def name(self) -> str:
        return f"site {self.deep:,} deep{'' if self.is_synced else ', --no-sync'}{'' if self.version == 2 else ', log 1'}"


class Sites:
    """The program, and the folder of the one site that it serves anew for each row."""

    def __init__(self, program: str, folder: str) -> None:
        self.program, self.folder = program, folder
        self.header, self.kept = os.path.join(folder, "header"), os.path.join(folder, "site")
        put(self.header, HEADER)
        self.texts: dict[int, Texts] = {}

    def make(self, version: int) -> None:
        shutil.rmtree(self.kept, ignore_errors=True)
        if version == 1:
            make_first_version(self.kept)
            return
        words = ["create", self.kept, "--schema", self.header, "--site", "0", "--name", "hot-field"]
        subprocess.run([self.program, *words], check=True)

    def measure(self, how: Served, seconds: float) -> float:
        self.make(how.version)
        words = ["serve", self.kept, *([] if how.is_synced else ["--no-sync"])]
        with running([self.program, *words], stdin=subprocess.PIPE, stdout=subprocess.PIPE, bufsize=0) as child:
            epoch = epoch_of(child)
            if epoch not in self.texts:
                self.texts[epoch] = Texts(
                    lambda number: b"0 begin\n0 escrow %d.%d stock -1\n0 commit %d.%d\n" % (epoch, number, epoch, number)
                )
            return drive(child, self.texts[epoch], 3, how.deep, seconds)

    def row(self, how: Served) -> Row:
        return Row(how.name(), lambda seconds: self.measure(how, seconds))


def site_rows(folder: str, with_versions: bool) -> Iterator[Row]:
    program = site_program()
    if program is None:
        print("skipped: escrow_site, which is neither built nor unpacked here")
        return
    sites = Sites(program, folder)
    if with_versions:
        each = [Served(deep, is_synced, version) for deep in COMPARED for is_synced in (True, False) for version in (2, 1)]
    else:
        each = [*map(Served, DEPTHS), *(Served(deep, False) for deep in UNSYNCED)]
    yield from map(sites.row, each)


class Clients:
    """The Python client, over a site of its own, and over a door."""

    def __init__(self, program: str, folder: str, took: Took) -> None:
        self.sites, self.took = Sites(program, folder), took

    def told(self, name: str, found: list[list[float]]) -> float:
        """The changes a second of all processes; how long they took is kept: the middle, and the longest of all."""
        self.took.add(name, 1000 * statistics.mean(it[2] for it in found), 1000 * max(it[3] for it in found))
        return sum(it[0] for it in found) / max(it[1] for it in found)

    def in_process(self, tasks: int, name: str, seconds: float) -> float:
        self.sites.make(2)
        with client().Site(self.sites.kept, program=self.sites.program) as site:
            return self.told(name, [sell(site, tasks, seconds)])

    def by_door(self, tasks: tuple[int, ...], name: str, seconds: float) -> float:
        self.sites.make(2)
        path = os.path.join(self.sites.folder, "door")
        words = [sys.executable, "-m", "escrow.door", self.sites.kept, "--socket", path, "--program", self.sites.program]
        environment = {**os.environ, "PYTHONPATH": os.path.join(TOP, "clients", "python")}
        with running(words, env=environment, stderr=subprocess.DEVNULL), contextlib.ExitStack() as stack:
            worker = [sys.executable, os.path.abspath(__file__), str(seconds), "--sell", path]
            how = {"stdin": subprocess.PIPE, "stdout": subprocess.PIPE, "text": True}
            workers = [pipes(stack.enter_context(running([*worker, str(many)], **how))) for many in tasks]
            if any(back.readline() != "ready\n" for _, back in workers):
                sys.exit("a client didn't come in by the door")
            for to, _ in workers:
                to.write("begin\n")
                to.flush()
            found = [json.loads(back.readline()) for (_, back), many in zip(workers, tasks) if many]
        return self.told(name, found)

    def rows(self, is_short: bool) -> Iterator[Row]:
        for tasks in (64,) if is_short else TASKS:
            name = f"client {tasks} tasks"
            yield Row(name, partial(self.in_process, tasks, name))
        for each, told in DOORS[3:4] if is_short else DOORS:
            yield Row(f"door {told} tasks", partial(self.by_door, each, f"door {told} tasks"))


def client() -> ModuleType:
    """The package of the Python client."""
    sys.path.insert(0, os.path.join(TOP, "clients", "python"))
    import escrow

    return escrow


def sell(site: Site, tasks: int, seconds: float) -> list[float]:
    """Sells by so many tasks: how many, in how many seconds, and how long half and 99 of 100 of them took at most."""
    took: list[float] = []

    async def sells(shop: AsyncSite, end: float) -> None:
        while (began := time.perf_counter()) < end:
            await shop.change("stock", -1)
            took.append(time.perf_counter() - began)

    async def all_sell() -> float:
        began = time.perf_counter()
        shop = client().AsyncSite(site)
        await asyncio.gather(*(sells(shop, began + seconds) for _ in range(tasks)))
        return time.perf_counter() - began

    spent = asyncio.run(all_sell())
    took.sort()
    return [len(took), spent, took[len(took) // 2], took[len(took) * 99 // 100]]


def work(path: str, tasks: int, seconds: float) -> None:
    """One process that sells through a door, once it is told to."""
    with client().Site.connect(path) as site:
        print("ready", flush=True)
        sys.stdin.readline()
        if tasks:
            print(json.dumps(sell(site, tasks, seconds)), flush=True)
        else:
            sys.stdin.read()


def client_rows(folder: str, is_short: bool, took: Took) -> Iterator[Row]:
    """The rows of the Python client."""
    program = site_program()
    if program is not None:
        yield from Clients(program, folder, took).rows(is_short)


def epoch_of(child: subprocess.Popen[bytes]) -> int:
    """The epoch that the served site tells: it stands in the entry of its restart."""
    told = b""
    while not (found := re.search(rb"restart -> restarted (\d+) \w+\n", told)):
        piece = os.read(pipes(child)[1].fileno(), 1 << 16)
        if not piece:
            sys.exit("escrow_site ended before it was ready")
        told += piece
    return int(found[1])


def raw_rows(folder: str) -> Iterator[Row]:
    if shutil.which("rustc") is None:
        print("skipped: the plain program, since there is no rustc")
        return
    program = os.path.join(folder, "raw_log")
    source = os.path.join(TOP, "bench", "plain", "raw_log.rs")
    subprocess.run(["rustc", "--edition", "2024", "-O", "-o", program, source], check=True)
    texts = Texts(lambda number: b"append\n")

    def measure(seconds: float) -> float:
        how = {"stdin": subprocess.PIPE, "stdout": subprocess.PIPE, "bufsize": 0}
        with running([program, os.path.join(folder, "raw")], **how) as child:
            return drive(child, texts, 1, 1, seconds)

    yield Row("raw 1 deep", measure)


def postgres_programs() -> str | None:
    """The folder of PostgreSQL's programs."""
    versions = "/usr/lib/postgresql"
    if not os.path.isdir(versions):
        return None
    newest = max(os.listdir(versions), key=lambda it: int(it) if it.isdigit() else 0)
    return os.path.join(versions, newest, "bin")


def as_postgres() -> list[str]:
    """The words before a command: PostgreSQL doesn't run as root."""
    return ["runuser", "-u", "postgres", "--"] if os.geteuid() == 0 else []


@contextlib.contextmanager
def postgres(folder: str, programs: str) -> Iterator[str]:
    """A server over a folder of its own, with the one row: the folder of its socket."""
    data, quiet = os.path.join(folder, "postgres"), partial(subprocess.run, stdout=subprocess.DEVNULL, check=True)
    os.mkdir(data)
    if os.geteuid() == 0:
        owner = pwd.getpwnam("postgres")
        os.chown(data, owner.pw_uid, owner.pw_gid)
    quiet([*as_postgres(), f"{programs}/initdb", "-D", f"{data}/base", "-A", "trust", "-U", "bench"])
    options = f"-c listen_addresses= -c unix_socket_directories={data} -c max_connections=100"
    control = [*as_postgres(), f"{programs}/pg_ctl", "-D", f"{data}/base", "-w"]
    quiet([*control, "-o", options, "-l", f"{data}/log", "start"])
    try:
        rows = "CREATE TABLE stock (id int PRIMARY KEY, value bigint); INSERT INTO stock VALUES (1, 500000000000000);"
        quiet(["psql", "-q", "-h", data, "-U", "bench", "-d", "postgres", "-c", rows])
        yield data
    finally:
        quiet([*control, "-m", "immediate", "stop"])


def add_logged(logs: str, name: str, took: Took) -> None:
    """Takes what pgbench wrote down: the third word of each line is how long one took, in microseconds."""
    spent: list[int] = []
    for path in glob.glob(f"{logs}.*"):
        with open(path, encoding="ascii") as file:
            spent += (int(line.split()[2]) for line in file)
        os.unlink(path)
    spent.sort()
    took.add(name, spent[len(spent) // 2] / 1000, spent[len(spent) * 99 // 100] / 1000)


def postgres_rows(folder: str, socket: str, took: Took | None) -> Iterator[Row]:
    script, logs = os.path.join(folder, "update.sql"), os.path.join(folder, "pgbench_log")
    with open(script, "w", encoding="ascii") as file:
        file.write(UPDATE)

    def measure(clients: int, name: str, seconds: float) -> float:
        words = ["pgbench", "-h", socket, "-U", "bench", "-n", "-M", "prepared", "-f", script, "-c", str(clients)]
        words += ["-j", str(min(clients, 4)), "-T", str(max(1, round(seconds)))]
        words += [] if took is None else ["-l", f"--log-prefix={logs}"]
        told = subprocess.run([*words, "postgres"], capture_output=True, text=True, check=True).stdout
        if took is not None:
            add_logged(logs, name, took)
        return float(re.findall(r"tps = ([0-9.]+)", told)[0])

    for clients in CLIENTS:
        name = f"postgres {clients} clients"
        yield Row(name, partial(measure, clients, name))


@contextlib.contextmanager
def redis(folder: str) -> Iterator[str]:
    """A server over a folder of its own, with the one key: its socket."""
    data = os.path.join(folder, "redis")
    os.mkdir(data)
    socket = os.path.join(data, "socket")
    words = ["redis-server", "--port", "0", "--unixsocket", socket, "--dir", data, "--save", ""]
    words += ["--appendonly", "yes", "--appendfsync", "always"]
    with running(words, stdout=subprocess.DEVNULL):
        for _ in range(100):
            set_key = ["redis-cli", "-s", socket, "set", "stock", "500000000000000"]
            if subprocess.run(set_key, capture_output=True, text=True).stdout.strip() == "OK":
                break
            time.sleep(0.1)
        else:
            sys.exit("redis-server doesn't answer")
        yield socket


def redis_rows(socket: str, took: Took | None) -> Iterator[Row]:
    loaded = subprocess.run(["redis-cli", "-s", socket, "script", "load", LOWER], capture_output=True, text=True, check=True)
    script = loaded.stdout.strip()

    def told(clients: int, under_way: int, count: int) -> dict[str, str]:
        words = ["redis-benchmark", "-s", socket, "--csv", "-n", str(count), "-c", str(clients), "-P", str(under_way)]
        told = subprocess.run([*words, "evalsha", script, "1", "stock"], capture_output=True, text=True, check=True)
        return list(csv.DictReader(told.stdout.splitlines()))[-1]

    def measure(clients: int, under_way: int, name: str, seconds: float) -> float:
        # First few, to tell how many fill the time.
        few = float(told(clients, under_way, clients * under_way * 20)["rps"])
        found = told(clients, under_way, max(clients * under_way * 20, int(few * seconds)))
        if took is not None:
            took.add(name, float(found["p50_latency_ms"]), float(found["p99_latency_ms"]))
        return float(found["rps"])

    for clients, under_way in [*((clients, 1) for clients in CLIENTS), (64, 64)]:
        name = f"redis {clients} clients{'' if under_way == 1 else f' -P {under_way}'}"
        yield Row(name, partial(measure, clients, under_way, name))


RATIOS = (
    ("door 4 x 16 tasks", "client 64 tasks"),
    ("door 1 x 64 tasks", "client 64 tasks"),
    ("door 4 x 2 tasks", "client 8 tasks"),
    ("door 1 x 1 tasks", "client 1 tasks"),
    ("client 64 tasks", "postgres 64 clients"),
    ("client 64 tasks", "redis 64 clients"),
    ("door 1 of 4 x 1 tasks", "client 1 tasks"),
    ("door 1 of 4 x 1 tasks", "postgres 1 clients"),
    ("door 1 x 1 tasks", "postgres 1 clients"),
    ("door 4 x 2 tasks", "postgres 8 clients"),
    ("door 4 x 16 tasks", "postgres 64 clients"),
    ("door 1 of 4 x 1 tasks", "redis 1 clients"),
    ("door 1 x 1 tasks", "redis 1 clients"),
    ("door 4 x 2 tasks", "redis 8 clients"),
    ("door 4 x 16 tasks", "redis 64 clients"),
    *((Served(deep, it).name(), Served(deep, it, 1).name()) for deep in COMPARED for it in (True, False)),
    ("site 1 deep", "raw 1 deep"),
    ("site 1 deep", "postgres 1 clients"),
    ("site 8 deep", "postgres 8 clients"),
    ("site 64 deep", "postgres 64 clients"),
    ("site 1 deep", "redis 1 clients"),
    ("site 8 deep", "redis 8 clients"),
    ("site 64 deep", "redis 64 clients"),
    ("site 1,024 deep", "redis 64 clients -P 64"),
)


def server_rows(folder: str, stack: contextlib.ExitStack, took: Took | None) -> Iterator[Row]:
    """The rows of the servers that are installed, which run until the stack is closed."""
    programs = postgres_programs()
    if programs is None or shutil.which("pgbench") is None:
        print("skipped: PostgreSQL, which isn't installed")
    else:
        yield from postgres_rows(folder, stack.enter_context(postgres(folder, programs)), took)
    if shutil.which("redis-server") is None or shutil.which("redis-benchmark") is None:
        print("skipped: Redis, which isn't installed")
    else:
        yield from redis_rows(stack.enter_context(redis(folder)), took)


def take_turn(rows: list[Row], seconds: float) -> dict[str, float]:
    return {row.name: row.measure(seconds) for row in rows}


def tell(rows: list[Row], turns: list[dict[str, float]]) -> None:
    for row in rows:
        rates = [turn[row.name] for turn in turns]
        print(f"{row.name:32} {statistics.median(rates):12,.0f} a second  {min(rates):12,.0f} to {max(rates):12,.0f}")
    for ours, other in RATIOS:
        if ours in turns[0] and other in turns[0]:
            ratios = [turn[ours] / turn[other] for turn in turns]
            middle, least, most = statistics.median(ratios), min(ratios), max(ratios)
            print(f"{f'{ours} : {other}':58} {middle:8.2f} times  {least:.2f} to {most:.2f}")


def main() -> None:
    parser = argparse.ArgumentParser(description=__doc__, formatter_class=argparse.RawDescriptionHelpFormatter)
    parser.add_argument("seconds", type=float, nargs="?", default=2.0, help="of each row in a turn")
    parser.add_argument("turns", type=int, nargs="?", default=7, help="of all rows, one after another")
    parser.add_argument("--folder", default=None, help="where all keep their files")
    parser.add_argument("--versions", action="store_true", help="the versions of logs beside each other, and nothing else")
    parser.add_argument("--door", action="store_true", help="the Python client, a door, PostgreSQL and Redis, and nothing else")
    parser.add_argument("--sell", nargs=2, metavar=("PATH", "TASKS"), help=argparse.SUPPRESS)
    given = parser.parse_args()
    if given.sell:
        work(given.sell[0], int(given.sell[1]), given.seconds)
        return
    with contextlib.ExitStack() as stack:
        folder = stack.enter_context(tempfile.TemporaryDirectory(prefix="store-", dir=given.folder))
        os.chmod(folder, 0o755)
        took = Took()
        rows = [] if given.door else [*site_rows(folder, given.versions)]
        if not given.versions:
            rows += [*client_rows(folder, not given.door, took)]
            rows += [] if given.door else [*raw_rows(folder)]
            rows += [*server_rows(folder, stack, took if given.door else None)]
        turns = [take_turn(rows if number % 2 == 0 else rows[::-1], given.seconds) for number in range(given.turns)]
        tell(rows, turns)
        took.tell()


if __name__ == "__main__":
    main()
