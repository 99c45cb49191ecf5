"""Numbers to watch, in the text form that Prometheus reads (version 0.0.4).

One `Metrics` for each site. Who talks to the site calls it: `answered` for each answer, `refused` for each refusal besides,
`shared` where free rights were told, `started` and `stopped` at each start and end of the process, `faulted` where a fault of the
disk ended it, `missed` where a call ends without its answer, `waits` and `holds` for what is under way. Each may be called from any
thread, and takes about a microsecond.
What is to be looked at instead, the log's length and the free rights, it tells once, by `looks_at`.
`text_of` writes the numbers of one or many sites, `write` puts them in a file for a collector that reads files, and
`serve` answers them over HTTP. Nothing here knows the client.
"""
from __future__ import annotations

import contextlib
import os
import re
import threading
import time
from bisect import bisect_left
from collections import Counter
from enum import Enum
from http.server import BaseHTTPRequestHandler
from typing import Callable, Iterable, Mapping, NamedTuple, Protocol, Sequence

from .page_server import PageServer

_NAME = re.compile("[a-z][a-z0-9_]*")
CONTENT_TYPE = "text/plain; version=0.0.4; charset=utf-8"
SECONDS = (0.0001, 0.00025, 0.0005, 0.001, 0.0025, 0.005, 0.01, 0.025, 0.05, 0.1, 0.25, 0.5, 1.0, 2.5, 5.0, 10.0)
"""The upper ends of the buckets of the seconds to an answer."""

WATCHED = (("accept", 2, "no site"), ("accept", 3, "no field"), ("accept", 10, "not yours"), ("accept", 11, "forged"),
           ("give", 9, "ledger full"), ("spare", 9, "ledger full"))
STATUSES = range(7)
OUTCOMES = ("busy", "down", "forgotten", "lost", "over", "unknown")
"""Refusals, statuses and outcomes that are told from the beginning, as 0: Prometheus tells no increase of a count that it first
sees at 1, and on these there are alarms."""

LOOK, LONGEST = 5.0, 0.5
"""Seconds that pass between two looks at the free rights, at least, and that one takes, at most."""
MOVING = ("abort", "accept", "change", "commit", "escrow", "give", "spare", "tighten")
"""Commands that move free rights: behind no other they are asked for again."""


class Type(Enum):
    """What a number is: a counter only grows."""

    COUNTER = "counter"
    GAUGE = "gauge"
    HISTOGRAM = "histogram"


class Sample(NamedTuple):
    """One line: what is added to the family's name, the labels without the site's, and the value."""

    suffix: str
    labels: tuple[tuple[str, str], ...]
    value: float


class Family(NamedTuple):
    """The lines of one name, with what they tell and their type."""

    name: str
    help: str
    type: Type
    samples: list[Sample]


class Other(NamedTuple):
    """A number that somebody else counts, as a carrier, and how it is read: alone, or as samples with labels."""

    name: str
    help: str
    type: Type
    read: Callable[[], float | list[Sample]]


class Source(Protocol):
    """A site as its numbers look at it. Neither may wait for one that is down."""

    def length(self) -> int | None:
        """The bytes of its log's file now, where that can be told."""

    def shares(self, seconds: float) -> Mapping[str, tuple[int, int]] | None:
        """By field how many rights are free now, to lower it and to raise it; None where that isn't told in so many
        seconds."""


class Metrics:
    """What was counted at one site since the object was made; `site` is its number.

    Counters only grow. Rights and changes are counted in the field's own quantities, times in seconds.
    """

    __slots__ = ("site", "_bounds", "_lock", "_answers", "_seconds", "_refusals", "_shares", "_missed",
                 "_starts", "_stops", "_faults", "_up", "_epoch", "_length", "_waiting", "_open", "_others",
                 "_source", "_due", "_seen")

    def __init__(self, site: int, seconds: Sequence[float] = SECONDS) -> None:
        """`seconds`: the upper ends of the buckets of the time to an answer, rising, each above 0; else `ValueError`."""
        if not seconds or seconds[0] <= 0 or any(low >= high for low, high in zip(seconds, seconds[1:])):
            raise ValueError("the ends of the buckets have to rise from above 0")
        self.site = site
        self._bounds = tuple(float(bound) for bound in seconds)
        self._lock = threading.Lock()
        self._answers: dict[str, list[int]] = {}  # by command, how many in each bucket
        self._seconds = 0.0
        self._refusals: Counter[tuple[str, int, str]] = Counter(dict.fromkeys(WATCHED, 0))
        self._shares: dict[tuple[str, str], int] = {}
        self._missed: Counter[str] = Counter(dict.fromkeys(OUTCOMES, 0))
        self._starts = 0
        self._stops: Counter[int] = Counter(dict.fromkeys(STATUSES, 0))
        self._faults: Counter[tuple[str, str, str, int]] = Counter()
        self._up = False
        self._epoch = self._length = self._waiting = self._open = 0
        self._others: list[Other] = []
        self._source: Source | None = None
        self._due = 0.0  # the next look at the free rights, by `time.monotonic`
        self._seen = (0, 0)  # starts, and answers that move rights, at the last one

    def looks_at(self, source: Source) -> None:
        """From now on each text has the log's length and the free rights of this site, as they are then. The rights are
        asked for at most every 5 seconds, where they may have moved; half a second is waited for them at most, and then
        they are as they were told last."""
        self._source, self._due, self._seen = source, 0.0, (0, 0)

    def answered(self, command: str, seconds: float, count: int = 1) -> None:
        """An answer came, a refusal too: to this command (`commit`, `give`, ..), so many seconds after it was asked.

        A client that sends begin, escrow and commit at once counts them as one `change`. `count` answers of one command that
        came together are told in one call.
        """
        bucket = bisect_left(self._bounds, seconds)
        with self._lock:
            buckets = self._answers.get(command)
            if buckets is None:
                buckets = self._answers[command] = [0] * (len(self._bounds) + 1)
            buckets[bucket] += count
            self._seconds += seconds * count

    def refused(self, command: str, number: int, reason: str) -> None:
        """The answer was a refusal, of this number and these words (7, `short`). Call `answered` too."""
        with self._lock:
            self._refusals[command, number, reason] += 1

    def shared(self, field: str, lower: int | None = None, raise_: int | None = None) -> None:
        """The site told its free rights on a field: to lower, to raise, or both. The last that was told is shown."""
        with self._lock:
            if lower is not None:
                self._shares[field, "lower"] = lower
            if raise_ is not None:
                self._shares[field, "raise"] = raise_

    def missed(self, outcome: str) -> None:
        """A call ended without an answer of the site that decides: in one of a few words of the client's (`lost`, `busy`)."""
        with self._lock:
            self._missed[outcome] += 1

    def started(self, epoch: int, length: int) -> None:
        """The process is ready: the epoch and the bytes of log that its ready line told."""
        with self._lock:
            self._starts += 1
            self._up, self._epoch, self._length = True, epoch, length

    def stopped(self, status: int) -> None:
        """The process has ended, or didn't come to its ready line: its status, below 0 the signal that ended it."""
        with self._lock:
            self._stops[status] += 1
            self._up = False

    def faulted(self, file: str, call: str, reason: str, number: int) -> None:
        """A call of the system failed at a file of the site, and the process ended: whether it was to read, write, cut or
        sync, and the system's words and number for why."""
        with self._lock:
            self._faults[file, call, reason, number] += 1

    def waits(self, calls: int) -> None:
        """So many calls were made and aren't answered yet."""
        self._waiting = calls

    def holds(self, transactions: int) -> None:
        """So many transactions are open, of the 64 that a site has places for."""
        self._open = transactions

    def also(self, name: str, help: str, type: Type, read: Callable[[], float | list[Sample]]) -> None:
        """Adds a number that somebody else counts, read anew for each text: alone, or as a list of samples with labels, as
        `escrow_carrier_forged_total`.

        `read` must not wait; where it raises there is no sample. Raises `ValueError` where the name is none, or is there already.
        """
        families = {it.name for it in self._families()}
        if not _NAME.fullmatch(name) or name in families:
            raise ValueError(f"{name!r}: isn't a name, or is there already")
        self._others.append(Other(name, help, type, read))

    def families(self) -> list[Family]:
        """All numbers as they are now, each family once, its samples in order."""
        with contextlib.suppress(Exception):  # what can't be looked at is as it was told last
            self._look()
        return self._families()

    def _look(self) -> None:
        source = self._source
        if source is None:
            return
        length = source.length()
        with self._lock:
            self._length = self._length if length is None else length
            moved = self._starts, sum(sum(self._answers.get(it, ())) for it in MOVING)
            if moved == self._seen or time.monotonic() < self._due:
                return
            self._due = time.monotonic() + LOOK
        shares = source.shares(LONGEST)
        if shares is not None:
            self._seen = moved
            for field, rights in shares.items():
                self.shared(field, *rights)

    def _families(self) -> list[Family]:
        others = [Family(it.name, it.help, it.type, _told_by(it.read)) for it in self._others]
        with self._lock:
            return [*self._answer_families(), *self._state_families(), *others]

    def _answer_families(self) -> list[Family]:
        answers = [Sample("", (("command", it),), sum(counts)) for it, counts in sorted(self._answers.items())]
        refusals = [Sample("", (("command", it), ("number", str(number)), ("reason", reason)), count)
                    for (it, number, reason), count in sorted(self._refusals.items())]
        missed = [Sample("", (("outcome", it),), count) for it, count in sorted(self._missed.items())]
        return [
            Family("escrow_answers_total", "Answers of the site, refusals included, by command.", Type.COUNTER, answers),
            Family("escrow_refusals_total", "Refusals, by command, number and reason.", Type.COUNTER, refusals),
            Family("escrow_missed_total", "Calls that ended without an answer, by outcome.", Type.COUNTER, missed),
            Family("escrow_answer_seconds", "Seconds from a command to its answer.", Type.HISTOGRAM, self._histogram()),
        ]

    def _histogram(self) -> list[Sample]:
        samples, below = [], 0
        for place, bound in enumerate((*map(_number, self._bounds), "+Inf")):
            below += sum(buckets[place] for buckets in self._answers.values())
            samples.append(Sample("_bucket", (("le", bound),), below))
        return [*samples, Sample("_sum", (), self._seconds), Sample("_count", (), below)]

    def _state_families(self) -> list[Family]:
        shares = [Sample("", (("field", field), ("kind", kind)), rights)
                  for (field, kind), rights in sorted(self._shares.items())]
        stops = [Sample("", (("status", str(status)),), count) for status, count in sorted(self._stops.items())]
        faults = [Sample("", (("file", file), ("call", call), ("reason", reason), ("number", str(number))), count)
                  for (file, call, reason, number), count in sorted(self._faults.items())]
        return [
            Family("escrow_share_rights", "Free rights here, what is left of each field, by kind.", Type.GAUGE, shares),
            Family("escrow_up", "1 where the process is ready, else 0.", Type.GAUGE, _alone(int(self._up))),
            Family("escrow_starts_total", "Times that the process was ready.", Type.COUNTER, _alone(self._starts)),
            Family("escrow_stops_total", "Ends of the process, by status; below 0 the signal.", Type.COUNTER, stops),
            Family("escrow_device_faults_total", "Ends of the process by a call of the system that failed at a file, and why.",
                   Type.COUNTER, faults),
            Family("escrow_epoch", "Epoch of the last start.", Type.GAUGE, _alone(self._epoch)),
            Family("escrow_log_bytes", "Bytes of the log's file now; until it is looked at, of its records at the last start.",
                   Type.GAUGE, _alone(self._length)),
            Family("escrow_waiting_calls", "Calls that aren't answered yet.", Type.GAUGE, _alone(self._waiting)),
            Family("escrow_open_transactions", "Open transactions, of 64 places.", Type.GAUGE, _alone(self._open)),
        ]


def _alone(value: float) -> list[Sample]:
    return [Sample("", (), value)]


def _told_by(read: Callable[[], float | list[Sample]]) -> list[Sample]:
    try:
        told = read()
        return told if isinstance(told, list) else _alone(told)
    except Exception:  # one number that can't be had takes no other with it
        return []


def _number(value: float) -> str:
    return str(int(value)) if value == int(value) else repr(value)


def _label(name: str, value: str) -> str:
    escaped = value.replace("\\", r"\\").replace('"', r"\"").replace("\n", r"\n")
    return f'{name}="{escaped}"'


def _head(family: Family) -> str:
    told = family.help.replace("\\", r"\\").replace("\n", r"\n")
    return f"# HELP {family.name} {told}\n# TYPE {family.name} {family.type.value}\n"


def _line(family: Family, sample: Sample, site: int) -> str:
    labels = ",".join(_label(name, value) for name, value in (("site", str(site)), *sample.labels))
    return f"{family.name}{sample.suffix}{{{labels}}} {_number(sample.value)}\n"


def text_of(sites: Iterable[Metrics]) -> str:
    """The numbers of these sites as text: each family once, with its help and its type, and a line for each sample.

    A family of which nothing was counted yet has its two lines alone.
    """
    heads: dict[str, Family] = {}
    lines: dict[str, list[str]] = {}
    for it in sites:
        for family in it.families():
            heads.setdefault(family.name, family)
            lines.setdefault(family.name, []).extend(_line(family, sample, it.site) for sample in family.samples)
    return "".join(_head(family) + "".join(lines[name]) for name, family in heads.items())


def write(path: str, sites: Iterable[Metrics]) -> None:
    """Writes the text to a file beside `path` and renames it, so that a reader finds the old text or the new one whole.

    It isn't synced: after a stop of the machine the file may be the old one, or gone. Raises `OSError`.
    """
    beside = f"{path}.{os.getpid()}.{threading.get_ident()}"
    try:
        with open(beside, "w", encoding="utf-8", newline="\n") as file:
            file.write(text_of(sites))
        os.replace(beside, path)
    except OSError:
        if os.path.exists(beside):
            os.unlink(beside)
        raise


class MetricsServer(PageServer):
    """Answers `GET /metrics` until it is closed."""

    def __init__(self, address: tuple[str, int], sites: Sequence[Metrics], refresh: Callable[[], None] | None) -> None:
        super().__init__(address, _Handler)
        self.sites, self.refresh = tuple(sites), refresh

    @property
    def port(self) -> int:
        """The port that it listens on."""
        return int(self.server_address[1])

    def close(self) -> None:
        """Ends the listening and its thread."""
        self.shutdown()
        self.server_close()


class _Handler(BaseHTTPRequestHandler):
    server: MetricsServer
    timeout = 10

    def do_GET(self) -> None:
        """Answers the text, or 404 at any other path."""
        if self.path.partition("?")[0] != "/metrics":
            self.send_error(404)
            return
        if self.server.refresh is not None:
            with contextlib.suppress(Exception):  # a site that is down has its numbers told as they are
                self.server.refresh()
        body = text_of(self.server.sites).encode()
        self.send_response(200)
        self.send_header("Content-Type", CONTENT_TYPE)
        self.send_header("Content-Length", str(len(body)))
        self.end_headers()
        self.wfile.write(body)

    def log_message(self, *_: object) -> None:
        """Nothing is written to standard error."""


def serve(sites: Sequence[Metrics], host: str = "127.0.0.1", port: int = 0,
          refresh: Callable[[], None] | None = None) -> MetricsServer:
    """Answers the numbers of these sites at `http://host:port/metrics`, from a thread of its own.

    Port 0 takes a free one: see `port` of what is returned. `refresh` is called before each answer, so it shouldn't
    wait long, and what it raises is left aside: there a program can bring numbers of its own up to date. Who reaches
    the port reads the numbers: there is no login. Raises `OSError` where the port is taken.
    """
    server = MetricsServer((host, port), sites, refresh)
    threading.Thread(target=server.serve_forever, name="escrow metrics", daemon=True).start()
    return server
