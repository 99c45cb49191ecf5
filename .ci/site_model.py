"""What the log of a site holds and stands for, by docs/FORMATS.md alone: the model that .ci/site compares the program
with."""
from __future__ import annotations

import builtins
import dataclasses
import hashlib
import itertools
import re
from collections import defaultdict

LOWER, RAISE = "lower", "raise"
KINDS = {"l": LOWER, "r": RAISE}


class NoLog(Exception):
    """A log that breaks a rule: at this line of its records, or of what stands behind its head, where that is damaged."""

    def __init__(self, why: str, line: int | None = None, is_damage: bool = False) -> None:
        super().__init__(why)
        self.line, self.is_damage = line, is_damage


class OtherLog(NoLog):
    """A log that begins as none of the site does."""


class ChangedHead(NoLog):
    """A log of version 3 of the site with another head than one that it can have."""


def sum_line(text: bytes) -> bytes:
    """The line that closes a batch: what its bytes add up to, and what they add up to with each as often as there are bytes
    from it to the last one, modulo 2**32."""
    weighted = sum(itertools.accumulate(text))
    return b"sum %08x%08x\n" % (sum(text) % 2**32, weighted % 2**32)


def sealed(*batches: bytes) -> bytes:
    return b"".join(it + sum_line(it) for it in batches)


END = sealed(b"X\n")
LETTERS = b"ABCDEFGHIJKLMNOPQRSTUVWXYZ0123456789aglrt -\n"
# A batch, and what stands in place of its sum line.
BATCH = re.compile(rb"((?:[A-Z0-9aglrt -]*\n)+)(sum [0-9a-f]{16}\n)")


def is_torn(rest: bytes) -> bool:
    """Whether this is a front of a batch with its sum, and not all of it."""
    behind = rest.lstrip(LETTERS)
    batch = rest.removesuffix(behind)
    line = sum_line(batch)
    return not behind or (batch.endswith(b"\n") and behind != line and line.startswith(behind))


@dataclasses.dataclass(frozen=True)
class Text:
    """The text of a log behind its first lines: the batches that sums close, whether the last of them ends the log, how
    many bytes they have with their sums, and the line at which it is damaged, or None."""

    batches: tuple[bytes, ...]
    is_ended: bool
    whole: int
    bad_line: int | None

    @staticmethod
    def of(text: bytes) -> Text:
        batches: list[bytes] = []
        at, begin, is_ended = 0, 0, False
        while (found := BATCH.match(text, at)) and not is_ended and sum_line(found[1]) == found[2]:
            is_ended = found[1] == b"X\n"
            at = found.end()
            if not is_ended:
                batches.append(found[1])
                begin = at
        is_well = text[at:] == b"" if is_ended else is_torn(text[at:])
        return Text(tuple(batches), is_ended, at, None if is_well else 1 + text[:begin].count(b"\n"))


NUMBER = rb"(0|[1-9][0-9]*)"
GONE_LINES = re.compile(rb"head %s %s\nhorizon %s %s((?: [1-9][0-9]*)*)\n" % (NUMBER, NUMBER, NUMBER, NUMBER))
NOTE = re.compile(r"K (0|[1-9][0-9]*) (0|[1-9][0-9]*) ((?:[0-9A-F]{2}){1,64})")
KEY = re.compile(r"[A-Za-z0-9._-]{1,64}")
MOST_NUMBERS, MOST_RIGHTS, MOST_TOTAL = 10**9, 2 * 10**15, 10**18


def id_of(txn: str) -> tuple[int, int]:
    epoch, number = txn.split(".")
    return int(epoch), int(number)


@dataclasses.dataclass(frozen=True)
class Gone:
    """What a log of version 3 has let go, as its head tells it: bytes of records, and records without summaries; and the
    horizon, up to which their commits go, but for those of transactions that were open then."""

    bytes: int
    records: int
    epoch: int
    number: int
    open_then: tuple[int, ...] = ()

    def told(self) -> builtins.bytes:
        words = "".join(f" {it}" for it in self.open_then)
        return f"head {self.bytes} {self.records}\nhorizon {self.epoch} {self.number}{words}\n".encode()

    def is_in_range(self) -> bool:
        rising = all(one < other for one, other in zip((0, *self.open_then), self.open_then))
        is_horizon = 1 <= self.epoch <= MOST_NUMBERS and max(self.number, *self.open_then, 0) == self.number <= MOST_NUMBERS
        return rising and is_horizon and len(self.open_then) <= 64 and max(self.bytes, self.records) < 2**64

    def has_passed(self, txn: str) -> bool:
        """Whether the commit of this transaction may be among what is gone."""
        epoch, number = id_of(txn)
        is_listed = epoch == self.epoch and number in self.open_then
        return (epoch, number) <= (self.epoch, self.number) and not is_listed

    def is_behind(self, position: str) -> bool:
        """Whether a commit of a transaction behind this one may be among what is gone."""
        return (self.epoch, self.number) > id_of(position)

    @staticmethod
    def of(lines: builtins.bytes) -> Gone | None:
        """What these two lines tell, or None where they tell nothing."""
        found = GONE_LINES.fullmatch(lines)
        if not found:
            return None
        numbers = [int(it) for it in found.groups()[:4]]
        gone = Gone(numbers[0], numbers[1], numbers[2], numbers[3], tuple(int(it) for it in found[5].split()))
        return gone if gone.is_in_range() else None


def note_of(line: str) -> tuple[str, str] | None:
    """The key and the transaction of a note, or None where the line is none."""
    found = NOTE.fullmatch(line)
    if not found or max(int(found[1]), int(found[2])) >= 2**32:
        return None
    key = bytes.fromhex(found[3]).decode("latin-1")
    return (key, f"{found[1]}.{found[2]}") if KEY.fullmatch(key) else None


@dataclasses.dataclass(frozen=True)
class Field:
    name: str
    floor: int
    ceiling: int
    value: int


@dataclasses.dataclass(frozen=True)
class World:
    """A world with a name of its own."""

    sites: int
    fields: tuple[Field, ...]
    own_name: str = "shops-2026"

    def header(self) -> str:
        fields = ",".join(
            f'{{"name":"{it.name}","floor":{it.floor},"ceiling":{it.ceiling},"value":{it.value}}}' for it in self.fields
        )
        return f'{{"sites":{self.sites},"fields":[{fields}]}}'

    def name(self) -> str:
        return hashlib.sha256(f"{self.own_name}\n{self.header()}".encode()).hexdigest()

    def owner(self, site: int) -> str:
        return f"number {site}\nworld {self.name()}\n"

    def log_head(self, site: int, gone: Gone | None = None) -> bytes:
        version, told = (3, gone.told()) if gone else (2, b"head 0 0\n")
        return sealed(f"escrow log {version}\n{self.owner(site)}".encode() + told)

    def head_of(self, site: int, text: bytes) -> tuple[Gone | None, int]:
        """What the head tells to be gone with which a log of the site begins, and how many bytes it has."""
        whole, first = self.log_head(site), f"escrow log 3\n{self.owner(site)}".encode()
        if text.startswith(whole):
            return None, len(whole)
        if not text.startswith(first):
            raise OtherLog(f"it doesn't begin with the head of site {site}")
        lines = text[len(first) :].split(b"\n", 2)[:2]
        gone = Gone.of(b"\n".join([*lines, b""]))
        if gone is None or not text.startswith(self.log_head(site, gone)):
            raise ChangedHead("its head isn't one that a log has")
        return gone, len(self.log_head(site, gone))

    def log_text(self, site: int, *batches: bytes, gone: Gone | None = None) -> bytes:
        return self.log_head(site, gone) + sealed(*batches)

    def trace_name(self, site: int) -> bytes:
        return f"escrow trace 1\n{self.owner(site)}".encode()

    def part(self, site: int, field: Field, kind: str) -> int:
        total = field.value - field.floor if kind == LOWER else field.ceiling - field.value
        return total // self.sites + (site < total % self.sites)


Totals = defaultdict[tuple[int, int, str], int]


class Log:
    """The records of a site's log, taken in one by one. Rights and totals are by number of field and kind. Of a log of version 3
    these are the records that are held; length and records count those that are gone too."""

    def __init__(self, world: World, site: int, text: bytes) -> None:
        self.world, self.site = world, site
        self.own = {
            (number, kind): world.part(site, field, kind)
            for number, field in enumerate(world.fields)
            for kind in (LOWER, RAISE)
        }
        self.cut: defaultdict[tuple[int, str], int] = defaultdict(int)
        self.given: Totals = defaultdict(int)
        self.accepted: Totals = defaultdict(int)
        self.commits: dict[str, list[tuple[int, int]]] = {}
        self.change = [0] * len(world.fields)
        self.notes: dict[str, str] = {}
        self.epoch = 0
        self.gone, head = world.head_of(site, text)
        self.text = Text.of(text[head:])
        if self.text.bad_line:
            raise NoLog(f"line {self.text.bad_line} begins no batch with its sum", self.text.bad_line, True)
        self.records: list[str] = []
        for line in b"".join(self.text.batches).decode().splitlines():
            self.take_line(line)
        if self.gone and not self.records:
            raise NoLog("line 1 is no base", 1)
        self.length = self.gone.bytes if self.gone else 0
        self.length += sum(len(it) + 1 for it in self.records)

    def take_line(self, line: str) -> None:
        """Takes a record, or the note of a key."""
        if note := note_of(line):
            self.notes[note[0]] = note[1]
            return
        try:
            self.take_base(line) if self.gone and not self.records else self.take(line)
        except (NoLog, KeyError, ValueError, IndexError) as fault:
            raise NoLog(f"line {len(self.records) + 1}, {line}: {fault}", len(self.records) + 1) from fault
        self.records.append(line)

    def kept(self, txn: str) -> str:
        """What `kept` answers."""
        if txn in self.commits:
            return "yes"
        return "forgotten" if self.gone and self.gone.has_passed(txn) else "no"

    def kept_key(self, key: str, since: str = "") -> str:
        """What `kept key` answers."""
        if self.notes.get(key) in self.commits:
            return self.notes[key]
        return "forgotten" if self.gone and (not since or self.gone.is_behind(since)) else "no"

    def take_base(self, line: str) -> None:
        """Takes the first record of a log of version 3, a summary whose numbers are those of some records."""
        letter, epoch, count, *words = line.split(" ")
        fields, self.epoch = range(len(self.world.fields)), int(epoch)
        for field in fields:
            self.own[field, LOWER], self.own[field, RAISE] = int(words[2 * field]), int(words[2 * field + 1])
        rest = words[2 * len(fields) :]
        while rest:
            if rest[0] == "t":
                self.cut[int(rest[1]), KINDS[rest[2]]] = int(rest[3])
                rest = rest[4:]
            else:
                totals = {"g": self.given, "a": self.accepted}[rest[0]]
                totals[int(rest[1]), int(rest[2]), KINDS[rest[3]]] = int(rest[4])
                rest = rest[5:]
        all_totals = [*self.given.values(), *self.accepted.values()]
        is_in_range = self.epoch <= MOST_NUMBERS and max(all_totals, default=0) <= MOST_TOTAL and self.summary() == line
        if letter != "S" or int(count) != len(fields) or not is_in_range or not all(map(self.is_balanced, fields)):
            raise NoLog("no records lead to its numbers")

    def is_balanced(self, field: int) -> bool:
        """Whether some records of the site lead to these numbers of a field."""
        has = self.world.fields[field]
        width, kinds = has.ceiling - has.floor, (LOWER, RAISE)
        given, accepted = (
            sum(total for (_, on, _), total in totals.items() if on == field) for totals in (self.given, self.accepted)
        )
        guarded = sum(self.guarded(field, kind) for kind in kinds)
        parts = sum(self.world.part(self.site, has, kind) for kind in kinds)
        return guarded <= width and guarded + given == parts + accepted and (width > 0 or given == 0)

    def take(self, line: str) -> None:
        letter, *words = line.split(" ")
        takes = {"C": self.commit, "G": self.give, "A": self.accept, "T": self.tighten, "R": self.restart, "S": self.sum_up}
        takes[letter](words)
        if min(self.own.values()) < 0:
            raise NoLog(f"{line}: more than the site owns")

    def commit(self, words: list[str]) -> None:
        epoch, number, *escrows = words
        changes = [(int(field), int(change)) for field, change in zip(escrows[::2], escrows[1::2])]
        if int(epoch) != self.epoch or not changes or f"{epoch}.{number}" in self.commits:
            raise NoLog(f"commit {epoch}.{number}")
        self.commits[f"{epoch}.{number}"] = changes
        for field, change in changes:
            self.change[field] += change
            self.own[field, LOWER if change < 0 else RAISE] -= abs(change)
        if min(self.own.values()) < 0:
            raise NoLog(f"commit {epoch}.{number}: more than the site owns")
        for field, change in changes:
            self.own[field, RAISE if change < 0 else LOWER] += abs(change)

    def moved(self, totals: Totals, words: list[str]) -> tuple[tuple[int, str], int]:
        site, field, letter, total = words
        at = (int(site), int(field), KINDS[letter])
        rise = int(total) - totals[at]
        if rise <= 0 or int(site) == self.site:
            raise NoLog(f"total {words}")
        totals[at] += rise
        return at[1:], rise

    def give(self, words: list[str]) -> None:
        at, rise = self.moved(self.given, words)
        self.own[at] -= rise

    def accept(self, words: list[str]) -> None:
        at, rise = self.moved(self.accepted, words)
        has = self.world.fields[at[0]]
        if rise > has.ceiling - has.floor - self.guarded(at[0], LOWER) - self.guarded(at[0], RAISE):
            raise NoLog(f"acceptance {words}: more than there is room for")
        self.own[at] += rise

    def tighten(self, words: list[str]) -> None:
        field, letter, total = words
        at = (int(field), KINDS[letter])
        rise = int(total) - self.cut[at]
        self.cut[at] += rise
        self.own[at] -= rise

    def restart(self, words: list[str]) -> None:
        if int(words[0]) <= self.epoch:
            raise NoLog(f"restart {words}")
        self.epoch = int(words[0])

    def summary(self) -> str:
        """The summary of all records so far."""
        fields, letters = range(len(self.world.fields)), {kind: letter for letter, kind in KINDS.items()}
        words = [f"S {self.epoch} {len(fields)}"]
        words += [f"{self.own[field, LOWER]} {self.own[field, RAISE]}" for field in fields]
        for word, totals in (("g", self.given), ("a", self.accepted)):
            others = [it for it in range(self.world.sites) if it != self.site]
            for at in ((site, field, kind) for site in others for field in fields for kind in (LOWER, RAISE)):
                words += [f"{word} {at[0]} {at[1]} {letters[at[2]]} {totals[at]}"] if totals.get(at) else []
        for place in ((field, kind) for field in fields for kind in (LOWER, RAISE)):
            words += [f"t {place[0]} {letters[place[1]]} {self.cut[place]}"] if self.cut.get(place) else []
        return " ".join(words)

    def sum_up(self, words: list[str]) -> None:
        wanted = self.summary()
        if wanted != " ".join(["S", *words]):
            raise NoLog(f"summary {words}, and not {wanted}")

    def guarded(self, field: int, kind: str) -> int:
        return self.own[field, kind] + self.cut[field, kind]

    def looks(self) -> list[tuple[str, str]]:
        """What a site that was just restarted over it is asked, and answers."""
        asked = []
        for number, field in enumerate(self.world.fields):
            lo, hi = field.floor + self.guarded(number, LOWER), field.ceiling - self.guarded(number, RAISE)
            share = f"{self.own[number, LOWER]} {self.own[number, RAISE]}"
            asked.append((f"{self.site} share {field.name}", f"share {share}"))
            asked.append((f"{self.site} read {field.name}", f"between {lo} {hi}"))
        return asked

    def shown(self) -> list[str]:
        """What `show` tells of it behind the name of the world."""
        lines = [f"epoch {self.epoch}", f"length {self.length}", *([f"gone {self.gone.bytes}"] if self.gone else [])]
        for number, (field, share, read) in enumerate(zip(self.world.fields, self.looks()[::2], self.looks()[1::2])):
            cuts = f"{self.cut[number, LOWER]} {self.cut[number, RAISE]}"
            lines.append(f"field {field.name} {read[1]} {share[1]} tightened {cuts}")
            for site in range(self.world.sites):
                for word, totals in (("given", self.given), ("accepted", self.accepted)):
                    of_kinds = [(kind, totals[site, number, kind]) for kind in (LOWER, RAISE)]
                    lines += [f"{word} {site} {field.name} {kind} {total}" for kind, total in of_kinds if total]
        return lines


def flight(logs: list[Log], number: int, kind: str) -> list[int]:
    """What is in flight between any two of these sites."""
    return [a.given[b.site, number, kind] - b.accepted[a.site, number, kind] for a in logs for b in logs if a is not b]


def known(logs: list[Log], number: int, kind: str) -> int:
    """What these sites guard of a field's width, and have in flight among one another."""
    return sum(log.guarded(number, kind) for log in logs) + sum(flight(logs, number, kind))


def committed(logs: list[Log], number: int, field: Field) -> int:
    """By all commits; where some are gone, by the rights to lower the field that all sites have."""
    if any(log.gone for log in logs):
        return field.floor + known(logs, number, LOWER)
    return field.value + sum(log.change[number] for log in logs)


def check_world(logs: list[Log]) -> None:
    """The logs of all sites of a world together: nobody accepted more than was given, and what the sites own and what
    is in flight make up the distance of the committed value to each bound, as tightened."""
    for number, field in enumerate(logs[0].world.fields):
        value = committed(logs, number, field)
        for kind, distance in ((LOWER, value - field.floor), (RAISE, field.ceiling - value)):
            has = known(logs, number, kind)
            if min(flight(logs, number, kind), default=0) < 0 or has != distance:
                raise NoLog(f"{field.name} {kind}: {has} guarded and in flight, and not {distance}")


def settled(logs: list[Log]) -> World:
    """The world that goes on where the logs of all sites of one end."""
    world = logs[0].world
    fields = []
    for number, field in enumerate(world.fields):
        lower, upper = (sum(log.cut[number, kind] for log in logs) for kind in (LOWER, RAISE))
        fields.append(Field(field.name, field.floor + lower, field.ceiling - upper, committed(logs, number, field)))
    return World(world.sites, tuple(fields), f"{world.own_name}-anew")


def checked(logs: list[Log]) -> list[str]:
    """What `check` tells of the logs of all sites."""
    world = logs[0].world
    fields = [f"field {it.name} value {it.value} floor {it.floor} ceiling {it.ceiling}" for it in settled(logs).fields]
    return [f"world {world.name()}", f"sites {world.sites}", *fields]


def bounded(logs: list[Log]) -> list[str]:
    """What `settle` tells where these are the logs that aren't lost."""
    lines = []
    for number, field in enumerate(logs[0].world.fields):
        lo, hi = field.floor + known(logs, number, LOWER), field.ceiling - known(logs, number, RAISE)
        lines.append(f"field {field.name} between {lo} {hi}")
    return lines
