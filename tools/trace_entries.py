"""Traces that `escrow run` printed: their entries, and what these come to for one field.

The words are those of docs/DEFINITIONS.md, and the lines those of docs/FORMATS.md. Nothing is judged here: whether a
trace is legal, `escrow audit` tells.
"""
import json
import re
from collections import namedtuple

# ---- reading

NUMBER = "(?:0|[1-9][0-9]*)"
WORDS = {"N": NUMBER, "Z": "(?:0|-?[1-9][0-9]*)", "ID": rf"{NUMBER}\.{NUMBER}", "FIELD": "(?:[a-z0-9_]+|#[0-9]+)",
         "KIND": "(?:lower|raise)", "FOUND": "(?:nothing|kept|lost)", "WORD": "[a-z]+"}
COMMANDS = ("begin", "escrow ID FIELD Z", "commit ID", "abort ID", "give N FIELD KIND N", "restate N FIELD KIND",
            "spare N FIELD KIND N", "tighten FIELD KIND N", "accept N N FIELD KIND N", "read FIELD", "share FIELD",
            "restart")
REPLIES = ("begun ID", "granted", "committed", "aborted", "given N", "stated N", "spared N N", "tightened N",
           "accepted N", "between Z Z", "share N N", "restarted N FOUND", "unsure", "still down",
           "refused N( WORD)+( N)?")
REMARKS = ("bad line", "deliver N -> refused 16 no statement", "level FIELD KIND -> moves N",
           "reach N FIELD Z -> steps N", "reach N FIELD Z -> no WORD")

Field = namedtuple("Field", "name floor ceiling value")
Entry = namedtuple("Entry", "site command reply")
Trace = namedtuple("Trace", "sites field entries")


class Fault(Exception):
    """Why there is nothing to draw."""


def pattern(shapes):
    """The lines of any of these shapes: a word in capitals stands for what WORDS says of it."""
    return "|".join(re.sub("[A-Z]+", lambda word: WORDS[word[0]], shape) for shape in shapes)


ENTRY = re.compile(f"({NUMBER}) ({pattern(COMMANDS)}) -> ({pattern(REPLIES)})")
REMARK = re.compile(pattern(REMARKS))


def read_header(line):
    """The number of sites and the fields by name."""
    try:
        header = json.loads(line)
        sites, fields = header["sites"], [Field(**it) for it in header["fields"]]
    except (ValueError, TypeError, KeyError) as fault:
        raise Fault("line 1 is no header of a trace") from fault
    numbers = [sites] + [number for field in fields for number in field[1:]]
    if not all(type(number) is int for number in numbers) or not 1 <= sites <= 64:
        raise Fault("line 1 is no header of a trace")
    for name, floor, ceiling, value in fields:
        if not isinstance(name, str) or not re.fullmatch("[a-z0-9_]{1,32}", name) or not floor <= value <= ceiling:
            raise Fault("line 1 has a field that can't be one")
    return sites, {field.name: field for field in fields}


def read_trace(text, name):
    """The trace that a text tells, with the field of this name."""
    header, *lines = text.split("\n")
    sites, fields = read_header(header)
    if name not in fields:
        raise Fault(f"the trace has no field {name}; it has {', '.join(fields)}")
    entries = []
    for number, line in enumerate(lines[:-1] if lines[-1:] == [""] else lines, 2):
        entry = ENTRY.fullmatch(line)
        if entry and int(entry[1]) < sites:
            entries.append(Entry(int(entry[1]), entry[2].split(" "), entry[3].split(" ")))
        elif not REMARK.fullmatch(line):
            raise Fault(f"line {number} is neither an entry nor a remark")
    return Trace(sites, fields[name], entries)


# ---- what the entries come to

Front = namedtuple("Front", "value inf sup floor ceiling sites")
Known = namedtuple("Known", "low high floor ceiling free")
Gift = namedtuple("Gift", "start giver end receiver")


class Site:
    """What a site has of the field: rights, those given up, the changes of open transactions, totals accepted."""

    def __init__(self, field, number, sites):
        totals = {"lower": field.value - field.floor, "raise": field.ceiling - field.value}
        self.own = {kind: total // sites + (number < total % sites) for kind, total in totals.items()}
        self.cut = {"lower": 0, "raise": 0}
        self.open, self.accepted, self.doubt, self.is_up = {}, {}, None, True

    def held(self, kind):
        """The rights that open transactions have set aside."""
        changes = [change for escrows in self.open.values() for change in escrows]
        return sum(abs(change) for change in changes if (change < 0) == (kind == "lower"))


class Store:
    """All sites, and the committed value of the field."""

    def __init__(self, trace):
        self.field, self.name, self.value = trace.field, trace.field.name, trace.field.value
        self.sites = [Site(trace.field, number, trace.sites) for number in range(trace.sites)]

    def known(self, site):
        """What a read at the site would answer, the bounds as its own tightenings moved them, and its free rights by
        kind; of a site that is down nothing."""
        if not site.is_up:
            return None
        floor, ceiling = self.field.floor + site.cut["lower"], self.field.ceiling - site.cut["raise"]
        free = {kind: own - site.held(kind) for kind, own in site.own.items()}
        return Known(floor + site.own["lower"], ceiling - site.own["raise"], floor, ceiling, free)

    def front(self):
        """What is drawn behind the entries so far."""
        return Front(self.value, self.value - sum(site.held("lower") for site in self.sites),
                     self.value + sum(site.held("raise") for site in self.sites),
                     self.field.floor + sum(site.cut["lower"] for site in self.sites),
                     self.field.ceiling - sum(site.cut["raise"] for site in self.sites),
                     [self.known(site) for site in self.sites])

    def take(self, entry):
        """One more entry. What is in doubt takes effect where the next restart finds it kept."""
        site = self.sites[entry.site]
        match entry.reply:
            case ["unsure"]:
                site.doubt, site.is_up = entry.command, False
            case ["still", "down"]:
                site.is_up = False
            case ["restarted", _, found]:
                if found == "kept":
                    self.carry_out(site, site.doubt)
                site.open, site.doubt, site.is_up = {}, None, True
            case ["granted" | "committed" | "aborted" | "given" | "spared" | "tightened" | "accepted", *_]:
                self.carry_out(site, entry.command)

    def carry_out(self, site, command):
        """What a command does that was answered, or found kept."""
        match command:
            case ["escrow", txn, self.name, change]:
                site.open.setdefault(txn, []).append(int(change))
            case ["commit", txn]:
                change = sum(site.open.pop(txn, []))
                self.value += change
                site.own["lower"] += change
                site.own["raise"] -= change
            case ["abort", txn]:
                site.open.pop(txn, None)
            case ["give", _, self.name, kind, amount]:
                site.own[kind] -= int(amount)
            case ["spare", _, self.name, kind, wanted]:
                site.own[kind] -= min(int(wanted), (site.own[kind] - site.held(kind) + 1) // 2)
            case ["tighten", self.name, kind, amount]:
                site.own[kind] -= int(amount)
                site.cut[kind] += int(amount)
            case ["accept", giver, _, self.name, kind, total]:
                before = site.accepted.get((giver, kind), 0)
                site.accepted[giver, kind] = max(int(total), before)
                site.own[kind] += site.accepted[giver, kind] - before


def fronts_of(trace):
    """What is drawn ahead of the first entry, and behind each."""
    store = Store(trace)
    fronts = [store.front()]
    for entry in trace.entries:
        store.take(entry)
        fronts.append(store.front())
    return fronts


def gifts_of(trace):
    """Each acceptance of rights to the field, with the last entry before it that stated it; counted from 1."""
    stated = {}
    for number, (site, command, reply) in enumerate(trace.entries, 1):
        match command, reply:
            case [_, to, field, kind, *_], ["given" | "stated" | "spared", *_, total]:
                stated[str(site), to, field, kind, total] = number
            case ["accept", giver, _, trace.field.name, *_], ["accepted", _] if tuple(command[1:]) in stated:
                yield Gift(stated[tuple(command[1:])], int(giver), number, site)
