"""What the lines of connections come to at the site: the lines that go there, who is told their answers, and what the door
answers by itself.

The door alone begins transactions, so it knows the id of each as it reads the line: the site counts them from 1 in each
epoch. Each connection has its own transactions, and names no other.
"""

from __future__ import annotations

import re
from collections.abc import Callable, Sequence
from typing import Optional

from ..numbers import I64, is_key
from ..values import Mark
from .connection import Connection
from .places import Places

PLACES = 63
"""How many transactions are open at most: a site has 64 places, and one is left for changes in one trip."""
NUMBERS = 999_990_000
"""Behind so many transactions of an epoch, of 10^9, the process is started anew."""
SHAPES = 4096
"""How many lines of changes are kept at most."""
_ID = re.compile(r"(0|[1-9][0-9]{0,9})\.(0|[1-9][0-9]{0,9})")
_CHANGE = re.compile(r"-?(?:0|[1-9][0-9]{0,18})")
PASSED = frozenset(("give", "spare", "restate", "accept", "tighten", "read", "share"))
"""Commands that name no transaction: their lines go to the site as they are."""
FOREIGN = "refused 4 no transaction: another connection of the door began it, and each has its own"
NO_TRANSACTION = "refused 4 no transaction: it has ended, or was begun by no line of this connection"
NO_PLACE = "refused 12 too many open: no place is free for this connection: end a transaction"


class Part:
    """Answers of the site in a row that one connection is told: so many `lines`, and the last id that they begin; or a text
    that the door answers by itself. None is told answers of no connection."""

    __slots__ = ("who", "lines", "begun", "text")

    def __init__(self, who: Optional[Connection], lines: int, begun: str = "", text: bytes = b"") -> None:
        self.who, self.lines, self.begun, self.text = who, lines, begun, text


class Plan:
    """What the lines come to that one read of a connection has brought."""

    def __init__(self, who: Connection, first: str) -> None:
        """`first` is the id that its first begin has."""
        self.who = who
        self.texts: list[str] = []
        """What goes to the site."""
        self.lines = 0
        """How many lines that is."""
        self.parts: list[Part] = []
        self.receipt: list[str] = []
        """What it is told before anything goes to the site: which lines were taken, and the ids that they begin."""
        self._first, self._taken, self._in_part, self._begun = first, 0, 0, ""

    def send(self, text: str, lines: int = 1, begun: str = "", taken: int = 1) -> None:
        """So many of its lines go to the site as these; `begun` is the last id that they begin."""
        self.texts.append(text)
        self._in_part += lines
        self._taken += taken
        self._begun = begun or self._begun

    def answer(self, line: str, reply: str) -> None:
        """The door answers a line by itself, in its turn."""
        self.tell(f"{line} -> {reply}\n")

    def tell(self, text: str) -> None:
        """As `answer`, with this text."""
        self._end_part()
        self.parts.append(Part(self.who, 0, "", text.encode("latin-1")))
        self._taken += 1

    def ask(self, text: str) -> None:
        """The door asks the site of something, and drops the answer."""
        self._end_part()
        self.texts.append(text)
        self.parts.append(Part(None, 1))
        self.lines += 1

    def busy(self, first: str) -> None:
        """A line isn't taken, since no place is free; the next one that begins has this id."""
        self._end_receipt()
        self.receipt.append("door busy\n")
        self._first = first

    def end(self) -> Plan:
        """There are no more lines."""
        self._end_part()
        self._end_receipt()
        return self

    def _end_receipt(self) -> None:
        if self._taken:
            self.receipt.append(f"door took {self._taken} {self._first}\n")
            self._taken = 0

    def _end_part(self) -> None:
        if self._in_part:
            self.parts.append(Part(self.who, self._in_part, self._begun))
            self.lines += self._in_part
            self._in_part, self._begun = 0, ""


class Planner:
    """Plans the lines of all connections, in the order in which they are read, for one process of the site."""

    def __init__(self, site: int, epoch: int, fields: Sequence[str], newest: Callable[[], Mark]) -> None:
        """`newest` tells how far the log has come."""
        self._site, self._epoch, self._fields, self._newest = str(site), epoch, frozenset(fields), newest
        self._look = f"{site} share {fields[0]}\n"
        self._prefix, self.number = f"{epoch}.", 0
        self.places = Places(PLACES)
        self._owners: dict[str, Connection] = {}
        self._changes: dict[str, tuple[str, str, str]] = {}
        self._plan_words = {
            "begin": self._begin, "open": self._open, "enter": self._enter, "change": self._change, "escrow": self._escrow,
            "commit": self._end, "abort": self._end,
        }  # fmt: skip

    @property
    def is_full(self) -> bool:
        """Whether the epoch has no number left: the process is to be started anew."""
        return self.number >= NUMBERS

    def plan(self, who: Connection, lines: Sequence[str]) -> Plan:
        """Plans these lines of a connection. Only with `undo`, where it doesn't hear the receipt."""
        plan, changes = Plan(who, self._next()), self._changes
        shapes = [changes.get(line) for line in lines]
        if None not in shapes:
            self._plan_changes(plan, shapes)  # type: ignore[arg-type]
            return plan.end()
        for line, shape in zip(lines, shapes):
            if shape is not None:
                self._plan_changes(plan, (shape,))
            else:
                self._plan_line(plan, line)
        return plan.end()

    def undo(self, who: Connection, number: int, was_open: dict[str, str]) -> None:
        """The last plan isn't made, and its connection ends: `number` and `was_open` are as before it."""
        self.number = number
        for id in who.ids:
            self._owners.pop(id, None)
        who.open = was_open
        self._owners.update((id, who) for id in who.ids)

    def leave(self, who: Connection) -> list[str]:
        """A connection has ended: the lines that abort its open transactions."""
        ids = sorted(who.ids)
        for id in ids:
            del self._owners[id]
        who.open.clear()
        self.places.leave(who)
        return [f"{self._site} abort {id}\n" for id in ids]

    def _plan_changes(self, plan: Plan, shapes: Sequence[tuple[str, str, str]]) -> None:
        prefix, first = self._prefix, self.number + 1
        self.number += len(shapes)
        text = "".join([f"{prefix}{number}".join(shape) for number, shape in enumerate(shapes, first)])
        plan.send(text, 3 * len(shapes), f"{prefix}{self.number}", len(shapes))

    def _plan_line(self, plan: Plan, line: str) -> None:
        words = line.split(" ")
        if words[0] == self._site and len(words) > 1:
            if words[1] in PASSED:
                plan.send(f"{line}\n")
                return
            act = self._plan_words.get(words[1])
            if act is not None and act(plan, line, words):
                return
        elif words[0] == "kept" and len(words) == 2:
            self._kept(plan, line, words[1])
            return
        elif words[:2] == ["kept", "key"] and is_keyed(words[1:]):
            self._kept_key(plan, line, words)
            return
        elif line == "leave" and plan.who.granted:
            plan.who.granted -= 1
            self.places.give_back(plan.who)
            plan.answer(line, "left")
            return
        elif line == "position":
            plan.answer(line, f"{self._prefix}{self.number}")
            return
        elif line == "mark":
            mark = self._newest()
            plan.ask(self._look)
            plan.answer(line, f"{mark.epoch} {mark.length}")
            return
        plan.tell("bad line: the door takes no such line\n")

    def _next(self) -> str:
        return f"{self._prefix}{self.number + 1}"

    def _new(self, who: Connection) -> str:
        """Begins a transaction, which holds a place already: its id."""
        self.number += 1
        id = f"{self._prefix}{self.number}"
        who.open[f".{who.begun}"] = who.open[id] = id
        self._owners[id] = who
        return id

    def _begin(self, plan: Plan, line: str, words: Sequence[str]) -> bool:
        if len(words) != 2:
            return False
        plan.who.begun += 1
        if not self.places.take(plan.who):
            plan.answer(line, NO_PLACE)
        else:
            plan.send(f"{line}\n", begun=self._new(plan.who))
        return True

    def _is_change(self, words: Sequence[str]) -> bool:
        """Whether two words are left, a field and a change: then each line that comes of it has its answer."""
        if len(words) != 4 or words[2] not in self._fields:
            return False
        return _CHANGE.fullmatch(words[3]) is not None and -I64 - 1 <= int(words[3]) <= I64

    def _open(self, plan: Plan, line: str, words: Sequence[str]) -> bool:
        if not self._is_change(words):
            return False
        plan.who.begun += 1
        if self.places.take(plan.who):
            self._send_open(plan, words)
        else:
            self.places.ask(plan.who)
            plan.busy(self._next())
        return True

    def _enter(self, plan: Plan, line: str, words: Sequence[str]) -> bool:
        if not plan.who.granted or not self._is_change(words):
            return False
        plan.who.begun += 1
        plan.who.granted -= 1
        self._send_open(plan, words)
        return True

    def _send_open(self, plan: Plan, words: Sequence[str]) -> None:
        id, site = self._new(plan.who), self._site
        plan.send(f"{site} begin\n{site} escrow {id} {words[2]} {words[3]}\n", 2, id)

    def _change(self, plan: Plan, line: str, words: Sequence[str]) -> bool:
        if not self._is_change(words):
            return False
        site = self._site
        shape = f"{site} begin\n{site} escrow ", f" {words[2]} {words[3]}\n{site} commit ", "\n"
        if len(self._changes) >= SHAPES:
            self._changes.clear()
        self._changes[line] = shape
        self._plan_changes(plan, (shape,))
        return True

    def _escrow(self, plan: Plan, line: str, words: Sequence[str]) -> bool:
        if len(words) != 5:
            return False
        id = self._own(plan, line, words[2])
        if id:
            plan.send(f"{self._site} escrow {id} {words[3]} {words[4]}\n")
        return True

    def _end(self, plan: Plan, line: str, words: Sequence[str]) -> bool:
        has_key = words[1] == "commit" and is_keyed(words[3:])
        if len(words) != 3 and not has_key:
            return False
        who, id = plan.who, self._own(plan, " ".join(words[:3]), words[2])
        if id:
            who.open = {name: it for name, it in who.open.items() if it != id}
            del self._owners[id]
            self.places.give_back(who)
            plan.send(" ".join((self._site, words[1], id, *words[3:])) + "\n")
            if has_key:  # where a commit with the key is kept already, or may have been let go of, the site leaves it open
                plan.ask(f"{self._site} abort {id}\n")
        return True

    def _own(self, plan: Plan, line: str, name: str) -> str:
        """The id of a transaction of this connection that is open, by its name; nothing where it is none: then that is
        answered."""
        id = plan.who.open.get(name, "")
        if not id:
            plan.answer(line, FOREIGN if name in self._owners else NO_TRANSACTION)
        return id

    def _kept(self, plan: Plan, line: str, id: str) -> None:
        found = _ID.fullmatch(id)
        ahead = "no" if found is None else self._ahead(int(found[1]), int(found[2]))
        if ahead:
            plan.answer(line, ahead)
        elif id in self._owners:
            plan.answer(line, "open")
        else:
            plan.send(f"{line}\n")

    def _kept_key(self, plan: Plan, line: str, words: Sequence[str]) -> None:
        found = _ID.fullmatch(words[-1]) if len(words) > 3 else None
        ahead = "" if found is None else self._ahead(int(found[1]), int(found[2]))
        if ahead:
            plan.answer(line, ahead)
        else:
            plan.send(f"{line}\n")

    def _ahead(self, epoch: int, number: int) -> str:
        """What is answered of a transaction that isn't begun yet; nothing of another."""
        if epoch > self._epoch:
            return "later"
        return "unbegun" if epoch == self._epoch and number > self.number else ""


def is_keyed(words: Sequence[str]) -> bool:
    """Whether these tell a key: `key KEY`, or `key KEY since EPOCH.NUMBER`."""
    if len(words) not in (2, 4) or words[0] != "key" or not is_key(words[1]):
        return False
    return len(words) == 2 or (words[2] == "since" and _ID.fullmatch(words[3]) is not None)
