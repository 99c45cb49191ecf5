"""Commits with a key of the caller: one that is asked for again does nothing twice. And the question which commit has a key.

A key is kept by the log of a site, beside the commit that has it, and is safe with it. A log that was shortened has let go of some:
there a key is told with its position, by which the site tells a new one from one that it has let go of.
"""

from __future__ import annotations

import threading
from collections.abc import Iterator, Sequence
from contextlib import contextmanager
from typing import NamedTuple, Optional

from .calls import ARROW, BY_A_DOOR, FORGOTTEN, LATE, Account, Call, Naming, Reply, Run, Standing
from .errors import EscrowError, Forgotten, NoKeys, OddWord, Over, Unknown, gone
from .numbers import read_id
from .values import Command

ANOTHER = "another call of this process with the same key is under way, and may commit yet: nothing was begun"
BAD = "bad line "
"""What a line is answered that a program doesn't know begins so."""


class CallerKey(NamedTuple):
    """A key of a caller, and its position, as lines name a transaction: each commit with the key is of a transaction behind that.
    None where the caller has none."""

    word: str
    since: Optional[str]

    def spelled(self, run: Run) -> str:
        """How lines tell it. A program whose log is whole needs no position, and older ones don't know the word."""
        has_since = self.since is not None and run.may_forget
        return f"key {self.word} since {self.since}" if has_since else f"key {self.word}"

    def check(self, standing: Standing) -> None:
        """Raises where the position is of no transaction so far, nor ahead of all."""
        if standing is Standing.LATER:
            why = f"the epoch of its position, {self.since}, is later than any of the log: an older log was put back"
            raise Unknown(why, None, self.word)
        if standing is Standing.UNBEGUN:
            raise ValueError(f"{self.since}: no position of this site: so many transactions weren't begun yet")

    def check_ahead_of(self, own: str) -> None:
        """Raises where the position isn't ahead of the transaction that lines name so: a commit of that with this key wouldn't be
        behind it."""
        if self.since is None:
            return
        since, at = read_id(self.since).numbers(), read_id(own).numbers()
        if since[0] > at[0]:
            self.check(Standing.LATER)
        if since >= at:
            raise ValueError(f"{self.since}: isn't ahead of transaction {own}: take the position before the transaction begins")


class KeysUnderWay:
    """The keys of changes of this process that are under way. Any thread or task may ask."""

    def __init__(self) -> None:
        self._lock = threading.Lock()
        self._many: dict[str, int] = {}

    @contextmanager
    def one(self, key: str) -> Iterator[None]:
        """A change with this key is under way meanwhile."""
        with self._lock:
            self._many[key] = self._many.get(key, 0) + 1
        try:
            yield
        finally:
            with self._lock:
                self._many[key] -= 1
                if not self._many[key]:
                    del self._many[key]

    def has_others(self, key: str) -> bool:
        """Whether another is, besides one's own."""
        with self._lock:
            return self._many.get(key, 0) > 1


class KeyedCommit(Naming[Optional[str]]):
    """The commit of a transaction with a key. What it is told is how lines name the transaction that has the key; None
    where it is this one.

    Where a commit with the key is kept already the site leaves this transaction open. So an abort goes behind it, in the
    same trip, which finds it ended where it was committed.
    """

    __slots__ = ("_account", "_key")
    command = Command.COMMIT
    closes = True
    bound = True

    def __init__(self, account: Account, key: CallerKey) -> None:
        self._account, self._key = account, key

    def plan(self, run: Run) -> None:
        self.own, commit, key = self._account.ends(run), f"{run.number} commit ", f" {self._key.spelled(run)}\n"
        if run.is_door:
            self.asked, self.granted = (commit, key), (commit, " -> committed\n")
        else:
            abort = f"{run.number} abort "
            self.asked = commit, key + abort, "\n"
            self.granted = commit, f" -> committed\n{abort}", " -> refused 4 no transaction\n"

    def doubt(self, front: str) -> EscrowError:
        return Unknown(LATE, self._account.id, self._key.word)

    def stopped(self) -> Over:
        self._account.stopped()
        return gone(self._account.id)

    def reply(self, answer: str, line: str) -> Reply:
        if answer.startswith(BAD):
            return Reply(line, answer)
        for it in (line.partition(" key ")[0], f"kept key {self._key.word}"):
            if answer.startswith(it + ARROW):
                return Reply(it, answer[len(it) + len(ARROW) :])
        return super().reply(answer, line)

    def told(self, replies: Sequence[Reply]) -> Optional[str]:
        first = replies[0]
        if first.line.startswith("kept ") or first.text.startswith(BAD):
            return _id_told(first, self._key.word)
        first.words("committed")
        return None


class KeptKey(Call[Optional[str]]):
    """How lines name the transaction whose commit has a key; None where none has it. `Forgotten` where one may have had it that
    a log has let go of, which was shortened beyond the key's position."""

    __slots__ = ("_key",)
    command = Command.KEPT
    again = True

    def __init__(self, key: CallerKey) -> None:
        self._key = key
        self.expected = ""

    def plan(self, run: Run) -> None:
        if self._key.since is not None:
            self._key.check(run.standing(self._key.since))
        self.text = f"kept {self._key.spelled(run)}\n"

    def reply(self, answer: str, line: str) -> Reply:
        return Reply(line, answer) if answer.startswith(BAD) else super().reply(answer, line)

    def told(self, replies: Sequence[Reply]) -> Optional[str]:
        reply = replies[0]
        if reply.text == "no":
            return None
        self._key.check(BY_A_DOOR.get(reply.text, Standing.ENDED))
        return _id_told(reply, self._key.word)


def _id_told(reply: Reply, key: str) -> str:
    """How lines name a transaction, as a reply tells it. Raises `NoKeys` where the line wasn't known, `Forgotten`, `OddWord`."""
    if reply.text.startswith(BAD):
        raise NoKeys()
    if reply.text == FORGOTTEN:
        raise Forgotten(None, key)
    try:
        id = read_id(reply.text)
    except ValueError as fault:
        raise OddWord(reply.line, reply.text) from fault
    return id.line
