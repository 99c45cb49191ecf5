#!/usr/bin/env python3
"""Stands in for an `escrow_site` whose log lets go of its front: at once, at a word of the test, and where a test wants it.

It serves a folder that the real one has made, and keeps what it commits in FOLDER/commits. FOLDER/told, which a test writes
at any time, tells in JSON how it answers:

    version     that of its ready line; 2 where it isn't told
    horizon     [EPOCH, NUMBER]: commits up to there, and their keys, were let go of
    word        what it answers to each question about a commit
    keyed       what it answers to a commit with a key, which it doesn't make
    shut        whether it waits before it stands, as long as this is told
    slow        so many seconds pass before it answers such a question
    stop        at the next commit it ends without an answer: `ahead` of it, or `behind` it
    then        how it answers from that stop on
    fault       what it writes on standard error at that stop: then it ends with status 5
    complains   what it writes there ahead of each answer

A key may be told with its position, `key KEY since EPOCH.NUMBER`: one that isn't held is `forgotten` only where the horizon is
beyond that, and without a position wherever there is one. A commit with a key that is held or forgotten isn't made. All lines that
it takes are in FOLDER/lines. `show FOLDER` tells 1000 bytes as let go.
"""

from __future__ import annotations

import json
import os
import sys
import time
from typing import Any, NamedTuple, Optional

LOWER, RAISE, LENGTH = 20, 30, 5000
"""What the site may lower the field by, and raise it by, before its first commit; the length of its log then."""
ID = tuple[int, int]


class Commit(NamedTuple):
    """One that was made: of which transaction, what it changes, and its key or nothing."""

    id: ID
    change: int
    key: str


def id_of(text: str) -> ID:
    epoch, _, number = text.partition(".")
    return int(epoch), int(number)


def spelled(id: ID) -> str:
    return f"{id[0]}.{id[1]}"


def read_commits(folder: str) -> list[Commit]:
    """What was committed, in order, also what was let go of."""
    path = os.path.join(folder, "commits")
    if not os.path.exists(path):
        return []
    with open(path, encoding="ascii") as file:
        words = [line.rstrip("\n").split(" ") for line in file]
    return [Commit(id_of(id), int(change), key) for id, change, key in words]


def read_told(folder: str) -> dict[str, Any]:
    """How it is to answer now."""
    path = os.path.join(folder, "told")
    if not os.path.exists(path):
        return {}
    with open(path, encoding="ascii") as file:
        found: dict[str, Any] = json.load(file)
    return found


def tell(folder: str, **told: object) -> None:
    """Has it answer so from now on."""
    path = os.path.join(folder, "told")
    with open(f"{path}.new", "w", encoding="ascii") as file:
        json.dump(told, file)
    os.replace(f"{path}.new", path)


def next_epoch(folder: str) -> int:
    """Counts its starts."""
    with open(os.path.join(folder, "starts"), "a", encoding="ascii") as file:
        file.write(".")
        file.flush()
        return os.path.getsize(file.name)


class Forgetful:
    """A site of one field, in one process."""

    def __init__(self, folder: str) -> None:
        self._folder, self._epoch = folder, next_epoch(folder)
        self._commits = read_commits(folder)
        self._begun = 0
        self._open: dict[ID, int] = {}

    def ready(self) -> str:
        """The two lines that it begins with."""
        version, length = read_told(self._folder).get("version", 2), LENGTH + 10 * self._epoch + len(self._commits)
        return f"ready {version} {self._epoch} {length}\n0 restart -> restarted {self._epoch} nothing"

    def answer(self, line: str) -> str:
        """What a line is answered, the line in front of it."""
        with open(os.path.join(self._folder, "lines"), "a", encoding="ascii") as file:
            file.write(f"{line}\n")
        words, told = line.split(" "), read_told(self._folder)
        sys.stderr.write(told.get("complains", ""))
        sys.stderr.flush()
        if words[0] == "kept":
            time.sleep(told.get("slow", 0.0))
        if words[:2] == ["kept", "key"]:
            return f"{line} -> {told.get('word') or self._kept_key(words[2:], told)}"
        if words[0] == "kept":
            return f"{line} -> {told.get('word') or self._kept(id_of(words[1]), told)}"
        if words[1] == "commit":
            return self._commit(" ".join(words[:3]), id_of(words[2]), words[4:], told)
        return f"{line} -> {self._reply(words)}"

    def _is_gone(self, id: ID, told: dict[str, Any]) -> bool:
        return "horizon" in told and id <= tuple(told["horizon"])

    def _kept(self, id: ID, told: dict[str, Any]) -> str:
        if self._is_gone(id, told):
            return "forgotten"
        return "yes" if any(it.id == id for it in self._commits) else "no"

    def _holder(self, key: str, told: dict[str, Any]) -> Optional[ID]:
        held = [it.id for it in self._commits if it.key == key and not self._is_gone(it.id, told)]
        return held[-1] if held else None

    def _kept_key(self, words: list[str], told: dict[str, Any]) -> str:
        """By the key, and behind it `since` and its position, where one is told."""
        holder = self._holder(words[0], told)
        if holder is not None:
            return spelled(holder)
        is_let_go = "horizon" in told and (len(words) < 3 or id_of(words[2]) < tuple(told["horizon"]))
        return "forgotten" if is_let_go else "no"

    def _commit(self, line: str, id: ID, words: list[str], told: dict[str, Any]) -> str:
        kept = told.get("keyed") or self._kept_key(words, told) if words else "no"
        if kept != "no":
            return f"kept key {words[0]} -> {kept}"
        if id not in self._open:
            return f"{line} -> refused 4 no transaction"
        if told.get("stop") != "ahead":
            self._keep(Commit(id, self._open[id], words[0] if words else ""))
        if "stop" in told:
            tell(self._folder, **told.get("then", {}))
            sys.stderr.write(told.get("fault", ""))
            sys.exit(5 if "fault" in told else 1)
        del self._open[id]
        return f"{line} -> committed"

    def _keep(self, commit: Commit) -> None:
        self._commits.append(commit)
        with open(os.path.join(self._folder, "commits"), "a", encoding="ascii") as file:
            file.write(f"{spelled(commit.id)} {commit.change} {commit.key}\n")

    def _lower(self) -> int:
        return LOWER + sum(it.change for it in self._commits) + sum(self._open.values())

    def _reply(self, words: list[str]) -> str:
        if words[1] == "begin":
            self._begun += 1
            self._open[self._epoch, self._begun] = 0
            return f"begun {self._epoch}.{self._begun}"
        if words[1] == "escrow":
            if self._lower() + int(words[4]) < 0:
                return f"refused 7 short {self._lower()}"
            self._open[id_of(words[2])] += int(words[4])
            return "granted"
        if words[1] == "abort":
            return "aborted" if self._open.pop(id_of(words[2]), None) is not None else "refused 4 no transaction"
        left = self._lower()
        return f"share {left} {LOWER + RAISE - left}" if words[1] == "share" else f"between {left} {left + RAISE}"


def shown(folder: str) -> str:
    """What `show` prints."""
    left = LOWER + sum(it.change for it in read_commits(folder))
    field = f"field stock between {left} {left + RAISE} share {left} {LOWER + RAISE - left} tightened 0 0\n"
    return f"epoch 1\nlength {LENGTH}\ngone 1000\n{field}"


def main() -> None:
    """As the real one, of its command line."""
    if sys.argv[1] == "show":
        print(shown(sys.argv[2]), end="")
        return
    while read_told(sys.argv[2]).get("shut"):
        time.sleep(0.01)
    site = Forgetful(sys.argv[2])
    print(site.ready(), flush=True)
    for line in sys.stdin:
        print(site.answer(line.rstrip("\n")), flush=True)


if __name__ == "__main__":
    main()
