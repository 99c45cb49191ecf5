"""The last refusals of a site, from the end of its trace."""
from __future__ import annotations

import os
from dataclasses import dataclass

TAIL = 65_536
"""How many bytes of a trace's end are read."""

FIELD_AT = {"escrow": 2, "give": 2, "restate": 2, "spare": 2, "tighten": 1, "read": 1, "share": 1, "accept": 3}
"""Which word behind the site's number is the field, by command; the others have none."""

EXPECTED = "15 nothing given"
"""A carrier asks at each start for all that a site gave: this is no refusal that anybody has to see."""


@dataclass(frozen=True)
class Refusal:
    """What was asked, without the site's number, and why it was refused: number, words and what they tell."""

    asked: str
    why: str
    field: str | None


@dataclass(frozen=True)
class Tail:
    """What the end of a trace tells: of so many answers so many were refusals, and these are the last, newest first."""

    answers: int
    refused: int
    last: tuple[Refusal, ...]


def refusal_of(line: str) -> Refusal | None:
    """The refusal that a line of a trace tells, if it tells one that isn't expected."""
    asked, arrow, reply = line.partition(" -> refused ")
    words = asked.split(" ")
    if not arrow or len(words) < 2 or reply == EXPECTED:
        return None
    at = FIELD_AT.get(words[1], len(words)) + 1
    return Refusal(" ".join(words[1:]), reply, words[at] if at < len(words) else None)


def tail_of(folder: str, keep: int) -> Tail | None:
    """Reads the end of the folder's trace, and keeps so many refusals of each field, and of none; None where no trace is kept.

    The trace may grow meanwhile, and may be cut by a start: what is told is right for a moment. The first line that is read may
    be torn, and so may the last; the lines of the trace's name have no arrow, and are no answers.
    """
    try:
        with open(os.path.join(folder, "trace"), "rb") as file:
            file.seek(max(file.seek(0, os.SEEK_END) - TAIL, 0))
            lines = file.read(TAIL).decode("utf-8", "replace").split("\n")[1:-1]
    except OSError:
        return None
    answers = [line for line in lines if " -> " in line]
    refused = [it for it in map(refusal_of, answers) if it is not None]
    return Tail(len(answers), len(refused), _last(refused, keep))


def _last(refused: list[Refusal], keep: int) -> tuple[Refusal, ...]:
    """The newest, so many of each field, newest first."""
    counts: dict[str | None, int] = {}
    last = []
    for refusal in reversed(refused):
        counts[refusal.field] = counts.get(refusal.field, 0) + 1
        if counts[refusal.field] <= keep:
            last.append(refusal)
    return tuple(last)
