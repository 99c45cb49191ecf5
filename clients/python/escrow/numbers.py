"""The whole numbers that a line has room for, the ids of transactions, and keys of callers."""

from __future__ import annotations

import operator
import re
from typing import NamedTuple, Optional

from .errors import OtherSite, OtherWorld

U64 = 2**64 - 1
I64 = 2**63 - 1


def amount_of(amount: int) -> int:
    """Raises `ValueError` where this is no quantity, 0 to 2^64 - 1, and `TypeError` where it is no whole number."""
    whole = int(operator.index(amount))
    if not 0 <= whole <= U64:
        raise ValueError(f"{amount}: isn't a quantity of 0 to 2^64 - 1")
    return whole


MOST_KEPT = 2**40
"""So many bytes the program takes for `--keep` at most."""


def keep_of(keep: int) -> int:
    """Raises `ValueError` where this is no number of bytes that a log may be told to keep, 0 to 2^40, and `TypeError` where it
    is no whole number."""
    whole = int(operator.index(keep))
    if not 0 <= whole <= MOST_KEPT:
        raise ValueError(f"{keep}: isn't a number of bytes to keep, 0 to 2^40")
    return whole


def change_of(change: int) -> int:
    """Raises `ValueError` where this is no change, of 64 bits with a sign, and `TypeError` where it is no whole number.
    """
    whole = int(operator.index(change))
    if not -I64 - 1 <= whole <= I64:
        raise ValueError(f"{change}: isn't a change of 64 bits")
    return whole


def site_of(number: int) -> int:
    """Raises `ValueError` where this is no number of a site, 0 to 65535, and `TypeError` where it is no whole number.
    """
    whole = int(operator.index(number))
    if not 0 <= whole <= 65535:
        raise ValueError(f"{number}: isn't the number of a site, 0 to 65535")
    return whole


_KEY = re.compile(r"[A-Za-z0-9._-]{1,64}")


def is_key(word: str) -> bool:
    """Whether this is a key of a caller."""
    return _KEY.fullmatch(word) is not None


def key_of(key: str) -> str:
    """Raises `ValueError` where this is no key of a caller, 1 to 64 of `A-Z a-z 0-9 . _ -`, and `TypeError` where it is no
    text."""
    if not isinstance(key, str):
        raise TypeError(f"{key!r}: a key is a str")
    found = _KEY.fullmatch(key)
    if found is None:
        raise ValueError(f"{key!r}: isn't a key of 1 to 64 of A-Z a-z 0-9 . _ -")
    return found[0]


SHORT = 8
"""So many digits of the name of its world stand in front of an id."""
_ID = re.compile(r"(?:([0-9a-f]{8})-(?:(0|[1-9][0-9]{0,4})-)?)?((?:0|[1-9][0-9]{0,9})\.(?:0|[1-9][0-9]{0,9}))")


def front_of(world: str, site: int) -> str:
    """What stands in front of the ids of a site; `world` is the first digits of the world's name."""
    return f"{world}-{site}-"


class Id(NamedTuple):
    """What the id of a transaction tells, as `9c1f0a2b-3-1.17`: the first digits of the name of its world, the number of
    its site, and how that site's lines name it. Clients of earlier days told no site, as `9c1f0a2b-1.17`, and before
    that no world: there `site` is None, and `world` empty."""

    world: str
    site: Optional[int]
    line: str

    def numbers(self) -> tuple[int, int]:
        """The epoch, and the number in it."""
        epoch, _, number = self.line.partition(".")
        return int(epoch), int(number)


def read_id(id: str) -> Id:
    """Reads an id. Raises `ValueError` where this is none."""
    found = _ID.fullmatch(id)
    told = None if found is None else Id(found[1] or "", None if found[2] is None else int(found[2]), found[3])
    if told is None or max(told.numbers()) >= 2**32:
        raise ValueError(f"{id!r}: isn't the id of a transaction")
    return told


def line_id(world: str, site: int, id: str, is_position: bool = False) -> str:
    """How the lines of this site of this world name a transaction, or a position; `world` is the first digits of the world's
    name. Raises `OtherWorld` or `OtherSite` where the id is of another, and `ValueError` where it is none."""
    told = read_id(id)
    if told.world and told.world != world:
        raise OtherWorld(id, told.world, world, None if is_position else told.numbers())
    if told.site is not None and told.site != site:
        raise OtherSite(id, told.site, site)
    return told.line
