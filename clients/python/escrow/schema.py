"""The schema of a world, and whose folder a folder is."""

from __future__ import annotations

import errno
import hashlib
import json
import os
import re
from collections.abc import Iterator
from typing import Any, NamedTuple, Union

from .errors import Down

Path = Union[str, "os.PathLike[str]"]

# The first line of a folder's file `site`, and what the lines behind it begin with: in version 2 a world has a name of its
# own.
VERSIONS = {"escrow site 1": ("number ", "world "), "escrow site 2": ("number ", "name ", "world ")}


class Field(NamedTuple):
    """A field of quantities: its name, the bounds that it never passes, and its value as the world begins."""

    name: str
    floor: int
    ceiling: int
    value: int


class Schema(NamedTuple):
    """The number of sites of a world, 1 to 64, and its fields, 1 to 256."""

    sites: int
    fields: tuple[Field, ...]

    def line(self) -> str:
        """The header of the world, one line of JSON without its line feed."""
        fields = [field._asdict() for field in self.fields]
        return json.dumps({"sites": self.sites, "fields": fields}, separators=(",", ":"))

    @staticmethod
    def parse(line: str) -> Schema:
        """Reads a header. Raises `ValueError` or `KeyError` where it is none; the program is the judge of its limits.
        """
        told = json.loads(line)
        fields = (Field(it["name"], it["floor"], it["ceiling"], it["value"]) for it in told["fields"])
        return Schema(told["sites"], tuple(fields))


class Identity(NamedTuple):
    """Whose folder it is: the number of the site, the name of its world, and the world's schema."""

    number: int
    world: str
    schema: Schema


def identity(folder: str) -> Identity:
    """Reads the file `site` of a folder. Raises `Down` where there is none, it can't be read, or isn't as `create` wrote it."""
    path = os.path.join(folder, "site")
    try:
        with open(path, encoding="utf-8") as file:
            first, *lines = file.read().split("\n")
        words = VERSIONS[first]
        told = {word: line.removeprefix(word) for word, line in zip(words, lines)}
        return Identity(int(told["number "]), told["world "], Schema.parse(lines[len(words)]))
    except FileNotFoundError as fault:
        raise Down(f"{path}: isn't there: look whether its disk is: a site's folder is made by create, once", 3) from fault
    except NotADirectoryError as fault:
        raise Down(f"{path}: isn't in a folder: name the one that create made, not a file in it", 3) from fault
    except OSError as fault:
        raise unreadable(path, fault) from fault
    except (ValueError, KeyError, IndexError, TypeError) as fault:
        raise Down(f"{path}: isn't as create wrote it: put it back from a copy", 3) from fault


def unreadable(path: str, fault: OSError) -> Down:
    """Why a file of a site's folder can't be read, though it may be there, and what to do."""
    remedy = "let this user read it" if fault.errno in (errno.EACCES, errno.EPERM) else "look whether its disk is"
    return Down(f"{path}: {fault.strerror}: {remedy}", 5)


def differs(folder: str, schema: Union[Schema, Path], number: int, name: str) -> str:
    """In what this folder is another site's than of this number, in the world of this schema and name; nothing where it is
    that site's own. Raises `Down` where it isn't as `create` wrote it."""
    told, header = identity(folder), _header(schema)
    if told.world != hashlib.sha256(f"{name}\n{header}".encode()).hexdigest():
        return f"is of another world than {name!r} with this schema"
    return "" if told.number == number else f"is of site {told.number} of this world"


# What is wrong with a header. The program alone judges it: this tells where the fault is that it found.

MOST = 10**15
"""No bound of a field is farther from 0."""
KEYS = ("name", "floor", "ceiling", "value")
_NAME = re.compile(r"[a-z0-9_]{1,32}")


def header_fault(schema: Union[Schema, Path]) -> str:
    """Which field of a header that was refused breaks which rule, as docs/FORMATS.md has them; empty where none is found.
    """
    try:
        told = json.loads(_header(schema))
    except (OSError, ValueError):
        return ""
    return next(_faults(told), "")


def _header(schema: Union[Schema, Path]) -> str:
    """The line of a schema, or the first one of this file."""
    if isinstance(schema, Schema):
        return schema.line()
    with open(schema, encoding="utf-8") as file:
        return file.readline().rstrip("\n")


def _faults(told: Any) -> Iterator[str]:
    yield from _shape_faults(told, ("sites", "fields"), "the header")
    if not isinstance(told["fields"], list):
        yield "fields isn't a list"
        return
    for place, field in enumerate(told["fields"]):
        yield from _shape_faults(field, KEYS, f"field {place}, counted from 0,")
    if not 1 <= told["sites"] <= 64:
        yield f"{told['sites']} sites: there are 1 to 64"
    if not 1 <= len(told["fields"]) <= 256:
        yield f"{len(told['fields'])} fields: there are 1 to 256"
    names: set[str] = set()
    for field in told["fields"]:
        yield from _field_faults(field, names)


def _shape_faults(told: Any, keys: tuple[str, ...], what: str) -> Iterator[str]:
    if not isinstance(told, dict):
        yield f"{what} isn't an object with the keys {', '.join(keys)}"
        return
    for key in (*keys, *told):
        if key not in told:
            yield f"{what} has no {key}"
        elif key not in keys:
            yield f"{what} has a key {key!r}: it has {', '.join(keys)}, and no others"
        elif key == "name" and not isinstance(told[key], str):
            yield f"{what} has the name {told[key]!r}, which isn't a text"
        elif key not in ("name", "fields") and type(told[key]) is not int:
            yield f"{what} has {key} {told[key]!r}, which isn't a whole number"


def _field_faults(field: dict[str, Any], names: set[str]) -> Iterator[str]:
    name, floor, ceiling, value = (field[key] for key in KEYS)
    if not _NAME.fullmatch(name):
        yield f"field {name!r}: a name is 1 to 32 of a-z, 0-9 and _"
    if name in names:
        yield f"field {name!r}: another one has this name"
    names.add(name)
    for key, bound in (("floor", floor), ("value", value), ("ceiling", ceiling)):
        if not -MOST <= bound <= MOST:
            yield f"field {name!r}: {key} {bound} isn't within -10^15 to 10^15"
    if not floor <= value <= ceiling:
        yield f"field {name!r}: floor {floor}, value {value} and ceiling {ceiling} aren't in this order"
