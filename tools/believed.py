#!/usr/bin/env python3
"""Finds the definitions that a reader has to believe: those on which the main promises rest.

    tools/believed.py

PROMISES are public functions. Each name of a contract, of what its type is seen as, and of a definition found so leads to
the definition of crates/*/specs that it stands for there, until no new one comes; what follows a point is a field, and leads
nowhere. A name that an equation binds may so add one, and none is left out. Lines are counted without comments and blank
ones. `table` is what docs/DEFINITIONS.md has of it, and what the program prints. It needs Python 3.10 and its standard library
alone.
"""
from __future__ import annotations

import os
import re
from typing import NamedTuple

from sources import TOP, text_of, wrapped

PROMISES = {
    "run_world": ("crates/world_steps/src/run.rt", ""),
    "World::step": ("crates/world_steps/src/world.rt", "World"),
    "judge": ("crates/central_machine/src/judging.rt", ""),
    "Service::release": ("crates/site_service/src/service.rt", "Service"),
}
NAME = re.compile(r"(?<![\w.'])[A-Za-z_]\w*")
HEAD = re.compile(r"^(?:(?:abbrev|unfoldable)(?: pub)?|pub record|pub data) (?!pub )(\S+)")
DATA = re.compile(r"^pub data (\S+).*\n((?:  \S+ : .*\n)*)", re.M)


class Definition(NamedTuple):
    crate: str
    module: str
    name: str

    @property
    def file(self) -> str:
        return f"crates/{self.crate}/specs/{self.module}.antt"


class Module(NamedTuple):
    """A file of definitions: the lines of each, in order, where the names come from that it uses, and of which type each
    constructor is."""

    bodies: dict[str, list[str]]
    used: dict[str, Definition]
    types: dict[str, str]


def imports(text: str) -> dict[str, Definition]:
    """The definitions of this project that a text uses, by their names there; types of Rust are none."""
    used = dict[str, Definition]()
    for crate, module, names in re.findall(r"use Rattle\.(\w+)\.specs\.(\w+)\.\{([^}]*)\}", text):
        if os.path.isdir(os.path.join(TOP, "crates", crate)):
            used.update((name, Definition(crate, module, name)) for name in re.findall(r"[A-Za-z_]\w*", names))
    return used


def read_module(crate: str, module: str) -> Module:
    text = re.sub(r"--.*", "", text_of(f"crates/{crate}/specs/{module}.antt"))
    bodies, own = dict[str, list[str]](), list[str]()
    for line in text.splitlines():
        if found := HEAD.match(line):
            own = bodies.setdefault(found[1], [])
        if line.strip() and not line.startswith(("use ", "pub mod", "pub use", "infix")):
            own.append(line)
    types = {line.split()[0]: it for it, lines in DATA.findall(text) for line in lines.splitlines()}
    return Module(bodies, imports(text) | {name: Definition(crate, module, name) for name in [*bodies, *types]}, types)


def names_in(text: str) -> set[str]:
    return set(NAME.findall(text))


def contract(file: str, owner: str, function: str) -> str:
    """The clauses of a function, and what its type is seen as."""
    text = re.sub(r" *//.*", "", text_of(file))
    block = text
    if owner:
        block = "\n".join(it for it in re.findall(r"^impl\b(?:.|\n)*?^\}", text, re.M) if owner in it.partition("{")[0])
    found = re.search(rf"pub fn {function}\b(?:.|\n)*?\n *\{{\n", block)
    if not found:
        raise SystemExit(f"{file} has no public function {function}")
    return found[0] + "\n".join(re.findall(r"ghost Value = .*", block))


class Closure:
    """The definitions that promises rest on."""

    def __init__(self) -> None:
        self.modules: dict[tuple[str, str], Module] = {}

    def module(self, crate: str, name: str) -> Module:
        if (crate, name) not in self.modules:
            self.modules[crate, name] = read_module(crate, name)
        return self.modules[crate, name]

    def rests_on(self, promise: str) -> set[Definition]:
        file, owner = PROMISES[promise]
        used, found = imports(text_of(file)), set[Definition]()
        ahead = [used[it] for it in names_in(contract(file, owner, promise.rpartition(":")[2])) if it in used]
        while ahead:
            it = ahead.pop()
            module = self.module(it.crate, it.module)
            it = it._replace(name=module.types.get(it.name, it.name))
            if it in found:
                continue
            if it.name not in module.bodies:
                raise SystemExit(f"{it.file} has no definition {it.name}")
            found.add(it)
            ahead += [module.used[name] for name in names_in("\n".join(module.bodies[it.name])) if name in module.used]
        return found

    def lines(self, it: Definition) -> int:
        return len(self.module(it.crate, it.module).bodies[it.name])

    def order(self, found: set[Definition]) -> list[tuple[str, str]]:
        """The files of these definitions, each behind those whose words it uses."""
        files, done = sorted({(it.crate, it.module) for it in found}), list[tuple[str, str]]()

        def place(file: tuple[str, str], above: frozenset[tuple[str, str]]) -> None:
            if file in done or file in above:
                return
            used = {(it.crate, it.module) for it in self.module(*file).used.values()}
            for needed in files:
                if needed in used:
                    place(needed, above | {file})
            done.append(file)

        for file in files:
            place(file, frozenset())
        return done

    def row(self, file: tuple[str, str], found: set[Definition]) -> str:
        """A file: which of its definitions are believed."""
        own = [Definition(*file, it) for it in self.module(*file).bodies]
        names = [f"`{it.name}`" for it in own if it in found]
        others = [f"`{it.name}`" for it in own if it not in found and it.name.isidentifier()]
        few = len(names) <= len(others) or not others
        which = "all" if len(names) == len(own) else ", ".join(names) if few else f"all but {', '.join(others)}"
        return wrapped(f"`{own[0].file}`: {which}", "- ", "  ")


def table() -> str:
    """What each promise rests on besides what those before it do."""
    closure, known, told = Closure(), set[Definition](), list[str]()
    for promise in PROMISES:
        all_of = closure.rests_on(promise)
        found = all_of - known
        known |= all_of
        lines = sum(map(closure.lines, found))
        besides = "besides on" if told else "on"
        told.append(f"`{promise}` rests {besides} {len(found)} definitions, {lines} lines:\n")
        told.append("\n".join(closure.row(file, found) for file in closure.order(found)) + "\n")
    return "\n".join(told).rstrip("\n")


def untold(names: set[str]) -> list[Definition]:
    """The believed definitions that have none of these names."""
    found = set[Definition]().union(*(Closure().rests_on(it) for it in PROMISES))
    return sorted(it for it in found if it.name not in names)


if __name__ == "__main__":
    print(table())
