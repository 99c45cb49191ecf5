#!/usr/bin/env python3
"""Writes the parts of three pages that are made from the sources, each between a line of begin and one of end.

    tools/page_parts.py [--check]

docs/ARCHITECTURE.md, `graph`: each crate of crates.txt, by its floors, and the crates that it stands on (those that others imply
left out). The crates *_tests and the kit's libraries are left out.

docs/DEFINITIONS.md, `believed`: what the main promises rest on, by tools/believed.py. What of it the page doesn't tell by hand
is a fault.

docs/DEFINITIONS.md, `index`: by crate, the files of crates/*/specs with a definition that the contract of an exported function
or trait names, or that an exported type is seen as; last the crates of which all files have one. Laws (functions whose body is
empty) and worked rows don't count. What the page tells by hand is left out: a name that one crate alone has counts wherever it
stands, and any other in a bullet or a paragraph that names its crate.

docs/CHANGING.md, `stops`: the crates, the lowest first, and the folders beside them, of the files that name a command, a reply, a
refusal, a limit or a kind of record; tools/stops.py has the files.

With --check nothing is written, and the status is 1 where a page isn't as it would be written. It needs Python 3.10, git and
the standard library alone.
"""
from __future__ import annotations

import glob
import os
import re
import sys
from collections.abc import Callable, Iterator
from typing import NamedTuple

from believed import table, untold
from sources import floors_of, text_of, wrapped
from stops import found, joined

WORD = re.compile(r"\w+")
THEOREM = {"field_bounds", "kept_state", "world_steps"}  # the page tells their words by hand
PART = re.compile(r"(<!-- (\w+): made by tools/page_parts.py -->\n)(.*?)(<!-- \2: end -->\n)", re.S)


# ---- the graph


def needs_of() -> dict[str, list[str]]:
    return {crate: needs for _, floor in floors_of() for crate, needs in floor.items()}


def graph() -> str:
    needs, below, texts = needs_of(), dict[str, set[str]](), list[str]()
    for _, floor in floors_of():
        lines = list[str]()
        for crate, named in floor.items():
            crates = [it for it in named if it in needs]
            below[crate] = set(crates).union(*(below[it] for it in crates))
            if not crate.endswith("_tests"):
                implied = set[str]().union(*(below[it] for it in crates))
                told = ", ".join(it for it in crates if it not in implied) or "no crate"
                lines.append(wrapped(f"{crate}: {told}", "    ", "        "))
        texts.append("\n".join(lines))
    return "\n\n".join(texts)


# ---- the index


class Definition(NamedTuple):
    crate: str
    module: str
    name: str


def names_of(file: str) -> list[str]:
    """The definitions of a file, in order."""
    return re.findall(r"^(?:(?:abbrev|unfoldable) pub|pub record|pub data) ([A-Za-z_]\w*)", text_of(file), re.M)


def exported(crate: str) -> set[str]:
    file = f"crates/{crate}/src/lib.rt"
    used = re.findall(r"^pub use ([^;]*);", text_of(file), re.M) if os.path.isfile(file) else []
    return set(WORD.findall(" ".join(used)))


def public_parts(text: str, names: set[str]) -> Iterator[str]:
    """What of a source the crate exports by these names or to C, laws left out: clauses, traits, what a type is seen as."""
    yield from re.findall(r'^pub extern "C" fn (?:.|\n)*?^\{$', text, re.M)
    for item in re.findall(r"^(?:pub (?:const )?fn|pub trait|impl)\b(?:.|\n)*?^(?:\{\}|\})", text, re.M):
        if item.endswith("{}") or names.isdisjoint(WORD.findall(item.partition("{")[0])):
            continue
        if item.startswith("pub trait"):
            yield item
        else:
            yield from re.findall(r"pub (?:const )?fn (?:(?!\bfn ).|\n)*?\n *\{\}?$", item, re.M)
            yield from re.findall(r"ghost Value = .*", item)


def cited_definitions() -> set[Definition]:
    cited: set[Definition] = set()
    for crate in needs_of():
        if crate.endswith("_tests"):
            continue
        names_out = exported(crate)
        for file in glob.glob(f"crates/{crate}/src/**/*.rt", recursive=True):
            text = re.sub(r" *//.*", "", text_of(file))
            used: dict[str, tuple[str, str]] = {}
            for owner, module, names in re.findall(r"ghost use Rattle\.(\w+)\.specs\.(\w+)\.\{([^}]*)\}", text):
                used.update((name, (owner, module)) for name in WORD.findall(names))
            for part in public_parts(re.sub(r"ghost use[^;]*;", "", text), names_out):
                cited.update(Definition(*used[name], name) for name in WORD.findall(part) if name in used)
    return cited


def index(rest: str) -> str:
    cited, lines = cited_definitions(), list[str]()
    files = {crate: sorted(glob.glob(f"crates/{crate}/specs/*.antt")) for crate in needs_of()}
    owners: dict[str, set[str]] = {}
    for crate, file in ((crate, file) for crate, of_crate in files.items() for file in of_crate):
        for name in names_of(file):
            owners.setdefault(name, set()).add(crate)
    whole = list[str]()
    for crate, of_crate in files.items():
        told, shown, others = told_by_hand(rest, crate, owners), list[str](), list[str]()
        for file in of_crate:
            module = os.path.basename(file).removesuffix(".antt")
            if not module.startswith("Worked") and any(Definition(crate, module, it) in cited for it in {*names_of(file)} - told):
                shown.append(f"`{module}.antt`")
            elif names_of(file):
                others.append(f"`{module}.antt`")
        if shown and not others:
            whole.append(f"`{crate}`")
        elif shown:
            named = ", ".join(shown) if len(shown) <= len(others) + 1 else f"all but {', '.join(others)}"
            lines.append(wrapped(f"`{crate}`: {named}", "- ", "  "))
    lines.append(wrapped(f"all of {', '.join(whole)}", "- ", "  "))
    return "\n".join(lines)


# ---- the stops


def stops() -> str:
    """Each crate and each folder beside the crates, with the cases of its files."""
    crates, folders = dict[str, list[str]](), dict[str, list[str]]()
    for file, letters in found().items():
        parts = file.split("/")
        if parts[0] == "crates":
            crates.setdefault(parts[1], []).append(letters)
        else:
            folder = ".ci" if parts[0] == ".ci" else os.path.dirname(file) or "."
            folders.setdefault(folder, []).append(letters)
    of_floors = {it: crates[it] for _, floor in floors_of() for it in floor if it in crates}
    lines = list[str]()
    for shown in (of_floors, folders):
        told = " ".join(f"{name}({joined(letters)})" for name, letters in shown.items())
        lines.append(wrapped(told, "    ", "    "))
    return "\n".join(lines)


# ---- the pages


def told_by_hand(rest: str, crate: str, owners: dict[str, set[str]]) -> set[str]:
    """The definitions of a crate that the rest of the page tells."""
    told: set[str] = set()
    for block in re.split(r"\n(?=- )|\n\n", rest):
        names = words_in_backticks(block)
        own = crate in THEOREM or crate in names
        told.update(name for name in names if own or owners.get(name) == {crate})
    return told


def words_in_backticks(text: str) -> set[str]:
    return {name for it in re.findall(r"`([^`]*)`", text) for name in WORD.findall(it)}


PAGES: dict[str, dict[str, Callable[[str], str]]] = {
    "docs/ARCHITECTURE.md": {"graph": lambda _: graph()},
    "docs/DEFINITIONS.md": {"believed": lambda _: table(), "index": index},
    "docs/CHANGING.md": {"stops": lambda _: stops()},
}


def made_anew(page: str, makers: dict[str, Callable[[str], str]]) -> str:
    """The page with its parts made anew; what makes one sees what was written by hand."""
    rest = PART.sub("", page)
    if [it[1] for it in PART.findall(page)] != list(makers):
        sys.exit(f"page_parts.py: a page hasn't the parts {', '.join(makers)}, each between its two lines")
    return PART.sub(lambda it: f"{it[1]}\n{makers[it[2]](rest)}\n\n{it[4]}", page)


def main() -> int:
    os.chdir(os.path.join(os.path.dirname(os.path.abspath(__file__)), ".."))
    if sys.argv[1:] not in ([], ["--check"]):
        print(__doc__, file=sys.stderr)
        return 2
    faults = list[str]()
    for file, makers in PAGES.items():
        page = text_of(file)
        anew = made_anew(page, makers)
        if "believed" in makers:
            faults += [f"{file}: tells nothing of {it.name} ({it.file}), on which a promise rests"
                       for it in untold(words_in_backticks(PART.sub("", page)))]
        if anew != page and sys.argv[1:]:
            faults.append(f"{file}: isn't as tools/page_parts.py writes it")
        elif anew != page:
            with open(file, "w", encoding="utf-8") as out:
                out.write(anew)
    for fault in faults:
        print(fault, file=sys.stderr)
    return 1 if faults else 0


if __name__ == "__main__":
    sys.exit(main())
