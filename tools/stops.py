#!/usr/bin/env python3
"""Finds the files that name a command, a reply, a refusal, a limit or a kind of record: where the next of its kind has to go.

    tools/stops.py [CASES]

With cases (letters of CASES, as `ca`) the files, one a line, crates by their floors, the lowest first; without any all files, by
crate. It looks through what git has, docs/ and packed/ left out: in .rt and .antt outside
comments, but for `tighten`, which has no other sense. It needs Python 3.10, git and the standard library alone.
"""
from __future__ import annotations

import os
import re
import sys
from typing import NamedTuple

from sources import floors_of, text_of, tracked, wrapped


class Case(NamedTuple):
    what: str
    stem: str
    """What stands in small letters wherever one of the patterns does."""
    code: str
    """A pattern for what stands in .rt and .antt."""
    other: str
    """A pattern for any other file."""


CASES = {
    "r": Case("a command with a record (`tighten`)", "tighten", "", ""),
    "s": Case("a command that issues a statement (`spare`)", "spare", r"\bSpared?\b|\"spare\"",
              r"\b(?:Spared?|ESCROW_SPARED?)\b|[\"']spare[\"']|\d spare \d"),
    "c": Case("a command with neither (`share`)", "share",
              r"(?<!proofs\.)(?<!mod )(?<!Ledger, )\bShares?\b(?!<)|\"share\"|\d share |\" ?share |SITE share|\bshare (?:stock|#)",
              r"\bShare \{|\b(?:SHARE|ESCROW_SHARES?)\b|def share\(|[\"'] ?share[\"' ]|\d share [a-z]|\} share |SITE share"
              r"|`share[(`]|Interval\(.*\n.*\.share\("),
    "a": Case("an answer (`Shares`)", "share", r"(?<!proofs\.)(?<!mod )\bShares\b|-> share ", r"\b(?:ESCROW_SHARES|Shares)\b|-> share |[\"']share(?: N N)?[\"']"),
    "f": Case("a refusal (`NothingGiven`)", "nothing", r"\bNothingGiven\b|nothing given", r"(?i)nothing_?given|nothing given"),
    "l": Case("a limit (64 open)", "open", r"\b(?:max_open|MAX_OPEN)\b",
              r"\b6[34]\b.{0,30}\b(?:open|places)\b|\bopen(?:_then)?\b.{0,20}\b6[34]\b|places for 63|(?i:places)\(.*\b63\)"),
    "k": Case("a kind of record (`Gift`)", "g", r"\bGift\b", r"[\"']G[ \"']"),
}
COMMENT = {".antt": re.compile(r"--.*"), ".rt": re.compile(r"//.*")}
LEFT_OUT = ("docs/", "packed/", "README.md", "tools/stops.py", "tools/spelled.py")
SAME_WORD = ("clients/python/escrow_carrier/", "clients/python/tests/test_carrier")
"""There a message of carriers, and a folder over a network, are called as the neighbour of `c` and `a` is."""
COUNTED = re.compile(r"\d (?:steps|answers) as told")
"""What a program prints that counts the rows of its source: it changes where these do."""


def letters_of(file: str) -> str:
    """The cases of which a file names something."""
    text, suffix = text_of(file), os.path.splitext(file)[1]
    small, bare = text.lower(), COMMENT[suffix].sub("", text) if suffix in COMMENT else text

    def names(case: Case) -> bool:
        pattern = case.code if suffix in COMMENT else case.other
        return case.stem in small and (not pattern or re.search(pattern, bare) is not None)

    others = "ca" if file.startswith(SAME_WORD) else ""
    return "".join(it for it, case in CASES.items() if it not in others and names(case))


def found() -> dict[str, str]:
    """Each file that names something, with its cases: crates by their floors, then all else."""
    order = {crate: at for at, crate in enumerate(it for _, floor in floors_of() for it in floor)}

    def place(file: str) -> tuple[int, str]:
        return order.get(file.split("/")[1], len(order)) if file.startswith("crates/") else len(order) + 1, file

    cases = {file: letters_of(file) for file in sorted(tracked(), key=place) if not file.startswith(LEFT_OUT)}
    for file in cases:
        if file.endswith("/stdout") and COUNTED.search(text_of(file)):
            rows = [it for other, it in cases.items() if other.startswith(f"{os.path.dirname(file)}/src/")]
            cases[file] = joined([cases[file], *rows])
    return {file: letters for file, letters in cases.items() if letters}


def joined(letters: list[str]) -> str:
    return "".join(it for it in CASES if any(it in each for each in letters))


def stem(file: str) -> str:
    return os.path.splitext(os.path.basename(file))[0]


def told(files: dict[str, str]) -> str:
    """Names without their suffix, each with its cases; of tests and of what was kept how many."""
    if any(re.search(r"/(?:tests|folders)/", file) for file in files):
        return f"{len(files)} files({joined(list(files.values()))})"
    return " ".join(f"{stem(file)}({letters})" for file, letters in files.items())


def line_of(crate: str, files: dict[str, str]) -> str:
    """A crate: its sources and definitions by name, and of proofs and all else how many."""
    parts = []
    for part in ("src", "specs"):
        own = {file: it for file, it in files.items() if file.startswith(f"crates/{crate}/{part}/")}
        if own:
            parts.append(f"{part} {told(own)}")
    for part in ("proofs", "must-fail", "data", "stdout"):
        own = {file: it for file, it in files.items() if file.startswith(f"crates/{crate}/{part}")}
        if own:
            parts.append(f"{len(own)} of {part}({joined(list(own.values()))})")
    return f"{crate}: {'; '.join(parts)}"


def stops() -> str:
    files, lines = found(), list[str]()
    for comment, floor in floors_of():
        shown, tests = list[str](), list[str]()
        for crate in floor:
            own = {file: it for file, it in files.items() if file.startswith(f"crates/{crate}/")}
            if own and crate.endswith("_tests"):
                tests.append(f"{crate}({joined(list(own.values()))})")
            elif own:
                shown.append(wrapped(line_of(crate, own), "    ", "        "))
        if tests:
            shown.append(wrapped(" ".join(tests), "    ", "        "))
        if shown:
            lines += [f"    # {comment.partition(':')[0].rstrip('.')}", *shown]
    folders: dict[str, dict[str, str]] = {}
    for file, letters in files.items():
        if not file.startswith("crates/"):
            folder = ".ci/folders" if file.startswith(".ci/folders/") else os.path.dirname(file)
            folders.setdefault(folder, {})[file] = letters
    lines.append("    # Beside the crates")
    lines += [wrapped(f"{folder or '.'}: {told(own)}", "    ", "        ") for folder, own in folders.items()]
    return "\n".join(lines)


def main() -> int:
    wanted = set("".join(sys.argv[1:2]))
    if len(sys.argv) > 2 or not wanted <= set(CASES):
        print(__doc__, *(f"{it}: {case.what}" for it, case in CASES.items()), sep="\n", file=sys.stderr)
        return 2
    print("\n".join(it for it, cases in found().items() if wanted & set(cases)) if wanted else stops())
    return 0


if __name__ == "__main__":
    sys.exit(main())
