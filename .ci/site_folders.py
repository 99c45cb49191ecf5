#!/usr/bin/env python3
"""Asks the program escrow_site over the folders of .ci/folders, as programs wrote them once: each answer has to be the one that
the program gave that wrote them, byte for byte, and so has what is left of the folders.

    .ci/site_folders.py PROGRAM     writes .ci/folders/WORLD.told anew, by this program: what it answers

.ci/folders/nameless is a world of three sites without a name of its own (`escrow site 1`): two logs end in a torn record, as
a stop leaves them, one trace in a torn line, and two are ahead of their logs. .ci/folders/named is one of two sites that
has a name (`escrow site 2`), over logs of version 1. Both were written, and WORLD.told too, by the last program that wrote
version 1, whose SHA-256 begins with 73772cdd3a49: git has it as packed/escrow_site.gz. .ci/folders/sealed is one of two sites
over logs of version 2, with keys and torn ends, by the last program that couldn't shorten a log, 82178c5aeb32. Nothing of them is
ever edited.
"""
from __future__ import annotations

import dataclasses
import os
import shutil
import sys
import tempfile

from gate_programs import Children, Fault
from site_program import Program, files_of

KEPT_FOLDERS = os.path.join(os.path.dirname(os.path.abspath(__file__)), "folders")


@dataclasses.dataclass(frozen=True)
class World:
    """A world of .ci/folders: its name there, and for each of its folders the lines that it is asked."""

    name: str
    asked: dict[str, str]

    def kept(self) -> str:
        return os.path.join(KEPT_FOLDERS, self.name)


WORLDS = (
    World("nameless", {
        "shop0": "0 share stock\n0 read seats\nkept 1.1\nkept 2.1\nkept 2.2\n0 begin\n0 escrow 3.1 stock -100\n"
                 "0 escrow 3.1 seats 20\n0 commit 3.1\n0 restate 1 stock lower\n0 accept 2 0 seats lower 2\n0 sell\n",
        "shop1": "kept 1.1\nkept 1.2\n1 accept 0 1 stock lower 11\n1 read stock\n1 begin\n1 escrow 2.1 stock -5\n"
                 "1 commit 2.1\n1 tighten seats lower 2\n",
        "shop2": "2 share stock\nkept 2.1\n2 spare 1 stock lower 50\n2 restate 0 seats lower\n2 begin\n",
    }),
    World("named", {
        "hall0": "kept 1.2\n0 read seats\n0 give 1 seats lower 20\n0 begin\n0 escrow 2.1 seats -1\n0 commit 2.1\n",
        "hall1": "1 accept 0 1 seats lower 80\n1 share seats\n1 begin\n1 escrow 2.1 seats 3\n1 commit 2.1\n",
    }),
    World("sealed", {
        "arena0": "kept 1.1\nkept 1.2\nkept 2.3\nkept key ticket-1\nkept key ticket-2\nkept key ticket-3\n0 share seats\n"
                  "0 read cash\n0 begin\n0 escrow 3.1 seats -1\n0 commit 3.1 key ticket-2\n0 abort 3.1\n0 begin\n"
                  "0 escrow 3.2 seats -1\n0 commit 3.2 key ticket-3\n0 give 1 seats lower 1\n",
        "arena1": "1 accept 0 1 seats lower 31\n1 accept 0 1 cash lower 9\n1 share cash\nkept 1.1\n1 restart\n1 begin\n"
                  "1 escrow 3.1 cash 4\n1 commit 3.1 key ticket-1\nkept key ticket-1\n",
    }),
)  # fmt: skip


class Transcript:
    """What a program answers over a copy of a world's folders, in the order in which it is asked."""

    def __init__(self, program: Program, world: World, copy: str) -> None:
        self.program, self.world, self.copy = program, world, copy
        self.text = ""

    def ask(self, words: list[str], given: str = "") -> None:
        status, out, err = self.program.run(words, given.encode(), cwd=self.copy)
        shown = "".join(f"< {line}\n" for line in given.splitlines())
        self.text += f"$ escrow_site {' '.join(words)}\n{shown}{out}{err}status {status}\n"

    def look(self) -> None:
        """What tells of the folders and changes none."""
        folders = list(self.world.asked)
        for folder in folders:
            self.ask(["show", folder])
        for word in (["check"], ["weave"], ["settle", "--dry-run"]):
            self.ask([*word, *folders])

    def hold(self) -> None:
        """What is in the folders."""
        for folder in self.world.asked:
            for name, held in sorted(files_of(os.path.join(self.copy, folder)).items()):
                self.text += f"= {folder}/{name}\n{held.decode()}\n"

    def all(self) -> str:
        folders = list(self.world.asked)
        self.look()
        for folder, lines in self.world.asked.items():
            self.ask(["serve", "--trace", folder], lines)
        self.look()
        self.ask(["settle", *folders])
        for folder in folders:
            self.ask(["serve", "--trace", folder], "kept 1.1\n")
        self.ask(["settle", *folders])
        self.ask(["settle", "--again", *folders])
        self.hold()
        return self.text


def told(program: Program, world: World) -> str:
    """What the program answers over a copy of the folders of this world."""
    copy = os.path.join(program.folder, f"kept_{world.name}")
    shutil.copytree(world.kept(), copy)
    return Transcript(program, world, copy).all()


def first_difference(answered: str, wanted: str) -> str:
    lines, others = (text.splitlines() for text in (answered, wanted))
    at = next((at for at, (one, other) in enumerate(zip(lines, others)) if one != other), min(len(lines), len(others)))
    return f"line {at + 1}: {lines[at : at + 1]}, and not {others[at : at + 1]}"


def serve_old_folders(program: Program) -> None:
    """Folders of programs of before are told of, served, checked, woven and settled as they were."""
    for world in WORLDS:
        answered = told(program, world)
        with open(f"{world.kept()}.told", encoding="utf-8", newline="") as file:
            wanted = file.read()
        if answered != wanted:
            raise Fault(f".ci/folders/{world.name} is answered otherwise: {first_difference(answered, wanted)}")


def write(path: str) -> None:
    with tempfile.TemporaryDirectory(prefix="folders-") as folder:
        program = Program(Children(), os.path.abspath(path), folder)
        for world in WORLDS:
            with open(f"{world.kept()}.told", "w", encoding="utf-8", newline="") as file:
                file.write(told(program, world))


if __name__ == "__main__":
    if len(sys.argv) != 2 or sys.argv[1].startswith("-"):
        sys.exit(__doc__)
    write(sys.argv[1])
