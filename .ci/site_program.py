"""The program escrow_site and its folders, for .ci/site and what it calls."""
from __future__ import annotations

import dataclasses
import os

from gate_programs import Children, Fault
from site_model import Field, Gone, Log, World, id_of

SHOP = World(2, (Field("stock", 0, 100, 40),))
ALONE = World(1, SHOP.fields, "kiosk-2026")
COMMIT = b"0 begin\n0 escrow 1.1 stock -20\n0 commit 1.1\n"
FIRST = "ready 1 {} {}\n0 restart -> restarted {} nothing\n"
SOLD = "0 begin -> begun 1.1\n0 escrow 1.1 stock -20 -> granted\n0 commit 1.1 -> committed\n"


@dataclasses.dataclass
class Site:
    """A site with its folder, and the statements that were issued to it."""

    world: World
    number: int
    folder: str
    is_traced: bool = False
    told: list[str] = dataclasses.field(default_factory=list)

    def log(self) -> Log:
        with open(f"{self.folder}/log", "rb") as file:
            return Log(self.world, self.number, file.read())

    def let_go(self) -> None:
        """Lets go of all records of its log, as a program would where their summary is the last one: that stays."""
        log = self.log()
        numbers = [number for epoch, number in map(id_of, log.commits) if epoch == log.epoch]
        gone = Gone(log.length, len([it for it in log.records if not it.startswith("S")]), log.epoch, max(numbers, default=0))
        with open(f"{self.folder}/log", "wb") as file:
            file.write(self.world.log_text(self.number, f"{log.summary()}\n".encode(), gone=gone))

    def traced_since(self, line: str) -> list[str]:
        """The whole lines of the trace from the last such line on: none, where a stop came before there was a trace."""
        lines = files_of(self.folder).get("trace", b"").decode().split("\n")[:-1]
        if line not in lines:
            return []
        return lines[len(lines) - 1 - lines[::-1].index(line) :]


class Program:
    """The program, and where it works."""

    def __init__(self, children: Children, path: str, folder: str) -> None:
        self.children, self.path, self.folder = children, path, folder

    def run(self, words: list[str], given: bytes = b"", **how: object) -> tuple[int, str, str]:
        name = f"escrow_site {' '.join(words)}"
        status, out, err = self.children.run(name, [self.path, *words], given, env={}, **how)
        return status, (out or b"").decode(), (err or b"").decode()

    def ends(self, words: list[str], status: int, out: str, told: str, given: bytes = b"", **how: object) -> None:
        ended = self.run(words, given, **how)
        wanted = (status, out, f"escrow_site: {told}\n" if told else "")
        if ended != wanted:
            raise Fault(f"escrow_site {' '.join(words)}: {ended}, and not {wanted}")

    def put(self, name: str, held: bytes) -> str:
        path = os.path.join(self.folder, name)
        with open(path, "wb") as file:
            file.write(held)
        return path

    def file(self, name: str, text: str) -> str:
        return self.put(name, text.encode())

    def created(self, name: str, world: World = SHOP, site: int = 0, is_traced: bool = False) -> Site:
        schema = self.file("schema.json", f"{world.header()}\n")
        folder = os.path.join(self.folder, name)
        self.ends(["create", folder, "--schema", schema, "--site", str(site), "--name", world.own_name], 0, "", "")
        return Site(world, site, folder, is_traced)


def files_of(folder: str) -> dict[str, bytes]:
    held = {}
    for name in os.listdir(folder):
        with open(f"{folder}/{name}", "rb") as file:
            held[name] = file.read()
    return held
