"""What the tests of the door share: a door that runs, connections to it by hand, and processes that sell through it."""

from __future__ import annotations

import contextlib
import os
import signal
import socket
import subprocess
import sys
import threading
from typing import Any, Optional

from programs import LONG, PACKAGES, SiteTest, escrow_site, stand_still, wait_until
import escrow

PUSHER = os.path.join(os.path.dirname(os.path.abspath(__file__)), "pusher.py")


class Door:
    """A process of the door over a folder."""

    def __init__(self, folder: str, path: str, *words: str, program: Optional[str] = None) -> None:
        self.folder, self.path = folder, path
        self.words = [sys.executable, "-S", "-m", "escrow.door", folder, "--socket", path]
        self.words += ["--program", program or escrow_site(), *words]
        self.told = f"{path}.told"
        self.start()

    def start(self) -> None:
        """Starts it, and returns once it is there."""
        with open(self.told, "ab") as told:
            self.process = subprocess.Popen(self.words, cwd=PACKAGES, stderr=told)
        wait_until(lambda: self.is_there() or self.process.poll() is not None)

    def is_there(self) -> bool:
        """Whether somebody comes in."""
        with socket.socket(socket.AF_UNIX) as peer:
            try:
                peer.connect(self.path)
                return peer.recv(11) == b"escrow door"
            except OSError:
                return False

    def kill(self) -> None:
        """Ends it at once."""
        self.process.kill()
        self.process.wait()

    def stand_still(self) -> None:
        """It does nothing from now on, until it goes on."""
        stand_still(self.process.pid)

    def go_on(self) -> None:
        """Behind `stand_still`."""
        self.process.send_signal(signal.SIGCONT)

    def close(self) -> int:
        """Ends it well: its status."""
        if self.process.poll() is None:
            self.go_on()
            self.process.terminate()
        return self.process.wait(LONG)

    def text(self) -> str:
        """What it told on standard error."""
        with open(self.told, encoding="utf-8") as file:
            return file.read()


def children_of(pid: int) -> list[int]:
    """The processes that it started."""
    with open(f"/proc/{pid}/task/{pid}/children", encoding="ascii") as file:
        return [int(word) for word in file.read().split()]


def kill_child(door: Door) -> None:
    """Kills the process of its site, once there is one: it may end by itself, or be fetched by the door, at any moment."""

    def kills() -> bool:
        for child in children_of(door.process.pid)[:1]:
            with contextlib.suppress(ProcessLookupError):
                os.kill(child, signal.SIGKILL)
                return True
        return False

    wait_until(kills)


class Hand:
    """A connection by hand: lines go out, and answers come."""

    def __init__(self, path: str) -> None:
        self.peer = socket.socket(socket.AF_UNIX)
        self.peer.settimeout(LONG)
        self.peer.connect(path)
        self._rest = b""
        self.hello = [self.line() for _ in range(5)]
        self.epoch = int(self.hello[4].split()[2])

    def line(self) -> str:
        """The next line that comes, without its line feed; empty at the end."""
        while b"\n" not in self._rest:
            piece = self.peer.recv(1 << 16)
            if not piece:
                return ""
            self._rest += piece
        line, _, self._rest = self._rest.partition(b"\n")
        return line.decode()

    def ask(self, *lines: str) -> None:
        """Sends lines together."""
        self.peer.sendall("".join(f"{line}\n" for line in lines).encode())

    def told(self, *lines: str, many: Optional[int] = None) -> list[str]:
        """The next lines behind these, as many as they are or as told, receipts left out."""
        self.ask(*lines)
        found: list[str] = []
        while len(found) < (len(lines) if many is None else many):
            line = self.line()
            if not line.startswith("door took "):
                found.append(line)
            if not line:
                break
        return found

    def close(self) -> None:
        """Ends it."""
        self.peer.close()


class DoorTest(SiteTest):
    """A test that opens doors."""

    def door(self, schema: escrow.Schema, *words: str, program: Optional[str] = None) -> Door:
        """A door over a new folder, open until the test ends."""
        return self.opened(Door(self.folder(schema), os.path.join(self.place, "door"), *words, program=program))

    def opened(self, door: Door) -> Door:
        """This door is ended with the test."""
        self.addCleanup(door.close)
        return door

    def connected(self, door: Door, **options: Any) -> escrow.Site:
        """A client of it, until the test ends."""
        site = escrow.Site.connect(door.path, **{"timeout": LONG, "wait": LONG, **options})
        self.addCleanup(site.close)
        return site

    def hand(self, door: Door) -> Hand:
        """A connection by hand, until the test ends."""
        hand = Hand(door.path)
        self.addCleanup(hand.close)
        return hand


class Pusher:
    """A process of its own that sells through a door, by so many tasks: `pusher.py`."""

    def __init__(self, path: str, tasks: int, how: str = "change", timeout: float = LONG) -> None:
        words = [sys.executable, "-S", PUSHER, path, str(tasks), how, str(timeout)]
        self.process = subprocess.Popen(words, stdin=subprocess.PIPE, stdout=subprocess.PIPE, text=True)
        self.is_there = False
        self._lines: list[str] = []
        self._hears = threading.Thread(target=self._hear, daemon=True)

    def begin(self) -> Pusher:
        """Returns once it has come in."""
        assert self.process.stdout
        self.is_there = self.process.stdout.readline().startswith("stands ")
        assert self.is_there
        self._hears.start()
        return self

    def _hear(self) -> None:
        assert self.process.stdout
        for line in self.process.stdout:
            if line.endswith("\n"):
                self._lines.append(line[:-1])

    def has_told(self, word: str) -> bool:
        """Whether it has told so of one by now."""
        return any(line.startswith(f"{word} ") for line in tuple(self._lines))

    def end(self) -> dict[str, set[str]]:
        """Has it end: the ids by what it told of them."""
        return self.read()

    def kill(self) -> dict[str, set[str]]:
        """Kills it: the same."""
        self.process.kill()
        return self.read()

    def read(self) -> dict[str, set[str]]:
        """The ids by what it told of them, by its end. Fails where one was told twice."""
        assert self.process.stdin and self.process.stdout
        self.process.stdin.close()
        if self._hears.ident is None:  # it wasn't waited for
            self._hears.start()
        self._hears.join()
        told: dict[str, set[str]] = {}
        for line in self._lines:
            word, _, id = line.partition(" ")
            assert id not in told.setdefault(word, set()), line
            told[word].add(id)
        self.process.wait()
        self.process.stdout.close()
        return told


class Between:
    """A program between a client and a door: it passes on what comes, and nobody is told where it can't."""

    def __init__(self, path: str, door: str) -> None:
        self._passed: list[bytes] = []
        self._ended: list[socket.socket] = []
        self._door, self._listener = door, socket.socket(socket.AF_UNIX)
        self._listener.bind(path)
        self._listener.listen()
        threading.Thread(target=self._listen, daemon=True).start()

    def close(self) -> None:
        """Nobody comes in any more."""
        self._listener.shutdown(socket.SHUT_RDWR)
        self._listener.close()
        for peer in self._ended:
            peer.close()

    @property
    def passed(self) -> bytes:
        """What was passed on, either way."""
        return b"".join(self._passed)

    def _listen(self) -> None:
        while True:
            try:
                near, _ = self._listener.accept()
            except OSError:
                return
            far = socket.socket(socket.AF_UNIX)
            far.connect(self._door)
            for source, target in ((near, far), (far, near)):
                threading.Thread(target=self._pass, args=(source, target), daemon=True).start()

    def _pass(self, source: socket.socket, target: socket.socket) -> None:
        try:
            while piece := source.recv(1 << 16):
                target.sendall(piece)
                self._passed.append(piece)
            target.shutdown(socket.SHUT_WR)
        except OSError:
            pass
        self._ended.append(source)
