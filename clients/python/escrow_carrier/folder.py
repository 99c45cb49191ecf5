"""Messages over a folder of files that all sites see: a share, or folders that rsync keeps alike. No broker is
needed."""
from __future__ import annotations

import errno
import glob
import logging
import os
import stat
import threading
from typing import Callable, Sequence

from .medium import Hear

_TO_WRITE = "make it a folder that this user can write"
_REMEDY = {errno.ENOSPC: "make room on its disk", errno.EDQUOT: "make room on its disk"}
log = logging.getLogger("escrow.carrier")


class Folder:
    """A file for each topic, looked at every `pause` seconds. Its carriers wait four pauses at least for what they ask: where
    rsync takes its time, give them a policy whose `patience` is longer. By rsync each machine copies what its own site tells,
    `escrow/WORLD/N`, to the others, and nothing else: a copy of theirs would put old messages back. Each change of `last_fault`
    is told to the logger `escrow.carrier`."""

    kept_comes_first = True

    def __init__(self, path: str, pause: float = 0.5) -> None:
        self._path, self._pause, self._closed = path, pause, threading.Event()
        self.patience = 4 * pause
        self._seen: dict[str, tuple[int, int]] = {}
        self._noting = threading.Lock()
        self.last_fault = ""
        """Why messages don't go out, and what to do; empty where the last one did, and before the first."""

    def open(self, name: str, filters: Sequence[str], hear: Hear, opened: Callable[[], None]) -> None:
        """Looks for what is kept, and then again and again. A question that was there before isn't heard."""
        patterns = [os.path.join(glob.escape(self._path), it.replace("+", "*")) for it in filters]
        self._look([f"{it}~" for it in patterns], lambda _topic, _payload: None)
        self._name = name
        self._note(self._share_fault())
        self._look(patterns, hear)
        opened()

        def look() -> None:
            while not self._closed.wait(self._pause):
                self._look(patterns, hear)
        self._thread = threading.Thread(target=look, name=f"folder {name}", daemon=True)
        self._thread.start()

    def _look(self, patterns: list[str], hear: Hear) -> None:
        for path in (path for pattern in patterns for path in glob.glob(pattern)):
            try:
                told = os.stat(path)
                if self._seen.get(path) == (told.st_mtime_ns, told.st_ino):
                    continue
                with open(path, "rb") as file:
                    payload = file.read()
            except OSError:                             # it was replaced meanwhile: the next look finds it
                continue
            self._seen[path] = (told.st_mtime_ns, told.st_ino)
            hear(os.path.relpath(path, self._path).rstrip("~"), payload)

    def publish(self, topic: str, payload: str, is_kept: bool) -> None:
        """Puts the file in place as a whole. A name with `~` at its end is of a question, which isn't kept."""
        path = os.path.join(self._path, topic if is_kept else f"{topic}~")
        folder, name = os.path.split(path)
        try:
            os.makedirs(folder, exist_ok=True)
            with open(os.path.join(folder, f".{name}.{self._name}"), "w", encoding="ascii") as file:
                file.write(payload)
            os.replace(file.name, path)
        except OSError as fault:                        # the share is away: lost, and told anew later
            self._note(self._why(fault))
        else:
            self._note("")

    @property
    def is_connected(self) -> bool:
        """Whether messages go out: the last one did."""
        return not self.last_fault

    def _share_fault(self) -> str:
        """Why this can be no share; empty where it is a folder, and where nothing is there yet: the first message makes it."""
        try:
            if stat.S_ISDIR(os.stat(self._path).st_mode):
                return ""
            return self._why(NotADirectoryError(errno.ENOTDIR, os.strerror(errno.ENOTDIR)))
        except FileNotFoundError:
            return ""
        except OSError as fault:
            return self._why(fault)

    def _why(self, fault: OSError) -> str:
        """The same for all messages, whichever file it was: so it is told once."""
        return f"{self._path}: {fault.strerror}: {_REMEDY.get(fault.errno or 0, _TO_WRITE)}"

    def _note(self, fault: str) -> None:
        """Tells each change."""
        with self._noting:
            before, self.last_fault = self.last_fault, fault
        if fault == before:
            return
        if fault:
            log.warning("%s", fault)
        else:
            log.info("%s: messages go out again", self._path)

    def close(self) -> None:
        """Looks no more."""
        self._closed.set()
        self._thread.join()
