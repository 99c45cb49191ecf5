"""Whether a site is being served: its log is locked then."""
from __future__ import annotations

import os
from enum import Enum


class State(Enum):
    """What is known of the process of a site."""

    SERVED = "served"
    STOPPED = "stopped"
    UNKNOWN = "unknown"


def state_of(folder: str) -> State:
    """Looks for the lock of the folder's log among those that Linux tells in `/proc/locks`, and takes none itself.

    It sees processes of this machine, and of this container, alone: so the log of a copy is `stopped`.
    """
    try:
        inode = os.stat(os.path.join(folder, "log")).st_ino
        with open("/proc/locks", encoding="ascii") as file:
            held = [words for words in map(str.split, file) if "FLOCK" in words and "->" not in words]
    except OSError:
        return State.UNKNOWN
    return State.SERVED if any(_inode(words) == inode for words in held) else State.STOPPED


def _inode(words: list[str]) -> int:
    """The inode of a line `1: FLOCK ADVISORY WRITE PID MAJOR:MINOR:INODE START END`."""
    return int(words[5].rpartition(":")[2])
