"""Whether a disk has room, by a look."""

from __future__ import annotations

import errno
import os

ROOM = 1 << 16
"""With fewer bytes that can be written a disk counts as full."""
_FULL = (errno.ENOSPC, errno.EDQUOT)


def has_room(folder: str) -> bool:
    """Whether this user may write `ROOM` bytes in the folder: tried in a file without a name, and where the file system
    has none such, told by its free blocks. True where neither can be looked at."""
    try:
        held = os.open(folder, os.O_TMPFILE | os.O_WRONLY | os.O_CLOEXEC)
    except OSError:
        return _has_blocks(folder)
    try:
        return os.write(held, bytes(ROOM)) == ROOM
    except OSError as fault:
        return fault.errno not in _FULL
    finally:
        os.close(held)


def _has_blocks(folder: str) -> bool:
    try:
        told = os.statvfs(folder)
    except OSError:
        return True
    return told.f_bavail * told.f_frsize >= ROOM
