"""The socket of a door: one of its own at a path, or one that systemd has opened."""

from __future__ import annotations

import errno
import fcntl
import os
import socket
import stat
from typing import Optional

from ..errors import Down

FIRST = 3
"""The first socket that systemd passes, as sd_listen_fds(3) tells."""
BACKLOG = 512
IN_USE = 6
"""The status where the folder or the socket is another's."""


def passed() -> Optional[socket.socket]:
    """The socket that systemd has passed to this process, or None. Takes the words that tell so out of the environment.
    Raises `Down` where it isn't one that a door can use."""
    count, whose = os.environ.pop("LISTEN_FDS", ""), os.environ.pop("LISTEN_PID", "")
    os.environ.pop("LISTEN_FDNAMES", None)
    if whose != str(os.getpid()) or not count.isdecimal() or int(count) == 0:
        return None
    if int(count) != 1:
        raise Down(f"systemd passed {count} sockets: a door has one: write one ListenStream= into the socket unit", 2)
    try:
        listener = socket.socket(fileno=FIRST)
    except OSError as fault:
        raise Down(f"LISTEN_FDS tells of a socket, and descriptor {FIRST} is none: {fault.strerror}", 2) from fault
    os.set_inheritable(FIRST, False)
    if listener.family != socket.AF_UNIX or not listener.getsockopt(socket.SOL_SOCKET, socket.SO_ACCEPTCONN):
        raise Down("systemd passed another socket than a listening Unix stream socket: ListenStream=/run/.. makes one", 2)
    return listener


class Place:
    """A path that this door alone listens at, as long as it lives: by a lock on `PATH.lock`, which stays."""

    def __init__(self, path: str, mode: int) -> None:
        """Takes the path and listens. A socket that a dead door has left is replaced. Raises `Down` where the path is
        another's, or can't be made."""
        self.path = path
        self._lock = _lock(f"{path}.lock")
        try:
            _clear(path)
            self.listener = _listen(path, mode)
        except OSError as fault:
            raise Down(f"{path}: no socket can be made here: {fault.strerror or fault}", 2) from fault

    def leave(self) -> None:
        """Takes the socket away."""
        try:
            os.unlink(self.path)
        except OSError:
            pass


def _lock(path: str) -> int:
    try:
        held = os.open(path, os.O_RDWR | os.O_CREAT | os.O_CLOEXEC | os.O_NOFOLLOW, 0o600)
    except OSError as fault:
        raise Down(f"{path}: {fault.strerror}: the folder of the socket has to be there, and this user's to write", 2) from fault
    try:
        fcntl.flock(held, fcntl.LOCK_EX | fcntl.LOCK_NB)
    except OSError as fault:
        os.close(held)
        raise Down(f"{path}: in use: another door listens there: end it first, or take another path", IN_USE) from fault
    return held


def _clear(path: str) -> None:
    """Takes away what a dead door left. Raises `Down` where it is no socket, or somebody else listens at it."""
    try:
        if not stat.S_ISSOCK(os.lstat(path).st_mode):
            raise Down(f"{path}: is there, and is no socket: take another path", 2)
    except FileNotFoundError:
        return
    with socket.socket(socket.AF_UNIX, socket.SOCK_STREAM | socket.SOCK_NONBLOCK) as probe:
        told = probe.connect_ex(path)
    if told != errno.ECONNREFUSED:
        raise Down(f"{path}: in use: another program listens there: take another path", IN_USE)
    os.unlink(path)


def _listen(path: str, mode: int) -> socket.socket:
    """The socket has its mode before anybody can come in."""
    listener = socket.socket(socket.AF_UNIX, socket.SOCK_STREAM)
    before = os.umask(0o777)
    try:
        listener.bind(path)
    finally:
        os.umask(before)
    os.chmod(path, mode)
    listener.listen(BACKLOG)
    return listener
