"""A connection: what came and isn't a whole line yet, what it hasn't taken yet, and its open transactions."""

from __future__ import annotations

import fcntl
import socket
import struct
import termios
from time import monotonic

from .places import Holder

AT_ONCE = 1 << 15
"""How many bytes of a connection are read together."""
LONGEST = 256
"""The bytes of the longest line that a site takes."""
MOST_UNANSWERED = 8192
"""While so many lines of a connection are unanswered at the site, it isn't read from."""


class Gone(Exception):
    """The other end is closed."""


class Connection(Holder):
    """One connection, and the places that it holds."""

    __slots__ = (
        "peer", "out", "open", "begun", "granted", "unanswered", "is_ended", "is_closed", "is_held", "is_prompt", "told_at",
        "since", "telling", "_rest", "_room",
    )  # fmt: skip

    def __init__(self, peer: socket.socket) -> None:
        super().__init__()
        self.peer = peer
        self.out = bytearray()
        """What the socket didn't take yet."""
        self.open: dict[str, str] = {}
        """Its open transactions, by what it may name them: `.K`, or the id that the site's lines have."""
        self.begun = 0
        """How many it has asked to begin: they are named `.1`, `.2` and so on."""
        self.granted = 0
        """Places that it was told of, and hasn't entered yet."""
        self.unanswered = 0
        """Lines of its at the site."""
        self.is_ended = self.is_closed = False
        self.is_held = False
        """Whether nothing is read from it now."""
        self.is_prompt = False
        """Whether it came back with its next lines soon enough, the last time that it was answered."""
        self.told_at = 0.0
        """When it was last answered; 0 once it came back."""
        self.since = 0.0
        """Since when it is held, or when it last took something since."""
        self.telling: list[bytes] = []
        """Answers that are to be told together."""
        self._rest = ""
        self._room = peer.getsockopt(socket.SOL_SOCKET, socket.SO_SNDBUF) // 2

    @property
    def ids(self) -> set[str]:
        """Its open transactions."""
        return set(self.open.values())

    @property
    def is_ahead(self) -> bool:
        """Whether too many of its lines are at the site."""
        return self.unanswered > MOST_UNANSWERED

    def is_slow(self) -> bool:
        """Whether it doesn't take what it is told. Else the socket takes a receipt at once: that of what is read next has to
        be taken."""
        if self.out:
            return True
        queued: int = struct.unpack("i", fcntl.ioctl(self.peer, termios.TIOCOUTQ, bytes(4)))[0]
        return queued >= self._room

    def read(self) -> list[str]:
        """The whole lines that have come; at its end `is_ended`. Raises `Gone`, and `ValueError` where a line is too long."""
        try:
            piece = self.peer.recv(AT_ONCE)
        except BlockingIOError:
            return []
        except OSError as fault:
            raise Gone() from fault
        self.is_ended = not piece
        lines = (self._rest + piece.decode("latin-1")).split("\n")
        self._rest = lines.pop()
        if len(self._rest) > LONGEST:
            raise ValueError(f"a line is longer than {LONGEST} bytes")
        return lines

    def hears(self, receipt: bytes) -> bool:
        """Whether the socket has taken this whole. What it hasn't taken whole isn't told later."""
        try:
            return self.peer.send(receipt) == len(receipt)
        except OSError:
            return False

    def greet(self, hello: bytes, token: int) -> None:
        """Tells it the first lines, and hands it a descriptor: only who is connected to this very socket gets that."""
        sent = socket.send_fds(self.peer, [hello], [token])
        self.out += hello[sent:]

    def tell(self, text: bytes) -> None:
        """Tells it this, behind what it was told before. Where it is closed the next look at it finds that out."""
        if self.out:
            self.out += text
            return
        sent = self._send(text)
        if sent < len(text):
            self.out += text[sent:]

    def flush(self) -> None:
        """Goes on with what the socket didn't take."""
        sent = self._send(self.out)
        if sent:
            del self.out[:sent]
            self.since = monotonic()

    def _send(self, text: bytes | bytearray) -> int:
        try:
            return self.peer.send(text)
        except BlockingIOError:
            return 0
        except OSError:
            return len(text)  # it is closed, so nobody misses it
