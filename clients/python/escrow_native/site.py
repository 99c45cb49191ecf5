"""A site in this process, over a log in a file."""

from __future__ import annotations

import ctypes
import errno
import fcntl
import json
import os
import threading
from contextlib import contextmanager
from pathlib import Path
from typing import Iterator, Union

from escrow import (
    EscrowError,
    Forged,
    Interval,
    Kind,
    NothingGiven,
    Over,
    Refusal,
    Refused,
    Share,
    Short,
    Spared,
    Statement,
)
from escrow.numbers import amount_of, change_of, site_of

from .library import CLOSED, STATUS, TEXT, UNTOLD, Answer, Ask, Handle, load

PathLike = Union[str, "os.PathLike[str]"]
BEGIN, ESCROW, COMMIT, ABORT, GIVE, RESTATE, SPARE, TIGHTEN, ACCEPT, READ, SHARE, RESTART = range(1, 13)
REFUSED = 15
_WORDS = (
    "", "begin", "escrow", "commit", "abort", "give", "restate", "spare", "tighten", "accept", "read", "share",
    "restart",
)  # fmt: skip
_RIGHTS = (Kind.LOWER, Kind.RAISE)
_CLASSES = {Refusal.SHORT: Short, Refusal.FORGED: Forged, Refusal.NOTHING_GIVEN: NothingGiven}
_TELLING = (Refusal.SHORT, Refusal.LEDGER_FULL, Refusal.FORGED)


class Fault(EscrowError):
    """A call that did nothing, with the status of include/escrow.h; `line` is the first bad one of a log."""

    def __init__(self, status: int, line: int = 0, told: str = "") -> None:
        self.status = status
        self.line = line
        super().__init__(told or STATUS[status] + (f" (line {line})" if line else ""))


FORKED = "a fork of the process that opened the site doesn't have it: open a site of its own in it"
"""Why nothing is asked there: both would sell the same rights."""
SERVED = "another process has this log open, or another site of this one"
"""Why a log isn't opened."""
LOST = (
    "no log is here. At a site's first start, and never again, escrow_native.create(path) makes it. Else put its newest log "
    "back: a site over a new log has its first rights again, and sells what was sold"
)
"""What to do where a start finds no log."""
THERE = "a log is here already, which escrow_native.Site opens; a site whose log is made anew sells what was sold"
"""What to do where the log is not to be made."""


def create(path: PathLike) -> None:
    """Makes the log of a site, of no records, and its name safe in its folder: once for each site of a world, and never
    again. `FileExistsError` where something is at the path, a log or a link to none."""
    try:
        file = os.open(path, os.O_RDWR | os.O_CREAT | os.O_EXCL | os.O_CLOEXEC, 0o644)
    except FileExistsError:
        raise FileExistsError(errno.EEXIST, THERE, os.fspath(path)) from None
    os.close(file)
    _sync_folder(path)


class Transaction:
    """An open transaction of a site: what it sets aside is committed together."""

    def __init__(self, site: Site, epoch: int, number: int) -> None:
        self._site, self._epoch, self._number = site, epoch, number
        self.id = f"{epoch}.{number}"

    def lower(self, field: str, amount: int) -> None:
        """Sets so many quantities aside, to be taken off the field."""
        self.change(field, -amount_of(amount))

    def raise_(self, field: str, amount: int) -> None:
        """Sets so many quantities aside, to be added to the field."""
        self.change(field, amount_of(amount))

    def change(self, field: str, change: int) -> None:
        """Sets a change of the field aside: below 0 to lower it, above 0 to raise it."""
        self._site._ask(ESCROW, epoch=self._epoch, number=self._number, field=field, change=change_of(change))

    def commit(self) -> None:
        """Makes the changes permanent: they are in the file, and synced, when this returns."""
        self._site._ask(COMMIT, epoch=self._epoch, number=self._number)

    def abort(self) -> None:
        """Gives back what was set aside."""
        self._site._ask(ABORT, epoch=self._epoch, number=self._number)


class Site:
    """One site over one file, for the threads of this process: a lock stands between their calls. A fork of it doesn't have the
    site."""

    def __init__(self, schema: PathLike, number: int, path: PathLike, *, sync: bool = True) -> None:
        """Opens the site of this number over its log, which `create` has made once, and restarts it.

        `schema` is the header, or the path of a file that begins with it. `sync=False` doesn't sync the file: a stop of
        the machine may lose what was answered. `FileNotFoundError` where no log is there: none is made, since that would
        sell again what was sold. `Fault` where it isn't opened; `BlockingIOError` where another process has the file.
        """
        header = _header(schema)
        self._number, self._names = site_of(number), [it["name"] for it in json.loads(header)["fields"]]
        self._sync, self._lock, self._library = sync, threading.RLock(), load()
        self._process = os.getpid()
        self._handle, self._ask_in, self._answer = Handle(), Ask(), Answer()
        self._copied, self._room = ctypes.c_size_t(), ctypes.create_string_buffer(1 << 16)
        self._file = _opened(path)
        try:
            _lock(self._file, path)
            self._had = self._open(header)
            os.ftruncate(self._file, self._had)
            os.lseek(self._file, self._had, os.SEEK_SET)
            _sync_folder(path)
            self.epoch = self._ask(RESTART).first
        except BaseException:
            self.close()
            raise

    def _open(self, header: bytes) -> int:
        log, kept, line = _whole(self._file), ctypes.c_size_t(), ctypes.c_uint64()
        status = self._library.escrow_site_open(
            self._handle, header, len(header), self._number, log, len(log), ctypes.byref(kept), ctypes.byref(line)
        )
        if status:
            raise Fault(status, line.value)
        return kept.value

    def _keep(self) -> None:
        """Writes what the site has added to its log, and syncs it, before the answer goes out. Where that fails the
        site is closed: what the file has is seen by who opens it anew."""
        try:
            self._write_added()
        except OSError:
            self.close()
            raise

    def _write_added(self) -> None:
        had, copied = self._had, self._copied
        while True:
            room, copied_at = self._room, ctypes.byref(copied)
            self._done(self._library.escrow_site_log(self._handle, self._had, room, len(room), copied_at))
            if not copied.value:
                break
            piece = memoryview(self._room)[: copied.value]
            while piece:
                piece = piece[os.write(self._file, piece) :]
            self._had += copied.value
        if self._sync and self._had > had:
            os.fdatasync(self._file)

    @staticmethod
    def _done(status: int) -> None:
        if status:
            raise Fault(status)

    def _field(self, field: str) -> int:
        return self._names.index(field) if field in self._names else 0xFFFF

    def _answered(self, status: int) -> None:
        """Keeps what an answer added to the log. What was carried out and not told closes the site: who opens it anew sees
        what became of it."""
        if status == UNTOLD:
            self.close()
        self._done(status)
        self._keep()

    @contextmanager
    def _alone(self) -> Iterator[None]:
        """One call at a time, and none in a fork: whoever held the lock isn't there."""
        if os.getpid() != self._process:
            raise Fault(CLOSED, told=FORKED)
        with self._lock:
            yield

    def _ask(self, kind: int, field: str = "", **numbers: int) -> Answer:
        ask = Ask(kind=kind, field=self._field(field), **numbers)
        answer = Answer()
        with self._alone():
            self._answered(self._library.escrow_site_ask(self._handle, ask, answer))
        if answer.kind == REFUSED:
            raise self._refusal(ask, answer, field)
        return answer

    def _refusal(self, ask: Ask, answer: Answer, field: str) -> EscrowError:
        number = Refusal(answer.code)
        if number is Refusal.NO_TRANSACTION:
            id = f"{ask.epoch}.{ask.number}"
            return Over(f"transaction {id} has ended", id)
        told = answer.first if number in _TELLING else None
        return _CLASSES.get(number, Refused)(number, told, self._asked(ask, field))

    def _asked(self, ask: Ask, field: str) -> str:
        """The line of a command."""
        words = [str(self._number), _WORDS[ask.kind]]
        words += [f"{ask.epoch}.{ask.number}"] if ask.kind in (ESCROW, COMMIT, ABORT) else []
        words += [str(ask.from_)] if ask.kind == ACCEPT else []
        words += [str(ask.to)] if ask.kind in (GIVE, RESTATE, SPARE, ACCEPT) else []
        words += [field] if field else []
        words += [str(ask.change)] if ask.kind == ESCROW else []
        words += [_RIGHTS[ask.right].value] if GIVE <= ask.kind <= ACCEPT else []
        words += [str(ask.amount)] if ask.kind in (GIVE, SPARE, TIGHTEN, ACCEPT) else []
        return " ".join(words)

    def tell(self, line: str) -> str:
        """Asks what a line spells, and answers the text of the entry; `Fault` where it spells nothing."""
        asked, text, length = line.encode(), ctypes.create_string_buffer(TEXT), ctypes.c_size_t()
        with self._alone():
            told = ctypes.byref(length)
            self._answered(self._library.escrow_site_tell(self._handle, asked, len(asked), text, TEXT, told))
        return text.raw[: length.value].decode()

    def begin(self) -> Transaction:
        """Opens a transaction."""
        answer = self._ask(BEGIN)
        return Transaction(self, answer.first, answer.second)

    @contextmanager
    def transaction(self) -> Iterator[Transaction]:
        """A transaction that is committed at the end, and aborted on an exception."""
        opened = self.begin()
        try:
            yield opened
        except BaseException:
            opened.abort()
            raise
        opened.commit()

    def change(self, field: str, change: int) -> str:
        """A transaction of one change: its id."""
        with self.transaction() as opened:
            opened.change(field, change)
        return opened.id

    def read(self, field: str) -> Interval:
        """Between which values the field's committed value lies."""
        answer = self._ask(READ, field)
        return Interval(answer.low, answer.high)

    def share(self, field: str) -> Share:
        """The free rights on the field."""
        answer = self._ask(SHARE, field)
        return Share(answer.first, answer.second)

    def _statement(self, to: int, field: str, kind: Kind, total: int) -> Statement:
        return Statement(self._number, to, field, kind, total)

    def give(self, to: int, field: str, kind: Kind, amount: int) -> Statement:
        """Gives free rights to another site: carry the statement there."""
        answer = self._ask(GIVE, field, to=site_of(to), right=_RIGHTS.index(kind), amount=amount_of(amount))
        return self._statement(to, field, kind, answer.first)

    def spare(self, to: int, field: str, kind: Kind, want: int) -> Spared:
        """Gives as many as are wanted, and at most half of the share, rounded up."""
        answer = self._ask(SPARE, field, to=site_of(to), right=_RIGHTS.index(kind), amount=amount_of(want))
        return Spared(answer.first, self._statement(to, field, kind, answer.second))

    def restate(self, to: int, field: str, kind: Kind) -> Statement:
        """The statement of all that was given."""
        answer = self._ask(RESTATE, field, to=site_of(to), right=_RIGHTS.index(kind))
        return self._statement(to, field, kind, answer.first)

    def accept(self, told: Statement) -> int:
        """Accepts a statement of another site: how many rights became free by it."""
        sites = {"from_": site_of(told.giver), "to": site_of(told.to)}
        return int(self._ask(ACCEPT, told.field, right=_RIGHTS.index(told.kind), amount=amount_of(told.total), **sites).first)

    def tighten(self, field: str, kind: Kind, amount: int) -> int:
        """Gives rights up for good: all that was given up so far of the kind on the field."""
        return int(self._ask(TIGHTEN, field, right=_RIGHTS.index(kind), amount=amount_of(amount)).first)

    def close(self) -> None:
        """Closes the site and its file, behind the calls that are under way. A second time it does nothing. In a fork it closes
        the fork's descriptor alone."""
        if os.getpid() != self._process:
            self._close_file()
            return
        with self._lock:
            self._library.escrow_site_close(self._handle)
            self._close_file()

    def _close_file(self) -> None:
        file, self._file = self._file, -1
        if file >= 0:
            os.close(file)

    def __enter__(self) -> Site:
        return self

    def __exit__(self, *_: object) -> None:
        self.close()


def _header(schema: PathLike) -> bytes:
    text = schema if isinstance(schema, str) and schema.lstrip().startswith("{") else Path(schema).read_text("utf-8")
    return text.split("\n", 1)[0].encode()


def _opened(path: PathLike) -> int:
    """The file of a log that is there."""
    try:
        return os.open(path, os.O_RDWR | os.O_CLOEXEC)
    except FileNotFoundError:
        raise FileNotFoundError(errno.ENOENT, LOST, os.fspath(path)) from None


def _lock(file: int, path: PathLike) -> None:
    """Locks the file of a log, as long as it is open."""
    try:
        fcntl.flock(file, fcntl.LOCK_EX | fcntl.LOCK_NB)
    except BlockingIOError:
        raise BlockingIOError(errno.EWOULDBLOCK, SERVED, os.fspath(path)) from None


def _whole(file: int) -> bytes:
    pieces = []
    while piece := os.read(file, 1 << 20):
        pieces.append(piece)
    return b"".join(pieces)


def _sync_folder(path: PathLike) -> None:
    """Makes the name of a new file safe."""
    folder = os.open(os.path.dirname(os.path.abspath(path)), os.O_RDONLY | os.O_DIRECTORY)
    try:
        os.fsync(folder)
    finally:
        os.close(folder)
