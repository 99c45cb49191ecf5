"""The calls of include/escrow.h, by ctypes."""

from __future__ import annotations

import ctypes
import os
import subprocess
from ctypes import POINTER, c_bool, c_char_p, c_int64, c_size_t, c_uint16, c_uint32, c_uint64, c_void_p
from pathlib import Path

import escrow_programs

TEXT = 256
"""The most bytes of an entry's text."""
CLOSED = 2
"""The status of a handle to no site."""
UNTOLD = 11
"""The status of a line that was carried out, and whose answer is lost."""

STATUS = (
    "done", "out of memory", "the site is closed: open it anew", "the site is open already", "the header tells no schema",
    "the schema has no such site", "a line of the log is no record of this site: put its own newest log back", "no line",
    "no command", "a command of another site", "no room", "carried out, and not told", "the site is down", "no such field",
    "the log has fewer bytes",
)  # fmt: skip


class Handle(ctypes.Structure):
    """A handle to a site, or to none."""

    _fields_ = [("at", c_void_p), ("full", c_bool)]


class Ask(ctypes.Structure):
    """A command in numbers."""

    _fields_ = [
        ("kind", c_uint32), ("right", c_uint32), ("epoch", c_uint32), ("number", c_uint32), ("field", c_uint16),
        ("from_", c_uint16), ("to", c_uint16), ("amount", c_uint64), ("change", c_int64),
    ]  # fmt: skip


class Answer(ctypes.Structure):
    """A reply in numbers."""

    _fields_ = [
        ("kind", c_uint32), ("code", c_uint32), ("first", c_uint64), ("second", c_uint64), ("low", c_int64),
        ("high", c_int64),
    ]  # fmt: skip


_SITE = POINTER(Handle)
_CALLS = {
    "escrow_site_open": [_SITE, c_char_p, c_size_t, c_uint16, c_char_p, c_size_t, POINTER(c_size_t), POINTER(c_uint64)],
    "escrow_site_close": [_SITE],
    "escrow_site_ask": [_SITE, POINTER(Ask), POINTER(Answer)],
    "escrow_site_do": [_SITE, c_char_p, c_size_t, POINTER(Answer)],
    "escrow_site_tell": [_SITE, c_char_p, c_size_t, c_char_p, c_size_t, POINTER(c_size_t)],
    "escrow_site_log_length": [_SITE, POINTER(c_size_t)],
    "escrow_site_log": [_SITE, c_size_t, c_char_p, c_size_t, POINTER(c_size_t)],
    "escrow_site_interval": [_SITE, c_uint16, POINTER(c_int64), POINTER(c_int64)],
    "escrow_site_share": [_SITE, c_uint16, POINTER(c_uint64), POINTER(c_uint64)],
}


def _path() -> str:
    """Where the library is. `FileNotFoundError` where it is nowhere."""
    named = os.environ.get("ESCROW_LIBRARY") or escrow_programs.path("libescrow_c.so")
    if named:
        return named
    finder = Path(__file__).resolve().parents[3] / "tools" / "library"
    if not os.access(finder, os.X_OK):
        raise FileNotFoundError("libescrow_c.so isn't here: install the wheel that has it, or name it by $ESCROW_LIBRARY")
    found = subprocess.run([str(finder)], capture_output=True, text=True, check=False)
    if found.returncode != 0:
        raise FileNotFoundError(found.stderr.strip())
    return found.stdout.rstrip("\n")


def load() -> ctypes.CDLL:
    """The library: where `$ESCROW_LIBRARY` says, or that of the wheel, or, in a checkout of the repository, that of
    tools/library. `OSError` where it is nowhere, with what to do, or can't be loaded."""
    library = ctypes.CDLL(_path())
    for name, words in _CALLS.items():
        call = getattr(library, name)
        call.argtypes, call.restype = words, c_uint32
    return library
