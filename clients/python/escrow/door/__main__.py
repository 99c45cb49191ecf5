"""Opens the door: `python3 -m escrow.door FOLDER --socket PATH`."""

from __future__ import annotations

import argparse
import logging
import os
import select
import signal
import sys
import time
from collections.abc import Sequence
from typing import Optional

from ..errors import Down, EscrowError, Faulty
from ..numbers import keep_of
from ..program import find_program
from ..refused import joined, wanted_mark
from ..room import has_room
from ..scarce import SCARCE
from ..schema import Identity, identity
from ..site import lock_folder
from ..streams import refuse_streams
from ..supervisor import FULL, HOPELESS, LOOK, Backoff, hopeless
from ..values import Mark
from .listening import Place, passed
from .run import Limits, Run
from .served import Ended, Served

log = logging.getLogger("escrow.door")
USAGE = """Serves the site of FOLDER to any number of processes of this machine, over a Unix socket: Site.connect(PATH) of the
package escrow comes in by it. It starts `escrow_site serve` and keeps it running. The socket is --socket PATH, or the one that
systemd passes (LISTEN_FDS). SIGTERM ends it once what was taken is answered."""


def mode_of(text: str) -> int:
    """An octal mode, as 0660."""
    mode = int(text, 8)
    if not 0 <= mode <= 0o777:
        raise ValueError(text)
    return mode


def kept_bytes(text: str) -> int:
    """A number of bytes to keep."""
    try:
        return keep_of(int(text))
    except ValueError as fault:
        raise argparse.ArgumentTypeError(str(fault)) from fault


def arguments(words: Optional[Sequence[str]] = None) -> argparse.Namespace:
    """What the command line tells."""
    parser = argparse.ArgumentParser(prog="python3 -m escrow.door", description=USAGE)
    parser.add_argument("folder", metavar="FOLDER", help="the site's folder, made by escrow_site create")
    parser.add_argument("--socket", metavar="PATH", help="where the door is; beside it PATH.lock is made, and stays")
    parser.add_argument("--mode", type=mode_of, default=0o600, help="who may come in, as 0660 for the group (0600)")
    parser.add_argument("--program", metavar="PATH", help="escrow_site (else $ESCROW_SITE, or the one on the path)")
    parser.add_argument("--trace", action="store_true", help="keep a trace: from the first start on and always, or never")
    parser.add_argument("--no-sync", action="store_true", help="don't sync: a stop of the machine may lose what was answered")
    parser.add_argument("--keep", type=kept_bytes, metavar="BYTES",
                        help="let go of the log's front, but for so many bytes at least")  # fmt: skip
    parser.add_argument("--archive", action="store_true", help="with --keep: the log stays as it was each time, for verify")
    parser.add_argument("--not-before", nargs=2, type=int, metavar=("EPOCH", "LENGTH"), help="refuse a log that is older")
    parser.add_argument("--slow", type=float, default=30.0, metavar="SECONDS",
                        help="end a connection that takes no answer for so long (30)")  # fmt: skip
    return parser.parse_args(words)


class Door:
    """Serves one process behind another, until it is told to end or there is no hope."""

    def __init__(self, told: argparse.Namespace) -> None:
        """Takes the folder and the socket. Raises `Down`, with the status to end with."""
        self.folder = os.path.abspath(told.folder)
        self.site: Identity = identity(self.folder)
        self._lock = lock_folder(self.folder)
        options = [*(["--trace"] if told.trace else []), *(["--no-sync"] if told.no_sync else [])]
        options += [] if told.keep is None else ["--keep", str(told.keep)]
        options += ["--archive"] if told.archive else []
        self._command = [_program(told.program), "serve", self.folder, *options]
        self._mark = joined(Mark(*told.not_before) if told.not_before else None, wanted_mark(self.folder))
        self._limits = Limits(told.slow)
        self._listener, self._place = passed(), None
        if self._listener is None:
            if not told.socket:
                raise Down("no socket: name one by --socket PATH, or start it by a socket unit of systemd", 2)
            self._place = Place(os.path.abspath(told.socket), told.mode)
            self._listener = self._place.listener
        self._listener.setblocking(False)
        self._signalled = _signals()

    def serve(self) -> int:
        """The status to end with."""
        backoff = Backoff()
        pause = backoff.first
        while True:
            began = time.monotonic()
            ended = self._serve_once()
            if self._is_told_to_end():
                return 0
            if ended.status in HOPELESS and not ended.is_full(self.folder):
                raise hopeless(self.folder, ended.status, ended.told)
            self._wait(pause, ended)
            pause = backoff.first if time.monotonic() - began > 1.0 else min(2 * pause, backoff.most)

    def _serve_once(self) -> Ended:
        """One process, and the connections of its time."""
        try:
            served = Served(self._command, self._mark)
        except OSError as fault:
            told = f"{self._command[0]}: {fault.strerror}"
            if fault.errno not in SCARCE:
                return Ended(2, f"{told}: name escrow_site by --program or by $ESCROW_SITE")
            log.warning("%s: the site isn't started for a moment: %s", self.folder, told)
            return Ended(1, told)
        try:
            ready = served.ready(self._signalled)
            if ready is not None:
                self._mark = ready.mark
                log.info("%s: the site stands: epoch %d, process %d", self.folder, ready.mark.epoch, served.pid)
                assert self._listener is not None
                Run(self._listener, self._signalled, self.site, self.folder, served, ready, self._limits).run()
        except Faulty as fault:
            log.error("%s: %s", self.folder, fault)
            served.kill()
        except OSError as fault:
            served.kill()
            if fault.errno not in SCARCE:
                raise
            log.error("%s: the connections are ended: %s", self.folder, fault.strerror)
        except BaseException:
            served.kill()
            raise
        ended = served.end(10.0)
        if ended.status != 0:
            log.warning("%s: the site stopped, status %d: %s", self.folder, ended.status, ended.told)
        return ended

    def _wait(self, seconds: float, ended: Ended) -> None:
        """Waits before the next start; over a full disk until there is room."""
        if ended.is_full(self.folder):
            log.warning("%s: %s", self.folder, ended.told + FULL)
            while not self._is_told_to_end(LOOK) and not has_room(self.folder):
                pass
        else:
            self._is_told_to_end(seconds)

    def _is_told_to_end(self, seconds: float = 0.0) -> bool:
        """Whether a signal has come, or comes in so many seconds."""
        return bool(select.select((self._signalled,), (), (), seconds)[0])

    def close(self) -> None:
        """Takes the socket away, where it is this door's own."""
        if self._place is not None:
            self._place.leave()


def _program(named: Optional[str]) -> str:
    try:
        return named or find_program()
    except FileNotFoundError as fault:
        raise Down("escrow_site isn't on the path: name it by --program or by $ESCROW_SITE", 2) from fault


def _signals() -> int:
    """What can be read once SIGTERM or SIGINT has come."""
    heard, signal_ = os.pipe()
    os.set_blocking(signal_, False)
    signal.set_wakeup_fd(signal_, warn_on_full_buffer=False)
    for it in (signal.SIGTERM, signal.SIGINT):
        signal.signal(it, lambda number, frame: None)
    return heard


def main() -> int:
    """Opens the door: the status to end with."""
    refuse_streams("escrow.door")
    logging.basicConfig(format="escrow.door: %(message)s", level=logging.INFO)
    door: Optional[Door] = None
    try:
        door = Door(arguments())
        return door.serve()
    except EscrowError as fault:
        log.error("%s", fault)
        status = getattr(fault, "status", None)
        return status if isinstance(status, int) and 0 < status < 100 else 1
    finally:
        if door is not None:
            door.close()


if __name__ == "__main__":
    sys.exit(main())
