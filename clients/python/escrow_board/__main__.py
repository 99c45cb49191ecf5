"""The command line: `python3 -m escrow_board FOLDER.. [--program PATH] [--host ADDRESS] [--port N] [--every SECONDS] [--once]`."""
from __future__ import annotations

import argparse
import json
import os
import shutil
import sys

from escrow.program import find_program
from escrow.streams import refuse_streams

from .board import Board
from .server import BoardServer


def _program(path: str) -> str:
    """The path of the program; a name without a slash is looked for on PATH."""
    found = path if os.sep in path else shutil.which(path)
    if not found or not os.access(found, os.X_OK) or os.path.isdir(found):
        raise argparse.ArgumentTypeError(f"{path}: no such program: name the path of escrow_site")
    return found


def _seconds(text: str) -> float:
    seconds = float(text)
    if not 0.1 <= seconds <= 3600:
        raise argparse.ArgumentTypeError(f"{text}: between 0.1 and 3600 seconds")
    return seconds


def _port(text: str) -> int:
    port = int(text)
    if not 0 <= port <= 65535:
        raise argparse.ArgumentTypeError(f"{text}: between 0 and 65535")
    return port


def arguments() -> argparse.Namespace:
    """Reads the command line; its faults end with status 2."""
    told = "Shows a world at work on a page: the bounds of each field, what each site may do, what is on its way."
    parser = argparse.ArgumentParser(prog="python3 -m escrow_board", description=told)
    parser.add_argument("folders", metavar="FOLDER", nargs="+", help="a site's folder, or a copy of it")
    parser.add_argument("--program", type=_program, help="the path of escrow_site; else that on PATH, or of this repository")
    parser.add_argument("--host", default="127.0.0.1", help="127.0.0.1; there is no login: elsewhere who can reach it sees all")
    parser.add_argument("--port", type=_port, default=8484, help="8484; 0 takes a free one")
    parser.add_argument("--every", type=_seconds, default=2.0, metavar="SECONDS", help="between two looks: 2")
    parser.add_argument("--once", action="store_true",
                        help="writes what the page shows as JSON, and ends: with status 3 where something has to be looked at")
    args = parser.parse_args()
    try:
        args.program = args.program or find_program()
    except FileNotFoundError as fault:
        parser.error(str(fault))
    return args


def tell(line: str) -> bool:
    """Writes a line to standard output, and tells a fault. That the reader has gone, as `head` does, is none."""
    try:
        print(line, flush=True)
        return True
    except OSError as fault:
        nowhere = os.open(os.devnull, os.O_WRONLY)
        os.dup2(nowhere, sys.stdout.fileno())  # else the end of the program would write what is left once more
        os.close(nowhere)
        if isinstance(fault, BrokenPipeError):
            return True
        print(f"escrow_board: standard output: {fault.strerror}", file=sys.stderr)
        return False


def once(args: argparse.Namespace) -> int:
    """Looks twice, since a giver's log has to be read behind what others accepted of it, and tells the second."""
    board = Board(args.program, args.folders, every=0, rest=0)
    board.told()
    told = board.told()
    if not tell(json.dumps(told)):
        return 1
    return 3 if told["alarms"] or told["missing"] else 0


def main() -> int:
    """Serves until it is interrupted. Status 1 where the address can't be had."""
    refuse_streams("escrow_board")
    args = arguments()
    if args.once:
        return once(args)
    try:
        server = BoardServer((args.host, args.port), Board(args.program, args.folders, args.every))
    except OSError as fault:
        print(f"escrow_board: {args.host}:{args.port}: {fault.strerror}", file=sys.stderr)
        return 1
    tell(f"escrow_board: {server.url}")
    try:
        server.serve_forever()
    except KeyboardInterrupt:
        return 0
    finally:
        server.server_close()
    return 0


if __name__ == "__main__":
    sys.exit(main())
