#!/usr/bin/env python3
"""Stands in for `escrow_site serve` where the real one never answers so: the first word behind `serve FOLDER` tells how.

    version     its ready line is of version 3
    other       its ready line is none
    misfit      it answers the first line with another one's
    silence     it never gets ready
    full        it has no number left for a begin
    late        it refuses each commit
    turns       it answers 60 lines, and then one with another one's
"""

from __future__ import annotations

import itertools
import os
import sys
import time


numbers = itertools.count(1)


def well(line: str, how: str, epoch: int) -> str:
    """The answer of a site that has whatever is asked for."""
    if line == "0 begin\n":
        return f"begun {epoch}.{next(numbers)}"
    if line.startswith("kept "):
        return "no"
    if line.startswith("0 escrow "):
        return "granted"
    return "refused 4 no transaction" if how == "late" else "committed"


def main() -> None:
    """Serves in the way that the name of the file tells: a link of another name to this file."""
    how = os.path.basename(sys.argv[0])
    if how == "silence":
        time.sleep(60)
    epoch = int(sys.argv[sys.argv.index("--not-before") + 1]) + 1 if "--not-before" in sys.argv else 1
    print("hello" if how == "other" else "ready", "3" if how == "version" else "1", epoch, "4", flush=True)
    print(f"0 restart -> restarted {epoch} nothing", flush=True)
    for count, line in enumerate(sys.stdin):
        if how == "misfit" or (how == "turns" and count >= 60):
            print("0 read seats -> between 1 2", flush=True)
        elif how in ("late", "turns"):
            print(line[:-1], "->", well(line, how, epoch), flush=True)
        elif line == "0 begin\n":
            print("0 begin -> refused 14 numbers full", flush=True)
        elif line.startswith("kept "):
            print(line[:-1], "-> no", flush=True)
        else:
            print(line[:-1], "-> refused 4 no transaction", flush=True)


if __name__ == "__main__":
    main()
