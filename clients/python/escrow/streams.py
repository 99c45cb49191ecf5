"""Standard streams that go to a file of a site's folder, as by `2>> FOLDER/log`: what a program tells would stand among the
records, and the next start would refuse them."""

from __future__ import annotations

import os
import sys
from typing import Optional

from .errors import Down
from .schema import identity

FILES = ("site", "log", "trace", "not_before")
"""What lies in the folder of a site and is read."""
STREAMS = {2: "standard error", 1: "standard output"}


def spoiled(number: int) -> Optional[str]:
    """Why nothing may be told on this stream; None where it goes to no file of a site, or the system doesn't tell to which."""
    try:
        folder, told = os.path.dirname(os.readlink(f"/proc/self/fd/{number}")), os.fstat(number)
        for path in (os.path.join(folder, name) for name in FILES):
            if os.path.exists(path) and os.path.samestat(os.stat(path), told):
                identity(folder)
                return f"{path}: is where {STREAMS[number]} goes: send that elsewhere"
    except (OSError, Down):
        pass
    return None


def refuse_streams(program: str) -> None:
    """Ends this program with status 3 where a stream goes to a file of a site: told on the other one, or nowhere."""
    faults = {number: fault for number in STREAMS if (fault := spoiled(number)) is not None}
    for number in STREAMS if faults else ():
        if number not in faults:
            print(f"{program}: {next(iter(faults.values()))}", file=sys.stderr if number == 2 else sys.stdout)
            break
    if faults:
        sys.exit(3)
