"""A shop in a process of its own, which a test kills: it sells one piece after another, and its carrier tells how far
the log has come.

    carrying.py FOLDER PROGRAM PORT     over a broker, or a folder of files where PORT is its path
"""
from __future__ import annotations

import sys
import time

import programs  # noqa: F401  (finds the package)
from escrow import EscrowError, Site
from escrow_carrier import Carrier, Folder, Medium, Mqtt


def main(folder: str, program: str, port: str) -> int:
    """Sells without end. Status 3 where the log is an older copy, with one line that tells why."""
    medium: Medium
    if port.isdecimal():
        medium = Mqtt(port=int(port))
    else:
        medium = Folder(port, 0.05)
    with Site(folder, program, trace=True) as site:
        try:
            with Carrier(site, medium, refresh=0.1):
                while True:
                    print("sold", site.change("stock", -1), flush=True)
                    site.change("stock", 1)
                    time.sleep(0.01)
        except EscrowError as fault:
            print("refused", fault, flush=True)
            return 3


sys.exit(main(*sys.argv[1:]))
