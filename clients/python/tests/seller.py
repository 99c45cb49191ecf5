"""A client of its own process, which a test kills: it tells each sale before it commits and once it was answered.

    seller.py FOLDER PROGRAM
"""

from __future__ import annotations

import os
import sys
import threading

import programs  # noqa: F401  (finds the package)
import escrow

THREADS = 4


def sell(site: escrow.Site) -> None:
    """Sells without end."""
    while True:
        t = site.transaction()
        t.lower("stock", 1)
        tell("asks", t.id)
        t.commit()
        tell("sold", t.id)


def tell(word: str, what: str) -> None:
    """One line, in one piece."""
    os.write(1, f"{word} {what}\n".encode())


def main() -> None:
    """Serves the folder, and sells in several threads."""
    site = escrow.Site(sys.argv[1], program=sys.argv[2], wait=60.0)
    tell("stands", str(site.pid))
    threads = [threading.Thread(target=sell, args=(site,), daemon=True) for _ in range(THREADS)]
    for thread in threads:
        thread.start()
    threads[0].join()


if __name__ == "__main__":
    main()
