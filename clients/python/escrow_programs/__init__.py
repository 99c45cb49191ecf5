"""The programs `escrow_site` and `escrow`, and the library `libescrow_c.so`, as the wheel of this release brings them: for
x86-64 Linux with glibc 2.34 or later, and a processor of x86-64-v2.

They lie in the folder `bin` of this package. A checkout of the repository has none there: its own lie elsewhere, and the
packages find them too. The commands that the wheel installs, of the same names, run them."""

import os
import sys
from typing import NoReturn, Optional

__all__ = ["__version__", "path"]  # noqa: F822
_BIN = os.path.join(os.path.dirname(os.path.abspath(__file__)), "bin")
NOT_RUN = 70
"""The status where no program was run, that of the scripts at the top of the repository."""


def __getattr__(name: str) -> str:
    if name == "__version__":  # the client is asked for where it is used: a program starts without it
        from escrow import __version__

        return __version__
    raise AttributeError(f"module {__name__} has no attribute {name}")


def path(name: str) -> Optional[str]:
    """The file of a program or of the library, as `path("escrow_site")`. None where these packages were installed without
    them."""
    file = os.path.join(_BIN, name)
    return file if os.path.isfile(file) else None


def _run(name: str) -> NoReturn:
    """Becomes the program, with this command's words. Where it can't: says why, status 70."""
    file, why = path(name), "these packages were installed without it"
    if file is not None:
        try:
            os.execv(file, [name, *sys.argv[1:]])
        except OSError as fault:
            why = f"{file}: {fault.strerror}"
    print(f"{name}: nothing runs: {why}. The wheel that tools/wheel of the repository makes has it, for x86-64 Linux with "
          "glibc 2.34 or later: install that one, where programs may run", file=sys.stderr)
    sys.exit(NOT_RUN)


def escrow_site() -> NoReturn:
    """The command `escrow_site`."""
    _run("escrow_site")


def escrow() -> NoReturn:
    """The command `escrow`."""
    _run("escrow")


def escrow_board() -> None:
    """The command `escrow_board`: `python3 -m escrow_board`."""
    _run_module("escrow_board")


def escrow_carrier() -> None:
    """The command `escrow_carrier`: `python3 -m escrow_carrier`."""
    _run_module("escrow_carrier")


def escrow_door() -> None:
    """The command `escrow_door`: `python3 -m escrow.door`."""
    _run_module("escrow.door")


def _run_module(name: str) -> None:
    import runpy

    runpy.run_module(name, run_name="__main__", alter_sys=True)
