#!/usr/bin/env python3
"""Proves and builds the library that C calls, where it isn't newer than all that it is made of, and prints its two files:

    crates/escrow_c/out/libescrow_c.so    whole: a program links it alone, or loads it
    crates/escrow_c/out/libescrow_c.a     an archive, to be linked with the kit's liblibc_c.a, which is named behind it

Over the libraries that `rt ci` has left in crates/*/out, where they are newer than their sources, it proves the functions of
escrow_c alone; else `rt lib` there proves what is missing below, too. `tools/pack libescrow_c.so` then packs it.
"""
from __future__ import annotations

import glob
import os
import subprocess
import sys
from collections.abc import Sequence

TOP = os.path.dirname(os.path.dirname(os.path.abspath(__file__)))
CRATE = os.path.join(TOP, "crates", "escrow_c")
OUT = os.path.join(CRATE, "out")
ARCHIVE, SHARED = (os.path.join(OUT, f"libescrow_c.{kind}") for kind in ("a", "so"))
HOUR = 3600


class Fault(Exception):
    """What couldn't be done, and what a command told of it."""


def run(words: Sequence[str], seconds: float, folder: str = TOP) -> str:
    """What a command has printed. `Fault` where its status isn't 0, or it isn't done in so many seconds."""
    try:
        ran = subprocess.run(words, capture_output=True, text=True, timeout=seconds, check=False, cwd=folder)
    except subprocess.TimeoutExpired:
        raise Fault(f"{words[0]} isn't done within {seconds} seconds") from None
    except OSError as fault:
        raise Fault(f"{words[0]}: {fault.strerror}") from None
    if ran.returncode:
        raise Fault(f"{' '.join(words)}: status {ran.returncode}\n{ran.stdout[-2000:]}{ran.stderr[-4000:]}")
    return ran.stdout


def lines_of_crates() -> dict[str, list[str]]:
    """What each crate stands on, by crates.txt, libraries of the kit included."""
    with open(os.path.join(TOP, "crates.txt"), encoding="utf-8") as file:
        lines = [line.partition(":") for line in file if not line.startswith("#")]
    return {head.split()[0]: rest.split() for head, _, rest in lines if head.strip()}


def crates_below(name: str) -> set[str]:
    """The crates that one stands on, and itself."""
    below, found, wanted = lines_of_crates(), set(), [name]
    while wanted:
        it = wanted.pop()
        if it in below and it not in found:
            found.add(it)
            wanted += below[it]
    return found


def sources_of(crate: str, *parts: str) -> list[str]:
    """The files of a crate in these of its folders."""
    return [it for part in parts for it in glob.glob(f"{TOP}/crates/{crate}/{part}/**/*.*", recursive=True)]


def is_newer(made: str, sources: Sequence[str]) -> bool:
    """Whether a file is there, and none of its sources is newer."""
    return os.path.exists(made) and all(os.path.getmtime(it) <= os.path.getmtime(made) for it in sources)


def is_left_by_ci(crate: str) -> bool:
    """Whether the crate's library is as `rt ci` leaves it: without the stamp of `rt check`."""
    folder = os.path.join(TOP, "crates", crate, "out", "rlib")
    has_library = os.path.exists(os.path.join(folder, f"{crate}.rlib", "format"))
    is_stamped = os.path.exists(os.path.join(folder, "stamp"))
    return has_library and not is_stamped and is_newer(folder, sources_of(crate, "src", "specs", "proofs"))


def build_over(kit: str, below: Sequence[str]) -> None:
    """Proves the crate's own functions, and builds it, over the libraries that stand there."""
    rlibs = {it: os.path.join(TOP, "crates", it, "out", "rlib") for it in below}
    named = ["std", *lines_of_crates()["escrow_c"]]
    words = ["--crate-name", "escrow_c", "src/lib.rt", "-L", f"dependency={kit}/rlibs"]
    for it in named:
        words += ["--extern", f"{it}={rlibs.get(it, f'{kit}/rlibs')}/{it}.rlib"]
    for folder in rlibs.values():
        words += ["-L", f"dependency={folder}"]
    words += ["--antt-project", f"{kit}/rattle/logic/antt-project.json", "--logic-built", f"{kit}/logic_built"]
    words += ["--toolchain", f"{kit}/toolchain", "--backend", "llvm", "--jobs", os.environ.get("RT_JOBS") or "2"]
    os.makedirs(OUT, exist_ok=True)
    run([f"{kit}/bin/rattle", "build", *words, "--links", "escrow_c=", "--crate-type", "staticlib", "-o", ARCHIVE],
        HOUR, CRATE)


def archives() -> list[str]:
    """The archives that a caller links: ours, built where it is older than a source, and the kit's few calls of C."""
    below = sorted(crates_below("escrow_c") - {"escrow_c"})
    kit = os.path.dirname(run(["rt", "doc"], 60).strip())
    sources = [file for it in [*below, "escrow_c"] for file in sources_of(it, "src", "specs", "proofs")]
    if not is_newer(ARCHIVE, [os.path.join(TOP, "crates.txt"), *sources]):
        print("build_library: proving and building crates/escrow_c", file=sys.stderr, flush=True)
        if all(map(is_left_by_ci, below)):
            build_over(kit, below)
        else:
            run(["rt", "lib"], HOUR, CRATE)
        os.utime(ARCHIVE)  # what was built is as new as its sources, also where an edit left it as it was
    return [ARCHIVE, os.path.join(kit, "c", "liblibc_c.a")]


def shared() -> str:
    """The library as a shared object, linked anew where an archive is newer."""
    archive, *rest = archives()
    if not is_newer(SHARED, [archive, *rest]):
        new = f"{SHARED}.new"
        run(["gcc", "-shared", "-Wl,--whole-archive", archive, "-Wl,--no-whole-archive", *rest, "-o", new], 110)
        os.replace(new, SHARED)
    return SHARED


def main() -> int:
    """Builds both. The status."""
    if len(sys.argv) > 1:
        print(__doc__)
        return 0 if sys.argv[1:] == ["--help"] else 2
    try:
        print(shared(), *archives(), sep="\n")
    except Fault as fault:
        print(f"build_library: {fault}", file=sys.stderr)
        return 1
    return 0


if __name__ == "__main__":
    sys.exit(main())
