"""What the scripts share that read the sources for the pages: the crates by their floors, files, and lines of a page."""
from __future__ import annotations

import functools
import os
import re
import shutil
import subprocess
import textwrap

TOP = os.path.dirname(os.path.dirname(os.path.abspath(__file__)))
BUILT = {".git", ".mypy_cache", "__pycache__", "out", "target"}


@functools.cache
def text_of(file: str) -> str:
    with open(os.path.join(TOP, file), encoding="utf-8") as it:
        return it.read()


def wrapped(text: str, first: str = "", rest: str = "") -> str:
    """Lines of at most 120 characters, of which none ends within backticks."""
    held = re.sub(r"`[^`]*`", lambda it: it[0].replace(" ", "\0"), text)
    wrapper = textwrap.TextWrapper(
        120, initial_indent=first, subsequent_indent=rest, break_long_words=False, break_on_hyphens=False
    )
    return wrapper.fill(held).replace("\0", " ")


def floors_of() -> list[tuple[str, dict[str, list[str]]]]:
    """What crates.txt has: each block's comment, with its crates and what each stands on."""
    floors: list[tuple[str, dict[str, list[str]]]] = []
    for line in text_of("crates.txt").splitlines()[1:]:
        head, _, needs = line.partition(":")
        if line.startswith("#"):
            floors.append((line[1:].strip(), {}))
        elif line:
            floors[-1][1][head.split()[0]] = needs.split()
    return floors


def tracked(tops: tuple[str, ...] = ("",)) -> list[str]:
    """The files of text below these folders, in order: those that git has, or where git can't tell all but what is built."""
    words = ["git", "-c", "safe.directory=*", "ls-files", "-z"]
    asked = subprocess.run(words, cwd=TOP, stdout=subprocess.PIPE, stderr=subprocess.DEVNULL, check=False) if has_git() else None
    told = asked.stdout.decode().split("\0") if asked and asked.returncode == 0 else walked()
    return sorted(it for it in told if it.startswith(tops) and os.path.isfile(os.path.join(TOP, it)) and is_text(it))


def has_git() -> bool:
    return os.path.exists(os.path.join(TOP, ".git")) and shutil.which("git") is not None


def walked() -> list[str]:
    found = list[str]()
    for folder, folders, files in os.walk(TOP):
        folders[:] = [it for it in folders if it not in BUILT]
        found += [os.path.relpath(os.path.join(folder, it), TOP) for it in files]
    return found


def is_text(file: str) -> bool:
    try:
        text_of(file)
    except UnicodeDecodeError:
        return False
    return True
