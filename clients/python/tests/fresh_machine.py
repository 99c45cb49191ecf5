#!/usr/bin/env python3
"""A fresh machine: Debian with its own Python, and nothing of this one's but the wheel. There the page is typed: the first sale, the
web service, and the service of two workers of uvicorn over a door that is killed. By hand, as root, and not in the gate.

    clients/python/tests/fresh_machine.py [ROOT]

ROOT is where debootstrap (Debian's package of that name) has made such a machine before, or makes one now, of Debian's archive: some
300 MB, in a temporary folder where none is named. The machine then has namespaces of its own, and no network but its own.
"""
from __future__ import annotations

import os
import re
import shutil
import subprocess
import sys
import tempfile
import textwrap

TOP = os.path.dirname(os.path.dirname(os.path.dirname(os.path.dirname(os.path.abspath(__file__)))))
DEBIAN, PACKAGES = "bookworm", "python3,python3-venv,python3-uvicorn,curl"
TYPED = ("cat > sale.py", "cat > shop.py", "uvicorn app:app")
"""What stands in the blocks of the page that are typed."""
UP = """
import fcntl, socket, struct
with socket.socket() as s:
    flags = struct.unpack("16sh", fcntl.ioctl(s, 0x8913, struct.pack("16sh", b"lo", 0)))[1]
    fcntl.ioctl(s, 0x8914, struct.pack("16sh", b"lo", flags | 1))
"""
"""Has the machine's own network up: SIOCGIFFLAGS, SIOCSIFFLAGS."""
INSTALLS = """
export PATH=/usr/local/bin:/usr/bin:/bin:/usr/sbin:/sbin HOME=/root LANG=C.UTF-8
python3 /srv/try/up.py
rm -rf /srv/env
python3 -m venv --system-site-packages /srv/env
. /srv/env/bin/activate
pip install --quiet --no-index --root-user-action=ignore /srv/try/*.whl
cd "$1"
exec sh "$2"
"""


def blocks() -> list[tuple[str, str]]:
    """What is typed of the page, and what it prints."""
    with open(os.path.join(TOP, "clients", "python", "README.md"), encoding="utf-8") as file:
        all_blocks = [textwrap.dedent(it).strip("\n") for it in re.findall(r"(?:^    .*\n|^\n)+", file.read(), re.M) if it.strip()]
    found = [next(it for it in all_blocks if words in it) for words in TYPED]
    return [(it.rpartition("\n\n")[0] + "\n", it.rpartition("\n\n")[2] + "\n") for it in found]


def put(path: str, text: str) -> None:
    """Writes a file."""
    with open(path, "w", encoding="utf-8") as file:
        file.write(text)


def try_all(root: str) -> int:
    """The status."""
    if not os.path.exists(os.path.join(root, "usr", "bin", "python3")):
        subprocess.run(["debootstrap", "--variant=minbase", f"--include={PACKAGES}", DEBIAN, root], check=True)
    place = os.path.join(root, "srv", "try")
    shutil.rmtree(place, ignore_errors=True)
    os.makedirs(place)
    subprocess.run([os.path.join(TOP, "tools", "wheel"), place], stdout=subprocess.DEVNULL, check=True)
    put(os.path.join(place, "up.py"), UP)
    put(os.path.join(place, "installs.sh"), INSTALLS)
    status = 0
    for count, (typed, printed) in enumerate(blocks()):
        folder = f"/srv/try/{count}"
        os.mkdir(f"{root}{folder}")
        put(f"{root}{folder}/typed.sh", typed)
        words = ["unshare", "--mount", "--pid", "--net", "--fork", "--kill-child", f"--mount-proc={root}/proc", "chroot", root,
                 "sh", "/srv/try/installs.sh", folder, "typed.sh"]
        ran = subprocess.run(words, capture_output=True, text=True, timeout=300, check=False)
        is_well = (ran.returncode, ran.stdout) == (0, printed)
        status |= not is_well
        print(f"{TYPED[count]}: {'prints what the page has' if is_well else f'status {ran.returncode}: {ran.stdout}{ran.stderr}'}")
    return status


def main() -> int:
    """The status."""
    if len(sys.argv) > 1:
        return try_all(os.path.abspath(sys.argv[1]))
    with tempfile.TemporaryDirectory(prefix="escrow-machine-") as held:
        return try_all(os.path.join(held, "root"))


if __name__ == "__main__":
    sys.exit(main())
