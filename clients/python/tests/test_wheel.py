"""The wheel that tools/wheel makes: the same bytes each time, and a first sale with what pip installs of it, alone."""

from __future__ import annotations

import base64
import glob
import hashlib
import importlib.util
import json
import os
import re
import shutil
import subprocess
import sys
import tempfile
import unittest
import zipfile

from programs import PACKAGES, TOP, SiteTest
from test_site_readme import examples

HAS_LIBRARY = os.path.exists(os.path.join(TOP, "packed", "libescrow_c.so.gz"))
HAS_PIP = importlib.util.find_spec("pip") is not None
NAME = "escrow_client-{}-py3-none-manylinux_2_34_x86_64.whl"
"""The programs ask for glibc 2.34, by `objdump -T`."""
SHOP = '{"sites":2,"fields":[{"name":"stock","floor":0,"ceiling":100,"value":40}]}\n'
NATIVE = """
import escrow_native
world = '{"sites":2,"fields":[{"name":"stock","floor":0,"ceiling":100,"value":40}]}'
escrow_native.create("native.log")
with escrow_native.Site(world, 0, "native.log") as site:
    site.change("stock", -3)
    print(site.share("stock").lower)
"""


def release() -> str:
    """The number of the release."""
    with open(os.path.join(PACKAGES, "VERSION"), encoding="ascii") as file:
        return file.read().strip()


def made(folder: str, **env: str) -> str:
    """A new wheel in a folder, made with this environment."""
    words = [sys.executable, os.path.join(TOP, "tools", "wheel"), folder, *([] if HAS_LIBRARY else ["--no-library"])]
    done = subprocess.run(words, env={**os.environ, **env}, capture_output=True, text=True, check=False, umask=int(env["MASK"], 8))
    if done.returncode != 0:
        raise AssertionError(done.stderr)
    return done.stdout.rstrip("\n")


class WheelTest(unittest.TestCase):
    """What is in it, and what it is when it is installed."""

    place: str
    wheel: str

    @classmethod
    def setUpClass(cls) -> None:
        held = tempfile.TemporaryDirectory(prefix="escrow-test-")
        cls.addClassCleanup(held.cleanup)
        cls.place = held.name
        cls.wheel = made(os.path.join(cls.place, "one"), TZ="UTC", MASK="022")

    def test_the_same_bytes(self) -> None:
        """Whenever it is made, in whatever zone, and whatever mask the maker has."""
        other = made(os.path.join(self.place, "other"), TZ="Asia/Tokyo", MASK="077")
        self.assertEqual([os.path.basename(it) for it in (self.wheel, other)], [NAME.format(release())] * 2)
        with open(self.wheel, "rb") as one, open(other, "rb") as two:
            self.assertEqual(hashlib.sha256(one.read()).digest(), hashlib.sha256(two.read()).digest())

    @unittest.skipUnless(HAS_LIBRARY, "packed/libescrow_c.so.gz isn't there")
    def test_pip_makes_the_same(self) -> None:
        """`pip install clients/python` calls this, and finds nothing that is to be downloaded."""
        folder = os.path.join(self.place, "by_pip")
        script = f"import wheel_backend; print(wheel_backend.build_wheel({folder!r}))"
        done = subprocess.run([sys.executable, "-c", script], cwd=PACKAGES, capture_output=True, text=True, check=True)
        self.assertEqual(done.stdout, f"{NAME.format(release())}\n")
        with open(self.wheel, "rb") as one, open(os.path.join(folder, done.stdout.strip()), "rb") as two:
            self.assertEqual(one.read(), two.read())
        with open(os.path.join(PACKAGES, "pyproject.toml"), encoding="utf-8") as file:
            self.assertIn('\nrequires = []\nbuild-backend = "wheel_backend"\n', file.read())

    def test_what_is_in_it(self) -> None:
        """Each file with its sum and length, the programs of packed/ among them, and nothing of the checkout beside."""
        told = f"escrow_client-{release()}.dist-info/"
        with zipfile.ZipFile(self.wheel) as wheel:
            self.assertIsNone(wheel.testzip())
            texts = {name: wheel.read(name) for name in wheel.namelist()}
            runs = {it.filename for it in wheel.infolist() if it.external_attr >> 16 & 0o111}
        rows = dict(line.split(",", 1) for line in texts[f"{told}RECORD"].decode().splitlines())
        self.assertEqual(rows.pop(f"{told}RECORD"), ",")
        sums = {name: base64.urlsafe_b64encode(hashlib.sha256(it).digest()).decode().rstrip("=") for name, it in texts.items()}
        self.assertEqual(rows, {name: f"sha256={sums[name]},{len(it)}" for name, it in texts.items() if name != f"{told}RECORD"})
        binaries = ["escrow", "escrow_site", *(["libescrow_c.so"] if HAS_LIBRARY else [])]
        self.assertEqual(runs, {f"escrow_programs/bin/{name}" for name in binaries})
        for name in binaries:
            with open(os.path.join(TOP, "packed", f"{name}.sums"), encoding="ascii") as file:
                self.assertIn(f"program {hashlib.sha256(texts[f'escrow_programs/bin/{name}']).hexdigest()}\n", file)
        modules = glob.glob(os.path.join(PACKAGES, "escrow*", "**", "*.py"), recursive=True)
        self.assertEqual({name for name in texts if name.endswith(".py")}, {os.path.relpath(it, PACKAGES) for it in modules})
        packages = {name.partition("/")[0] for name in texts} - {told.rstrip("/")}
        self.assertEqual(packages, {"escrow", "escrow_board", "escrow_carrier", "escrow_native", "escrow_programs"})
        for package in packages:
            self.assertEqual((texts[f"{package}/py.typed"], bool(texts[f"{package}/__init__.py"])), (b"", True))

    def test_what_it_tells(self) -> None:
        """Its name, release, tag, extra and commands."""
        told = f"escrow_client-{release()}.dist-info/"
        with zipfile.ZipFile(self.wheel) as wheel:
            texts = {name: wheel.read(told + name).decode() for name in ("METADATA", "WHEEL", "entry_points.txt")}
        head, _, page = texts["METADATA"].partition("\n\n")
        for line in ("Metadata-Version: 2.1", "Name: escrow-client", f"Version: {release()}", "Requires-Python: >=3.10",
                     "Provides-Extra: mqtt", "Requires-Dist: paho-mqtt>=1.6; extra == 'mqtt'"):
            self.assertIn(line, head.splitlines())
        self.assertTrue(page.startswith("# escrow: a client of a served site\n"), page[:50])
        self.assertIn("Tag: py3-none-manylinux_2_34_x86_64\n", texts["WHEEL"])
        commands = re.findall(r"^(\w+) = escrow_programs:\1$", texts["entry_points.txt"], re.M)
        self.assertEqual(commands, ["escrow", "escrow_board", "escrow_carrier", "escrow_door", "escrow_site"])


class RefusedTest(SiteTest):
    """Where what is packed isn't what this checkout is made of no wheel is made, and it is told what to type."""

    def setUp(self) -> None:
        super().setUp()
        for name in os.listdir(TOP):
            if name != "packed":
                os.symlink(os.path.join(TOP, name), os.path.join(self.place, name))
        shutil.copytree(os.path.join(TOP, "packed"), os.path.join(self.place, "packed"), ignore=shutil.ignore_patterns("out", "libescrow_c*"))

    def told(self, *words: str) -> str:
        """What it tells, with status 1, and nothing made."""
        words = (sys.executable, os.path.join(self.place, "tools", "wheel"), os.path.join(self.place, "made"), *words)
        done = subprocess.run(words, capture_output=True, text=True, check=False)
        self.assertEqual((done.returncode, done.stdout, os.path.exists(os.path.join(self.place, "made"))), (1, "", False))
        return done.stderr

    def changed(self, name: str, old: bytes, new: bytes) -> None:
        """Changes a file of packed/."""
        path = os.path.join(self.place, "packed", name)
        with open(path, "rb") as file:
            text = file.read()
        self.assertEqual(text.count(old), 1)
        with open(path, "wb") as file:
            file.write(text.replace(old, new))

    def test_no_library(self) -> None:
        self.assertEqual(self.told(), "tools/wheel: packed/libescrow_c.so.gz isn't there: tools/pack libescrow_c.so, behind a gate, "
                                      "packs what it built; --no-library makes a wheel without it\n")

    def test_other_sources(self) -> None:
        self.changed("escrow.sums", b"\nsources ", b"\nsources 0")
        self.assertRegex(self.told("--no-library"), "^tools/wheel: packed/escrow.gz was built of other sources .* tools/pack escrow,")

    def test_another_machine(self) -> None:
        self.changed("escrow_site.sums", b"machine Linux x86_64\n", b"machine Linux aarch64\n")
        self.assertRegex(self.told("--no-library"), "^tools/wheel: packed/escrow_site.gz is for Linux aarch64, ")

    def test_other_bytes(self) -> None:
        with open(os.path.join(self.place, "packed", "escrow_site.gz"), "ab") as file:
            file.write(b"\0")
        self.assertRegex(self.told("--no-library"), "^tools/wheel: packed/escrow_site.gz hasn't the sum .* `git checkout packed`")


@unittest.skipUnless(HAS_PIP, "pip isn't there")
class InstalledTest(unittest.TestCase):
    """What pip installs, without a network, in a folder of its own, and an environment that names nothing of the checkout."""

    place: str
    env: dict[str, str]

    @classmethod
    def setUpClass(cls) -> None:
        held = tempfile.TemporaryDirectory(prefix="escrow-test-")
        cls.addClassCleanup(held.cleanup)
        cls.place, target = held.name, os.path.join(held.name, "installed")
        commands = os.path.join(target, "bin")
        cls.env = {"HOME": cls.place, "PATH": f"{commands}:/usr/bin:/bin", "PYTHONPATH": target, "PYTHONNOUSERSITE": "1",
                   "PIP_ROOT_USER_ACTION": "ignore"}
        words = [sys.executable, "-m", "pip", "install", "--no-index", "--no-compile", "--disable-pip-version-check", "-q"]
        wheel = made(cls.place, TZ="UTC", MASK="022")
        subprocess.run([*words, "--target", target, wheel], cwd=cls.place, env=cls.env, check=True)

    def run_words(self, words: list[str], given: str = "") -> str:
        """What they print, with status 0 and nothing on standard error."""
        done = subprocess.run(words, cwd=self.place, env=self.env, input=given, capture_output=True, text=True, check=False)
        self.assertEqual((done.returncode, done.stderr), (0, ""), words)
        return done.stdout

    def test_a_first_sale(self) -> None:
        """The first example of the page, typed as it stands there, by the installed package and program."""
        typed, printed = examples()[0]
        text = typed.replace("python3 ", f'"{sys.executable}" ')
        self.assertEqual(self.run_words(["sh", "-c", text]), printed)
        found = self.run_words([sys.executable, "-c", "import escrow; print(escrow.__file__, escrow.find_program(), escrow.__version__)"])
        self.assertEqual([it.startswith(self.place + "/installed/") for it in found.split()], [True, True, False])
        self.assertEqual(found.split()[2], release())

    def test_without_a_path(self) -> None:
        """The program of the wheel is found where its commands aren't on the path, as by a service in a venv of its own, and
        ahead of one that is there: this client's own, and no older one."""
        other = os.path.join(self.place, "other")
        os.mkdir(other)
        with open(os.path.join(other, "escrow_site"), "w", encoding="ascii") as file:
            file.write("#!/bin/sh\nexit 9\n")
        os.chmod(os.path.join(other, "escrow_site"), 0o755)
        for path in ("/usr/bin:/bin", f"{other}:/usr/bin:/bin"):
            words = [sys.executable, "-c", "import escrow; print(escrow.find_program())"]
            done = subprocess.run(words, cwd=self.place, env={**self.env, "PATH": path}, stdout=subprocess.PIPE, text=True, check=True)
            self.assertEqual(done.stdout, f"{self.place}/installed/escrow_programs/bin/escrow_site\n")

    def test_the_commands(self) -> None:
        """Each runs its own program or module, and tells what that tells."""
        schema = os.path.join(self.place, "world.json")
        with open(schema, "w", encoding="ascii") as file:
            file.write(SHOP)
        with open(os.path.join(TOP, "examples", "one_gift.txt"), encoding="ascii") as script:
            answers = self.run_words(["escrow", "run"], script.read())
        with open(os.path.join(TOP, "examples", "one_gift.out"), encoding="ascii") as printed:
            self.assertEqual(answers, printed.read())
        self.run_words(["escrow_site", "create", "shop", "--schema", schema, "--site", "0", "--name", "wheel"])
        told = "ready 1 1 4\n0 restart -> restarted 1 nothing\n0 read stock -> between 20 70\n"
        self.assertEqual(self.run_words(["escrow_site", "serve", "shop"], "0 read stock\n"), told)
        self.assertIn("user site0\n", self.run_words(["escrow_carrier", "shop"]))
        done = subprocess.run(["escrow_board", "shop", "--once"], cwd=self.place, env=self.env, capture_output=True, text=True,
                              check=False)
        self.assertEqual(("stock" in done.stdout, json.loads(done.stdout)["missing"]), (True, [1]), done.stderr)
        done = subprocess.run(["escrow_site", "serve", "nowhere"], cwd=self.place, env=self.env, capture_output=True, text=True,
                              check=False)
        self.assertEqual((done.returncode, done.stderr[:12]), (3, "escrow_site:"), done.stderr)

    def test_a_command_without_a_program(self) -> None:
        """Packages that were copied without it: it says what to install, with the status of no program."""
        words = [sys.executable, "-c", "import escrow_programs; escrow_programs.escrow_site()"]
        done = subprocess.run(words, cwd=self.place, env={**self.env, "PYTHONPATH": PACKAGES}, capture_output=True, text=True,
                              check=False)
        self.assertEqual((done.returncode, done.stdout), (70, ""))
        self.assertRegex(done.stderr, "^escrow_site: nothing runs: .* tools/wheel .* install that one")

    @unittest.skipUnless(HAS_LIBRARY, "packed/libescrow_c.so.gz isn't there")
    def test_a_sale_inside(self) -> None:
        """The library of the wheel."""
        self.assertEqual(self.run_words([sys.executable, "-c", NATIVE]), "17\n")


if __name__ == "__main__":
    unittest.main()
