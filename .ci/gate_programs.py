"""What the parts of the gate that run the programs share: programs that are built, children that end, and the libraries
that are preloaded to them.

Needs Python 3.10, Linux and the C library of GNU.
"""
import contextlib
import glob
import os
import resource
import shutil
import signal
import subprocess
import sys
import tempfile
import threading

SECONDS = 60
AT_ONCE = min(4, os.cpu_count() or 1)


class Fault(Exception):
    pass


class Unended(Fault):
    """A program that doesn't end in its time."""


class Children:
    """The programs that run now, so that none outlives the script."""

    def __init__(self):
        self.lock = threading.Lock()
        self.running = set()

    def start(self, words, **how):
        with self.lock:
            ran = subprocess.Popen(words, start_new_session=True, **how)
            self.running.add(ran)
        return ran

    def end(self, ran):
        with self.lock:
            self.running.discard(ran)
        if ran.poll() is None:
            with contextlib.suppress(ProcessLookupError):  # it has ended meanwhile
                os.killpg(ran.pid, signal.SIGKILL)
            ran.wait()

    def end_all(self):
        for ran in list(self.running):
            self.end(ran)

    def run(self, name, words, given=None, seconds=SECONDS, **how):
        """The status, and what was written and told."""
        stdin = subprocess.DEVNULL if given is None else subprocess.PIPE
        ran = self.start(words, **{"stdin": stdin, "stdout": subprocess.PIPE, "stderr": subprocess.PIPE, **how})
        try:
            out, err = ran.communicate(given, timeout=seconds)
        except subprocess.TimeoutExpired:
            raise Unended(f"{name}: it doesn't end within {seconds} seconds") from None
        finally:
            self.end(ran)
        return ran.returncode, out, err


def crates_of(name):
    """The crate and those that it stands on, by crates.txt."""
    with open("crates.txt", encoding="utf-8") as it:
        lines = [line.split(":") for line in it if ":" in line and not line.startswith("#")]
    stand_on = {crate.split()[0]: crates.split() for crate, crates in lines}
    found = [name]
    for crate in found:
        found += [it for it in stand_on[crate] if it in stand_on and it not in found]
    return found


def is_current(name, program):
    if not os.path.exists(program):
        return False
    folders = [f"crates/{crate}/{part}" for crate in crates_of(name) for part in ("src", "specs")]
    sources = [it for folder in folders for it in glob.glob(f"{folder}/**/*.*", recursive=True)]
    return all(os.path.getmtime(it) <= os.path.getmtime(program) for it in sources)


def built(children, name, *arguments):
    """The program of a crate, as `rt ci` leaves it in crates/*/out. One that isn't there, or is older than a source, is
    proved and built first."""
    program = os.path.abspath(f"crates/{name}/out/{name}")
    if not is_current(name, program):
        print(f"{name} is proved and built first", flush=True)
        words = ["nice", "rt", "run", "--", *arguments]
        status, out, err = children.run(name, words, seconds=3600, cwd=f"crates/{name}", stderr=subprocess.STDOUT)
        if status or not os.path.exists(program):
            raise Fault(f"{name} isn't built:\n{out.decode(errors='replace')}")
        # What was built is as new as its sources, also where an edit left it as it was.
        os.utime(program)
    return program


def preloaded(children, folder, name):
    """The library of .ci/NAME.c, built by the clang of the Rattle kit, or else by cc."""
    told = subprocess.run(["rt", "doc"], capture_output=True, text=True).stdout.strip()
    tools = os.path.join(os.path.dirname(told), "toolchain", "bin")
    library = os.path.join(folder, f"{name}.so")
    words = ["-O2", "-fPIC", "-shared", "-nostdlib", "-o", library, f".ci/{name}.c"]
    own = [os.path.join(tools, "clang"), "--target=x86_64-unknown-linux-gnu", f"-B{tools}", "-fuse-ld=lld"]
    status, _, err = children.run("clang", (own if os.path.exists(own[0]) else ["cc"]) + words)
    if status:
        raise Fault(f".ci/{name}.c isn't built:\n{err.decode(errors='replace')}")
    return library


@contextlib.contextmanager
def as_file(given):
    """A file in memory with these bytes, read from its start. Of a file each read brings as much as it has room for; what
    a read of a pipe brings depends on how fast the other end writes, and with it which growth comes where."""
    with os.fdopen(os.memfd_create("given"), "r+b") as file:
        file.write(given)
        file.seek(0)
        yield file


def refusing(children, library, name, words, given, number, on, **how):
    """Runs with the Nth call of what the library stands before refused, alone or with all later ones. The status, what
    was written and told, and whether a call was refused."""
    read, write = os.pipe()
    env = {"LD_PRELOAD": library, "REFUSE_AT": str(number), "REFUSE_TELL": str(write)}
    if on:
        env["REFUSE_ON"] = "1"
    try:
        with as_file(given or b"") as stdin:
            ended = children.run(name, words, **{"stdin": stdin, "env": env, "pass_fds": (write,), **how})
    finally:
        os.close(write)
        told = os.read(read, 100)
        os.close(read)
    return *ended, told == b"refused\n"


def limited(resource_kind, most):
    """What sets a limit in the program that is about to run."""
    return lambda: resource.setrlimit(resource_kind, (most, most))


def at_top(name, run):
    """Runs a part of the gate at the top of the repository, with a folder of its own: the status to end with."""
    os.chdir(os.path.join(os.path.dirname(os.path.abspath(__file__)), ".."))
    for number in (signal.SIGTERM, signal.SIGHUP):
        signal.signal(number, lambda *_: sys.exit(1))
    folder = tempfile.mkdtemp(prefix=f"{name}-")
    children = Children()
    try:
        run(children, folder)
    except Fault as fault:
        print(f".ci/{name}: {fault}", file=sys.stderr)
        return 1
    finally:
        children.end_all()
        shutil.rmtree(folder)
    return 0
