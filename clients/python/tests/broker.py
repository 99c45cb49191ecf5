"""A broker for tests: mosquitto on a free port of 127.0.0.1, which ends with the test. It keeps nothing across its
stops."""
from __future__ import annotations

import getpass
import os
import shutil
import signal
import socket
import subprocess
import threading
import time
from typing import NamedTuple, Optional

MISSING = ""                                            # why there is no broker here
try:
    import paho.mqtt.client  # type: ignore # noqa: F401
except ImportError:
    MISSING = "paho-mqtt isn't installed for this python3"
PROGRAM = shutil.which("mosquitto", path=os.environ.get("PATH", "") + ":/usr/sbin") or ""
PASSWORDS = shutil.which("mosquitto_passwd", path=os.environ.get("PATH", "") + ":/usr/bin") or ""
if not PROGRAM or not PASSWORDS:
    MISSING = "mosquitto isn't installed"

ANYBODY = ["allow_anonymous true"]


class Login(NamedTuple):
    """Who may log in, and what mosquitto's access list says of them."""

    user: str
    password: str
    access: list[str]


def free_port() -> int:
    """A port of 127.0.0.1 that nobody listens on now."""
    with socket.socket() as it:
        it.bind(("127.0.0.1", 0))
        return int(it.getsockname()[1])


class Broker:
    """Starts at once; `stop` and `start` as often as one likes, on one port."""

    def __init__(self, folder: str, logins: Optional[list[Login]] = None, is_secret: bool = False) -> None:
        """`is_secret`: over TLS, with a certificate of its own for `localhost`, in `certificate`."""
        self.port, self.certificate = free_port(), os.path.join(folder, "broker.pem")
        self._process: Optional[subprocess.Popen[bytes]] = None
        self._folder = folder
        os.makedirs(folder, exist_ok=True)
        lines = ["set_tcp_nodelay true", f"listener {self.port} 127.0.0.1", "persistence false",
                 f"user {getpass.getuser()}", *(self._certify() if is_secret else []),
                 *(self._guard(logins) if logins else ANYBODY)]
        self._config = self._write("mosquitto.conf", lines)
        self.start()

    def _write(self, name: str, lines: list[str]) -> str:
        path = os.path.join(self._folder, name)
        with open(path, "w", encoding="ascii") as file:
            file.write("".join(f"{line}\n" for line in lines))
        return path

    def _guard(self, logins: list[Login]) -> list[str]:
        access = self._write("access", [line for it in logins for line in (f"user {it.user}", *it.access)])
        passwords = self._write("passwords", [])
        for it in logins:
            subprocess.run([PASSWORDS, "-b", passwords, it.user, it.password], check=True, capture_output=True)
        return ["allow_anonymous false", f"password_file {passwords}", f"acl_file {access}"]

    def _certify(self) -> list[str]:
        key = os.path.join(self._folder, "broker.key")
        words = ["openssl", "req", "-x509", "-newkey", "rsa:2048", "-nodes", "-days", "1", "-subj", "/CN=localhost",
                 "-addext", "subjectAltName=DNS:localhost", "-keyout", key, "-out", self.certificate]
        subprocess.run(words, check=True, capture_output=True)
        return [f"certfile {self.certificate}", f"keyfile {key}"]

    def start(self) -> None:
        """Starts it, and waits until it listens."""
        with open(os.path.join(self._folder, "mosquitto.log"), "ab") as log:
            words = [PROGRAM, "-c", self._config]
            self._process = subprocess.Popen(words, stdout=log, stderr=log, stdin=subprocess.DEVNULL)
        end = time.monotonic() + 60
        while time.monotonic() < end:
            with socket.socket() as it:
                if it.connect_ex(("127.0.0.1", self.port)) == 0:
                    return
            time.sleep(0.01)
        self.stop()
        raise RuntimeError("mosquitto doesn't listen")

    def pause(self, seconds: float) -> None:
        """It stands still for so long, while this goes on."""
        assert self._process is not None
        self._process.send_signal(signal.SIGSTOP)
        threading.Timer(seconds, self._process.send_signal, (signal.SIGCONT,)).start()

    def stop(self, how: int = signal.SIGTERM) -> None:
        """Stops it, by SIGTERM or SIGKILL, and waits for its end."""
        if self._process is not None:
            self._process.send_signal(how)
            try:
                self._process.wait(60)
            except subprocess.TimeoutExpired:
                self._process.kill()
                self._process.wait()
            self._process = None
