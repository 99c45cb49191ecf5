"""The ASGI app of the page README.md: what it answers, and that workers of uvicorn sell each order once, whatever is killed."""

from __future__ import annotations

import asyncio
import contextlib
import http.client
import importlib.util
import itertools
import os
import re
import signal
import subprocess
import sys
import threading
import time
import unittest
from typing import Any

from doors import Door, children_of
from programs import LARGE, PACKAGES, SHOP, SiteTest, commits, wait_until
from test_site_readme import UVICORN, examples, free_port
import escrow

LIMIT = 180.0
"""Seconds in which each order is answered, whatever is killed meanwhile."""
DOOR = "webshop2.door"
Message = dict[str, Any]


def app_of_page() -> str:
    """The app, as it is typed."""
    typed = next(typed for typed, _ in examples() if typed.startswith("cat > app.py"))
    return typed.partition("\n")[2].partition("END\n")[0]


class Worker:
    """One worker by hand: the app over a door, its start, orders, and its end. It waits for so many seconds at most."""

    def __init__(self, door: str, seconds: float = LIMIT) -> None:
        self._names: dict[str, Any] = {}
        exec(app_of_page().replace(DOOR, door).replace("timeout=5.0", f"timeout={seconds}, wait={seconds}"), self._names)
        self._heard: asyncio.Queue[Message] = asyncio.Queue()
        self._told: asyncio.Queue[Message] = asyncio.Queue()

    async def start(self) -> Message:
        """Starts it: what it tells of that."""
        self._life = asyncio.create_task(self._names["app"]({"type": "lifespan"}, self._heard.get, self._told.put))
        await self._heard.put({"type": "lifespan.startup"})
        return await self._told.get()

    async def ask(self, method: str, path: str) -> tuple[int, str]:
        """The status of an answer, and its text."""
        told: list[Message] = []

        async def send(message: Message) -> None:
            told.append(message)

        await self._names["app"]({"type": "http", "method": method, "path": path}, None, send)
        start, body = told
        assert start["headers"] == [(b"content-length", b"%d" % len(body["body"]))], start
        return start["status"], body["body"].decode()

    async def end(self) -> Message:
        """Ends it: what it tells of that, once it has closed its site."""
        await self._heard.put({"type": "lifespan.shutdown"})
        told = await self._told.get()
        await self._life
        assert not self._names["shop"].site.up
        return told


class AppTest(SiteTest):
    """What it answers."""

    def test_answers(self) -> None:
        path = os.path.join(self.place, DOOR)
        folder = self.folder()
        door = Door(folder, path)
        self.addCleanup(door.close)

        async def sells() -> list[tuple[int, str]]:
            worker = Worker(path)
            self.assertEqual(await worker.start(), {"type": "lifespan.startup.complete"})
            asked = [("GET", "/A-1/3"), ("POST", "/A-1/-3"), ("POST", "/A-1/0"), ("POST", "/A-1/three"), ("POST", "/A-1"),
                     ("POST", "/"), ("POST", "/A-1/3/3"), ("POST", "/A 1/3"), ("POST", f"/{65 * 'A'}/3"), ("POST", f"/A-1/{9999 * '9'}"),
                     ("POST", "/A-1/3"), ("POST", "/A-1/3"), ("POST", "/A-2/18")]  # fmt: skip
            told = [await worker.ask(*it) for it in asked]
            self.assertEqual(await worker.end(), {"type": "lifespan.shutdown.complete"})
            return told

        told = asyncio.run(sells())
        self.assertEqual(told[:10], 10 * [(400, "no order")])
        self.assertEqual((told[10][0], told[11], told[12]), (201, told[10], (409, "sold out")))
        self.assertEqual(door.close(), 0)
        self.assertEqual(commits(folder, SHOP), {told[10][1]: (("stock", -3),)})

    def test_a_door_that_is_gone(self) -> None:
        """An order is to be asked for again."""
        path = os.path.join(self.place, DOOR)
        door = Door(self.folder(), path)
        self.addCleanup(door.close)

        async def sells() -> None:
            worker = Worker(path, 5.0)
            await worker.start()
            await asyncio.to_thread(door.kill)
            self.assertEqual(await worker.ask("POST", "/A-1/3"), (503, ""))
            await asyncio.to_thread(door.start)
            end = time.monotonic() + LIMIT
            while (told := await worker.ask("POST", "/A-1/3"))[0] == 503 and time.monotonic() < end:
                await asyncio.sleep(0.05)
            self.assertEqual(told[0], 201)
            await worker.end()

        asyncio.run(sells())

    def test_no_door(self) -> None:
        """The worker says so, and doesn't start."""
        path = os.path.join(self.place, DOOR)
        with open(path, "w", encoding="ascii"):
            os.chmod(path, 0o600)

        async def starts() -> Message:
            return await Worker(path, 1.0).start()

        told = asyncio.run(starts())
        self.assertEqual(told["type"], "lifespan.startup.failed")
        self.assertIn(path, told["message"])


def answer(port: int, number: str) -> str:
    """The id of an order of one, which is asked for until it is sold."""
    end = time.monotonic() + LIMIT
    while time.monotonic() < end:
        with contextlib.closing(http.client.HTTPConnection("127.0.0.1", port, timeout=LIMIT)) as peer:
            try:
                peer.request("POST", f"/{number}/1")
                told = peer.getresponse()
                text = told.read().decode()
            except (OSError, http.client.HTTPException):  # its worker was killed
                continue
        if told.status != 503:
            assert told.status == 201, (number, told.status, text)
            return text
    raise AssertionError(f"{number} isn't answered in {LIMIT} seconds")


def workers_of(pid: int) -> list[int]:
    """The workers of uvicorn."""
    found = []
    for child in children_of(pid):
        with open(f"/proc/{child}/cmdline", "rb") as file:
            if b"spawn_main" in file.read():
                found.append(child)
    return found


@unittest.skipUnless(UVICORN, "uvicorn isn't there: python3-uvicorn of Debian")
class WorkersTest(SiteTest):
    """Two workers, which are killed, as is the door, while eight ask."""

    def setUp(self) -> None:
        super().setUp()
        self.kept, self.port = self.folder(LARGE, name="webshop2"), free_port()
        self.door = Door(self.kept, os.path.join(self.place, DOOR))
        self.addCleanup(self.door.close)
        with open(os.path.join(self.place, "app.py"), "w", encoding="utf-8") as file:
            file.write(app_of_page())
        words = [sys.executable, "-m", "uvicorn", "app:app", "--workers", "2", "--port", str(self.port), "--no-access-log"]
        with open(os.path.join(self.place, "web.log"), "wb") as log:
            self.web = subprocess.Popen(words, cwd=self.place, env={**os.environ, "PYTHONPATH": PACKAGES}, stdout=log,
                                        stderr=log, start_new_session=True)  # fmt: skip
        self.addCleanup(self.end_web)

    def end_web(self) -> None:
        """Ends it with all that it started."""
        with contextlib.suppress(ProcessLookupError):
            os.killpg(self.web.pid, signal.SIGKILL)
        self.web.wait()

    def web_told(self) -> str:
        """What it wrote."""
        with open(os.path.join(self.place, "web.log"), encoding="utf-8") as file:
            return file.read()

    def test_each_order_once(self) -> None:
        """Each is asked for by four at once."""
        turns, over = itertools.count(), threading.Event()
        told: list[tuple[str, str]] = []
        faults: list[BaseException] = []

        def asks() -> None:
            try:
                while not over.is_set():
                    number = f"order-{next(turns) // 4}"
                    told.append((number, answer(self.port, number)))
            except BaseException as fault:
                faults.append(fault)

        wait_until(lambda: self.web_told().count("startup complete") == 2, LIMIT)
        threads = [threading.Thread(target=asks) for _ in range(8)]
        for thread in threads:
            thread.start()
        for kill_number in range(3):
            many = len(told)
            wait_until(lambda: len(told) > many + 40 or faults, LIMIT)
            if kill_number == 1:
                os.kill(workers_of(self.web.pid)[0], signal.SIGKILL)
            else:
                self.door.kill()
                self.door.start()
        many = len(told)
        wait_until(lambda: len(told) > many + 40 or faults, LIMIT)
        over.set()
        for thread in threads:
            thread.join()
        self.assertEqual(faults, [])
        ids = dict(told)
        self.assertEqual(set(told), set(ids.items()))  # one id for each, whoever asks
        self.end_web()
        self.assertEqual(self.door.close(), 0)
        self.assertEqual(commits(self.kept, LARGE), {id: (("stock", -1),) for id in ids.values()})
        self.assertEqual(len(set(ids.values())), len(ids))


if __name__ == "__main__":
    unittest.main()
