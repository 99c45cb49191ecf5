"""Somebody who plays tricks with the messages of a world: tells them twice, late, in another order, and invents
some."""
from __future__ import annotations

import random
import threading
import time
from typing import Any

import paho.mqtt.client as paho  # type: ignore

HUGE = 10**17                                           # rights, which no field of the tests has room for


class Meddler:
    """Hears each statement, and tells what it heard again, sooner or later and in any order, three in ten of it as
    if it were the last word. It forges totals that no site has room for, and writes what no carrier writes."""

    def __init__(self, port: int, dice: random.Random) -> None:
        self.repeated = self.forged = self.garbage = 0
        self._dice, self._heard, self._lock = dice, [("", b"")] * 0, threading.Lock()
        self._closed = threading.Event()
        self._client: Any = paho.Client("meddler") if not hasattr(paho, "CallbackAPIVersion") else paho.Client(
            paho.CallbackAPIVersion.VERSION2, "meddler")
        self._client.on_connect = lambda client, *_: client.subscribe("escrow/+/+/given/#", 1)
        self._client.on_message = self._hear
        self._client.reconnect_delay_set(1, 2)
        self._client.connect_async("127.0.0.1", port)
        self._client.loop_start()
        self._thread = threading.Thread(target=self._run, daemon=True)
        self._thread.start()

    def close(self) -> None:
        """Leaves them alone."""
        self._closed.set()
        self._thread.join()
        self._client.disconnect()
        self._client.loop_stop()

    def _hear(self, _client: Any, _data: Any, message: Any) -> None:
        with self._lock:
            self._heard.append((message.topic, message.payload))
            del self._heard[:-500]

    def _run(self) -> None:
        while not self._closed.wait(self._dice.random() * 0.05):
            with self._lock:
                if not self._heard:
                    continue
                picked = [self._dice.choice(self._heard) for _ in range(self._dice.randint(1, 5))]
            if self._client.is_connected():
                self._trick(picked)

    def _trick(self, picked: list[tuple[str, bytes]]) -> None:
        what = self._dice.random()
        if what < 0.9:
            for topic, payload in picked:
                self._client.publish(topic, payload, self._dice.randint(0, 1), self._dice.random() < 0.3)
                self.repeated += 1
            time.sleep(self._dice.choice((0, 0, 0.2)))
        elif what < 0.96:
            self._client.publish(picked[0][0], str(HUGE + self._dice.randint(0, 9)), 1, self._dice.random() < 0.3)
            self.forged += 1
        else:
            topic, _ = picked[0]
            site = topic.rsplit("given", 1)[0]
            topics = (topic, f"{topic}/x", topic.replace("given", "ask"), f"{site}shares")
            self._client.publish(self._dice.choice(topics), self._dice.choice((b"", b"-5", b"tea", b"\xff\xff", b"01")), 0, False)
            self.garbage += 1
