"""A medium in memory, for tests: what it keeps can be looked at, changed and forgotten."""
from __future__ import annotations

import threading
from collections.abc import Callable, Sequence
from typing import Optional

Hear = Callable[[str, bytes], None]


def is_heard(topic: str, filters: Sequence[str]) -> bool:
    """Whether one of the filters takes the topic; `+` is any one word."""
    words = topic.split("/")
    for wanted in (it.split("/") for it in filters):
        if len(wanted) == len(words) and all(a in ("+", b) for a, b in zip(wanted, words)):
            return True
    return False


class Hub:
    """Brings each message at once."""

    def __init__(self) -> None:
        self.kept: dict[str, str] = {}
        self._ports: list[Port] = []
        self._lock = threading.RLock()

    def port(self) -> Port:
        """A medium for one carrier."""
        return Port(self)

    def join(self, port: Port) -> None:
        """The port hears what is kept, and from now on all."""
        with self._lock:
            self._ports.append(port)
            for topic, payload in self.kept.items():
                port.deliver(topic, payload)

    def leave(self, port: Port) -> None:
        """It hears nothing more."""
        with self._lock:
            self._ports = [it for it in self._ports if it is not port]

    def tell(self, topic: str, payload: str, is_kept: bool) -> None:
        """A message to all who hear the topic."""
        with self._lock:
            if is_kept:
                self.kept[topic] = payload
            for port in self._ports:
                port.deliver(topic, payload)


class Port:
    """One carrier's end of a hub."""

    is_connected = kept_comes_first = True

    def __init__(self, hub: Hub) -> None:
        self._hub = hub
        self._filters: Sequence[str] = ()
        self._hear: Optional[Hear] = None

    def open(self, name: str, filters: Sequence[str], hear: Hear, opened: Callable[[], None]) -> None:
        """Joins the hub."""
        self._filters, self._hear = filters, hear
        self._hub.join(self)
        opened()

    def publish(self, topic: str, payload: str, is_kept: bool) -> None:
        """Tells the hub."""
        self._hub.tell(topic, payload, is_kept)

    def deliver(self, topic: str, payload: str) -> None:
        """A message that may be for this end."""
        if self._hear is not None and is_heard(topic, self._filters):
            self._hear(topic, payload.encode())

    def close(self) -> None:
        """Leaves the hub."""
        self._hub.leave(self)
