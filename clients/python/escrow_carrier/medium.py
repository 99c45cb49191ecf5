"""What a carrier needs of whatever brings its messages to the others."""
from __future__ import annotations

from typing import Callable, Protocol, Sequence

Hear = Callable[[str, bytes], None]


class Medium(Protocol):
    """Brings messages to all who hear their topic, also to who tells them. It may lose, repeat, delay and exchange
    them. Of a topic that is kept, who comes later hears the last message: where all of those were heard before `opened`
    is called, a medium says so by `kept_comes_first = True`, and nobody waits for what doesn't come. Where a question and
    its answer take long, it tells by `patience` how many seconds a carrier waits for them at least. It may tell by
    `last_fault`, a text, why no messages go out; empty while they do."""

    def open(self, name: str, filters: Sequence[str], hear: Hear, opened: Callable[[], None]) -> None:
        """Begins, and returns at once. Calls `opened` each time that it is connected, and `hear` with the topic and the
        payload of each message that comes; neither raises, and neither waits for an answer of the site. `name` is no
        other carrier's."""

    def publish(self, topic: str, payload: str, is_kept: bool) -> None:
        """Sends a message, or loses it where it isn't connected. It doesn't raise."""

    @property
    def is_connected(self) -> bool:
        """Whether messages go out."""

    def close(self) -> None:
        """Ends it; nothing is heard any more."""
