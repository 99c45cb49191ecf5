"""Carries rights between the sites of a world: over an MQTT broker, or over a folder of files.

    from escrow import Site
    from escrow_carrier import Carrier, Mqtt

    with Site("shop0") as site, Carrier(site, Mqtt("127.0.0.1", 1883, user="shop0", password="..")) as carrier:
        carrier.change("stock", -3)                     # with rights of other shops, where its own are short

A carrier can't break a bound: whatever a medium loses, repeats, delays or exchanges, a site accepts each right
once. Who can write to the topics of another site can: docs/OPERATING.md tells what the broker has to refuse. `Mqtt`
needs paho-mqtt."""
from importlib.util import find_spec
from typing import TYPE_CHECKING, Any

from escrow import __version__

from .carrier import AsyncCarrier, Carrier, last_mark
from .counts import Counts
from .folder import Folder
from .medium import Medium
from .messages import Ask, Garbage, Marked, Message, Shares, Topics
from .policy import Gift, Policy

if TYPE_CHECKING:
    from .mqtt import Mqtt as Mqtt

__all__ = ["Ask", "AsyncCarrier", "Carrier", "Counts", "Folder", "Garbage", "Gift", "Marked", "Medium", "Message",
           "Policy", "Shares", "Topics", "__version__", "last_mark"]
if find_spec("paho") is not None:
    __all__ += ["Mqtt"]


def __getattr__(name: str) -> Any:
    if name == "Mqtt":                                  # paho is asked for only where it is used
        from .mqtt import Mqtt
        return Mqtt
    raise AttributeError(f"module {__name__} has no attribute {name}")
