"""Messages over an MQTT broker, such as mosquitto, by paho: tried with 1.6.1 and mosquitto 2.0.11."""
from __future__ import annotations

import contextlib
import logging
import os
import socket
import ssl
from typing import Any, Callable, Optional, Sequence

try:
    import paho.mqtt.client as paho  # type: ignore
except ModuleNotFoundError as missing:
    raise ModuleNotFoundError("Mqtt needs paho-mqtt, which this Python hasn't got: install Debian's python3-paho-mqtt, for "
                              "/usr/bin/python3, as tools/install_clients --shop does, or `pip install paho-mqtt`",
                              name=missing.name) from missing

from .medium import Hear

CLOSING = 2.0                                           # seconds in which the broker has to take what was told last
NOT_FOR_HOST = (62, 64)                                 # OpenSSL's faults of a certificate: of its name, of its address
NOT_NOW = (9, 10)                                       # not valid yet, and not any more
log = logging.getLogger("escrow.carrier")


class Mqtt:
    """A connection to a broker, which is made again whenever it is lost: after 1 to 8 seconds.

    `user` and `password` log in. `ca` names a file of the certificates to trust: with it the connection is over TLS.
    `keepalive` is after how many seconds without a word the broker is held for lost. Raises `OSError` or `ValueError`
    where that file can't be read. Each change of `last_fault` is told to the logger `escrow.carrier`."""

    def __init__(self, host: str = "127.0.0.1", port: int = 1883, *, user: Optional[str] = None,
                 password: Optional[str] = None, ca: Optional[str] = None, keepalive: int = 20) -> None:
        self._address, self._login = (host, port, keepalive), (user, password)
        self._tls = None if ca is None else _trusting(ca)
        self.last_refusal = ""
        """Why the broker last refused the login; empty where it never did."""
        self.last_fault = ""
        """Why there is no connection, and what to do; empty while there is one, and before the first try."""
        self._client: Any = None
        self._last: Any = None                          # the last message that the broker is to keep
        self._is_let_in = self._is_refused = self._is_closing = False

    def open(self, name: str, filters: Sequence[str], hear: Hear, opened: Callable[[], None]) -> None:
        """Connects in the background, now or as soon as the broker is there."""

        def connected(client: Any, _data: Any, _flags: Any, code: Any, *_: Any) -> None:
            self._is_let_in = code == 0
            if self._is_let_in:
                self._note("")
                client.subscribe([(it, 1) for it in filters])
                opened()
            else:
                self._refuse(paho.connack_string(code) if isinstance(code, int) else str(code))

        client = _client(name)
        if self._login[0] is not None:
            client.username_pw_set(*self._login)
        if self._tls is not None:
            client.tls_set_context(self._tls)
        client.reconnect_delay_set(1, 8)
        client.failed = lambda fault: self._note(_why(fault, self._address[0], self._tls is not None))
        client.on_socket_open = _without_delay
        client.on_connect = connected
        client.on_disconnect = self._disconnected
        client.on_message = lambda _client, _data, message: hear(message.topic, message.payload)
        self._client = client
        client.connect_async(*self._address)
        client.loop_start()

    def _refuse(self, refusal: str) -> None:
        self.last_refusal, self._is_refused = refusal, True
        self._note(f"the broker refuses the login ({refusal}): look at the user and the password here, and at the "
                   "broker's file of passwords")

    def _disconnected(self, *_: Any) -> None:
        """What a connection came to that stood, whether or not the broker let this one in."""
        if self._is_let_in:
            self._note("the connection was lost: it is made again as soon as the broker is there")
        elif not self._is_refused:
            self._note("the broker ended the connection before the login: where it wants TLS on this port, name its "
                       "certificates by `ca`; else no MQTT broker listens there")
        self._is_let_in = self._is_refused = False

    def _note(self, fault: str) -> None:
        """Tells each change."""
        told = fault and f"{self._address[0]}:{self._address[1]}: {fault}"
        if self._is_closing or (told and told == self.last_fault):
            return
        self.last_fault = told
        if told:
            log.warning("%s", told)
        else:
            log.info("%s:%s: connected", *self._address[:2])

    def publish(self, topic: str, payload: str, is_kept: bool) -> None:
        """Sends a message; while there is no connection it is lost, and not gathered."""
        if self.is_connected:
            sent = self._client.publish(topic, payload, 1 if is_kept else 0, is_kept)
            self._last = sent if is_kept else self._last

    @property
    def is_connected(self) -> bool:
        """Whether the broker is there, and lets this carrier in."""
        return self._client is not None and bool(self._client.is_connected())

    def close(self) -> None:
        """Disconnects, once the broker has what it is to keep, or after two seconds."""
        if self._client is not None:
            if self._last is not None and self.is_connected:
                with contextlib.suppress(ValueError, RuntimeError):     # it wasn't sent: the connection was lost
                    self._last.wait_for_publish(CLOSING)
            self._is_closing = True
            self._client.disconnect()
            self._client.loop_stop()


def _trusting(ca: str) -> ssl.SSLContext:
    try:
        return ssl.create_default_context(cafile=ca)
    except ssl.SSLError as fault:
        raise ValueError(f"{ca}: no certificate is in it: name a PEM file of the certificates to trust") from fault
    except OSError as fault:
        raise OSError(fault.errno, os.strerror(fault.errno or 0), ca) from fault


def _why(fault: OSError, host: str, is_tls: bool) -> str:
    """Why no connection came about, and what to do."""
    if isinstance(fault, ssl.SSLCertVerificationError):
        told = fault.verify_message
        if fault.verify_code in NOT_FOR_HOST:
            return f"TLS: the broker's certificate isn't for {host} ({told}): connect by a name that is in it"
        if fault.verify_code in NOT_NOW:
            return f"TLS: the broker's certificate isn't valid now ({told}): make a new one, or set the clock"
        return f"TLS: the broker's certificate isn't trusted ({told}): name by `ca` the one that it is signed by"
    if isinstance(fault, ssl.SSLError) or is_tls and isinstance(fault, ConnectionResetError):
        told = getattr(fault, "reason", None) or fault.strerror
        return f"TLS: no connection comes about ({told}): look whether the broker has TLS on this port"
    if isinstance(fault, socket.gaierror):
        return f"the host isn't found ({fault.strerror}): look at its name, and at the name service"
    if isinstance(fault, ConnectionRefusedError):
        return f"no broker listens there ({fault.strerror}): start it, or look at the host and the port"
    return f"the host isn't reached ({fault.strerror or fault}): look at the line, and at what filters it"


def _without_delay(_client: Any, _data: Any, sock: Any) -> None:
    """A small message goes out at once, and not only once the one before it was acknowledged."""
    sock.setsockopt(socket.IPPROTO_TCP, socket.TCP_NODELAY, 1)


class _Client(paho.Client):  # type: ignore[misc]
    """Tells why it can't connect: paho's own loop drops that."""

    failed: Callable[[OSError], None]

    def reconnect(self) -> Any:
        """Connects. Raises `OSError`, behind which the loop tries again."""
        try:
            return super().reconnect()
        except OSError as fault:
            self.failed(fault)
            raise
        except ValueError as value:                     # of a host that is no name at all
            unknown = socket.gaierror(socket.EAI_NONAME, str(value))
            self.failed(unknown)
            raise unknown from value


def _client(name: str) -> Any:
    if hasattr(paho, "CallbackAPIVersion"):             # paho 2
        return _Client(paho.CallbackAPIVersion.VERSION2, name)
    return _Client(name)
