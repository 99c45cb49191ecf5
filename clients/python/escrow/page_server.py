"""A server of pages, which outlives who goes away, and a moment without descriptors."""

from __future__ import annotations

import socket
import sys
import time
from http.server import ThreadingHTTPServer
from typing import Any

from .scarce import SCARCE

REST = 0.5
"""Seconds until the next who comes is tried again."""


class PageServer(ThreadingHTTPServer):
    """Each request in a thread of its own. Nothing is told of one whose other end has gone."""

    daemon_threads = True

    def get_request(self) -> tuple[socket.socket, Any]:
        """The next connection. Where none is to be had for now it rests, and isn't asked for over and over."""
        try:
            return super().get_request()
        except OSError as fault:
            if fault.errno in SCARCE:
                time.sleep(REST)
            raise

    def handle_error(self, request: Any, client_address: Any) -> None:
        """Tells a fault of an answer on standard error."""
        if not isinstance(sys.exc_info()[1], OSError):
            super().handle_error(request, client_address)
