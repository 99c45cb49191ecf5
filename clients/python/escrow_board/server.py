"""Serves the page and what it shows."""
from __future__ import annotations

import json
import os
from http.server import BaseHTTPRequestHandler

from escrow.page_server import PageServer

from .board import Board

PAGE = os.path.join(os.path.dirname(os.path.abspath(__file__)), "page.html")
POLICY = "default-src 'none'; script-src 'unsafe-inline'; style-src 'unsafe-inline'; connect-src 'self'; img-src data:"
LOCAL = ("127.0.0.1", "localhost", "[::1]")


class BoardServer(PageServer):
    """Answers `/`, the page, and `/world.json`, what the board tells. It takes no other request and changes nothing."""

    def __init__(self, address: tuple[str, int], board: Board) -> None:
        super().__init__(address, _Handler)
        self.board = board
        self.local = address[0] in ("127.0.0.1", "localhost")
        with open(PAGE, "rb") as file:
            self.page = file.read()

    @property
    def url(self) -> str:
        """Where the page is."""
        return f"http://{self.server_address[0]!s}:{self.server_address[1]}/"


class _Handler(BaseHTTPRequestHandler):
    server: BoardServer
    timeout = 30

    def do_GET(self) -> None:
        """Answers one of the two paths. A board that listens on this machine alone answers under its own names alone, so that
        no page of another server can read it through the browser."""
        if self.server.local and self.headers.get("Host", "").rpartition(":")[0] not in LOCAL:
            self.send_error(403)
        elif self.path == "/":
            self._answer("text/html; charset=utf-8", self.server.page)
        elif self.path == "/world.json":
            self._answer("application/json", json.dumps(self.server.board.told()).encode())
        else:
            self.send_error(404)

    def _answer(self, kind: str, body: bytes) -> None:
        self.send_response(200)
        self.send_header("Content-Type", kind)
        self.send_header("Content-Length", str(len(body)))
        self.send_header("Cache-Control", "no-store")
        self.send_header("Content-Security-Policy", POLICY)
        self.end_headers()
        self.wfile.write(body)

    def log_message(self, *_: object) -> None:
        """Requests aren't logged."""
