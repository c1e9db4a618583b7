#!/usr/bin/env python3
"""An HTTP server that keeps its objects in a store which serves them while fragments are lost.

    server.py [--port N] [--width BYTES] [--scrub SECONDS]

PUT, GET with a range, HEAD and DELETE of /any/path. POST /any/path?lose=STRIPE.FRAGMENT loses a
fragment, as a failed device would. GET /metrics has numbers for Prometheus. A thread repairs what
is lost. It prints its port once it serves. At SIGINT and SIGTERM it sends the replies under way,
and ends.

A PUT has a Content-Length, and no other request has a body. What it does not do it refuses, and
closes the connection, so that no byte of the request is taken for another one.
"""

from __future__ import annotations

import argparse
import contextlib
import io
import re
import signal
import socket
import sys
import threading
import time
from http import HTTPStatus
from http.server import BaseHTTPRequestHandler, ThreadingHTTPServer
from typing import Any, Callable, List, Set, Tuple
from urllib.parse import SplitResult, unquote_to_bytes, urlsplit

from lrcstore import NotFound, Status, Store, StoreError, name_of

REPLIES = {
    Status.NO_NAME: HTTPStatus.NOT_FOUND,
    Status.UNRECOVERABLE: HTTPStatus.SERVICE_UNAVAILABLE,
    Status.TOO_LONG: HTTPStatus.REQUEST_ENTITY_TOO_LARGE,
    Status.NO_MEMORY: HTTPStatus.INSUFFICIENT_STORAGE,
    Status.NOT_REBUILT: HTTPStatus.INSUFFICIENT_STORAGE,
    Status.NO_FRAGMENT: HTTPStatus.BAD_REQUEST,
    Status.ALREADY_LOST: HTTPStatus.CONFLICT,
}
RANGE = re.compile(r"bytes=([0-9]{0,18})-([0-9]{0,18})")
LENGTH = re.compile(r"[0-9]{1,18}")
LOSS = re.compile(r"lose=([0-9]{1,18})\.([0-9]{1,18})")
# How long a client may take for its next bytes, and a refused one to see the reply.
PATIENCE_SECONDS, LINGER_SECONDS = 60, 2
READ_AT_ONCE = 1 << 16
# What an object has at most: docs/limits.md.
MOST_STRIPES, DATA_FRAGMENTS = 4096, 12


class Counters:
    """How often things happened, for /metrics."""

    def __init__(self) -> None:
        self._lock, self._counts = threading.Lock(), {"requests": 0, "errors": 0, "repaired": 0}

    def add(self, what: str, count: int = 1) -> None:
        with self._lock:
            self._counts[what] += count

    def lines(self) -> List[str]:
        with self._lock:
            return [f"lrcstore_{what}_total {count}" for what, count in self._counts.items()]


class Refused(Exception):
    """A request that the server does not do, with the status of its reply."""

    def __init__(self, status: HTTPStatus, text: str) -> None:
        super().__init__(text)
        self.status = status


class BadRange(ValueError):
    """A range that does not lie inside the object."""


def range_of(header: str | None, size: int) -> Tuple[int, int] | None:
    """The start and the length that a Range header asks for. None: all, also if it is no range."""
    asked = RANGE.fullmatch(header or "")
    if not asked or asked.group(1) == asked.group(2) == "":
        return None
    if asked.group(1):
        start, end = int(asked.group(1)), min(int(asked.group(2) or size), size - 1)
    else:
        start, end = max(0, size - int(asked.group(2))), size - 1
    if start > end:
        raise BadRange
    return start, end - start + 1


class Handler(BaseHTTPRequestHandler):
    protocol_version = "HTTP/1.1"
    timeout = PATIENCE_SECONDS
    rfile: io.BufferedReader
    store: Store
    counters: Counters
    longest: int  # that the store takes, in bytes

    def log_message(self, format: str, *words: object) -> None:
        """Logs nothing: /metrics has what happens."""

    @property
    def url(self) -> SplitResult:
        try:
            return urlsplit(self.path)
        except ValueError as error:
            raise Refused(HTTPStatus.BAD_REQUEST, f"{self.path}: {error}") from error

    @property
    def name(self) -> str:
        """The name of the path in the store."""
        return name_of(unquote_to_bytes(self.url.path))

    def body_length(self) -> int:
        """How many bytes the body has. Refuses one that the request should not have."""
        lengths: List[str] = self.headers.get_all("Content-Length", [])
        if "Transfer-Encoding" in self.headers or (self.command == "PUT" and not lengths):
            raise Refused(HTTPStatus.LENGTH_REQUIRED, "send the body with a Content-Length")
        if len(lengths) > 1 or not all(map(LENGTH.fullmatch, lengths)):
            raise Refused(HTTPStatus.BAD_REQUEST, f"Content-Length: {', '.join(lengths)}")
        length = int(lengths[0]) if lengths else 0
        if length and self.command != "PUT":
            raise Refused(HTTPStatus.BAD_REQUEST, f"{self.command} has no body")
        if length > self.longest:
            text = f"the body has {length} bytes, the store takes {self.longest}"
            raise Refused(HTTPStatus.REQUEST_ENTITY_TOO_LARGE, text)
        return length

    def body(self, length: int) -> bytearray:
        """The body. Refuses one that ends before."""
        whole = bytearray()
        while len(whole) < length:
            part = self.rfile.read1(min(length - len(whole), READ_AT_ONCE))
            if not part:
                text = f"the body ends after {len(whole)} of {length} bytes"
                raise Refused(HTTPStatus.BAD_REQUEST, text)
            whole += part
        return whole

    def reply(self, status: HTTPStatus, body: bytes = b"", **headers: str) -> None:
        self.begin(status, len(body), **headers)
        if self.command != "HEAD":
            self.wfile.write(body)

    def begin(self, status: HTTPStatus, length: int, **headers: str) -> None:
        """Sends all but the body, which has so many bytes."""
        self.send_response(status)
        for name, value in headers.items():
            self.send_header(name.replace("_", "-"), value)
        self.send_header("Content-Length", str(length))
        if self.close_connection:
            self.send_header("Connection", "close")
        self.end_headers()

    def refuse(self, refused: Refused) -> None:
        """Replies, and ends the connection: what is left of the request is no other one."""
        self.close_connection = True
        self.reply(refused.status, f"{refused}\n".encode())
        # Without this, a client that still sends might lose the reply.
        self.connection.shutdown(socket.SHUT_WR)
        self.connection.settimeout(LINGER_SECONDS)
        end = time.monotonic() + LINGER_SECONDS
        while time.monotonic() < end and self.rfile.read1(READ_AT_ONCE):
            pass

    def handle_expect_100(self) -> bool:
        """Refuses a body before it is sent."""
        try:
            self.body_length()
        except Refused as refused:
            self.counters.add("requests")
            self.refuse(refused)
            return False
        return super().handle_expect_100()

    def handle_one(self, work: Callable[[], None]) -> None:
        """Does the work of a request, and says what went wrong."""
        self.counters.add("requests")
        try:
            self.body_length()
            work()
        except Refused as refused:
            self.refuse(refused)
        except BadRange:
            self.reply(HTTPStatus.REQUESTED_RANGE_NOT_SATISFIABLE)
        except StoreError as error:
            self.counters.add("errors", not isinstance(error, NotFound))
            status = REPLIES.get(error.status, HTTPStatus.INTERNAL_SERVER_ERROR)
            self.reply(status, f"{error}\n".encode())

    def do_PUT(self) -> None:
        self.handle_one(self.put)

    def do_GET(self) -> None:
        self.handle_one(self.metrics if self.path == "/metrics" else self.get)

    do_HEAD = do_GET

    def do_DELETE(self) -> None:
        self.handle_one(self.delete)

    def do_POST(self) -> None:
        self.handle_one(self.lose)

    def put(self) -> None:
        body = self.body(self.body_length())
        self.reply(HTTPStatus.CREATED, ETag=f'"{self.store.put(self.name, body)}"')

    def get(self) -> None:
        """Sends a version that is held, so that a PUT meanwhile does not mix two."""
        version = self.store.hold(self.name)
        asked = range_of(self.headers.get("Range"), version.size)
        headers = {"ETag": f'"{version.number}"', "Accept_Ranges": "bytes"}
        start, length = asked or (0, version.size)
        if asked:
            headers["Content_Range"] = f"bytes {start}-{start + length - 1}/{version.size}"
        body = b"" if self.command == "HEAD" else version.read(start, length)
        self.begin(HTTPStatus.PARTIAL_CONTENT if asked else HTTPStatus.OK, length, **headers)
        self.wfile.write(body)

    def delete(self) -> None:
        self.store.delete(self.name)
        self.reply(HTTPStatus.NO_CONTENT)

    def lose(self) -> None:
        asked = LOSS.fullmatch(self.url.query)
        if not asked:
            self.reply(HTTPStatus.BAD_REQUEST, b"POST wants ?lose=STRIPE.FRAGMENT\n")
            return
        self.store.lose(self.name, int(asked.group(1)), int(asked.group(2)))
        self.reply(HTTPStatus.NO_CONTENT)

    def metrics(self) -> None:
        numbers = self.store.numbers()._asdict()
        lines = [f"lrcstore_{what} {count}" for what, count in numbers.items()]
        text = "\n".join([*lines, *self.counters.lines(), ""])
        self.reply(HTTPStatus.OK, text.encode(), Content_Type="text/plain; version=0.0.4")


class Server(ThreadingHTTPServer):
    """A server that can end its connections once their replies are sent."""

    daemon_threads = False  # server_close waits for them

    def __init__(self, address: Tuple[str, int]) -> None:
        super().__init__(address, Handler)
        self._lock, self._ends = threading.Lock(), False
        self._open: Set[socket.socket] = set()

    def finish_request(self, request: Any, client_address: Any) -> None:
        with self._lock:
            self._open.add(request)
            if self._ends:
                request.shutdown(socket.SHUT_RD)
        try:
            super().finish_request(request, client_address)
        finally:
            with self._lock:
                self._open.discard(request)

    def end_requests(self) -> None:
        """Lets no connection have a further request."""
        with self._lock:
            self._ends = True
            for request in self._open:
                with contextlib.suppress(OSError):  # the client has gone
                    request.shutdown(socket.SHUT_RD)

    def handle_error(self, request: Any, client_address: Any) -> None:
        """A client that goes or that says nothing is no error of the server."""
        if not isinstance(sys.exc_info()[1], (ConnectionError, TimeoutError)):
            super().handle_error(request, client_address)


def scrub(store: Store, counters: Counters, seconds: float, ends: threading.Event) -> None:
    """Repairs what is lost, again and again."""
    while not ends.wait(seconds):
        try:
            counters.add("repaired", store.mend())
        except StoreError as error:  # out of memory, say: the next round goes on
            counters.add("repaired", error.repaired or 0)
            counters.add("errors")


def main() -> None:
    parser = argparse.ArgumentParser(description=__doc__.splitlines()[0])
    parser.add_argument("--port", type=int, default=8080, help="0 for any")
    parser.add_argument("--width", type=int, default=4096, help="bytes of a fragment")
    parser.add_argument("--scrub", type=float, default=1.0, help="seconds between repairs")
    given = parser.parse_args()
    Handler.store, Handler.counters = Store(given.width, shards=16), Counters()
    Handler.longest = MOST_STRIPES * DATA_FRAGMENTS * given.width
    ends = threading.Event()
    words = Handler.store, Handler.counters, given.scrub, ends
    scrubber = threading.Thread(target=scrub, args=words)
    with Server(("127.0.0.1", given.port)) as server:
        for number in (signal.SIGINT, signal.SIGTERM):
            signal.signal(number, lambda *_: threading.Thread(target=server.shutdown).start())
        scrubber.start()
        print(server.server_port, flush=True)
        server.serve_forever()
        server.end_requests()
    ends.set()
    scrubber.join()
    Handler.store.close()


if __name__ == "__main__":
    main()
