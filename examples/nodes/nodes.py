#!/usr/bin/env python3
"""Objects over sixteen nodes, each of which keeps one fragment of each stripe in LRC(12,2,2).

    nodes.py serve PORT     a node, which keeps its fragments in memory; port 0 is any
    nodes.py show           starts sixteen, puts an object, stops some, reads and refills

A node is an HTTP server on the loopback address, and prints its port once it serves. A fragment
goes with a checksum, so one that a node has changed counts as lost.
"""

from __future__ import annotations

import functools
import http.client
import http.server
import subprocess
import sys
import zlib
from concurrent.futures import ThreadPoolExecutor
from typing import Dict, Iterable, List, Set, Tuple

from lrcstore import coder

DATA, ALL = 12, 16
WIDTH = 65536  # the bytes of a fragment
PATIENCE = 60  # seconds for a request
CHECK = 4  # the bytes of a checksum


class Handler(http.server.BaseHTTPRequestHandler):
    """A node: fragments by path."""

    protocol_version = "HTTP/1.1"
    fragments: Dict[str, bytes] = {}

    def do_PUT(self) -> None:
        self.fragments[self.path] = self.rfile.read(int(self.headers["Content-Length"]))
        self._answer(204, b"")

    def do_GET(self) -> None:
        found = self.fragments.get(self.path)
        self._answer(404 if found is None else 200, found or b"")

    def _answer(self, status: int, body: bytes) -> None:
        self.send_response(status)
        if body or status != 204:
            self.send_header("Content-Length", str(len(body)))
        self.end_headers()
        self.wfile.write(body)

    def log_message(self, format: str, *arguments: object) -> None:
        pass


def serve(port: int) -> None:
    server = http.server.ThreadingHTTPServer(("127.0.0.1", port), Handler)
    print(server.server_port, flush=True)
    server.serve_forever()


class Lost(Exception):
    """More fragments of a stripe are lost than the code can rebuild."""


@functools.lru_cache(maxsize=None)
def plan_for(lost: frozenset[int], wanted: frozenset[int]) -> coder.Plan:
    """How these lost fragments are rebuilt. It serves each stripe that has lost the same."""
    return coder.Plan(DATA, lost, sorted(wanted))


class Cluster:
    """The client of sixteen nodes. It keeps the lengths of objects, as a service keeps them in its
    database."""

    def __init__(self, ports: Iterable[int]) -> None:
        self.ports = list(ports)
        self.lengths: Dict[str, int] = {}
        self.bytes_read = 0
        self._threads = ThreadPoolExecutor(ALL)

    def node_of(self, name: str, fragment: int) -> int:
        """The node of a fragment. Each object begins with another one."""
        return (fragment + zlib.crc32(name.encode())) % ALL

    def put(self, name: str, blob: bytes) -> None:
        """Stores an object. It fails if a node does not answer."""
        stripe = DATA * WIDTH
        for number in range(-(-len(blob) // stripe)):
            part = blob[number * stripe : (number + 1) * stripe].ljust(stripe, b"\0")
            data = [part[i * WIDTH : (i + 1) * WIDTH] for i in range(DATA)]
            fragments = enumerate([*data, *coder.encode(data)])
            sent = [self._threads.submit(self._send, name, number, *each) for each in fragments]
            for each in sent:
                each.result()
        self.lengths[name] = len(blob)

    def get(self, name: str) -> bytes:
        """An object's bytes. Raises Lost if too many fragments of a stripe are lost."""
        length = self.lengths[name]
        stripes = range(-(-length // (DATA * WIDTH)))
        return b"".join(self._read(name, number) for number in stripes)[:length]

    def refill(self, node: int) -> int:
        """Rebuilds what a node had that came back empty, and returns how many bytes these are."""
        rebuilt = 0
        for name, length in self.lengths.items():
            fragment = next(f for f in range(ALL) if self.node_of(name, f) == node)
            for number in range(-(-length // (DATA * WIDTH))):
                found = self._rebuild(name, number, {fragment}, {})[fragment]
                self._send(name, number, fragment, found)
                rebuilt += len(found)
        return rebuilt

    def _read(self, name: str, number: int) -> bytes:
        """The data of a stripe. Only if a fragment is lost, parities are read."""
        there = self._fetch(name, number, range(DATA))
        missing = set(range(DATA)) - set(there)
        if missing:
            there.update(self._rebuild(name, number, missing, there))
        return b"".join(there[fragment] for fragment in range(DATA))

    def _rebuild(
        self, name: str, number: int, lost: Set[int], there: Dict[int, bytes]
    ) -> Dict[int, bytes]:
        """The bytes of lost fragments, by as few others as the code needs for them."""
        wanted, lost, there = frozenset(lost), set(lost), dict(there)
        while True:
            try:
                plan = plan_for(frozenset(lost), wanted)
            except coder.Unrecoverable as error:
                raise Lost(f"{name}: stripe {number} has lost {sorted(lost)}") from error
            needed = set(plan.reads) - set(there)
            there.update(self._fetch(name, number, needed))
            lost |= needed - set(there)
            if needed <= set(there):
                return plan.decode(there)

    def _fetch(self, name: str, number: int, fragments: Iterable[int]) -> Dict[int, bytes]:
        """Those of the fragments that their nodes have unchanged."""
        asked = {f: self._threads.submit(self._receive, name, number, f) for f in fragments}
        found = {f: each.result() for f, each in asked.items()}
        self.bytes_read += sum(len(it) for it in found.values())
        return {f: it for f, it in found.items() if it}

    def _receive(self, name: str, number: int, fragment: int) -> bytes:
        """A fragment, or no byte."""
        try:
            body = self._ask("GET", name, number, fragment, None)
        except (OSError, http.client.HTTPException):
            return b""
        whole, check = body[:-CHECK], body[-CHECK:]
        return whole if zlib.crc32(whole).to_bytes(CHECK, "big") == check else b""

    def _send(self, name: str, number: int, fragment: int, whole: bytes) -> None:
        check = zlib.crc32(whole).to_bytes(CHECK, "big")
        self._ask("PUT", name, number, fragment, whole + check)

    def _ask(self, method: str, name: str, number: int, fragment: int, body: bytes | None) -> bytes:
        port = self.ports[self.node_of(name, fragment)]
        connection = http.client.HTTPConnection("127.0.0.1", port, timeout=PATIENCE)
        try:
            connection.request(method, f"/{name}/{number}/{fragment}", body)
            reply = connection.getresponse()
            return reply.read() if reply.status < 300 else b""
        finally:
            connection.close()


def started() -> Tuple[subprocess.Popen[str], int]:
    """A node of its own process, and its port."""
    words = [sys.executable, __file__, "serve", "0"]
    process = subprocess.Popen(words, stdout=subprocess.PIPE, text=True)
    assert process.stdout
    return process, int(process.stdout.readline())


def show() -> None:
    nodes = [started() for _ in range(ALL)]
    cluster, blob = Cluster(port for _, port in nodes), bytes(range(256)) * 12288
    try:
        cluster.put("photo", blob)
        print(f"{len(blob)} bytes over {ALL} nodes")
        read(cluster, blob, "all nodes")
        for fragment in (0, 1, 6):
            node = cluster.node_of("photo", fragment)
            nodes[node][0].kill()
            read(cluster, blob, f"without node {node}")
        node = cluster.node_of("photo", 6)
        nodes[node] = started()
        cluster.ports[node], before = nodes[node][1], cluster.bytes_read
        rebuilt = cluster.refill(node)
        share = (cluster.bytes_read - before) / rebuilt
        print(f"node {node} is refilled: {share:.2f} bytes read for each")
    finally:
        for process, _ in nodes:
            process.kill()
            process.wait()


def read(cluster: Cluster, blob: bytes, when: str) -> None:
    before = cluster.bytes_read
    same = "the same" if cluster.get("photo") == blob else "OTHER"
    print(f"{when}: {same} bytes, {(cluster.bytes_read - before) / len(blob):.2f} read for each")


def main(words: List[str]) -> None:
    if words[:1] == ["serve"] and len(words) == 2:
        serve(int(words[1]))
    elif words == ["show"]:
        show()
    else:
        sys.exit("usage: nodes.py serve PORT | nodes.py show")


if __name__ == "__main__":
    main(sys.argv[1:])
