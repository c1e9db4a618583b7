#!/usr/bin/env python3
"""examples/server_http: http_server.py, with the package `lrcstore` on PYTHONPATH. If LRC_COUNTED
is set, the library is that of tests/store/counted.sh, and each server has to end without
memory."""

import http.client
import itertools
import os
import signal
import socket
import subprocess
import sys
import threading
import time
import unittest

TOP = os.path.dirname(os.path.dirname(os.path.dirname(os.path.abspath(__file__))))
SERVER = os.path.join(TOP, "examples", "server_http", "server.py")
PATIENCE = 60  # seconds that no step takes
COUNTED = "LRC_COUNTED" in os.environ
# Runs the server so that other calls come between a hold of a version and what follows it.
SLOW = """
import runpy, sys, time
from lrcstore import Store
hold = Store.hold
def slow(*words):
    version = hold(*words)
    time.sleep(0.01)
    return version
Store.hold = slow
del sys.argv[0]
runpy.run_path(sys.argv[0], run_name="__main__")
"""
if COUNTED:
    import counted


def bytes_of(length, seed=0):
    return bytes((7 * i + i // 251 + seed) % 256 for i in range(length))


class Server:
    """A server in a process of its own, for a with block."""

    def __init__(self, *words, program=(SERVER,)):
        self.command = [sys.executable, *program, "--port", "0", *words]

    def __enter__(self):
        self.process = subprocess.Popen(self.command, stdout=subprocess.PIPE, text=True)
        self.port = int(self.process.stdout.readline())
        return self

    def __exit__(self, *_):
        self.process.send_signal(signal.SIGTERM)
        self.status = self.process.wait(PATIENCE)
        self.process.stdout.close()
        if COUNTED and counted.blocks():
            raise AssertionError(f"the server ended with {counted.blocks()} blocks of memory")

    def ask(self, method, path, body=None, **headers):
        """The status, the headers and the body of a reply."""
        client = http.client.HTTPConnection("127.0.0.1", self.port, timeout=PATIENCE)
        names = {name.replace("_", "-"): value for name, value in headers.items()}
        client.request(method, path, body, names)
        reply = client.getresponse()
        found = reply.status, reply.headers, reply.read()
        client.close()
        return found

    def exchange(self, request, ends=False):
        """All that the server sends to these bytes until it closes the connection."""
        with socket.create_connection(("127.0.0.1", self.port), PATIENCE) as client:
            client.sendall(request)
            if ends:
                client.shutdown(socket.SHUT_WR)
            return client.makefile("rb").read()

    def metric(self, name):
        text = self.ask("GET", "/metrics")[2].decode()
        return dict(line.split() for line in text.splitlines())[f"lrcstore_{name}"]


class Objects(unittest.TestCase):
    def setUp(self):
        self.server = Server("--width", "16", "--scrub", "3600")
        self.server.__enter__()
        self.blob = bytes_of(1000)

    def tearDown(self):
        self.server.__exit__()
        self.assertEqual(self.server.status, 0)

    def test_an_object_comes_back(self):
        ask = self.server.ask
        status, headers, _ = ask("PUT", "/a/b%20c", self.blob)
        self.assertEqual((status, headers["ETag"]), (201, '"1"'))
        status, headers, body = ask("GET", "/a/b%20c")
        self.assertEqual((status, headers["ETag"], body), (200, '"1"', self.blob))
        status, headers, body = ask("HEAD", "/a/b%20c")
        self.assertEqual((status, headers["Content-Length"], body), (200, "1000", b""))
        self.assertEqual(ask("GET", "/a/other")[0], 404)
        self.assertEqual(ask("DELETE", "/a/b%20c")[0], 204)
        self.assertEqual(ask("DELETE", "/a/b%20c")[0], 404)
        self.assertEqual(ask("GET", "/a/b%20c")[0], 404)
        self.assertEqual(ask("PUT", "/empty", b"")[0], 201)
        self.assertEqual(ask("GET", "/empty")[2], b"")

    def test_paths_that_differ_a_little(self):
        """A path is bytes, however they are quoted: letters of either case differ."""
        ask = self.server.ask
        paths = ("/key", "/Key", "/KEY", "/key/", "/key%20", "/key%00", "/k%C3%A9y", "/k%E9y")
        for number, path in enumerate(paths):
            self.assertEqual(ask("PUT", path, b"%d" % number)[0], 201)
        self.assertEqual(self.server.metric("blobs"), str(len(paths)))
        self.assertEqual((ask("DELETE", "/kEy")[0], ask("DELETE", "/Key")[0]), (404, 204))
        found = [ask("GET", path)[2] for path in paths]
        self.assertEqual((found[0], found[2:]), (b"0", [b"%d" % it for it in range(2, 8)]))
        self.assertEqual(ask("GET", "/%4BEY")[2], b"2")

    def test_ranges(self):
        ask = self.server.ask
        ask("PUT", "/a", self.blob)
        for asked, start, end in (
            ("bytes=0-0", 0, 0),
            ("bytes=100-299", 100, 299),
            ("bytes=990-", 990, 999),
            ("bytes=990-5000", 990, 999),
            ("bytes=-10", 990, 999),
            ("bytes=-5000", 0, 999),
        ):
            status, headers, body = ask("GET", "/a", Range=asked)
            self.assertEqual((status, body), (206, self.blob[start : end + 1]), asked)
            self.assertEqual(headers["Content-Range"], f"bytes {start}-{end}/1000")
        for asked in ("bytes=1000-", "bytes=2-1", "bytes=-0"):
            self.assertEqual(ask("GET", "/a", Range=asked)[0], 416, asked)
        for asked in ("bytes=-", "lines=0-1", "bytes=0-1,3-4"):
            self.assertEqual(ask("GET", "/a", Range=asked)[2], self.blob, asked)

    def test_what_is_refused(self):
        ask = self.server.ask
        self.assertEqual(ask("PUT", "/a", bytes(12 * 16 * 4096 + 1))[0], 413)
        self.assertEqual(ask("POST", "/a?lose=0.0")[0], 404)
        ask("PUT", "/a", self.blob)
        for words in ("", "?lose=1", "?lose=x.1", "?lose=0.16", "?lose=6.0"):
            self.assertEqual(ask("POST", f"/a{words}")[0], 400, words)
        for fragment in range(4):
            self.assertEqual(ask("POST", f"/a?lose=1.{fragment}")[0], 204)
        self.assertEqual(ask("POST", "/a?lose=1.3")[0], 409)
        self.assertEqual(ask("GET", "/a")[0], 503)
        self.assertEqual(ask("GET", "/a", Range="bytes=0-191")[2], self.blob[:192])

    def refuses(self, status, request, ends=False):
        """A request is refused. The object at /a stays, and no byte counts as another request."""
        reply = self.server.exchange(request, ends)
        self.assertEqual(reply.split(b" ")[1], str(status).encode(), (request, reply))
        self.assertIn(b"\r\nConnection: close\r\n", reply)
        self.assertEqual(reply.count(b"HTTP/1.1 "), 1, request)
        self.assertEqual(self.server.ask("GET", "/a")[2], self.blob, request)

    def test_bodies_that_are_refused(self):
        self.server.ask("PUT", "/a", self.blob)
        put, chunk = b"PUT /a HTTP/1.1\r\n", b"5\r\nhello\r\n0\r\n\r\n"
        delete = b"DELETE /a HTTP/1.1\r\n\r\n"
        self.refuses(411, put + b"Transfer-Encoding: chunked\r\n\r\n" + chunk)
        self.refuses(411, put + b"Transfer-Encoding: gzip\r\nContent-Length: 3\r\n\r\nabc")
        self.refuses(411, put + b"\r\n")
        self.refuses(400, put + b"Content-Length: 1000\r\n\r\nonly this", ends=True)
        self.refuses(400, put + b"Content-Length: 1\r\nContent-Length: 2\r\n\r\nab")
        for length in (b"-1", b"abc", b"1_0", b"+1", b"1180591620717411303424", b""):
            self.refuses(400, put + b"Content-Length: " + length + b"\r\n\r\nabc")
        self.refuses(413, put + b"Content-Length: 10000000000000\r\n\r\nabc")
        for method in (b"GET /a", b"HEAD /a", b"DELETE /a", b"POST /a?lose=0.0"):
            words = method + b" HTTP/1.1\r\nContent-Length: %d\r\n\r\n" % len(delete)
            self.refuses(400, words + delete)
            self.refuses(411, method + b" HTTP/1.1\r\nTransfer-Encoding: chunked\r\n\r\n" + chunk)
        self.refuses(400, b"GET http://[x/ HTTP/1.1\r\n\r\n")
        self.assertEqual(self.server.metric("lost"), "0")

    def test_a_body_is_refused_before_it_is_sent(self):
        self.server.ask("PUT", "/a", self.blob)
        expect = b"PUT /a HTTP/1.1\r\nExpect: 100-continue\r\n"
        self.refuses(411, expect + b"Transfer-Encoding: chunked\r\n\r\n")
        self.refuses(413, expect + b"Content-Length: 10000000000000\r\n\r\n")
        reply = self.server.exchange(expect + b"Connection: close\r\nContent-Length: 1\r\n\r\nx")
        self.assertIn(b"100 Continue", reply)
        self.assertIn(b"201 Created", reply)
        self.assertEqual(self.server.ask("GET", "/a")[2], b"x")

    def test_requests_in_a_row(self):
        put = b"PUT /%d HTTP/1.1\r\nContent-Length: 3\r\n\r\nab%d"
        rest = b"GET /1 HTTP/1.1\r\nConnection: close\r\n\r\n"
        reply = self.server.exchange(put % (1, 1) + put % (2, 2) + rest)
        self.assertEqual((reply.count(b"201 Created"), reply[-3:]), (2, b"ab1"))

    def test_numbers_that_are_too_long(self):
        self.server.ask("PUT", "/a", self.blob)
        self.assertEqual(self.server.ask("GET", "/a", Range=f"bytes={'9' * 5000}-")[0], 200)
        self.assertEqual(self.server.ask("POST", f"/a?lose={'9' * 5000}.0")[0], 400)

    def test_metrics(self):
        server = self.server
        server.ask("PUT", "/a", self.blob)
        server.ask("PUT", "/b", self.blob)
        server.ask("POST", "/a?lose=0.3")
        server.ask("GET", "/none")
        found = [server.metric(name) for name in ("blobs", "bytes", "lost", "errors_total")]
        self.assertEqual(found, ["2", "2000", "1", "0"])
        self.assertEqual(server.metric("requests_total"), "9")


class Versions(unittest.TestCase):
    def test_headers_and_bytes_are_of_one_version(self):
        slow = ["-c", SLOW, SERVER]
        with Server("--width", "16", "--scrub", "3600", program=slow) as server:
            ends, wrong, seen = threading.Event(), [], {}

            def put():
                for turn in itertools.count(1):
                    if ends.is_set():
                        return
                    server.ask("PUT", "/a", bytes([turn % 251]) * (turn % 7 * 300 + 1))

            server.ask("PUT", "/a", b"x")
            writer = threading.Thread(target=put)
            writer.start()
            for _ in range(150):
                status, headers, body = server.ask("GET", "/a")
                if status != 200 or len(set(body)) != 1:
                    wrong.append(status)
                if seen.setdefault(headers["ETag"], body) != body:
                    wrong.append(headers["ETag"])
            ends.set()
            writer.join()
            self.assertEqual(wrong, [])
            self.assertGreater(len(seen), 5)


class Ends(unittest.TestCase):
    def test_a_reply_under_way_is_sent(self):
        with Server("--width", "65536", "--scrub", "3600") as server:
            blob = bytes_of(1000) * 20_000
            server.ask("PUT", "/a", blob)
            idle = socket.create_connection(("127.0.0.1", server.port), PATIENCE)
            client = http.client.HTTPConnection("127.0.0.1", server.port, timeout=PATIENCE)
            client.request("GET", "/a")
            reply = client.getresponse()
            start = reply.read(1000)
            server.process.send_signal(signal.SIGTERM)
            time.sleep(1.5)  # longer than it takes to leave its loop
            self.assertEqual(start + reply.read(), blob)
            with self.assertRaises((ConnectionError, http.client.HTTPException)):
                client.request("GET", "/a")  # no connection has a further one
                client.getresponse()
            self.assertEqual(idle.recv(1), b"")
            client.close()
            idle.close()
            server.process.wait(PATIENCE)  # a second signal may find it without its handlers
        self.assertEqual(server.status, 0)


class Failures(unittest.TestCase):
    def test_objects_are_served_while_fragments_are_lost_and_repaired(self):
        with Server("--width", "64", "--scrub", "0.01") as server:
            blobs = {f"/{number}": bytes_of(3000 + number, number) for number in range(4)}
            for path, blob in blobs.items():
                server.ask("PUT", path, blob)
            wrong = []

            def read(path):
                for turn in range(30):
                    server.ask("POST", f"{path}?lose={turn % 4}.{turn % 16}")
                    status, _, body = server.ask("GET", path)
                    if (status, body) != (200, blobs[path]):
                        wrong.append((path, status))

            threads = [threading.Thread(target=read, args=(path,)) for path in blobs]
            for thread in threads:
                thread.start()
            for thread in threads:
                thread.join()
            self.assertEqual(wrong, [])
            end = time.monotonic() + PATIENCE
            while server.metric("lost") != "0" and time.monotonic() < end:
                time.sleep(0.05)
            self.assertEqual(server.metric("lost"), "0")
            self.assertGreater(int(server.metric("repaired_total")), 0)


if __name__ == "__main__":
    unittest.main()
