#!/usr/bin/env python3
"""examples/nodes: nodes.py, with its nodes as threads, and once as its page runs it."""

import http.server
import os
import re
import subprocess
import sys
import threading
import unittest

FOLDER = os.path.join(os.path.dirname(__file__), "..", "..", "examples", "nodes")
sys.path[:0] = [FOLDER]

import nodes  # noqa: E402

nodes.WIDTH = 512  # of which a test makes many quickly
STRIPE = nodes.DATA * nodes.WIDTH


def bytes_of(length, seed=0):
    return bytes((7 * i + i // 251 + seed) % 256 for i in range(length))


class Node:
    """A node that is a thread."""

    def __init__(self):
        handler = type("Handler", (nodes.Handler,), {"fragments": {}})
        self.fragments = handler.fragments
        self.server = http.server.ThreadingHTTPServer(("127.0.0.1", 0), handler)
        self.port = self.server.server_port
        threading.Thread(target=self.server.serve_forever, args=(0.01,), daemon=True).start()

    def stop(self):
        self.server.shutdown()
        self.server.server_close()


class Nodes(unittest.TestCase):
    def setUp(self):
        self.nodes = [Node() for _ in range(nodes.ALL)]
        self.cluster = nodes.Cluster(node.port for node in self.nodes)

    def tearDown(self):
        for node in self.nodes:
            node.stop()

    def lose(self, name, *fragments):
        """Empties the nodes that have these fragments of an object."""
        for fragment in fragments:
            self.nodes[self.cluster.node_of(name, fragment)].fragments.clear()

    def read_for_each(self, name, blob):
        """How many bytes a get reads for each byte of whole stripes."""
        before = self.cluster.bytes_read
        self.assertEqual(self.cluster.get(name), blob)
        return (self.cluster.bytes_read - before) / (-(-len(blob) // STRIPE) * STRIPE)

    def test_objects_come_back(self):
        blobs = {f"object-{n}": bytes_of(n, n) for n in (0, 1, STRIPE - 1, STRIPE, STRIPE + 1)}
        for name, blob in blobs.items():
            self.cluster.put(name, blob)
        for name, blob in blobs.items():
            self.assertEqual(self.cluster.get(name), blob)

    def test_a_read_with_lost_fragments_reads_few_others(self):
        blob = bytes_of(2 * STRIPE)
        self.cluster.put("a", blob)
        self.assertEqual(self.read_for_each("a", blob), 1)
        for fragment in (0, 6, 1, 7):
            self.lose("a", fragment)
            self.assertEqual(self.read_for_each("a", blob), 1)
        self.lose("a", 2)
        self.assertRaises(nodes.Lost, self.cluster.get, "a")

    def test_a_node_is_refilled_from_six_others(self):
        blobs = {"a": bytes_of(3 * STRIPE), "b": bytes_of(STRIPE, 1)}
        for name, blob in blobs.items():
            self.cluster.put(name, blob)
        for fragment in (3, 8, 12):
            fragments = dict(self.nodes[self.cluster.node_of("a", fragment)].fragments)
            self.lose("a", fragment)
            before = self.cluster.bytes_read
            node = self.cluster.node_of("a", fragment)
            self.assertEqual(self.cluster.refill(node), 4 * nodes.WIDTH)
            self.assertEqual(self.nodes[node].fragments, fragments)
            # A parity is rebuilt from its six data fragments; a global one from all twelve.
            read = (self.cluster.bytes_read - before) / (4 * nodes.WIDTH)
            self.assertTrue(6 <= read <= 12, read)

    def test_a_changed_fragment_counts_as_lost(self):
        blob = bytes_of(STRIPE)
        self.cluster.put("a", blob)
        fragments = self.nodes[self.cluster.node_of("a", 4)].fragments
        (path,) = fragments
        fragments[path] = b"x" + fragments[path][1:]
        self.assertEqual(self.cluster.get("a"), blob)
        fragments[path] = b""
        self.assertEqual(self.cluster.get("a"), blob)

    def test_a_put_fails_if_a_node_does_not_answer(self):
        stopped = self.nodes[self.cluster.node_of("a", 15)]
        stopped.stop()
        self.assertRaises(OSError, self.cluster.put, "a", b"x")
        self.assertNotIn("a", self.cluster.lengths)


class Page(unittest.TestCase):
    def test_the_page_shows_what_it_prints(self):
        program = os.path.join(FOLDER, "nodes.py")
        environment = {**os.environ, "PYTHONPATH": os.pathsep.join(sys.path)}
        ran = subprocess.run(
            [sys.executable, program, "show"],
            env=environment,
            stdout=subprocess.PIPE,
            text=True,
        )
        with open(os.path.join(FOLDER, "README.md"), encoding="utf-8") as page:
            shown = re.search(r"```\n(.*?)```", page.read(), re.S).group(1)
        self.assertEqual(ran.stdout, shown)

    def test_usage(self):
        for words in ([], ["serve"], ["show", "more"]):
            self.assertRaises(SystemExit, nodes.main, words)


if __name__ == "__main__":
    unittest.main()
