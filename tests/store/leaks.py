#!/usr/bin/env python3
"""What the Python package `lrcstore` leaves of the library's memory, over the library that
tests/store/counted.sh makes."""

import gc
import threading
import unittest

import counted
import lrcstore
from lrcstore import _native

NAMES = [f"n{number}" for number in range(30)]


class Failure(Exception):
    pass


class Leaks(unittest.TestCase):
    def setUp(self):
        gc.collect()
        self.before, self.had = counted.numbers()

    def tearDown(self):
        gc.collect()
        after, had = counted.numbers()
        self.assertEqual(after - self.before, 0, "blocks of memory are left")
        self.assertGreater(had, self.had)


def degraded(**options):
    """A store with blobs of which fragments are lost, the last one among them."""
    store = lrcstore.Store(4, **options)
    for name in NAMES:
        store.put(name, bytes(range(200)))
        for fragment in (0, 7, 15):
            store.lose(name, 0, fragment)
    return store


class Stores(Leaks):
    def test_a_store_that_is_closed_or_dropped(self):
        for shards in (1, 16):
            for limit in (None, 1000):
                degraded(shards=shards, limit=limit).close()
                degraded(shards=shards, limit=limit)

    def test_a_store_that_is_not_opened(self):
        degraded().close()
        for words in ({"width": 0}, {"width": 4, "limit": 0}, {"width": 4, "shards": 65}):
            self.assertRaises(lrcstore.StoreError, lrcstore.Store, **words)
        store = _native.Calls()
        for _ in range(2):
            store.open(4, None, 3)

    def test_calls_that_are_refused(self):
        store = degraded(limit=200)
        refused = lrcstore.StoreError
        for _ in range(20):
            for call in (
                lambda: store.put("BAD", b"x" * 100_000),
                lambda: store.put("a", b"x" * 5000, 7),
                lambda: store.put("a", bytes(12 * 4 * 4096 + 1)),
                lambda: store.get("none"),
                lambda: store.get("n1", 10, 1000),
                lambda: store.get("n1", 1000),
                lambda: store.lend("none"),
                lambda: store.lend("n1", 10, 1000),
                lambda: store.lend("n1", 1000),
                lambda: store.hold("none"),
                lambda: store.hold("BAD"),
                lambda: store.restore(store.hold("n1"), 0, 1, b"abc"),
                lambda: store.repair("n1", 0, 1),
                lambda: store.delete("none"),
            ):
                self.assertRaises(refused, call)
        self.assertRaises(TypeError, store.put, "a", 3)
        self.assertRaises(TypeError, store._calls.restore, 3, 0, 0, b"abcd", -1)

    def test_a_mend_that_stops(self):
        """A part of its plan is left."""
        store = lrcstore.Store(4, limit=1000)
        store.put("a", bytes(600 * 48))
        for stripe in range(600):
            store.lose("a", stripe, 15)
        for repaired in (399, 0):
            with self.assertRaises(lrcstore.StoreError) as caught:
                store.mend()
            self.assertEqual(caught.exception.repaired, repaired)

    def test_versions(self):
        """They outlive the store, and go one by one."""
        store = degraded(shards=4)
        held = [store.hold(name) for name in NAMES]
        for version in held[::2]:
            version.read()
            version.read(3, 100)
            version.fragment(0, 1)
            version.shape()
            bytes(version.lend(3, 100))
            self.assertRaises(lrcstore.StoreError, version.lend, 0, 201)
            self.assertRaises(lrcstore.StoreError, version.fragment, 0, 15)
            self.assertRaises(lrcstore.StoreError, version.read, 5, 1000)
        whole = held[1].fragment(0, 3)
        store.lose("n1", 0, 3)
        store.restore(held[1], 0, 3, whole)
        store.put("n3", b"another")
        store.delete("n4")
        store.mend()
        store.close()
        del store
        self.assertEqual(held[2].read(), bytes(range(200)))
        held.pop()

    def test_grants(self):
        """A view keeps the memory of its range, and nothing else does."""
        store = degraded()
        held = store.hold("n1")
        for lend in (held.lend, lambda *words: store.lend("n1", *words)):
            before = counted.blocks()
            with lend(0, 200) as grant:
                self.assertGreater(counted.blocks(), before)
                self.assertEqual(bytes(grant), bytes(range(200)))
            self.assertEqual(counted.blocks(), before)
            view = lend(5, 100).runs[-1][-3:]
            self.assertGreater(counted.blocks(), before)
            self.assertEqual(bytes(view), bytes(range(102, 105)))
            del view
            self.assertEqual(counted.blocks(), before)

    def test_views_outlive_the_store(self):
        store = degraded(shards=4)
        grants = [store.lend(name) for name in NAMES]
        views = [grant.runs[0] for grant in grants[::2]]
        for name in NAMES:
            store.put(name, b"another")
            store.delete(name)
        store.close()
        del store, grants
        self.assertEqual(bytes(views[3]), bytes(range(200))[: len(views[3])])

    def test_a_block_that_raises(self):
        with self.assertRaises(Failure), degraded() as store:
            store.hold("n1")
            raise Failure

    def test_threads(self):
        store = degraded(shards=2)

        def work(number):
            for name in NAMES[number::4]:
                store.put(name, bytes(100_000))
                store.hold(name).read(0, 50_000)
                store.get(name)
                bytes(store.lend(name, 0, 70_000))

        threads = [threading.Thread(target=work, args=(number,)) for number in range(4)]
        for thread in threads:
            thread.start()
        for thread in threads:
            thread.join()
        self.assertEqual(store.mend(), 0)


if __name__ == "__main__":
    unittest.main()
