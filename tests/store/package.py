#!/usr/bin/env python3
"""The store of the Python package `lrcstore`. package_busy.py has a store that is busy for ever."""

import array
import base64
import gc
import hashlib
import importlib
import os
import pickle
import queue
import shutil
import signal
import subprocess
import sys
import tempfile
import threading
import time
import unittest
from unittest import mock

import lrcstore
from lrcstore import LostFragment, Status, Store, StoreError
from lrcstore import _native, _store

FOREVER = 60  # seconds that no test takes
INTERRUPTS = 1000  # at any place of a call


def bytes_of(length):
    return bytes((7 * i + i // 251) % 256 for i in range(length))


class Interrupted(Exception):
    pass


def interrupt(*_):
    raise Interrupted


def base32(data):
    return base64.b32encode(data).decode().lower().rstrip("=")


def wanted_name(key):
    """The name of a key, by Python's hash and base32."""
    if len(key) < 20:
        return base32(key[::-1]).ljust(32, ".")
    return base32(hashlib.blake2s(key, digest_size=20).digest())


class Calls(unittest.TestCase):
    def setUp(self):
        self.store = Store(4)
        self.blob = bytes_of(200)

    def test_a_blob_comes_back(self):
        store, blob = self.store, self.blob
        for version, (name, given, fragments) in enumerate(
            (
                ("str", blob, 12),
                (b"bytes", bytearray(blob), 6),
                ("memoryview", memoryview(bytearray(b"..." + blob))[3:], 12),
                ("array", array.array("I", blob), 6),
            ),
            1,
        ):
            self.assertEqual(memoryview(given).nbytes, 200)
            self.assertEqual(store.put(name, given, fragments), version)
            self.assertEqual(store.get(name), blob)
            stripes = -(-200 // (4 * fragments))
            self.assertEqual(store.stat(name), (version, 200, stripes, 0))
        self.assertEqual(store.get("bytes"), blob)
        for empty in (b"", bytearray()):
            self.assertEqual(store.put("empty", empty), store.stat("empty").version)
            self.assertEqual(store.get("empty"), b"")
        for length in (1, 47, 48, 49, 4095, 4096, 4097, 49152):
            Store(4).put("a", bytes_of(length))
            store.put("long", bytes_of(length))
            self.assertEqual(store.get("long"), bytes_of(length))

    def test_what_is_put_is_copied(self):
        source = bytearray(self.blob)
        self.store.put("a", source)
        source[0] ^= 1
        self.assertEqual(self.store.get("a"), self.blob)

    def test_ranges(self):
        store, blob = self.store, self.blob
        version = store.put("a", blob)
        for start, length in ((0, 0), (0, 1), (3, 50), (199, 1), (200, 0), (0, 200)):
            self.assertEqual(store.get("a", start, length), blob[start : start + length])
            target = bytearray(length)
            self.assertEqual(store.read_into("a", start, target), version)
            self.assertEqual(target, blob[start : start + length])
        for start in (0, 60, 200):
            self.assertEqual(store.get("a", start), blob[start:])
        self.refused(Status.OUT_OF_RANGE, "get('a', 201, None)", store.get, "a", 201)
        self.refused(Status.OUT_OF_RANGE, "get('a', 1, 200)", store.get, "a", 1, 200)
        target = bytearray(b"\xee" * 9)
        self.refused(
            Status.OUT_OF_RANGE, "read_into('a', 192, 9)", store.read_into, "a", 192, target
        )
        self.assertEqual(target, b"\xee" * 9)

    def test_a_range_is_read_into_a_part_of_a_buffer(self):
        store, target, words = self.store, bytearray(b"\xee" * 100), array.array("I", [0, 0])
        store.put("a", self.blob)
        store.lose("a", 0, 1)
        store.read_into("a", 3, memoryview(target)[10:90])
        self.assertEqual(target[10:90], self.blob[3:83])
        self.assertEqual(target[:10] + target[90:], b"\xee" * 20)
        store.read_into("a", 8, words)
        self.assertEqual(words.tobytes(), self.blob[8:16])

    def test_buffers_are_given_back(self):
        store, blob = self.store, bytearray(self.blob)
        version = store.put("a", blob)
        blob.append(1)
        self.assertEqual(store.read_into("a", 0, memoryview(blob)[:200]), version)
        blob.append(2)

    def test_lost_fragments(self):
        store, blob = self.store, self.blob
        version = store.put("a", blob)
        for fragment in (0, 5, 13):
            self.assertEqual(store.lose("a", 1, fragment), version)
        self.assertEqual(store.stat("a"), (version, 200, 5, 3))
        self.assertEqual(store.get("a"), blob)
        self.assertEqual(store.repair("a", 1, 5), version)
        self.refused(Status.NOT_LOST, "repair('a', 1, 5)", store.repair, "a", 1, 5)
        self.refused(Status.ALREADY_LOST, "lose('a', 1, 13)", store.lose, "a", 1, 13)
        self.refused(Status.NO_FRAGMENT, "lose('a', 5, 0)", store.lose, "a", 5, 0)
        self.assertEqual(store.mend(), 2)
        self.assertEqual((store.mend(), store.stat("a").lost), (0, 0))
        for fragment in range(5):
            store.lose("a", 0, fragment)
        self.refused(Status.UNRECOVERABLE, "get('a', 0, None)", store.get, "a")
        self.assertEqual(store.get("a", 48), blob[48:])
        target, read = bytearray(b"\xee" * 12), store.read_into
        self.refused(Status.UNRECOVERABLE, "read_into('a', 0, 12)", read, "a", 0, target)
        self.assertEqual(target, b"\xee" * 12)
        self.assertEqual((store.mend(), store.stat("a").lost), (0, 5))

    def test_a_mend_repairs_all_that_can_be_rebuilt(self):
        store = self.store
        store.put("a", self.blob)
        store.put("b", bytes_of(30), 6)
        for fragment in (0, 1, 6, 7):
            store.lose("a", 0, fragment)
        for fragment in range(5):
            store.lose("b", 0, fragment)
        self.assertEqual(store.mend(), 4)
        self.assertEqual((store.stat("a").lost, store.stat("b").lost), (0, 5))
        self.assertEqual(store.get("a"), self.blob)

    def test_delete(self):
        version = self.store.put("a", b"x")
        self.assertEqual(self.store.delete("a"), version)
        error = self.refused(Status.NO_NAME, "delete('a')", self.store.delete, "a")
        self.assertIsInstance(error, lrcstore.NotFound)
        self.assertIsInstance(error, KeyError)
        self.refused(Status.NO_NAME, "stat(b'a')", self.store.stat, b"a")
        self.refused(Status.NO_NAME, "get('a', 0, None)", self.store.get, "a")

    def refused(self, status, text, call, *arguments):
        with self.assertRaises(StoreError) as caught:
            call(*arguments)
        error = caught.exception
        self.assertIs(error.status, status)
        self.assertEqual(str(error), f"{text}: {_native.text(status)}")
        self.assertEqual(error.args, (str(error),))
        shown = f"{error.call}({', '.join(map(repr, error.arguments))})"
        self.assertEqual(text.split(" after ")[0], shown)
        return error

    def test_each_status_has_a_class_and_a_text(self):
        usual = {
            Status.NO_NAME: (lrcstore.NotFound, KeyError),
            Status.BUSY: (lrcstore.Busy, TimeoutError),
            Status.NO_MEMORY: (lrcstore.OutOfMemory, MemoryError),
            Status.NOT_REBUILT: (lrcstore.OutOfMemory, MemoryError),
        }
        for status in Status:
            if status is Status.DONE:
                continue
            error = self.refused(status, "stat('a')", _store._check, status, "stat", "a")
            kind, builtin = usual.get(status, (StoreError, Exception))
            self.assertIs(type(error), kind)
            self.assertIsInstance(error, builtin)
            for repaired in (None, 3):
                error = kind("mend", ("a",), status, repaired)
                copy = pickle.loads(pickle.dumps(error))
                self.assertEqual((type(copy), str(copy)), (kind, str(error)))
                found = copy.call, copy.arguments, copy.status, copy.repaired
                self.assertEqual(found, ("mend", ("a",), status, repaired))
        text = "mend() after 3 repaired fragments: the journal is full: trim it"
        self.assertEqual(str(StoreError("mend", (), Status.JOURNAL_FULL, 3)), text)

    def test_refused_arguments(self):
        store = self.store
        self.refused(Status.BAD_WIDTH, "open(0)", Store, 0)
        with self.assertRaises(StoreError) as caught:
            Store(4, limit=0)
        self.assertEqual(str(caught.exception).split(": ")[0], "open(4, 0)")
        for shards in (0, 65):
            with self.assertRaises(StoreError) as caught:
                Store(4, shards=shards)
            self.assertIs(caught.exception.status, Status.BAD_ARGUMENT)
            self.assertEqual(str(caught.exception).split(": ")[0], f"open(4, shards={shards})")
        self.refused(Status.BAD_NAME, "put('A', 3, 12)", store.put, "A", b"xyz")
        self.refused(Status.BAD_NAME, "stat('')", store.stat, "")
        self.refused(Status.BAD_NAME, "stat('\\udc80')", store.stat, "\udc80")
        self.refused(Status.BAD_NAME, "stat(b'\\xff')", store.stat, b"\xff")
        self.refused(Status.BAD_ARGUMENT, "put('b', 1, 7)", store.put, "b", b"x", 7)
        self.refused(Status.TOO_LONG, "put('a', 196609, 12)", store.put, "a", bytes(196609))
        store.put("a", b"x")
        for call in (
            lambda: Store(2**32 + 4),
            lambda: Store(4, limit=2**32 + 9),
            lambda: Store(4, shards=2**32 + 9),
            lambda: Store(4, shards=-1),
            lambda: store.put("a", b"x", 2**32 + 12),
            lambda: store.get("a", -1),
            lambda: store.get("a", 0, 2**64),
            lambda: store.read_into("a", 2**64, bytearray(1)),
            lambda: store.lose("a", 2**64, 0),
            lambda: store.lose("a", 0, -1),
            lambda: store.repair("a", -1, 0),
            lambda: store.repair("a", 0, 2**64),
            lambda: store.trim(-1),
        ):
            self.assertRaises(ValueError, call)
        for call in (
            lambda: store.put("a", "text"),
            lambda: store.put("a", memoryview(bytes(9))[::2]),
            lambda: store.put(3, b"x"),
            lambda: store.put("a", b"x", "12"),
            lambda: store.get(None),
            lambda: store.get("a", 0, 1.5),
            lambda: store.get("a", "0"),
            lambda: store.read_into("a", 0, b"x"),
            lambda: store.stat(None),
            lambda: store.delete(["a"]),
            lambda: store.lose("a", "0", 0),
            lambda: store.repair("a", 0, None),
            lambda: store.trim("3"),
        ):
            self.assertRaises((TypeError, BufferError), call)
        self.assertEqual(store.stat("a"), (1, 1, 1, 0))

    def test_the_timeout_is_none_or_a_time(self):
        store = self.store
        self.assertIsNone(store.timeout)
        endless = float("inf")
        for seconds, milliseconds in ((0, 0), (0.0301, 31), (3, 3000), (1e300, -1), (endless, -1)):
            store.timeout = seconds
            self.assertEqual((store.timeout, store._timeout_ms), (seconds, milliseconds))
            self.assertEqual(store.put("a", b"x"), store.stat("a").version)
        for seconds in (-1, float("nan")):
            with self.assertRaisesRegex(ValueError, "timeout"):
                store.timeout = seconds
        store.timeout = None
        self.assertEqual(store._timeout_ms, -1)

    def test_close(self):
        store = self.store
        store.put("a", b"x")
        self.assertEqual(store.close(), (0, False))
        self.refused(Status.EMPTY, "close()", store.close)
        self.refused(Status.EMPTY, "get('a', 0, None)", store.get, "a")
        self.refused(Status.EMPTY, "get('a', 0, 3)", store.get, "a", 0, 3)
        self.refused(Status.EMPTY, "mend() after 0 repaired fragments", store.mend)
        self.refused(Status.EMPTY, "trim(3)", store.trim, 3)
        self.assertEqual(_native.Calls().close()[0], Status.EMPTY)
        calls = _native.Calls()
        self.assertEqual(calls.open(4, None, 2)[0], Status.DONE)
        self.assertEqual(calls.open(4, None, 2)[0], Status.OCCUPIED)
        with Store(4) as other:
            other.put("a", b"x")
        self.refused(Status.EMPTY, "stat('a')", other.stat, "a")
        with self.assertRaises(ZeroDivisionError), Store(4) as other:
            other.put("a", b"x")
            other.put("b", bytes([1 // 0]))
        self.assertEqual(other.get("a"), b"x")

    def test_a_version_stays_as_it_is(self):
        store, blob = self.store, self.blob
        number = store.put("a", blob, 6)
        for stripe, fragment in ((2, 9), (0, 3), (0, 1)):
            store.lose("a", stripe, fragment)
        held = store.hold(b"a")
        self.assertEqual((held.number, held.size), (number, 200))
        store.delete("a")
        self.assertEqual(held.shape(), (number, 200, 9, 3, 4, 6))
        self.assertEqual([held.lost(stripe) for stripe in range(3)], [[1, 3], [], [9]])
        store.close()
        for start, length in ((0, 200), (3, 80), (0, 0), (200, 0), (199, 1)):
            self.assertEqual(held.read(start, length), blob[start : start + length])
        self.assertEqual((held.read(), held.read(60)), (blob, blob[60:]))
        self.assertEqual(held.fragment(1, 2), blob[32:36])
        self.assertEqual(len(held.fragment(0, 9)), 4)
        self.refused(Status.ALREADY_LOST, "fragment(0, 3)", held.fragment, 0, 3)
        self.refused(Status.NO_FRAGMENT, "fragment(9, 0)", held.fragment, 9, 0)
        self.refused(Status.NO_FRAGMENT, "fragment(0, 10)", held.fragment, 0, 10)
        self.refused(Status.NO_FRAGMENT, "lost(9)", held.lost, 9)
        self.refused(Status.OUT_OF_RANGE, "read(1, 200)", held.read, 1, 200)
        self.refused(Status.OUT_OF_RANGE, "read(201, None)", held.read, 201)
        for call in (lambda: held.read(-1, 1), lambda: held.lost(-1), lambda: held.fragment(0, -1)):
            self.assertRaises(ValueError, call)
        self.refused(Status.EMPTY, "hold('a')", store.hold, "a")
        self.refused(Status.NO_NAME, "hold('b')", Store(4).hold, "b")
        store = Store(4)
        store.put("a", blob)
        for fragment in (15, 12, 0):
            store.lose("a", 4, fragment)
        held = store.hold("a")
        self.assertEqual((held.lost(4), held.shape().lost), ([0, 12, 15], 3))
        self.refused(Status.ALREADY_LOST, "fragment(4, 15)", held.fragment, 4, 15)
        self.refused(Status.NO_FRAGMENT, "fragment(4, 16)", held.fragment, 4, 16)
        self.assertEqual(len(held.fragment(3, 15)), 4)
        empty = _native.Held()
        self.assertEqual(empty.read(0, 1), (Status.EMPTY, None))
        self.assertEqual(empty.fragment(0, 1), (Status.EMPTY, None))
        self.assertEqual(empty.lost(0), (Status.EMPTY, 0))
        self.assertEqual(empty.shape(), (Status.EMPTY, 0, 0, 0, 0, 0, 0))

    def test_what_is_lost_is_listed(self):
        """By shard and name, in parts of 512."""
        store, lost = Store(1, shards=8), []
        for i, stripes in enumerate([600, 2] + 40 * [1]):
            name = f"n{i:02}"
            version = store.put(name, bytes(stripes * 12))
            for stripe in range(stripes):
                store.lose(name, stripe, stripe % 16)
                lost.append(LostFragment(name, version, stripe, stripe % 16))
        self.assertEqual(sorted(store.lost_fragments()), lost)
        self.assertEqual(store.mend(), len(lost))
        self.assertEqual(store.lost_fragments(), [])
        self.assertRaises(TypeError, store._calls.lost_fragments)
        self.assertRaises(TypeError, store._calls.lost_fragments, "soon")
        store.close()
        self.refused(Status.EMPTY, "lost_fragments()", store.lost_fragments)

    def test_a_fragment_is_restored(self):
        store, blob = self.store, self.blob
        number = store.put("a", blob)
        whole = store.hold("a")
        store.lose("a", 1, 3)
        fragment = whole.fragment(1, 3)
        self.assertEqual(fragment, blob[60:64])
        restore = store.restore
        self.refused(Status.BAD_ARGUMENT, "restore(1, 3, 3)", restore, whole, 1, 3, b"abc")
        self.refused(Status.BAD_ARGUMENT, "restore(1, 3, 0)", restore, whole, 1, 3, b"")
        self.refused(Status.NOT_LOST, "restore(0, 3, 4)", restore, whole, 0, 3, blob[12:16])
        self.refused(Status.NO_FRAGMENT, "restore(5, 3, 4)", restore, whole, 5, 3, fragment)
        other = Store(4).restore
        self.refused(Status.BAD_ARGUMENT, "restore(1, 3, 4)", other, whole, 1, 3, fragment)
        self.assertEqual(store.restore(whole, 1, 3, bytearray(fragment)), number)
        self.assertEqual((store.get("a"), store.stat("a").lost), (blob, 0))
        for lost in range(5):
            store.lose("a", 1, lost)
        self.refused(Status.UNRECOVERABLE, "repair('a', 1, 3)", store.repair, "a", 1, 3)
        self.assertEqual(store.restore(whole, 1, 3, fragment), number)
        for call in (
            lambda: store._calls.restore("a", 1, 3, fragment, -1),
            lambda: restore(whole, 1, 3, "text"),
        ):
            self.assertRaises(TypeError, call)
        self.assertRaises(ValueError, restore, whole, -1, 3, fragment)
        self.assertRaises(ValueError, restore, whole, 1, 2**64, fragment)
        self.assertEqual(
            store._calls.restore(_native.Held(), 1, 3, fragment, -1), (Status.EMPTY, 0)
        )
        store.close()
        self.refused(Status.EMPTY, "restore(1, 3, 4)", restore, whole, 1, 3, fragment)

    def test_numbers(self):
        store = Store(4, limit=100)
        store.put("a", self.blob)
        store.put("b", b"x", 6)
        for fragment in range(4):
            store.lose("a", 0, fragment)
        store.trim(5)
        self.assertEqual(store.numbers(), (2, 201, 4, 1, 6, 5))
        store.close()
        self.refused(Status.EMPTY, "numbers()", store.numbers)

    def test_a_key_of_any_kind_has_a_name(self):
        keys = "", "Some Key/\u20ac", b"\0\xff", bytes_of(19), bytearray(70), bytes_of(1000)
        for key in keys:
            whole = key.encode() if isinstance(key, str) else bytes(key)
            self.assertEqual(lrcstore.name_of(key), wanted_name(whole))
            self.store.put(lrcstore.name_of(key), whole)
            self.assertEqual(self.store.get(lrcstore.name_of(key)), whole)
        self.assertRaises(TypeError, lrcstore.name_of, 3)

    def test_a_journal(self):
        self.assertEqual(self.store.trim(0), 0)  # it has none
        store = Store(4, limit=5)
        for _ in range(5):
            store.put("a", b"x")
        self.refused(Status.JOURNAL_FULL, "put('a', 1, 12)", store.put, "a", b"x")
        self.assertEqual(store.trim(2), 3)
        store.lose("a", 0, 0)
        store.lose("a", 0, 1)
        self.assertEqual(store.stat("a").lost, 2)
        error = self.refused(Status.JOURNAL_FULL, "mend() after 0 repaired fragments", store.mend)
        self.assertEqual(error.repaired, 0)
        self.assertEqual(store.trim(4), 1)
        error = self.refused(Status.JOURNAL_FULL, "mend() after 1 repaired fragments", store.mend)
        self.assertEqual(error.repaired, 1)
        self.assertEqual(store.close(), (5, True))


class Shards(unittest.TestCase):
    """A store of several shards has the replies of one store."""

    NAMES = [f"n{number}" for number in range(40)]

    def filled(self, **options):
        """A store with a blob of each name, of which a fragment is lost."""
        store = Store(4, shards=16, **options)
        for name in self.NAMES:
            store.put(name, name.encode())
            store.lose(name, 0, 0)
        return store

    def test_blobs_and_numbers(self):
        store = self.filled()
        for name in self.NAMES:
            self.assertEqual(store.get(name), name.encode())
        blobs = len(self.NAMES)
        self.assertEqual(store.numbers(), (blobs, 30 * 3 + 10 * 2, blobs, 0, 3 * blobs, 0))
        store.delete("n7")
        with self.assertRaises(StoreError) as caught:
            store.get("n7")
        self.assertIs(caught.exception.status, Status.NO_NAME)
        self.assertEqual(store.numbers().blobs, blobs - 1)
        self.assertEqual(store.close(), (0, False))

    def test_a_signal_ends_a_mend(self):
        """After some of its repairs, whose number nobody gets."""
        store, all_lost = Store(4, shards=4), 180_000  # several times what a slice mends
        for name in range(15):
            store.put(f"n{name}", bytes(4 * 12 * 4000))
        for name in range(15):
            for stripe in range(4000):
                for fragment in (0, 6, 12):
                    store.lose(f"n{name}", stripe, (stripe + fragment) % 16)
        signal.signal(signal.SIGALRM, interrupt)
        with self.assertRaises(Interrupted):  # on a busy machine even before the mend
            signal.setitimer(signal.ITIMER_REAL, 0.001)
            store.mend()
        lost = store.numbers().lost
        self.assertTrue(0 < lost <= all_lost, lost)
        self.assertEqual((store.mend(), store.numbers().lost), (lost, 0))

    def test_mends_share_the_work(self):
        store, repaired = self.filled(), []
        threads = [
            threading.Thread(target=lambda: repaired.append(store.mend())) for _ in range(2)
        ]
        for thread in threads:
            thread.start()
        for thread in threads:
            thread.join()
        self.assertEqual(sum(repaired), len(self.NAMES))
        self.assertEqual((store.mend(), store.numbers().lost), (0, 0))
        for name in self.NAMES:  # the next mend begins with another shard
            store.lose(name, 0, 1)
        self.assertEqual(store.mend(), len(self.NAMES))

    def test_each_shard_has_a_journal(self):
        store = self.filled(limit=50)
        entries = store.numbers().entries
        self.assertEqual(entries, 2 * len(self.NAMES))
        remaining = entries - store.trim(1)
        self.assertTrue(1 < remaining <= 16)
        self.assertEqual(store.numbers().entries, remaining)
        self.assertEqual(store.close(), (remaining, True))

    def test_a_fragment_is_restored_at_the_shard_of_its_name(self):
        store = self.filled()
        store.mend()
        held = {name: store.hold(name) for name in self.NAMES}
        for name, version in held.items():
            store.lose(name, 0, 2)
            self.assertEqual(store.restore(version, 0, 2, version.fragment(0, 2)), version.number)
        self.assertEqual(store.numbers().lost, 0)
        with self.assertRaises(StoreError) as caught:
            Store(4, shards=2).restore(held["n1"], 0, 2, bytes(4))
        self.assertIs(caught.exception.status, Status.BAD_ARGUMENT)


class Threads(unittest.TestCase):
    def run_all(self, count, work):
        """Runs work(i) on so many threads at once, and raises what one of them raised."""
        start, failures = threading.Barrier(count), []

        def one(number):
            try:
                start.wait()
                work(number)
            except BaseException as error:  # raised below
                failures.append(error)

        threads = [threading.Thread(target=one, args=(number,)) for number in range(count)]
        for thread in threads:
            thread.start()
        for thread in threads:
            thread.join()
        if failures:
            raise failures[0]

    def test_more_threads_than_sessions(self):
        store = Store(4)

        def work(number):
            name = f"name-{number}"
            for turn in range(10):
                blob = bytes([number]) * (turn * 700 + 1)
                store.put(name, blob, 6 if turn % 2 else 12)
                store.lose(name, 0, turn % 6)
                self.assertEqual(store.get(name), blob)
                self.assertEqual(store.repair(name, 0, turn % 6), store.stat(name).version)
            store.delete(name)

        self.run_all(80, work)
        self.assertEqual(store.close(), (0, False))

    def test_a_grant_is_handed_on(self):
        """Each thread uses grants of others, and drops what is left of them."""
        store, grants = Store(16, limit=100_000), queue.SimpleQueue()

        def work(number):
            blob = bytes([number]) * 5000
            for turn in range(100):
                store.put(f"n{number}", blob)
                store.lose(f"n{number}", turn % 9, turn % 16)
                grants.put(store.lend(f"n{number}", 0, 5000))
                with grants.get() as grant:
                    found = bytes(grant)
                self.assertEqual(found, found[:1] * 5000)

        self.run_all(8, work)
        self.assertEqual((grants.qsize(), store.close()), (0, (8 * 100 * 3, True)))

    def test_a_whole_read_is_of_one_version(self):
        store, stop = Store(64), threading.Event()
        store.put("a", bytes(5000))

        def work(number):
            if number == 0:
                try:
                    for turn in range(2000):
                        more = turn * 97 % 251  # longer and shorter in turn
                        store.put("a", bytes([more]) * (5000 + more))
                finally:
                    stop.set()
                return
            while not stop.is_set():
                found = store.get("a")
                self.assertEqual(found, bytes([found[0]]) * (5000 + found[0]))

        self.run_all(4, work)


class Grants(unittest.TestCase):
    def setUp(self):
        self.store, self.blob = Store(4), bytes_of(10000)
        self.number = self.store.put("a", self.blob)

    def lenders(self):
        """The same call of the store, and of a version."""
        return (lambda *words: self.store.lend("a", *words)), self.store.hold("a").lend

    def test_a_range_is_lent(self):
        for lend in self.lenders():
            for start, length in ((0, 0), (0, 1), (3, 50), (0, 10000), (9999, 1), (10000, 0)):
                grant = lend(start, length)
                wanted = self.blob[start : start + length]
                self.assertEqual((grant.version, bytes(grant)), (self.number, wanted))
                self.assertEqual([*map(bytes, grant.runs)], [wanted] if length else [])
            for start in (0, 60, 10000):
                self.assertEqual(bytes(lend(start)), self.blob[start:])
        self.store.put("empty", b"")
        self.assertEqual(self.store.lend("empty").runs, [])

    def test_a_degraded_range_has_several_runs(self):
        """Also more than one call of the library gives."""
        for stripe in range(0, 200, 2):
            self.store.lose("a", stripe, 5)
            for lend in self.lenders():
                runs = lend(5, 9990).runs
                self.assertEqual(b"".join(runs), self.blob[5:9995])
        self.assertGreater(len(runs), 1200)
        self.store.mend()
        self.assertEqual(bytes(self.store.lend("a")), self.blob)

    def test_views_are_read_only_bytes(self):
        for view in self.store.lend("a", 3, 50).runs:
            self.assertEqual((view.readonly, view.format, view.shape), (True, "B", (50,)))
            with self.assertRaises(TypeError):
                view[0] = 1

    def test_what_is_lent_stays_as_it_is(self):
        store = self.store
        store.lose("a", 1, 3)
        grants = [lend(5, 9000) for lend in self.lenders()]
        part = grants[0].runs[-1][-10:]
        store.repair("a", 1, 3)
        store.lose("a", 2, 2)
        store.put("a", bytes(10000))
        store.delete("a")
        store.close()
        gc.collect()
        for grant in grants:
            self.assertEqual((grant.version, bytes(grant)), (self.number, self.blob[5:9005]))
        runs = grants[1].runs
        del grants, grant
        gc.collect()
        self.assertEqual((b"".join(runs), bytes(part)), (self.blob[5:9005], self.blob[8995:9005]))

    def test_a_grant_ends_with_its_block(self):
        with self.store.lend("a", 0, 10) as grant:
            self.assertEqual(bytes(grant), self.blob[:10])
            (run,) = grant.runs
        for use in (bytes, lambda ended: ended.runs):
            self.assertRaisesRegex(ValueError, "the grant has ended", use, grant)
        self.assertEqual(bytes(run), self.blob[:10])
        with self.assertRaises(Interrupted), self.store.lend("a") as grant:
            raise Interrupted
        self.assertRaises(ValueError, bytes, grant)

    def refused(self, status, text, call, *arguments):
        with self.assertRaises(StoreError) as caught:
            call(*arguments)
        self.assertIs(caught.exception.status, status)
        self.assertEqual(str(caught.exception), f"{text}: {_native.text(status)}")

    def test_refused_arguments(self):
        store, held = self.store, self.store.hold("a")
        self.refused(Status.OUT_OF_RANGE, "lend('a', 1, 10000)", store.lend, "a", 1, 10000)
        self.refused(Status.OUT_OF_RANGE, "lend('a', 10001, None)", store.lend, "a", 10001)
        self.refused(Status.OUT_OF_RANGE, "lend(1, 10000)", held.lend, 1, 10000)
        self.refused(Status.OUT_OF_RANGE, "lend(10001, None)", held.lend, 10001)
        self.refused(Status.NO_NAME, "lend('b', 0, 1)", store.lend, "b", 0, 1)
        self.refused(Status.NO_NAME, "lend('b', 0, None)", store.lend, "b")
        self.refused(Status.BAD_NAME, "lend('A', 0, 1)", store.lend, "A", 0, 1)
        for fragment in range(5):
            store.lose("a", 0, fragment)
        self.refused(Status.UNRECOVERABLE, "lend('a', 0, 48)", store.lend, "a", 0, 48)
        self.refused(Status.UNRECOVERABLE, "lend('a', 0, None)", store.lend, "a")
        self.assertEqual(bytes(store.lend("a", 48)), self.blob[48:])
        for lend in self.lenders():
            for words in ((-1, 1), (0, -1), (2**64, 0), (0, 2**64)):
                self.assertRaises(ValueError, lend, *words)
            for words in (("0", 1), (0, 1.5), ("0",), (1.5,)):
                self.assertRaises(TypeError, lend, *words)
        self.assertRaises(TypeError, store.lend, 3, 0, 1)
        store.close()
        self.refused(Status.EMPTY, "lend('a', 0, 1)", store.lend, "a", 0, 1)
        self.refused(Status.EMPTY, "lend('a', 0, None)", store.lend, "a")

    def test_a_range_is_lent_once(self):
        calls, lent = self.store._calls, _native.Lent()
        self.assertEqual(bytes(lent), b"")
        self.assertEqual(_native.Held().lend(0, 1, lent), (Status.EMPTY, None))
        self.assertEqual(calls.lend("a", 0, 1, lent, -1)[:2], (Status.DONE, self.number))
        self.assertEqual(calls.lend("a", 0, 1, lent, -1), (Status.OCCUPIED, 0, None))
        for call in (
            lambda: calls.lend("a", 0, 1, _native.Held(), -1),
            lambda: _native.Held().lend(0, 1, b"x"),
        ):
            self.assertRaisesRegex(TypeError, "the range is no Lent", call)


def resident():
    """The process's pages of memory in use."""
    with open("/proc/self/statm", encoding="ascii") as file:
        return int(file.read().split()[1])


class Memory(unittest.TestCase):
    def test_stores_and_blobs_go(self):
        before = None
        for turn in range(40):
            store = Store(4096)
            store.put("a", bytes(5_000_000))
            self.assertEqual(len(store.get("a")), 5_000_000)
            self.assertEqual(store.hold("a").size, 5_000_000)
            self.assertEqual(len(bytes(store.lend("a"))), 5_000_000)
            for call in (lambda: store.get("b"), lambda: store.put("A", b"x")):
                self.assertRaises(StoreError, call)
            if turn % 2:
                store.close()
            del store
            gc.collect()
            if turn == 9:
                before = resident()
        self.assertLess(resident() - before, 20_000)  # 80 MB, where leaks would be 400

    def test_grants_that_have_ended_go(self):
        store, grants = Store(65536), []
        before = resident()
        for _ in range(40):
            store.put("a", bytes(4 << 20), 6)
            with store.lend("a") as grant:
                grants.append(grant)
        self.assertLess(resident() - before, 20_000)
        self.assertEqual(len(grants), 40)


class Interrupts(unittest.TestCase):
    def test_an_interrupt_leaves_nothing_behind(self):
        """The exception of a signal handler may come at any place of a call."""
        store, count, armed = Store(4, limit=100_000), 0, []
        store.put("a", b"HELLO")
        end = time.monotonic() + FOREVER

        def handler(*_):
            if armed:
                armed.clear()
                raise Interrupted

        signal.signal(signal.SIGALRM, handler)
        signal.setitimer(signal.ITIMER_REAL, 0.001, 0.0007)
        while count < INTERRUPTS and time.monotonic() < end:
            try:
                armed.append(True)
                while armed:
                    store.stat("a")
                    with store.lend("a", 0, 5) as grant:
                        bytes(grant)
                    store.hold("a").read()
                    store.get("a")
                    store.trim(0)
                    store.mend()
            except Interrupted:
                count += 1
        signal.setitimer(signal.ITIMER_REAL, 0)
        signal.signal(signal.SIGALRM, signal.SIG_IGN)
        self.assertEqual((count, store.get("a")), (INTERRUPTS, b"HELLO"))
        self.assertTrue(store.close().is_checked)


class Modules(unittest.TestCase):
    """What a package without an extension module says, in a process of its own."""

    HINT = "install a package of lrcstore, or compile the module by tools/python_extension.py"

    def run_without(self, modules, code):
        with tempfile.TemporaryDirectory() as folder:
            ignored = shutil.ignore_patterns(*(f"{it}.*" for it in modules))
            package = os.path.dirname(lrcstore.__file__)
            shutil.copytree(package, f"{folder}/lrcstore", ignore=ignored)
            names = {**os.environ, "PYTHONPATH": folder}
            words = [sys.executable, "-c", code, self.HINT]
            subprocess.run(words, env=names, check=True)

    def test_an_older_python(self):
        with mock.patch.object(sys, "version_info", (3, 10, 13)):
            self.assertRaisesRegex(ImportError, "needs Python 3.11", importlib.reload, lrcstore)

    def test_a_store_without_its_module(self):
        """The coder needs its own module alone."""
        code = """
import sys
from lrcstore import coder
import lrcstore
assert {*lrcstore.__all__, "coder"} <= {*dir(lrcstore)}
assert not hasattr(lrcstore, "other")
for name in lrcstore.__all__:
    try:
        getattr(lrcstore, name)
    except ImportError as error:
        assert "_native" in str(error) and str(error).endswith(f": {sys.argv[1]}"), error
    else:
        raise AssertionError(name)
"""
        self.run_without(["_native"], code)

    def test_a_coder_without_its_module(self):
        code = """
import sys
from lrcstore import Store
try:
    from lrcstore import coder
except ImportError as error:
    assert "_coder" in str(error) and str(error).endswith(f": {sys.argv[1]}"), error
else:
    raise AssertionError
"""
        self.run_without(["_coder"], code)

    def test_the_coder_is_in_the_package(self):
        from lrcstore import coder

        data = [bytes([number]) * 8 for number in range(12)]
        fragments = [*data, *coder.encode(data)]
        others = {number: it for number, it in enumerate(fragments) if number != 3}
        self.assertEqual(coder.rebuild(12, others, 3), data[3])

    def test_each_name_is_of_the_store(self):
        self.assertTrue({*lrcstore.__all__} <= {*dir(lrcstore)})
        for name in lrcstore.__all__:
            self.assertIs(getattr(lrcstore, name), getattr(_store, name))


if __name__ == "__main__":
    unittest.main()
