#!/usr/bin/env python3
"""The Python package `lrcstore` over a store that is busy for ever: busy.c is loaded before it."""

import contextlib
import ctypes
import signal
import threading
import time
import unittest

from lrcstore import Busy, Status, Store, StoreError

FOREVER = 60  # seconds that no test takes
SESSIONS = 63  # that a shard lends at a time
# What busy.c counts: puts of bytes; and how a test holds its calls in C.
BUSY = ctypes.CDLL(None)
PUTS = ctypes.c_uint.in_dll(BUSY, "busy_puts")
HOLDS, IS_LET_GO, WAS_LATE, PASSES = (
    ctypes.c_int.in_dll(BUSY, f"busy_{name}")
    for name in ("holds", "is_let_go", "was_late", "passes")
)
CALLS = {
    "put": lambda store: store.put("a", b"x"),
    "put of a long blob": lambda store: store.put("a", bytes(100_000)),
    "get": lambda store: store.get("a"),
    "get of a range": lambda store: store.get("a", 1, 3),
    "get of a long range": lambda store: store.get("a", 1, 100_000),
    "read_into": lambda store: store.read_into("a", 0, bytearray(3)),
    "lend": lambda store: store.lend("a", 1, 3),
    "lend of a long range": lambda store: store.lend("a", 1, 100_000),
    "lend of all": lambda store: store.lend("a"),
    "stat": lambda store: store.stat("a"),
    "delete": lambda store: store.delete("a"),
    "lose": lambda store: store.lose("a", 0, 1),
    "repair": lambda store: store.repair("a", 0, 1),
    "trim": lambda store: store.trim(1),
    "mend": lambda store: store.mend(),
    "hold": lambda store: store.hold("a"),
    "restore": lambda store: store.restore(store.hold("held"), 0, 1, b"abcd"),
    "lost_fragments": lambda store: store.lost_fragments(),
    "numbers": lambda store: store.numbers(),
}
# How many threads wait in busy.c, and whether they return.
CALLERS, IS_OVER = (ctypes.c_int.in_dll(BUSY, f"busy_{name}") for name in ("callers", "is_over"))


def until(condition):
    """Waits until something is so."""
    end = time.monotonic() + FOREVER
    while not condition():
        if time.monotonic() > end:
            raise TimeoutError
        time.sleep(0.001)


def sleeps(thread, looks=20):
    """Whether a thread sleeps in the kernel, by several looks in a row."""
    for _ in range(looks):
        with open(f"/proc/self/task/{thread.native_id}/stat", encoding="ascii") as file:
            if file.read().rsplit(")", 1)[1].split()[0] != "S":
                return False
        time.sleep(0.001)
    return True


@contextlib.contextmanager
def signal_in_call():
    """Sends this thread a signal when it waits in busy.c."""
    here = threading.get_ident()

    def send():
        until(lambda: CALLERS.value > 0)
        signal.pthread_kill(here, signal.SIGALRM)

    sender = threading.Thread(target=send)
    sender.start()
    try:
        yield
    finally:
        sender.join()


class Interrupted(Exception):
    pass


def interrupt(*_):
    raise Interrupted


class BusyForEver(unittest.TestCase):
    def setUp(self):
        self.store = Store(4)

    def test_each_call_ends_at_its_deadline(self):
        for name, call in CALLS.items():
            for seconds in (0, 0.07):
                self.store.timeout = seconds
                began = time.monotonic()
                with self.subTest(name), self.assertRaises(Busy):
                    call(self.store)
                took = time.monotonic() - began
                self.assertTrue(seconds <= took < FOREVER, (name, took))

    def test_a_signal_ends_each_call(self):
        signal.signal(signal.SIGALRM, interrupt)
        self.store.timeout = FOREVER
        for name, call in CALLS.items():
            with self.subTest(name), self.assertRaises(Interrupted), signal_in_call():
                call(self.store)
        self.assertEqual(self.store.close(), (0, False))

    def test_a_put_is_copied_once(self):
        """What is put is copied at the first refusal, and no slice copies it again."""
        self.store.timeout = 0.3
        blob = bytearray(b"x" * 100_000)
        before = PUTS.value
        self.assertRaises(Busy, self.store.put, "a", blob)
        self.assertEqual(PUTS.value - before, 1)

    def test_a_put_that_waits_stores_the_copy(self):
        self.store.timeout = FOREVER
        PASSES.value = 1
        try:
            for blob in (b"", b"HELLO", bytearray(range(200)) * 50, memoryview(bytes(99))[1:]):
                version = self.store.put("a", blob, 6)
                held = self.store.hold("a")
                self.assertEqual((held.number, held.read()), (version, bytes(blob)))
                self.assertEqual(held.shape().data_fragments, 6)
        finally:
            PASSES.value = 0

    def start(self, call, *arguments):
        """A thread that makes a call, which fails. It is in the call when this returns."""
        self.store.timeout = FOREVER
        thread = threading.Thread(target=self.assertRaises, args=(StoreError, call, *arguments))
        thread.start()
        until(lambda: CALLERS.value > 0)
        return thread

    def end(self, *threads):
        IS_OVER.value = 1
        for thread in threads:
            thread.join()
        IS_OVER.value = 0

    def test_other_threads_run_and_the_store_stays_open(self):
        thread = self.start(self.store.stat, "a")  # this thread sees it in the call, so it runs
        with self.assertRaises(StoreError) as caught:
            self.store.close()
        self.assertIs(caught.exception.status, Status.NOT_ALONE)
        self.assertTrue(thread.is_alive())
        self.end(thread)
        self.assertEqual(self.store.close(), (0, False))

    def test_a_call_waits_for_a_session_until_its_deadline(self):
        threads = [self.start(self.store.stat, "a") for _ in range(SESSIONS)]
        until(lambda: CALLERS.value == SESSIONS)
        self.store.timeout = 0.02
        for call in (lambda: self.store.stat("a"), self.store.mend):
            self.assertRaises(Busy, call)
        self.end(*threads)
        self.assertEqual(self.store.close(), (0, False))

    def test_other_threads_run_during_each_long_call(self):
        """The call stays in C until another thread of Python lets it go."""
        held = self.store.hold("held")
        self.store.timeout = FOREVER

        def let_go():
            IS_LET_GO.value = 1

        for what, call in (
            ("delete", lambda: self.store.delete("a")),
            ("trim", lambda: self.store.trim(0)),
            ("mend", self.store.mend),
            ("put of a long blob", CALLS["put of a long blob"].__get__(self.store)),
            ("get of a long range", CALLS["get of a long range"].__get__(self.store)),
            ("lend of a long range", CALLS["lend of a long range"].__get__(self.store)),
            ("read into a buffer", lambda: self.store.read_into("a", 0, bytearray(5000))),
            ("restore", lambda: self.store.restore(held, 0, 1, bytes(65536))),
            ("read of a version", lambda: held.read(0, 100)),
            ("get of a long rest", lambda: self.store.get("held", 10)),
            ("lend of a version", lambda: held.lend(0, 100)),
            ("close", self.store.close),
        ):
            IS_LET_GO.value, HOLDS.value = 0, 1
            timer = threading.Timer(0.02, let_go)
            timer.start()
            try:
                call()
            except StoreError as error:
                self.assertIn(error.status, (Status.NO_NAME, Status.EMPTY), what)
            finally:
                HOLDS.value = 0
            timer.join()
            self.assertEqual(WAS_LATE.value, 0, what)

    def test_one_call_at_a_time_uses_a_version(self):
        held, returned = self.store.hold("held"), []

        def ask():
            self.assertRaises(StoreError, held.shape)  # what busy.c holds has no shape
            returned.append("shape")

        thread = self.start(self.store.restore, held, 0, 1, b"abcd")
        other = threading.Thread(target=ask)
        other.start()
        until(lambda: returned or sleeps(other))
        self.assertEqual(returned, [])
        self.end(thread, other)
        self.assertEqual(returned, ["shape"])

    def test_a_handler_cannot_use_the_version_of_the_call_that_it_interrupts(self):
        held = self.store.hold("held")
        self.store.timeout = FOREVER
        calls = [held.shape, held.read, held.lend, lambda: held.lost(0)]
        for call in (*calls, lambda: held.fragment(0, 0)):
            signal.signal(signal.SIGALRM, lambda *_, use=call: use())
            with self.assertRaises(RuntimeError) as caught, signal_in_call():
                self.store.restore(held, 0, 1, b"abcd")
            self.assertIn("uses the version", str(caught.exception))
            self.assertRaises(StoreError, call)


if __name__ == "__main__":
    unittest.main()
