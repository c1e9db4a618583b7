"""A store that all threads of a process share."""

from __future__ import annotations

import enum
import math
from typing import Any, List, NamedTuple, Tuple, Union

try:
    from . import _native
except ImportError as error:
    hint = "install a package of lrcstore, or compile the module by tools/python_extension.py"
    raise ImportError(f"{error}: {hint}") from error

Name = Union[str, bytes]
# No call waits so long: 31 years.
_LONGEST_SECONDS = 10**9
Buffer = Union[bytes, bytearray, memoryview]


class Status(enum.IntEnum):
    """What a function of the library returns, and what a journal entry has."""

    DONE = 0
    BUSY = 1
    NO_NAME = 2
    OUT_OF_RANGE = 3
    UNRECOVERABLE = 4
    NO_FRAGMENT = 5
    ALREADY_LOST = 6
    NOT_LOST = 7
    NO_MEMORY = 8
    JOURNAL_FULL = 9
    TOO_LONG = 10
    BAD_NAME = 11
    BAD_WIDTH = 12
    NO_PASS = 13
    EMPTY = 14
    OCCUPIED = 15
    BAD_ARGUMENT = 16
    NOT_ALONE = 17
    NOT_REBUILT = 18
    NOTHING_LEFT = 19
    REPLACED = 20


class StoreError(Exception):
    """A call failed. `arguments` are those of the call: a put has the blob's length in place of it.

    `repaired` is the number of fragments that a mend repaired before it stopped.
    """

    def __init__(
        self, call: str, arguments: Tuple[object, ...], status: Status, repaired: int | None = None
    ) -> None:
        shown = f"{call}({', '.join(map(repr, arguments))})"
        after = "" if repaired is None else f" after {repaired} repaired fragments"
        self.text = f"{shown}{after}: {_native.text(status)}"
        super().__init__(self.text)
        self.call, self.arguments, self.status, self.repaired = call, arguments, status, repaired

    def __str__(self) -> str:
        return self.text

    def __reduce__(self) -> Tuple[Any, ...]:
        return type(self), (self.call, self.arguments, self.status, self.repaired)


class NotFound(StoreError, KeyError):
    """The name has no blob."""


class Busy(StoreError, TimeoutError):
    """The store's timeout has passed, and another thread was in the critical section."""


class OutOfMemory(StoreError, MemoryError):
    """The store is out of memory."""


_ERRORS = {
    Status.NO_NAME: NotFound,
    Status.BUSY: Busy,
    Status.NO_MEMORY: OutOfMemory,
    Status.NOT_REBUILT: OutOfMemory,
}


def _check(status: int, call: str, *arguments: object) -> None:
    """Raises StoreError if the call with these arguments failed."""
    if status != Status.DONE:
        raise _ERRORS.get(Status(status), StoreError)(call, arguments, Status(status))


class Shape(NamedTuple):
    """A blob's version, its length in bytes, and the numbers of its stripes and lost fragments."""

    version: int
    len: int
    stripes: int
    lost: int


class VersionShape(NamedTuple):
    """A held version's number, its length in bytes, the numbers of its stripes and lost fragments,
    the bytes of a fragment, and the data fragments of a stripe: 12 or 6."""

    version: int
    len: int
    stripes: int
    lost: int
    width: int
    data_fragments: int


class LostFragment(NamedTuple):
    """A lost fragment of a blob."""

    name: str
    version: int
    stripe: int
    fragment: int


class Numbers(NamedTuple):
    """The numbers of a store: of blobs, of their bytes, lost fragments and unrecoverable stripes,
    of calls, and of entries in the journal."""

    blobs: int
    bytes: int
    lost: int
    unrecoverable: int
    calls: int
    entries: int


class Closed(NamedTuple):
    """The number of entries in a closed store's journal, and whether a check found them lawful.

    `is_checked` is false if there was no memory for the check, or no journal.
    """

    entries: int
    is_checked: bool


def name_of(key: Union[str, Buffer]) -> str:
    """A name for a key of any characters or bytes. Nobody has found two keys with one name."""
    return _native.name(key.encode() if isinstance(key, str) else key)


class _Keyword(str):
    """An argument that an error shows with its name."""

    __repr__ = str.__str__


def _length(buffer: Buffer) -> int:
    return memoryview(buffer).nbytes


class Grant:
    """A range of a blob that is lent without a copy. Any thread may use it.

    Its bytes stay as they are, whatever happens to the blob and to the store, until the grant and
    all views of it are gone. At the end of a `with` block it lets go of its views, and raises
    ValueError from then on. `version` is the number of the put that stored the blob.
    """

    def __init__(self, version: int, runs: List[memoryview] | None) -> None:
        self.version, self._runs = version, runs

    @property
    def runs(self) -> List[memoryview]:
        """The bytes as read-only views, in order: those that lie one behind another are a run.

        A blob that never lost a fragment is one run.
        """
        found = self._runs
        if found is None:
            raise ValueError("the grant has ended: use it inside its with block")
        return found

    def __bytes__(self) -> bytes:
        return b"".join(self.runs)

    def __enter__(self) -> Grant:
        return self

    def __exit__(self, *_: object) -> None:
        self._runs = None


class Version:
    """A version of a blob that is held, by `Store.hold`. Any thread may call it.

    It stays as it is while this lives, whatever happens to the blob and to the store. Its calls
    take no lock of the store and make no journal entry. `number` is that of the put that stored it,
    and `size` its length in bytes.
    """

    def __init__(self, held: _native.Held, number: int, size: int) -> None:
        self._held, self.number, self.size = held, number, size

    def shape(self) -> VersionShape:
        """Its shape. The lost fragments are counted through all stripes."""
        status, *shape = self._held.shape()
        _check(status, "shape")
        return VersionShape(*shape)

    def lost(self, stripe: int) -> List[int]:
        """The fragments of a stripe that were lost when it was held."""
        status, bits = self._held.lost(stripe)
        _check(status, "lost", stripe)
        return [fragment for fragment in range(16) if bits >> fragment & 1]

    def read(self, start: int = 0, length: int | None = None) -> bytes:
        """A copy of `length` bytes from the byte `start` on. Without a length it is all of them."""
        status, found = self._held.read(start, self._wanted(start, length))
        _check(status, "read", start, length)
        return found or b""

    def lend(self, start: int = 0, length: int | None = None) -> Grant:
        """Lends the bytes that `read` copies."""
        status, runs = self._held.lend(start, self._wanted(start, length), _native.Lent())
        _check(status, "lend", start, length)
        return Grant(self.number, runs)

    def _wanted(self, start: int, length: int | None) -> int:
        return max(0, self.size - start) if length is None else length

    def fragment(self, stripe: int, fragment: int) -> bytes:
        """A copy of a fragment of a stripe, data or parity."""
        status, found = self._held.fragment(stripe, fragment)
        _check(status, "fragment", stripe, fragment)
        return found or b""


class Store:
    """An in-memory store of blobs. Any thread may call it, and any number at once.

    A name has 1 to 32 bytes of a-z, 0-9, '.', '_' and '-', as str or bytes. A call waits while
    other threads are in the critical section, as long as `timeout` allows, and Ctrl-C interrupts
    it, also a mend. Calls are short: a coroutine can make them directly, and those of blobs of
    megabytes by `asyncio.to_thread`. Other threads of Python run during a long one. As a context
    manager it closes the store at the end of the block, unless the block raised.
    """

    def __init__(self, width: int, *, limit: int | None = None, shards: int = 1) -> None:
        """Opens a store whose fragments have `width` bytes, 1 to 65,536.

        Each blob except an empty one takes at least 16 (or 10) fragments, however few bytes it has.
        Each name belongs to one of its 1 to 64 shards. Calls of names of different shards do not
        wait for each other. Without a limit it has no journal, as a service wants it, and with one
        a journal of at most `limit` entries for each shard.
        """
        self._calls = _native.Calls()
        self._timeout: float | None = None
        self._timeout_ms = -1
        status = self._calls.open(width, limit, shards)[0]
        if status:
            of_shards = [] if shards == 1 else [_Keyword(f"shards={shards}")]
            _check(status, "open", width, *([] if limit is None else [limit]), *of_shards)

    @property
    def timeout(self) -> float | None:
        """How many seconds a call waits at most, before it raises Busy. None: for ever.

        A mend has this for each of its steps.
        """
        return self._timeout

    @timeout.setter
    def timeout(self, seconds: float | None) -> None:
        if seconds is not None and not seconds >= 0:
            raise ValueError(f"timeout {seconds} is neither None nor at least 0")
        self._timeout = seconds
        is_endless = seconds is None or seconds > _LONGEST_SECONDS
        self._timeout_ms = -1 if is_endless else math.ceil((seconds or 0) * 1000)

    def put(self, name: Name, blob: Buffer, data_fragments: int = 12) -> int:
        """Stores a copy of a blob, which may be any buffer, and returns its version.

        The code is LRC(12,2,2) or LRC(6,2,2), as `data_fragments` is 12 or 6.
        """
        status, version = self._calls.put(name, blob, data_fragments, self._timeout_ms)
        if status:
            _check(status, "put", name, _length(blob), data_fragments)
        return version

    def get(self, name: Name, start: int = 0, length: int | None = None) -> bytes:
        """A copy of `length` bytes of a blob from the byte `start` on, all of one version.

        Without a length it is all bytes from there on.
        """
        status, _, found = self._calls.get(name, start, length, self._timeout_ms)
        if found is None:
            _check(status, "get", name, start, length)
            raise AssertionError("a call that succeeds returns bytes")
        return found

    def read_into(self, name: Name, start: int, buffer: bytearray | memoryview) -> int:
        """Copies as many bytes of a blob as the buffer has, from the byte `start` on.

        Returns the version. After OutOfMemory, any byte of the buffer may have been written.
        """
        status, version = self._calls.read_into(name, start, buffer, self._timeout_ms)
        if status:
            _check(status, "read_into", name, start, _length(buffer))
        return version

    def lend(self, name: Name, start: int = 0, length: int | None = None) -> Grant:
        """Lends the bytes that `get` copies, of one version."""
        lent, runs = _native.Lent(), None
        if length is None:
            held, status, version, size = self._hold(name)
            if not status:
                status, runs = held.lend(start, max(0, size - start), lent)
        else:
            status, version, runs = self._calls.lend(name, start, length, lent, self._timeout_ms)
        if status:
            _check(status, "lend", name, start, length)
        return Grant(version, runs)

    def stat(self, name: Name) -> Shape:
        """The shape of a blob."""
        status, *shape = self._calls.stat(name, self._timeout_ms)
        if status:
            _check(status, "stat", name)
        return Shape(*shape)

    def delete(self, name: Name) -> int:
        """Deletes a blob, and returns the version that it had."""
        status, version = self._calls.delete(name, self._timeout_ms)
        if status:
            _check(status, "delete", name)
        return version

    def lose(self, name: Name, stripe: int, fragment: int) -> int:
        """Loses a fragment of a stripe, as after a disk failure."""
        status, version = self._calls.lose(name, stripe, fragment, self._timeout_ms)
        if status:
            _check(status, "lose", name, stripe, fragment)
        return version

    def repair(self, name: Name, stripe: int, fragment: int) -> int:
        """Repairs a lost fragment of a stripe."""
        status, version = self._calls.repair(name, stripe, fragment, self._timeout_ms)
        if status:
            _check(status, "repair", name, stripe, fragment)
        return version

    def mend(self) -> int:
        """Repairs all lost fragments that can be rebuilt, and returns their number.

        Threads that mend at once begin with different shards. If it stops before, the error has the
        number of those that it repaired.
        """
        status, repaired = self._calls.mend(self._timeout_ms)
        if status:
            kind = _ERRORS.get(Status(status), StoreError)
            raise kind("mend", (), Status(status), repaired)
        return repaired

    def hold(self, name: Name) -> Version:
        """Holds the version that a blob has now."""
        held, status, number, size = self._hold(name)
        if status:
            _check(status, "hold", name)
        return Version(held, number, size)

    def _hold(self, name: Name) -> Tuple[_native.Held, int, int, int]:
        held = _native.Held()
        return (held, *self._calls.hold(name, held, self._timeout_ms))

    def restore(self, known: Version, stripe: int, fragment: int, whole: Buffer) -> int:
        """Restores a lost fragment of a version with its bytes, whatever else is lost.

        They may come from another machine. The caller ensures that the fragment has these bytes.
        Returns the version. The status is REPLACED if the name has another one by now.
        """
        status, version = self._calls.restore(
            known._held, stripe, fragment, whole, self._timeout_ms
        )
        if status:
            _check(status, "restore", stripe, fragment, _length(whole))
        return version

    def lost_fragments(self) -> List[LostFragment]:
        """The lost fragments of all blobs, by shard, name, stripe and fragment.

        They are listed in parts, each as of a moment of its own.
        """
        status, found = self._calls.lost_fragments(self._timeout_ms)
        if status:
            _check(status, "lost_fragments")
        return [LostFragment(*each) for each in found]

    def numbers(self) -> Numbers:
        """The numbers of all shards together, each counted at a moment of its own."""
        status, *numbers = self._calls.numbers(self._timeout_ms)
        if status:
            _check(status, "numbers")
        return Numbers(*numbers)

    def trim(self, keep: int) -> int:
        """Discards all entries of each shard's journal but the last `keep`, and returns how many
        these are."""
        status, discarded = self._calls.trim(keep, self._timeout_ms)
        if status:
            _check(status, "trim", keep)
        return discarded

    def close(self) -> Closed:
        """Closes the store, and releases its memory. No call of another thread may be inside."""
        status, entries, lawful = self._calls.close()
        if status:
            _check(status, "close")
        return Closed(entries, lawful == 1)

    def __enter__(self) -> Store:
        return self

    def __exit__(self, failure: object, *_: object) -> None:
        if failure is None:
            self.close()
