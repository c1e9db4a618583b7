#!/usr/bin/env python3
"""A file system in memory, whose files can be read while fragments of them are lost.

    mount.py FOLDER [--width BYTES]

It shows the files of one folder, which has no further folders. Each close of a descriptor that may
write stores the file as one version, and each descriptor that only reads has the version that the
file had when it was opened. Extended attributes stand for what a device and an operator do:
user.lose of a file, set to STRIPE.FRAGMENT, loses a fragment, user.lost tells how many are lost,
and user.mend of the folder, set to anything, repairs all. It ends when it is unmounted.
"""

from __future__ import annotations

import argparse
import contextlib
import errno
import itertools
import os
import re
import stat
import sys
import threading
import time
from typing import Any, Dict, List, Tuple

from lrcstore import NotFound, Status, Store, StoreError, Version, name_of

try:
    from fusepy import FUSE, FuseOSError, Operations  # type: ignore # Debian's name
except ImportError:
    from fuse import FUSE, FuseOSError, Operations  # type: ignore

ERRORS = {
    Status.NO_NAME: errno.ENOENT,
    Status.TOO_LONG: errno.EFBIG,
    Status.NO_MEMORY: errno.ENOMEM,
    Status.NOT_REBUILT: errno.ENOMEM,
    Status.NO_FRAGMENT: errno.EINVAL,
    Status.ALREADY_LOST: errno.EALREADY,
}


# What a file has at most: docs/limits.md.
MOST_STRIPES, DATA_FRAGMENTS = 4096, 12
NO_OWNER = 2**32 - 1  # of a chown that leaves it as it is
serial = itertools.count()


class File:
    """A file. The store has its bytes, and `written` those that were written since.

    Its name in the store is its own, so that a rename changes no blob.
    """

    def __init__(self, mode: int) -> None:
        self.name, self.size, self.mode = name_of(b"%d" % next(serial)), 0, mode
        self.owner, self.group = os.getuid(), os.getgid()
        self.read_at = self.changed = time.time()
        self.written: bytearray | None = bytearray()
        self.is_deleted = False


class Handle:
    """An open file. One that only reads has the version of that time, if there was one."""

    def __init__(self, file: File, writes: bool, version: Version | None = None) -> None:
        self.file, self.writes, self.version = file, writes, version


class Files(Operations):  # type: ignore[misc]
    """What the kernel asks for, as fusepy hands it on."""

    def __init__(self, store: Store, longest: int) -> None:
        self._store, self._longest = store, longest
        self._files: Dict[str, File] = {}
        self._handles: Dict[int, Handle] = {}
        self._numbers = itertools.count(1)
        self._lock = threading.RLock()  # of all files

    def __call__(self, operation: str, *words: Any) -> Any:
        try:
            return super().__call__(operation, *words)
        except StoreError as error:
            raise FuseOSError(ERRORS.get(error.status, errno.EIO)) from error
        except MemoryError as error:
            raise FuseOSError(errno.ENOMEM) from error

    def _file(self, path: str) -> File:
        with self._lock:
            if path not in self._files:
                raise FuseOSError(errno.ENOENT)
            return self._files[path]

    def _opened(self, handle: Handle) -> int:
        number = next(self._numbers)
        self._handles[number] = handle
        return number

    def _bytes(self, file: File) -> bytearray:
        """The bytes of a file that is being written."""
        if file.written is None:
            file.written = bytearray(self._store.get(file.name))
        return file.written

    def _resized(self, file: File, length: int) -> None:
        """Refuses a file that is longer than a blob can be, before it has the bytes."""
        if length > self._longest:
            raise FuseOSError(errno.EFBIG)
        if length == 0:  # what cannot be read can be written over
            file.written = bytearray()
        written = self._bytes(file)
        del written[length:]
        written.extend(bytes(length - len(written)))
        file.size, file.changed = length, time.time()

    def _store_written(self, file: File) -> None:
        if file.written is not None and not file.is_deleted:
            self._store.put(file.name, file.written)
            file.written = None

    def _delete(self, file: File) -> None:
        """Deletes what the store has of a file: nothing, if it was never closed."""
        file.is_deleted = True
        with contextlib.suppress(NotFound):
            self._store.delete(file.name)

    # ---- what there is

    def getattr(self, path: str, handle: int | None = None) -> Dict[str, float]:
        if path == "/":
            owner = {"st_uid": os.getuid(), "st_gid": os.getgid()}
            return {"st_mode": stat.S_IFDIR | 0o755, "st_nlink": 2, **owner}
        file = self._handles[handle].file if handle else self._file(path)
        return {
            "st_mode": stat.S_IFREG | file.mode,
            "st_nlink": 1,
            "st_size": file.size,
            "st_uid": file.owner,
            "st_gid": file.group,
            "st_atime": file.read_at,
            "st_mtime": file.changed,
            "st_ctime": file.changed,
        }

    def readdir(self, path: str, handle: int) -> List[str]:
        with self._lock:
            return [".", "..", *(name[1:] for name in self._files)]

    def open(self, path: str, flags: int) -> int:
        with self._lock:
            file = self._file(path)
            if flags & os.O_ACCMODE != os.O_RDONLY:
                if flags & os.O_TRUNC:
                    self._resized(file, 0)
                return self._opened(Handle(file, True))
            version = None
            with contextlib.suppress(NotFound):  # it was never closed
                version = self._store.hold(file.name)
            return self._opened(Handle(file, False, version))

    def read(self, path: str, size: int, offset: int, handle: int) -> bytes:
        """Reads the version of the handle, or what was written by any that writes."""
        opened = self._handles[handle]
        version = opened.version
        with self._lock:
            if opened.writes and opened.file.written is not None:
                return bytes(opened.file.written[offset : offset + size])
            if opened.writes:
                version = self._store.hold(opened.file.name)
        if version is None:
            return b""
        start = min(offset, version.size)
        return version.read(start, min(size, version.size - start))

    # ---- changes

    def create(self, path: str, mode: int) -> int:
        with self._lock:
            file = self._files.setdefault(path, File(stat.S_IMODE(mode)))
            self._resized(file, 0)
            return self._opened(Handle(file, True))

    def write(self, path: str, data: bytes, offset: int, handle: int) -> int:
        with self._lock:
            file = self._handles[handle].file
            self._resized(file, max(offset + len(data), file.size))
            self._bytes(file)[offset : offset + len(data)] = data
        return len(data)

    def truncate(self, path: str, length: int, handle: int | None = None) -> None:
        with self._lock:
            file = self._handles[handle].file if handle else self._file(path)
            self._resized(file, length)
            if not handle:  # nobody will close it
                self._store_written(file)

    def flush(self, path: str, handle: int) -> None:
        with self._lock:
            if self._handles[handle].writes:
                self._store_written(self._handles[handle].file)

    def fsync(self, path: str, only_data: int, handle: int) -> None:
        self.flush(path, handle)

    def release(self, path: str, handle: int) -> None:
        with self._lock:
            del self._handles[handle]

    def unlink(self, path: str) -> None:
        with self._lock:
            self._delete(self._file(path))
            del self._files[path]

    def rename(self, old: str, new: str) -> None:
        with self._lock:
            file, before = self._file(old), self._files.get(new)
            del self._files[old]
            self._files[new] = file
            if before is not None and before is not file:
                self._delete(before)

    def chmod(self, path: str, mode: int) -> None:
        self._file(path).mode = stat.S_IMODE(mode)

    def chown(self, path: str, owner: int, group: int) -> None:
        file = self._file(path)
        if owner not in (-1, NO_OWNER):
            file.owner = owner
        if group not in (-1, NO_OWNER):
            file.group = group

    def utimens(self, path: str, times: Tuple[float, float] | None = None) -> None:
        now = time.time()
        file = self._file(path)
        file.read_at, file.changed = times or (now, now)

    # ---- fragments

    def setxattr(self, path: str, name: str, value: bytes, flags: int) -> None:
        asked = re.fullmatch(rb"(\d+)\.(\d+)", value)
        if name == "user.mend" and path == "/":
            self._store.mend()
        elif name == "user.lose" and asked:
            self._store.lose(self._file(path).name, int(asked[1]), int(asked[2]))
        elif name in ("user.lose", "user.mend"):
            raise FuseOSError(errno.EINVAL)
        else:
            raise FuseOSError(errno.ENOTSUP)

    def getxattr(self, path: str, name: str, position: int = 0) -> bytes:
        if name != "user.lost" or path == "/":
            raise FuseOSError(errno.ENODATA)
        return b"%d" % self._store.stat(self._file(path).name).lost

    def listxattr(self, path: str) -> List[str]:
        return [] if path == "/" else ["user.lost"]


def main() -> None:
    parser = argparse.ArgumentParser(description=__doc__.splitlines()[0])
    parser.add_argument("folder")
    parser.add_argument("--width", type=int, default=4096, help="bytes of a fragment")
    given = parser.parse_args()
    try:
        with Store(given.width, shards=16) as store:
            files = Files(store, MOST_STRIPES * DATA_FRAGMENTS * given.width)
            # Without direct_io the kernel would keep pages of one version for readers of another;
            # without atomic_o_trunc a file that is overwritten would be empty for a while.
            options = {"fsname": "lrcstore", "direct_io": True, "atomic_o_trunc": True}
            FUSE(files, given.folder, foreground=True, **options)
    except StoreError as error:
        parser.error(str(error))
    except RuntimeError:  # FUSE has printed why
        sys.exit(f"mount.py: nothing is mounted at {given.folder}")


if __name__ == "__main__":
    main()
