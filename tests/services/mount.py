#!/usr/bin/env python3
"""examples/mount, driven through the kernel: mount.py [--can]

With --can it only sees whether this system mounts such a file system: status 0 if so."""

import errno
import os
import subprocess
import sys
import tempfile
import time
import unittest

HERE = os.path.dirname(os.path.abspath(__file__))
PROGRAM = os.path.join(HERE, "..", "..", "examples", "mount", "mount.py")
PATIENCE = 60  # seconds that no step takes


def bytes_of(length):
    return bytes((7 * i + i // 251) % 256 for i in range(length))


class Mounted:
    """The program with a folder, until its end."""

    def __init__(self, *words):
        self.folder = tempfile.mkdtemp()
        self.process = subprocess.Popen([sys.executable, PROGRAM, self.folder, *words])
        end = time.monotonic() + PATIENCE
        while not os.path.ismount(self.folder):
            if self.process.poll() is not None or time.monotonic() > end:
                self.process.kill()
                raise OSError("nothing was mounted")
            time.sleep(0.02)

    def end(self):
        """Unmounts it, and gives the status of the program."""
        subprocess.run(["fusermount", "-u", self.folder], check=True)
        status = self.process.wait(PATIENCE)
        os.rmdir(self.folder)
        return status


class Files(unittest.TestCase):
    def setUp(self):
        self.mounted = Mounted("--width", "16")

    def tearDown(self):
        self.assertEqual(self.mounted.end(), 0)

    def path(self, name):
        return os.path.join(self.mounted.folder, name)

    def write(self, name, data):
        with open(self.path(name), "wb") as file:
            file.write(data)

    def read(self, name):
        with open(self.path(name), "rb") as file:
            return file.read()

    def fails(self, number, call, *words):
        with self.assertRaises(OSError) as caught:
            call(*words)
        self.assertEqual(caught.exception.errno, number)

    def lost(self, name):
        return int(os.getxattr(self.path(name), "user.lost"))

    def lists(self, *names):
        """The folder comes to have these names: the kernel tells of a close after it has returned,
        and FUSE keeps a file that is removed before under a hidden name."""
        end = time.monotonic() + PATIENCE
        while (found := os.listdir(self.mounted.folder)) != list(names) and time.monotonic() < end:
            time.sleep(0.02)
        self.assertEqual(found, list(names))

    def test_files_come_back(self):
        for name in ("a", "A Long Name, of Letters that no name of the store has.txt"):
            for length in (0, 1, 191, 192, 193, 300_000):
                self.write(name, bytes_of(length))
                self.assertEqual(self.read(name), bytes_of(length))
                self.assertEqual(os.stat(self.path(name)).st_size, length)
        self.assertEqual(len(os.listdir(self.mounted.folder)), 2)
        self.fails(errno.ENOENT, self.read, "b")
        self.fails(errno.EFBIG, self.write, "b", bytes_of(800_000))

    def test_parts_of_a_file(self):
        self.write("a", bytes_of(1000))
        with open(self.path("a"), "r+b") as file:
            file.seek(1200)
            file.write(b"end")
            file.seek(10)
            file.write(b"middle")
            file.flush()
            self.assertEqual(os.stat(self.path("a")).st_size, 1203)
            file.seek(8)
            self.assertEqual(file.read(10), bytes_of(10)[8:] + b"middle" + bytes_of(18)[16:])
        wanted = bytes_of(10) + b"middle" + bytes_of(1000)[16:] + bytes(200) + b"end"
        self.assertEqual(self.read("a"), wanted)
        os.truncate(self.path("a"), 1300)
        self.assertEqual(self.read("a"), wanted + bytes(97))
        os.truncate(self.path("a"), 3)
        self.assertEqual(self.read("a"), wanted[:3])

    def test_names(self):
        self.write("a", b"first")
        self.write("b", b"second")
        os.rename(self.path("a"), self.path("b"))
        self.lists("b")
        self.assertEqual(self.read("b"), b"first")
        os.unlink(self.path("b"))
        self.lists()
        self.fails(errno.ENOENT, os.unlink, self.path("b"))
        self.write("b", b"third")
        self.assertEqual(self.read("b"), b"third")
        # a new file of the old name is another one
        os.rename(self.path("b"), self.path("B"))
        self.write("b", b"fourth")
        self.assertEqual((self.read("B"), self.read("b")), (b"third", b"fourth"))
        os.rename(self.path("b"), self.path("c"))
        os.rename(self.path("B"), self.path("b"))
        os.rename(self.path("c"), self.path("B"))
        self.assertEqual((self.read("B"), self.read("b")), (b"fourth", b"third"))
        os.unlink(self.path("b"))
        self.lists("B")
        self.assertEqual(self.read("B"), b"fourth")

    def test_open_files(self):
        """A file is stored by fsync, and can be renamed and removed before it is closed."""
        with open(self.path("a"), "w+b") as file:
            file.write(b"first")
            file.flush()
            self.fails(errno.ENOENT, self.lost, "a")
            os.fsync(file.fileno())
            self.assertEqual(self.lost("a"), 0)
        with open(self.path("b"), "w+b") as file:
            file.write(b"second")
            file.flush()
            os.rename(self.path("b"), self.path("c"))
            self.assertEqual(self.read("c"), b"")  # it was never closed
            os.unlink(self.path("c"))
            file.seek(0)
            self.assertEqual(file.read(), b"second")
        self.lists("a")
        with open(self.path("a"), "r+b") as file:
            file.write(b"other")
            os.unlink(self.path("a"))
        self.lists()

    def test_a_reader_has_one_version(self):
        first, second = b"a" * 600_000, b"b" * 500_000
        self.write("a", first)
        with open(self.path("a"), "rb", 0) as reader:
            found = reader.read(100_000)
            self.write("a", second)
            while part := reader.read(100_000):
                found += part
        self.assertEqual(found, first)
        self.assertEqual(self.read("a"), second)

    def test_a_file_that_is_written_is_not_read(self):
        """Neither before it is closed, nor because a reader closes it."""
        self.write("a", b"stored")
        for mode in ("wb", "r+b", "ab"):
            with open(self.path("a"), mode, 0) as writer:
                writer.write(b"written")
                for _ in range(2):
                    self.assertEqual(self.read("a"), b"stored")
                descriptor = os.dup(writer.fileno())
            os.close(descriptor)
            self.assertIn(b"written", self.read("a"))
            self.write("a", b"stored")
        with open(self.path("b"), "wb", 0) as writer:
            writer.write(b"written")
            self.assertEqual(self.read("b"), b"")

    def test_a_deleted_file_is_not_stored(self):
        self.write("a", b"first")
        self.write("b", b"second")
        with open(self.path("b"), "wb", 0) as writer:
            writer.write(b"third")
            os.rename(self.path("a"), self.path("b"))
        self.lists("b")
        self.assertEqual(self.read("b"), b"first")
        os.rename(self.path("b"), self.path("b"))
        self.assertEqual(self.read("b"), b"first")

    def test_a_file_that_is_too_long_is_refused_before_it_is_made(self):
        self.write("a", b"stored")
        longest = 12 * 16 * 4096
        for length in (longest + 1, 300_000_000_000, 2**62):
            self.fails(errno.EFBIG, os.truncate, self.path("a"), length)
        with open(self.path("a"), "r+b", 0) as file:
            self.fails(errno.EFBIG, file.truncate, 2**40)
            file.seek(2**40)
            self.fails(errno.EFBIG, file.write, b"x")
        self.assertEqual(self.read("a"), b"stored")
        os.truncate(self.path("a"), longest)
        self.assertEqual(self.read("a"), b"stored".ljust(longest, b"\0"))

    def test_attributes(self):
        """What `cp -p` keeps."""
        self.write("A", b"upper case")
        self.write("a", b"lower case")
        path = self.path("a")
        os.chmod(path, 0o640)
        os.utime(path, (1000, 2000))
        os.chown(path, -1, -1)
        found = os.stat(path)
        self.assertEqual(found.st_mode & 0o7777, 0o640)
        self.assertEqual((found.st_atime, found.st_mtime), (1000, 2000))
        self.assertEqual((found.st_uid, found.st_gid), (os.getuid(), os.getgid()))
        subprocess.run(["cp", "-p", path, self.path("b")], check=True)
        self.assertEqual(os.stat(self.path("b")).st_mtime, 2000)
        self.assertEqual((self.read("A"), self.read("b")), (b"upper case", b"lower case"))
        self.fails(errno.ENOTSUP, os.setxattr, path, "user.other", b"x")

    def test_fragments_fail(self):
        self.write("a", bytes_of(1000))
        lose = lambda what: os.setxattr(self.path("a"), "user.lose", what)  # noqa: E731
        for what in (b"0.0", b"0.13", b"5.15"):
            lose(what)
        self.assertEqual((self.lost("a"), os.listxattr(self.path("a"))), (3, ["user.lost"]))
        self.assertEqual(self.read("a"), bytes_of(1000))
        self.fails(errno.EALREADY, lose, b"0.0")
        for what in (b"6.0", b"0.16"):
            self.fails(errno.EINVAL, lose, what)
        self.fails(errno.EINVAL, lose, b"0")
        self.fails(errno.EINVAL, os.setxattr, self.path("a"), "user.mend", b"")
        self.fails(errno.ENODATA, os.getxattr, self.path("a"), "user.other")
        os.setxattr(self.mounted.folder, "user.mend", b"now")
        self.assertEqual((self.lost("a"), self.read("a")), (0, bytes_of(1000)))
        for fragment in range(2, 6):
            lose(b"1.%d" % fragment)
        self.fails(errno.EIO, self.read, "a")
        self.write("a", b"new")
        self.assertEqual((self.lost("a"), self.read("a")), (0, b"new"))


class Words(unittest.TestCase):
    def test_mistakes(self):
        for words, status, said in (
            (["/nowhere/at/all"], 1, "nothing is mounted at /nowhere/at/all"),
            ([tempfile.gettempdir(), "--width", "0"], 2, "the width is not in 1 to 65,536"),
            ([], 2, "the following arguments are required: folder"),
        ):
            command = [sys.executable, PROGRAM, *words]
            ran = subprocess.run(command, stderr=subprocess.PIPE, text=True)
            self.assertEqual((ran.returncode, "Traceback" in ran.stderr), (status, False))
            self.assertIn(said, ran.stderr)


def can_mount():
    try:
        return Mounted().end() == 0
    except (OSError, subprocess.CalledProcessError):
        return False


if __name__ == "__main__":
    if sys.argv[1:] == ["--can"]:
        sys.exit(not can_mount())
    unittest.main()
