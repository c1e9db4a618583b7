"""Files that depend on their content alone: times are the commit's, members are sorted, and owners
and modes are fixed."""

import gzip
import hashlib
import os
import tarfile
import time
import zipfile

import libraries

# What a command gets from the environment of whoever packs.
INHERITED = ("PATH", "HOME", "TMPDIR")


def git(*words):
    """What git prints of the clone."""
    return libraries.run("git", "-C", libraries.TOP, *words).strip()


def moment():
    """The time of all files: the commit's, in seconds."""
    return int(git("log", "-1", "--format=%ct"))


def environment(when):
    """The variables of a command that makes files. New files are for all to read: see `settle`."""
    inherited = {it: os.environ[it] for it in INHERITED if it in os.environ}
    return {**inherited, "LC_ALL": "C.UTF-8", "TZ": "UTC", "SOURCE_DATE_EPOCH": str(when)}


def settle(when):
    """Leaves this process, and all that it starts, with these variables and modes."""
    os.umask(0o022)
    settled = environment(when)
    os.environ.clear()
    os.environ.update(settled)
    time.tzset()


def read_bytes(*path):
    with open(os.path.join(*path), "rb") as file:
        return file.read()


def sha256(path):
    return hashlib.sha256(read_bytes(path)).hexdigest()


def files_below(root):
    """The files and links below a folder, by their paths from there, sorted."""
    found = [os.path.join(at, it) for at, _, files in os.walk(root) for it in files]
    return sorted(os.path.relpath(it, root) for it in found)


def normalise(root, when):
    """Gives all below a folder the time and the modes that depend on no clone and no umask."""
    for at, folders, files in os.walk(root):
        for path in (os.path.join(at, it) for it in (*folders, *files)):
            if not os.path.islink(path):
                is_open = os.path.isdir(path) or os.stat(path).st_mode & 0o100
                os.chmod(path, 0o755 if is_open else 0o644)
            os.utime(path, (when, when), follow_symlinks=False)


def member(tar, path, name, when):
    """What a tar says of a file: no owner of this machine, and the least that its mode says."""
    info = tar.gettarinfo(path, name)
    info.uid = info.gid = 0
    info.uname = info.gname = "root"
    info.mtime = when
    info.mode = 0o755 if info.issym() or info.mode & 0o100 else 0o644
    return info


def write_tar(path, root, top, when):
    """Writes all below a folder as a compressed tar, in which all lies below `top`."""
    with open(path, "wb") as raw, gzip.GzipFile(
        filename="", mode="wb", fileobj=raw, mtime=when
    ) as zipped, tarfile.open(fileobj=zipped, mode="w", format=tarfile.GNU_FORMAT) as tar:
        for name in files_below(root):
            info = member(tar, os.path.join(root, name), f"{top}/{name}", when)
            with open(os.path.join(root, name), "rb") as file:
                tar.addfile(info, file if info.isreg() else None)
    return path


def write_zip(path, files, when):
    """Writes a zip of texts and bytes by their names, in the order given."""
    stamp = max(time.gmtime(when)[:6], (1980, 1, 1, 0, 0, 0))
    with zipfile.ZipFile(path, "w") as whole:
        for name, data in files.items():
            info = zipfile.ZipInfo(name, stamp)
            is_open = ".so" in name or ".data/scripts/" in name
            info.external_attr = (0o100755 if is_open else 0o100644) << 16
            info.compress_type = zipfile.ZIP_DEFLATED
            info.create_system = 3
            whole.writestr(info, data, compresslevel=9)
    return path
