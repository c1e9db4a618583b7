"""How two folders with the packages of a release differ, down to the members of packages."""

import glob
import hashlib
import io
import json
import os
import sys
import tarfile
import zipfile

from packages.packing import SUMS
from packages.reproducible import read_bytes, sha256

PROVENANCE = "lrcstore-*.provenance.json"
ENDS = {"deb": ".deb", "wheel": ".whl", "crate": ".crate", "tar": "-x86_64.tar.gz"}
ENDS["assembly"] = "-assembly.tar.gz"
# A package that is made unless --no-plugins is given.
PLUGIN = "ceph-plugin-azure-lrc_"


def provenance_of(dist):
    """The provenance of a release. It ends if no commit has what was packed."""
    (path,) = glob.glob(os.path.join(dist, PROVENANCE))
    with open(path, encoding="utf-8") as file:
        origin = json.load(file)
    if origin["packed"]["changed"]:
        sys.exit(f"{path}: files differed from those of the commit, so it can't be made again")
    return origin


def kinds_of(names):
    """The kinds of packages among these files."""
    return [kind for kind, end in ENDS.items() if any(it.endswith(end) for it in names)]


def options_of(names):
    """The options of `tools/package.py pack` that these files were made with."""
    has_plugins = any(it.startswith(PLUGIN) for it in names)
    return ["--unlicensed", *([] if has_plugins else ["--no-plugins"])]


def wrong_sums(dist):
    """The files that the checksums don't name, or name otherwise."""
    with open(os.path.join(dist, SUMS), encoding="utf-8") as file:
        listed = dict(reversed(line.split(maxsplit=1)) for line in file.read().splitlines())
    for name in sorted({*listed, *os.listdir(dist)} - {SUMS}):
        path = os.path.join(dist, name)
        if name not in listed:
            yield f"{name}: {SUMS} does not name it"
        elif not os.path.exists(path):
            yield f"{name}: {SUMS} names it, and it is not there"
        elif listed[name] != sha256(path):
            yield f"{name}: {SUMS} has another checksum"


def tar_members(data):
    """The members of a tar: each with all that it says of one."""
    with tarfile.open(fileobj=io.BytesIO(data)) as tar:
        for it in tar:
            file = tar.extractfile(it) if it.isreg() else None
            digest = hashlib.sha256(file.read()).hexdigest() if file else it.linkname
            yield it.name, (digest, it.mode, it.mtime, it.uname, it.type)


def zip_members(data):
    with zipfile.ZipFile(io.BytesIO(data)) as whole:
        for it in whole.infolist():
            digest = hashlib.sha256(whole.read(it)).hexdigest()
            yield it.filename, (digest, it.external_attr, it.date_time)


def deb_members(data):
    """The members of both archives that a Debian package has: an ar of tars."""
    at = 8
    while at + 60 <= len(data):
        name = data[at : at + 16].decode().strip().rstrip("/")
        size = int(data[at + 48 : at + 58])
        body = data[at + 60 : at + 60 + size]
        if ".tar" in name:
            yield from ((f"{name.split('.')[0]}: {it}", said) for it, said in tar_members(body))
        else:
            yield name, body
        at += 60 + size + size % 2


def json_members(data):
    """The values of a JSON text by their places."""

    def walk(value, place):
        if isinstance(value, (dict, list)):
            each = value.items() if isinstance(value, dict) else enumerate(value)
            for key, below in each:
                yield from walk(below, f"{place}.{key}" if place else str(key))
        else:
            yield place, value

    return walk(json.loads(data), "")


MEMBERS = {".deb": deb_members, ".whl": zip_members, ".json": json_members}
MEMBERS.update({".crate": tar_members, ".tar.gz": tar_members})


def members(name, data):
    """The members of a file by their names, or None if it isn't one that has any."""
    for end, read in MEMBERS.items():
        if name.endswith(end):
            try:
                return dict(read(data))
            except (ValueError, tarfile.TarError, zipfile.BadZipFile, EOFError, OSError):
                return None
    return None


def difference(name, data, other):
    """Says where two files of a name differ."""
    first, second = members(name, data), members(name, other)
    if first is None or second is None:
        return f"{name}: {len(data)} and {len(other)} bytes"
    places = [it for it in sorted({*first, *second}) if first.get(it) != second.get(it)]
    return f"{name}: {', '.join(places) or 'the same members, packed otherwise'}"


def differences(dist, again):
    """The files of a release that are missing or not the same in the folder `again`."""
    for name in sorted({*os.listdir(dist), *os.listdir(again)}):
        pair = [os.path.join(it, name) for it in (dist, again)]
        if not os.path.exists(pair[0]):
            yield f"{name}: only made again"
        elif not os.path.exists(pair[1]):
            yield f"{name}: not made again"
        elif read_bytes(pair[0]) != read_bytes(pair[1]):
            yield difference(name, read_bytes(pair[0]), read_bytes(pair[1]))
