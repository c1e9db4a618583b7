"""A tarball with the layout of a prefix. All paths in it are relative, so it works wherever it is
unpacked."""

import os
import tempfile

import libraries
from installation import Installation
from packages import licence, record
from packages.reproducible import files_below, sha256, write_tar

# Nothing is at this prefix. It is none of the system's, so pkg-config's files find their own place.
PREFIX = "/nowhere"
PYTHON = "share/lrcstore/python"
SUMS = "share/lrcstore/SHA256SUMS"


def checksums(root):
    """The lines for sha256sum of all files below a folder."""
    for name in files_below(root):
        if not os.path.islink(os.path.join(root, name)):
            yield f"{sha256(os.path.join(root, name))}  {name}"


def fill(root, source, linked, provenance):
    """Puts all files below a folder."""
    files = Installation(root, PREFIX, "lib", PYTHON)
    for name in record.PROGRAMS:
        files.program(os.path.join(source, name))
    files.headers()
    for name in libraries.LIBRARIES:
        files.library(name, linked)
        files.rust(name)
    files.checked(linked)
    files.python_package(linked)
    files.go()
    files.copy(provenance, "share/lrcstore/provenance.json")
    if licence.text():
        files.copy(os.path.join(libraries.TOP, licence.FILE), "share/lrcstore/LICENSE")
    files.write("".join(f"{line}\n" for line in checksums(root)), SUMS)


def pack(source, linked, provenance, dist, number, when):
    """Writes the tarball."""
    with tempfile.TemporaryDirectory() as room:
        root = os.path.join(room, "root")
        fill(root, source, linked, provenance)
        path = os.path.join(dist, f"lrcstore-{number}-linux-x86_64.tar.gz")
        return [write_tar(path, root, f"lrcstore-{number}", when)]
