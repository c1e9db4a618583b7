#!/usr/bin/env python3
"""Compares lrcstore/coder/reedsolomon with github.com/klauspost/reedsolomon, as Debian has it.

    tests/library/klauspost.py FOLDER

FOLDER is a new one. It gets a GOPATH with two packages: the tests of klauspost/both, which use both
modules, and the tests of that module itself, by klauspost/adapter over ours. What is taken of them
has other numbers of shards. LRC_LIBRARIES names the folder of the libraries.
"""

import os
import re
import shutil
import subprocess
import sys

HERE = os.path.dirname(os.path.abspath(__file__))
TOP = os.path.dirname(os.path.dirname(HERE))
DEBIAN = "/usr/share/gocode"
SOURCES = os.path.join(DEBIAN, "src", "github.com", "klauspost", "reedsolomon")

# The functions that apply. Others are of matrices, of streams, or have bytes of Reed-Solomon.
TESTS = (
    "TestEncoding testEncoding TestUpdate testUpdate TestReconstruct testReconstruct"
    " TestReconstructData testReconstructData TestVerify testVerify fillRandom"
    " TestEncoderReconstruct testEncoderReconstruct TestSplitJoin"
).split()
EXAMPLES = ["fillRandom", "ExampleEncoder", "ExampleEncoder_slicing"]

# What is put in place of what, in these functions: 12+4 or 6+4 shards.
EDITS = {
    "testUpdate": [("{{10, 3}, {17, 2}}", "{{12, 4}, {6, 4}}")],
    "testReconstruct": [
        ("New(10, 3,", "New(12, 4,"),
        ("13", "16"),
        # of 12+4 shards, these four are recoverable
        ("shards[11] = nil", "shards[11], shards[12] = nil, nil"),
    ],
    "testReconstructData": [
        ("New(8, 5,", "New(12, 4,"),
        ("13", "16"),
        # five lost shards are unrecoverable
        (
            "shards[9] = nil\n\tshards[10] = nil\n\tshards[11] = nil\n",
            "shards[9] = nil\n\tshards[10] = nil\n",
        ),
    ],
    "testVerify": [("New(10,", "New(12,"), ("14", "16"), ("s < 10", "s < 12"), ("[10]", "[12]")],
    "testEncoderReconstruct": [("New(5, 3,", "New(6, 4,")],
    "TestSplitJoin": [("New(5, 3,", "New(6, 4,"), ("250000", "240000")],
    "ExampleEncoder": [("New(17, 3)", "New(12, 4)")],
    "ExampleEncoder_slicing": [
        ("New(5, 3)", "New(6, 4)"),
        ("make([][]byte, 8)", "make([][]byte, 10)"),
    ],
}


def functions(name, wanted):
    """The texts of functions of a source, with the edits. Each edit has to change something."""
    with open(os.path.join(SOURCES, name), encoding="utf-8") as file:
        text = file.read()
    for each in wanted:
        (found,) = re.findall(rf"^func {each}\(.*?^}}$", text, re.M | re.S)
        for old, new in EDITS.get(each, ()):
            if old not in found:
                sys.exit(f"klauspost: {each} has no {old!r}")
            # what has several lines stands twice, and the second time as it is
            found = found.replace(old, new, 1 if "\n" in old else -1)
        yield found


def write(folder, name, package, imports, parts):
    """A source of a package."""
    os.makedirs(folder, exist_ok=True)
    lines = [f"package {package}", "import (", *(f'\t"{it}"' for it in imports), ")", *parts]
    with open(os.path.join(folder, name), "w", encoding="utf-8") as file:
        file.write("\n".join(lines) + "\n")


def make(path):
    """The GOPATH."""
    source = os.path.join(path, "src")
    os.makedirs(source)
    os.symlink(os.path.join(TOP, "bindings", "go"), os.path.join(source, "lrcstore"))
    theirs = os.path.join(source, "theirs")
    shutil.copytree(os.path.join(HERE, "klauspost", "adapter"), theirs)
    shutil.copytree(os.path.join(HERE, "klauspost", "both"), os.path.join(source, "both"))
    imports = ["bytes", "fmt", "math/rand", "testing"]
    write(theirs, "own_test.go", "theirs", imports, functions("reedsolomon_test.go", TESTS))
    examples = [
        it.replace("reedsolomon.", "theirs.") for it in functions("examples_test.go", EXAMPLES)
    ]
    imports = ["fmt", "math/rand", "theirs"]
    write(theirs, "examples_test.go", "theirs_test", imports, examples)


def main():
    path = os.path.abspath(sys.argv[1])
    libraries = os.environ["LRC_LIBRARIES"]
    make(path)
    environment = dict(
        os.environ,
        GO111MODULE="off",
        GOFLAGS="-tags=nopkgconfig",
        GOPATH=f"{path}:{DEBIAN}",
        CGO_CFLAGS=f"'-I{TOP}/include'",
        CGO_LDFLAGS=f"'-L{libraries}' -llrc_coder '-Wl,-rpath,{libraries}'",
    )
    words = ["go", "test", "-count=1", "theirs", "both"]
    return subprocess.run(words, env=environment, cwd=path, check=False).returncode


if __name__ == "__main__":
    sys.exit(main())
