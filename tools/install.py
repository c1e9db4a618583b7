#!/usr/bin/env python3
"""Builds both programs and both libraries for C, and installs them under a prefix.

    tools/install.py --prefix P [--destdir D] [--libdir L] [--pythondir M] [--cpu v2|v3] [--reuse]
    tools/install.py --prefix P [--destdir D] --uninstall

Under P it leaves bin/lrcstore and bin/lrc, the headers, man pages, completions for shells, the
sources of the Rust crates and of the Go module, and for `lrc_coder` and `lrc_store` each a static
library, a shared one, a pkg-config file and a CMake package; the Python package `lrcstore`, if the
headers of Python 3.11 or later are here; and liblrc_store_checked.so, which finds callers'
mistakes. At its end it prints the variables to set, so that programs find them. The libraries have
the code for x86-64-v2 and x86-64-v3 and choose when they are loaded; the programs are for the
processor that --cpu names. Libraries in the folder that LRC_LIBRARIES names are taken as they are,
and with --reuse the programs that were built before. It needs `rt`, gcc and binutils.
"""

import argparse
import os
import sys
import sysconfig
import tempfile

import build
import libraries
import package_files
from installation import MANIFEST, Installation
from packages import record

TOP = libraries.TOP
MODULES = f"python{sysconfig.get_python_version()}/site-packages"


def built_program(name, cpu, reuse):
    """A program's path, once it is built."""
    path = os.path.join(TOP, "crates", name, "out", name)
    return path if reuse and os.path.exists(path) else build.build_all(name, cpu)


def built_libraries(folder):
    """The folder of the libraries, which are built into the given one if no variable names it."""
    ready = os.environ.get("LRC_LIBRARIES")
    for name in libraries.LIBRARIES:
        if not ready:
            libraries.build(name, folder)
        elif not os.path.exists(os.path.join(ready, f"lib{name}.a")):
            sys.exit(f"no lib{name}.a in {ready}, which LRC_LIBRARIES names")
    return ready or folder


def install(installation, cpu, reuse):
    """Proves, builds and installs all of it."""
    programs = [built_program(name, cpu, reuse) for name in record.PROGRAMS]
    with tempfile.TemporaryDirectory() as folder:
        ready = built_libraries(folder)
        for program in programs:
            installation.program(program)
        installation.headers()
        for name in libraries.LIBRARIES:
            installation.library(name, ready)
            installation.rust(name)
        installation.checked(ready)
        installation.python_package(ready)
        installation.go()
        installation.finish()


def remove(root, path):
    """Removes a file, what Python has kept of it, and the folders that are empty then."""
    there = os.path.join(root, path)
    folder, file = os.path.split(there)
    cache = os.path.join(folder, "__pycache__")
    if os.path.isdir(cache):
        for it in os.listdir(cache):
            if it.startswith(file[: -len("py")]):
                os.remove(os.path.join(cache, it))
        folder = folder if os.listdir(cache) else cache
    if os.path.lexists(there):
        os.remove(there)
    while folder != root and os.path.isdir(folder) and not os.listdir(folder):
        os.rmdir(folder)
        folder = os.path.dirname(folder)


def uninstall(root):
    """Removes the files that the list names."""
    manifest = os.path.join(root, MANIFEST)
    if not os.path.exists(manifest):
        sys.exit(f"nothing is installed under {root}: no {MANIFEST}")
    with open(manifest, encoding="utf-8") as lines:
        paths = lines.read().splitlines()
    for path in paths:
        remove(root, path)
    print(f"{len(paths)} files removed from {root}")


def arguments():
    parser = argparse.ArgumentParser(description=__doc__.splitlines()[0])
    parser.add_argument(
        "--prefix", required=True, help="where the files are looked for, as /usr/local"
    )
    parser.add_argument("--destdir", default="", help="put before the prefix, for making packages")
    parser.add_argument(
        "--libdir",
        default="lib",
        help="the libraries' folder under the prefix: lib, lib64, lib/x86_64-linux-gnu",
    )
    parser.add_argument(
        "--pythondir", default=f"lib/{MODULES}", help="the Python modules' folder under the prefix"
    )
    parser.add_argument(
        "--cpu",
        choices=("v2", "v3"),
        default="v2",
        help="the program's processor: v2 (SSE) or v3 (AVX2)",
    )
    parser.add_argument(
        "--reuse", action="store_true", help="take the program that is built already"
    )
    parser.add_argument("--uninstall", action="store_true", help="remove what was installed")
    return parser.parse_args()


def main():
    given = arguments()
    prefix = os.path.abspath(given.prefix)
    root = given.destdir + prefix
    if given.uninstall:
        uninstall(root)
        return
    libdir, pythondir = os.path.normpath(given.libdir), os.path.normpath(given.pythondir)
    installation = Installation(root, prefix, libdir, pythondir)
    install(installation, given.cpu, given.reuse)
    print(f"{len(installation.paths)} files under {root}")
    lines = list(package_files.variables(prefix, libdir, pythondir))
    if lines:
        print("Set these variables, so that programs find them:", *lines, sep="\n")


if __name__ == "__main__":
    main()
