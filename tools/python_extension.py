#!/usr/bin/env python3
"""Compiles the extension modules of the Python package `lrcstore`.

    tools/python_extension.py --libraries FOLDER --to FOLDER [--rpath PATH] [MODULE ..]
    tools/python_extension.py --header

FOLDER has the libraries: `_coder` calls liblrc_coder.so, and `_native` calls liblrc_store.so. Both
are compiled if none is named. A module finds its library where PATH says, or else where the
system's loader looks. It is of Python's stable ABI, so that of one Python serves all later ones. It
needs gcc and the headers of Python 3.11 or later, and --header prints the path of the first.
Without `_native` the package has no store, and without `_coder` no coder.
"""

import argparse
import os
import sys
import sysconfig

import libraries

# The modules, and the library that each calls.
MODULES = {"_coder": "lrc_coder", "_native": "lrc_store"}
SOURCES = os.path.join(libraries.TOP, "bindings", "python", "lrcstore")
OLDEST = 3, 11


def file_of(module):
    return f"{module}.abi3.so"


def header():
    """The header of this Python, whether it is there or not. An older Python has no stable ABI that
    serves, so its path is of none."""
    folder = sysconfig.get_paths()["include"] if sys.version_info >= OLDEST else "python3.11"
    return os.path.join(folder, "Python.h")


def build(module, library_folder, folder, rpath=None):
    """Compiles a module into the folder, and returns its path."""
    path = os.path.join(folder, file_of(module))
    includes = os.path.join(libraries.TOP, "include"), os.path.dirname(header())
    libraries.run(
        *libraries.COMPILE[:-1],
        "-Wno-missing-field-initializers",
        *(f"-I{it}" for it in includes),
        "-shared",
        f"-ffile-prefix-map={libraries.TOP}=.",
        os.path.join(SOURCES, f"{module}.c"),
        f"-L{library_folder}",
        f"-l:lib{MODULES[module]}.so",
        *([f"-Wl,-rpath,{rpath}"] if rpath else []),
        "-o",
        path,
    )
    return path


def main():
    parser = argparse.ArgumentParser(description=__doc__.splitlines()[0])
    parser.add_argument("--libraries", help="the folder of the libraries")
    parser.add_argument("--to", help="the folder that gets the modules")
    parser.add_argument("--rpath", help="where a module looks for its library")
    parser.add_argument("--header", action="store_true", help="print which header they need")
    parser.add_argument("module", nargs="*", help=f"{' or '.join(MODULES)}; both if none is named")
    given = parser.parse_args()
    if given.header:
        print(header())
        return
    if not (given.libraries and given.to):
        parser.error("--libraries and --to are needed")
    if not {*given.module} <= {*MODULES}:
        parser.error(f"the modules are {' and '.join(MODULES)}")
    if not os.path.exists(header()):
        sys.exit(f"no {header()}: install python3-dev")
    for module in given.module or MODULES:
        print(build(module, given.libraries, given.to, given.rpath))


if __name__ == "__main__":
    main()
