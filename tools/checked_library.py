#!/usr/bin/env python3
"""Builds liblrc_store_checked.so, which finds callers' mistakes.

    tools/checked_library.py --libraries FOLDER --to FOLDER [--rpath PATH]
    tools/checked_library.py --wrappers      prints the wrappers

FOLDER has liblrc_store.so. The library has a wrapper of each function of include/lrc_store.h that
takes an address, made of its declaration and of the attributes behind that. The wrappers call the
checks of library/checked/checks.c, and then the store's own function. It finds the store's library
where PATH says, or else where the system's loader looks. It needs gcc.
"""

import argparse
import os
import re
import tempfile

import libraries

NAME = "liblrc_store_checked.so"
FOLDER = os.path.join("library", "checked")
DECLARED = re.compile(r"^(uint32_t|void) (lrc_\w+)\(([^)]*\*[^)]*)\)([^;]*);", re.M)
LENGTH = re.compile(r"LRC_(?:READS|WRITES|UPDATES)\((\d+), (\d+)\)")
# Begins with what no caller owns: a pool, shards or a mending.
HANDLE = re.compile(r"lrc_(?:pool|shards|mending) \*\w")
FLAGS = ("-fexceptions", "-fvisibility=hidden", "-ftls-model=initial-exec", "-DLRC_NO_ATTRIBUTES")


def name_of(parameter):
    return re.search(r"\w+$", parameter).group()


def length_of(function, parameter, length):
    """The bytes at the address of a parameter, as C says it."""
    name = name_of(parameter)
    if HANDLE.match(parameter):
        return "1"
    if function == "lrc_store_name" and name == "name":
        return "LRC_STORE_NAME_LEN"
    return f"{length} * sizeof *{name}" if length else f"sizeof *{name}"


def argument(function, parameter, length):
    """The line that names an argument with an address."""
    name = name_of(parameter)
    if parameter.startswith("lrc_slot *") and "**" not in parameter:
        if function != "lrc_pool_give":
            return f'lrc_checked_slot(&call, {name}, "{name}");'
    is_input = parameter.startswith("const ") or HANDLE.match(parameter)
    kind = "INPUT" if is_input else "OUTPUT"
    size = length_of(function, parameter, length)
    return f'lrc_checked_address(&call, {name}, {size}, {kind}, "{name}");'


def wrapper(result, function, parameters, attributes):
    """The lines of a function's wrapper."""
    parameters = [" ".join(it.split()) for it in parameters.split(",")]
    names = [name_of(it) for it in parameters]
    lengths = {int(at) - 1: names[int(of) - 1] for at, of in LENGTH.findall(attributes)}
    yield f"{result} {function}({', '.join(parameters)}) {{"
    yield f"    CALL({function});"
    for index, parameter in enumerate(parameters):
        if "*" in parameter:
            yield "    " + argument(function, parameter, lengths.get(index))
    yield "    lrc_checked_begin(&call);"
    if function == "lrc_pool_give":
        yield "    lrc_checked_given(&call, pool, session);"
    if function in ("lrc_pool_close", "lrc_shards_close"):
        yield f"    lrc_checked_forget(&call, {'pool' if 'pool' in names else 'NULL'});"
    called = f"real({', '.join(names)});"
    yield f"    {'const uint32_t status = ' if result != 'void' else ''}{called}"
    if function == "lrc_pool_take":
        yield "    if (status == LRC_STORE_DONE) lrc_checked_lent(&call, pool, *session);"
    yield from (["    return status;"] if result != "void" else [])
    yield "}"


def wrappers():
    """The lines of the wrappers of all functions."""
    text = re.sub(r"/\*.*?\*/", "", libraries.read("include", "lrc_store.h"), flags=re.S)
    yield from ("#pragma GCC visibility push(default)", '#include "lrc_store.h"')
    yield from ("#pragma GCC visibility pop", '#include "checks.h"')
    for found in DECLARED.findall(text):
        yield from wrapper(*found)


def build(library_folder, folder, rpath=None):
    """Builds the library into a folder, and returns its path."""
    path = os.path.join(folder, NAME)
    with tempfile.TemporaryDirectory() as room:
        made = libraries.write(wrappers(), room, "wrappers.c")
        objects = [os.path.join(room, it) for it in ("wrappers.o", "checks.o")]
        for source, to in zip((made, os.path.join(FOLDER, "checks.c")), objects):
            includes = ("-I", "include", "-I", FOLDER, f"-ffile-prefix-map={room}=.")
            compiled = (*libraries.COMPILE, *FLAGS, *includes, source, "-o", to)
            libraries.run(*compiled, cwd=libraries.TOP)
        store = os.path.join(library_folder, "liblrc_store.so")
        # so that it is loaded with this one, by whatever means that is
        linked = (*objects, "-Wl,--no-as-needed", store, "-Wl,--as-needed", "-ldl", "-lpthread")
        where = [f"-Wl,-rpath,{rpath}"] if rpath else []
        libraries.run(*libraries.LINK, *linked, *where, "-o", path)
    return path


def main():
    parser = argparse.ArgumentParser(description=__doc__.splitlines()[0])
    parser.add_argument("--libraries", help="the folder of liblrc_store.so")
    parser.add_argument("--to", help="the folder that gets the library")
    parser.add_argument("--rpath", help="where it looks for the store's library")
    parser.add_argument("--wrappers", action="store_true", help="print the wrappers alone")
    given = parser.parse_args()
    if given.wrappers:
        print(*wrappers(), sep="\n")
        return
    if not (given.libraries and given.to):
        parser.error("--libraries and --to are needed")
    print(build(given.libraries, given.to, given.rpath))


if __name__ == "__main__":
    main()
