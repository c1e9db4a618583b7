#!/usr/bin/env python3
"""Builds the libraries for C.

    tools/libraries.py [--to FOLDER] [--from BUILT] [lrc_coder] [lrc_store]

Leaves liblrc_coder.a and .so, and liblrc_store.a and .so, in FOLDER; both libraries if none is
named. Each has its proved code for x86-64-v2 (SSE) and x86-64-v3 (AVX2), the coder also for
x86-64-v4 (AVX-512), and chooses when it is loaded. tools/rt_once.py proves and builds the crates,
unless BUILT has their archives: libcoder_c_v2.a, _v3.a and _v4.a, libstore_c_v2.a and _v3.a. It
needs gcc and binutils. The files depend on the archives, the sources and the compiler alone.
"""

import argparse
import contextlib
import os
import re
import shutil
import subprocess
import sys
import tempfile
from typing import NamedTuple

TOP = os.path.dirname(os.path.dirname(os.path.abspath(__file__)))
COMPILE = ("gcc", "-std=gnu11", "-O2", "-fPIC", "-Wall", "-Wextra", "-Werror", "-c")
LINK = (
    "gcc",
    "-shared",
    "-Wl,-Bsymbolic-functions,--no-undefined,--build-id=sha1",
    "-Wl,-z,relro,-z,now,-z,noexecstack",
)


class Library(NamedTuple):
    """The crate of a library, the processors that it has code for, its C sources beside
    library/choice.c, the proved functions that have another name inside it, and those that its C
    sources call and no header declares: its archive has them too."""

    crate: str
    cpus: tuple
    sources: tuple
    renamed: dict
    internal: tuple
    allocates: bool


LIBRARIES = {
    "lrc_coder": Library("coder_c", ("v2", "v3", "v4"), ("coder_text",), {}, (), False),
    "lrc_store": Library(
        "store_c",
        ("v2", "v3"),
        (
            "store_mend",
            "store_name",
            "store_open",
            "store_plan",
            "store_pool",
            "store_shards",
            "store_text",
            "store_wait",
        ),
        {
            "lrc_store_open": "lrc_store_open_numbered",
            "lrc_store_open_unjournaled": "lrc_store_open_unjournaled_numbered",
            "lrc_store_plan_part": "lrc_store_plan_part_of_any",
        },
        ("lrc_slot_number",),
        True,
    ),
}


def run(*command, **options):
    """Runs a command and returns what it printed, or ends with that if it fails."""
    ran = subprocess.run(
        command, stdout=subprocess.PIPE, stderr=subprocess.STDOUT, text=True, **options
    )
    if ran.returncode:
        sys.exit(f"{ran.stdout}{' '.join(command)} failed")
    return ran.stdout


def read(*path):
    with open(os.path.join(TOP, *path), encoding="utf-8") as file:
        return file.read()


def write(lines, *path):
    """Writes a file and returns its path."""
    there = os.path.join(*path)
    with open(there, "w", encoding="utf-8") as file:
        file.writelines(f"{line}\n" for line in lines)
    return there


def version():
    """The number that `lrcstore --version` prints. No other file is its home."""
    text = read("crates", "command_line", "src", "reading.rt")
    return re.search(r'VERSION: &str = "([\d.]+)"', text).group(1)


def abi(number):
    """The part of a version that callers depend on. Before 1.0 a minor version may break them."""
    major, minor, _ = number.split(".")
    return major if major != "0" else f"{major}.{minor}"


def without_attributes(header):
    """A header's text without the attributes for compilers, and without what defines them."""
    text = re.sub(r"/\* Attributes\..*?\n#endif\n\n(?=#ifdef __cplusplus)", "", header, flags=re.S)
    return re.sub(r"\)(?:\s+LRC_[A-Z]+(?:\([\d, ]+\))?)+;", ");", text)


def declared(name):
    """The functions that a library's header declares and does not define."""
    text = re.sub(r"/\*.*?\*/", "", read("include", f"{name}.h"), flags=re.S)
    return sorted(re.findall(r"^(?:uint32_t |void |const char \*)(\w+)\([^{;]*;", text, re.M))


def defined(path):
    """The global functions of an object or archive."""
    found = re.findall(r" T (\w+)$", run("nm", "-g", "--defined-only", path), re.M)
    return sorted(found)


# ---- the crates' archives


def kit_libc(built):
    """The kit's library by which the store calls malloc: a copy in BUILT, or the kit's own."""
    copied = built and os.path.join(built, "liblibc_c.a")
    if copied and os.path.exists(copied):
        return copied
    return os.path.join(os.path.dirname(run("rt", "doc").strip()), "c", "liblibc_c.a")


def prove(crate, cpu, folder):
    """Builds a crate's archive into the folder, over what was proved before."""
    archive = os.path.join(folder, f"lib{crate}.a")
    print(f"{crate} for x86-64-{cpu}: minutes, if it is to be proved", flush=True)
    run(sys.executable, os.path.join(TOP, "tools", "rt_once.py"), "archive", crate, cpu, archive)
    return archive


def archives_of(library, cpu, built, folder):
    """The archives that have a library's proved code for a processor."""
    if built:
        found = os.path.join(built, f"lib{library.crate}_{cpu}.a")
        if not os.path.exists(found):
            sys.exit(f"no {found}")
    else:
        found = prove(library.crate, cpu, folder)
    return [found, kit_libc(built)] if library.allocates else [found]


# ---- one archive and one shared library of them


def proved_object(library, cpu, archives, folder):
    """One object of the proved code for a processor, and the functions that it exports. Their names
    begin with the processor's, and all other names are local."""
    made = os.path.join(folder, cpu)
    os.mkdir(made)
    for archive in archives:
        run("ar", "x", os.path.abspath(archive), cwd=made)
    linked = f"{made}.o"
    run("ld", "-r", "-o", linked, *sorted(os.path.join(made, it) for it in os.listdir(made)))
    names = {it: library.renamed.get(it, it) for it in defined(linked) if it.startswith("lrc_")}
    renamed = write((f"{old} {cpu}_{new}" for old, new in names.items()), folder, "renamed")
    symbols = write((f"{cpu}_{new}" for new in names.values()), folder, "symbols")
    run("objcopy", f"--redefine-syms={renamed}", linked)
    run("objcopy", f"--keep-global-symbols={symbols}", linked)
    return linked, sorted(names.values())


def compiled(source, folder, *flags):
    """The object of a C source of library/."""
    made = os.path.join(folder, f"{source}.o")
    there = os.path.join("library", f"{source}.c")
    run(*COMPILE, *flags, "-I", "include", there, "-o", made, cwd=TOP)
    return made


def choice_object(name, functions, folder):
    """The object of the entry points, which choose between the processors' functions."""
    return compiled(
        "choice",
        folder,
        *(["-DHAS_V4"] if "v4" in LIBRARIES[name].cpus else []),
        f"-DEACH(of)={' '.join(f'of({it})' for it in functions)}",
        f"-DCHOICE_CPU={name}_cpu",
        f'-DCHOICE_ENV="{name.upper()}_CPU"',
    )


def static(name, archives, folder):
    """Makes the archive of a library. It has the functions of its header, those that are internal,
    and no other name."""
    library = LIBRARIES[name]
    proved = [proved_object(library, cpu, archives[cpu], folder) for cpu in library.cpus]
    if any(functions != proved[0][1] for _, functions in proved):
        sys.exit(f"{library.crate} exports not the same functions for each processor")
    objects = [it for it, _ in proved] + [choice_object(name, proved[0][1], folder)]
    objects += [compiled(source, folder) for source in library.sources]
    whole = os.path.join(folder, f"{name}.o")
    run("ld", "-r", "-o", whole, *objects)
    wanted = sorted([*declared(name), *library.internal])
    run("objcopy", f"--keep-global-symbols={write(wanted, folder, 'symbols')}", whole)
    if defined(whole) != wanted:
        wrong = " ".join(sorted(set(defined(whole)) ^ set(wanted)))
        sys.exit(f"{name}.h and the library differ in {wrong}")
    archive = os.path.join(folder, f"lib{name}.a")
    run("ar", "rcsD", archive, whole)
    return archive


def soname(name):
    return f"lib{name}.so.{abi(version())}"


def label(name):
    """The version of a library's symbols, which changes with its soname."""
    return f"{name.upper()}_{abi(version())}"


def shared(name, archive, folder):
    """Links the shared library of an archive. Its names have the version that callers depend on."""
    functions = (f"  {it};" for it in declared(name))
    first = f"{label(name)} {{ global:"
    script = write([first, *functions, "  local: *;", "};"], folder, "exports")
    made = os.path.join(folder, f"lib{name}.so")
    whole = ("-Wl,--whole-archive", archive, "-Wl,--no-whole-archive")
    run(*LINK, *whole, f"-Wl,--version-script={script},-soname,{soname(name)}", "-o", made)
    return made


def place(source, path):
    """Puts a copy at a path. An older file there is replaced and not written, since programs may
    have it open."""
    shutil.copy(source, path + ".new")
    os.replace(path + ".new", path)


def build(name, to, built=None):
    """Builds a library's archive and its shared form into a folder."""
    with tempfile.TemporaryDirectory() as folder:
        archives = {}
        for cpu in LIBRARIES[name].cpus:
            room = os.path.join(folder, f"archive_{cpu}")
            os.mkdir(room)
            archives[cpu] = archives_of(LIBRARIES[name], cpu, built, room)
        archive = static(name, archives, folder)
        made = [archive, shared(name, archive, folder)]
        os.makedirs(to, exist_ok=True)
        for path in made:
            place(path, os.path.join(to, os.path.basename(path)))
        alias = os.path.join(to, soname(name))
        with contextlib.suppress(FileNotFoundError):
            os.remove(alias)
        # a second name: rt refuses symbolic links in a clone
        os.link(os.path.join(to, f"lib{name}.so"), alias)


def main():
    parser = argparse.ArgumentParser(description=__doc__.splitlines()[0])
    parser.add_argument("--to", default=os.path.join(TOP, "built"), help="built/ if not given")
    parser.add_argument("--from", dest="built", help="a folder with the crates' archives")
    parser.add_argument("library", nargs="*", help="lrc_coder or lrc_store; both if none is named")
    given = parser.parse_args()
    unknown = [it for it in given.library if it not in LIBRARIES]
    if unknown:
        parser.error(f"no library {unknown[0]}: there are {' and '.join(LIBRARIES)}")
    for name in given.library or LIBRARIES:
        build(name, given.to, given.built)
        print(f"{os.path.join(given.to, f'lib{name}')}.a and .so")


if __name__ == "__main__":
    main()
