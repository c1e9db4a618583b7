"""What test programs are made of, and how they are built and run.

PROGRAMS is the one list of the programs in C and C++: tests/test_*.py, tests/coverage.py and
tests/mutants.py build them by it. LRC_LIBRARIES names the folder of the libraries.
"""

import functools
import os
import re
import shutil
import subprocess
import unittest
from typing import NamedTuple

TOP = os.path.dirname(os.path.dirname(os.path.abspath(__file__)))
WARNINGS = "-Wall -Wextra -Wpedantic -Wconversion -Wshadow -Werror".split()
INCLUDED = "-I include -I library -I tests/store".split()
SANITIZERS = "-g -fsanitize=address,undefined -fno-sanitize-recover=all".split()
# How a program is built: the compilers for C and C++, and their flags. With `library` it is linked
# with all of the library, and else with the sources that it tests.
HOW = {
    "library": ("gcc", "g++", []),
    "plain": ("gcc", "g++", []),
    "asan": ("gcc", "g++", SANITIZERS),
    "clang-asan": ("clang", "clang++", SANITIZERS),
    "tsan": ("gcc", "g++", ["-g", "-fsanitize=thread"]),
    "valgrind": ("gcc", "g++", ["-g"]),
}
# ThreadSanitizer does not know the locks of a library that it did not compile.
TSAN = {"TSAN_OPTIONS": "ignore_noninstrumented_modules=1"}
# What library/choice.c chooses from, in its own test.
CHOICE = ["-fPIC", "-DEACH(of)=of(choice_first) of(choice_second)", "-DCHOICE_CPU=choice_cpu"]
CHOICE.append('-DCHOICE_ENV="CHOICE"')
VALGRIND = "valgrind --quiet --error-exitcode=1 --leak-check=full --show-leak-kinds=all".split()


class Program(NamedTuple):
    """The file, the sources of library/ that it tests, the functions that it wraps, and the
    libraries that it is linked with."""

    file: str
    tested: str = ""
    wrapped: str = ""
    linked: str = "store"

    def sources(self):
        return [self.file, *(f"library/{name}.c" for name in self.tested.split())]

    def links(self, ending=".a"):
        """The words for the linker. A tested source comes before the archive, whose own is then
        left aside."""
        wraps = [f"-Wl,--wrap={name}" for name in self.wrapped.split()]
        named = [library(f"liblrc_{name}{ending}") for name in self.linked.split()]
        runs_there = [f"-Wl,-rpath,{library('')}"] if ending == ".so" and named else []
        return ["-Wl,--allow-multiple-definition", *wraps, *named, *runs_there, "-lpthread", "-lrt"]


PROGRAMS = {
    "calls": Program("tests/store/calls.c"),
    "versions": Program("tests/store/versions.c"),
    "threads": Program("tests/store/threads.c"),
    "waiting": Program("tests/store/waiting.c", "store_wait", linked=""),
    "pool": Program("tests/store/pool.c", "store_pool", "malloc calloc pthread_cond_clockwait"),
    "order": Program("tests/store/order.c", "store_pool", "lrc_slot_learn lrc_store_split"),
    "mending": Program("tests/store/mending.c", "store_mend", "calloc lrc_store_plan_part_wait"),
    "handed": Program("tests/store/handed.c", "store_mend", linked=""),
    "totals": Program("tests/store/totals.c", "store_shards", "clock_gettime", linked=""),
    "plan": Program("tests/store/plan.c", "store_plan", linked=""),
    "shards": Program(
        "tests/store/shards.c", "store_shards store_pool", "malloc calloc lrc_store_numbers_wait"
    ),
    "names": Program("tests/store/names.c", "store_name"),
    "refused memory": Program("tests/store/refuse.c", wrapped="malloc realloc"),
    "what a repair reads": Program("tests/store/reads.c", wrapped="malloc realloc free"),
    "room of a blob": Program("tests/store/room.c"),
    "lost sets": Program("tests/store/lost_sets.c", linked="store coder"),
    "copies": Program("tests/store/copies.c"),
    "instructions": Program("tests/store/instructions.c"),
    "C++": Program("tests/store/bindings.cpp"),
    "what looks like misuse": Program("tests/misuse/honest.c"),
    "texts": Program("tests/library/texts.c", linked="store coder"),
    "cpu": Program("tests/library/cpu.c", linked="coder"),
    "coder": Program("tests/library/coder.c", linked="coder"),
    "plans": Program("tests/library/plans.c", linked="coder"),
    "shapes": Program("tests/library/shapes.c", linked="coder"),
    "coder in C++": Program("tests/library/coder.cpp", linked="coder"),
    "waits": Program("tests/edges/waits.c", wrapped="malloc realloc"),
    "processes": Program("tests/edges/processes.c", "", "malloc realloc", "store coder"),
    "edges of texts": Program("tests/edges/texts.c", linked="store coder"),
    "choice": Program("tests/edges/choice.c", "choice", linked=""),
    "processors": Program("tests/edges/processors.c", linked=""),
    "random calls": Program("tests/edges/calls.cpp", wrapped="malloc realloc free"),
    "random calls of threads": Program("tests/edges/threads.cpp", wrapped="malloc realloc free"),
    "random calls of shards": Program("tests/edges/shards.cpp"),
    "random calls of the coder": Program("tests/edges/coder.cpp", linked="coder"),
    "store in C": Program("bindings/c/store.c"),
    "shards in C": Program("bindings/c/shards.c"),
    "store in C++": Program("bindings/cpp/store.cpp"),
    "shards in C++": Program("bindings/cpp/shards.cpp"),
    "rebuild in C": Program("bindings/c/rebuild.c", linked="coder"),
    "network in C": Program("bindings/c/network.c", linked="coder"),
}

# The programs of tests/explore/, each with the source whose threads it orders.
EXPLORED = {
    "pool": "library/store_pool.c",
    "mend": "library/store_mend.c",
    "wait": "tests/explore/turns.c",
}


def library(name):
    """The path of a file in the folder of the libraries."""
    return os.path.join(os.environ.get("LRC_LIBRARIES", "no-libraries"), name)


def is_here(need):
    """Whether there is a command or a file."""
    return bool(shutil.which(need)) or os.path.exists(need)


def require(need, package=None):
    """Skips a test if a command or a file is missing. The package that has it is named."""
    if not is_here(need):
        raise unittest.SkipTest(f"no {package or need}")


def run(*words, prints=False, cwd=TOP, **environment):
    """Runs a command, which has to end with status 0, and returns what it prints if that is wanted.
    The test is skipped if there is no such command."""
    words, environment = [*map(str, words)], {name: str(it) for name, it in environment.items()}
    if "/" not in words[0]:
        require(words[0])
    ran = subprocess.run(
        words,
        cwd=cwd,
        env={**os.environ, **environment},
        stdin=subprocess.DEVNULL,
        stdout=subprocess.PIPE if prints else None,
        text=True,
    )
    if ran.returncode:
        print(ran.stdout or "")
    ran.check_returncode()
    return ran.stdout


def output(*words, **more):
    return run(*words, prints=True, **more)


def instructions(*words, **more):
    """How many instructions a program takes."""
    counting = "valgrind --tool=callgrind --callgrind-out-file=/dev/null --log-fd=1".split()
    return int(re.search(r"Collected : (\d+)", output(*counting, *words, **more)).group(1))


@functools.lru_cache(maxsize=None)
def levels():
    """The levels of this processor for which the coder has code, the least one first."""
    return output("tests/levels.sh").split()


def build(folder, name, how="plain", standard=None, flags=(), ending=".a"):
    """Builds a program into a folder, and returns its path."""
    program, (c, cpp, more) = PROGRAMS[name], HOW[how]
    is_cpp, path = program.file.endswith(".cpp"), os.path.join(folder, "program")
    run(
        cpp if is_cpp else c,
        f"-std={standard or ('c++17' if is_cpp else 'gnu11')}",
        *("-O1", *WARNINGS, *INCLUDED, *more, *flags),
        *(program.sources()[:1] if how == "library" else program.sources()),
        *program.links(".so" if how == "tsan" else ending),
        *("-o", path),
    )
    return path


def build_numbers(folder, *flags):
    """Builds the test of the numbers of stores, with two copies of library/store_open.c."""
    words = ["gcc", "-std=gnu11", "-O1", *WARNINGS, *INCLUDED, *flags]
    made = [os.path.join(folder, f"{name}.o") for name in ("first", "second")]
    for name, path in zip(("first", "second"), made):
        named = {
            "lrc_store_open": f"{name}_open",
            "lrc_store_open_unjournaled": f"{name}_unjournaled",
            "lrc_store_open_numbered": "open_numbered",
            "lrc_store_open_unjournaled_numbered": "unjournaled_numbered",
        }
        renamed = [f"-D{old}={new}" for old, new in named.items()]
        run(*words, "-fPIC", "-c", "library/store_open.c", *renamed, "-o", path)
    run(*words, "tests/edges/numbers.c", *made, "-o", os.path.join(folder, "program"))
    return os.path.join(folder, "program")


def run_program(folder, name, how, *words, **more):
    """Builds a program, and runs it with these words."""
    path = build(folder, name, how, **more)
    environment = TSAN if how == "tsan" and PROGRAMS[name].linked else {}
    run(*(VALGRIND if how == "valgrind" else []), path, *words, **environment)


def check_symbols(folder, name, calls, internal=()):
    """The archive and the shared library define the names of their header and no other, but that
    the archive has the internal ones. The functions of the C library that they call match."""
    seen, archive = os.path.join(folder, "seen"), library(f"lib{name}.a")
    # what gcc makes of the header: NC marks a declaration, and NF a definition
    run("gcc", "-aux-info", seen, "-fsyntax-only", "-x", "c", f"include/{name}.h")
    with open(seen, encoding="utf-8") as file:
        marked = rf"^/\* include/{name}\.h:\d+:NC \*/.*[ *](lrc_\w+) \("
        declared = set(re.findall(marked, file.read(), re.M))
    archived = re.findall(r" \w (\w+)$", output("nm", "-g", "--defined-only", archive), re.M)
    assert set(archived) == declared | set(internal)
    shared = output("nm", "-D", "--defined-only", library(f"lib{name}.so"))
    exported = re.findall(r" [^A\s] (\S+)$", shared, re.M)
    assert {it.partition("@@")[0] for it in exported} == declared
    versioned = re.compile(rf"\w+@@{name.upper()}_[\d.]+")
    assert [it for it in exported if not versioned.fullmatch(it)] == []
    called = re.findall(r"^ +\w (\S+)$", output("nm", "-u", archive), re.M)
    known = re.compile(f"{calls}|_GLOBAL_OFFSET_TABLE_")
    assert [it for it in called if not known.fullmatch(it)] == []


def cargo(crate, target, command, *words, **more):
    """Runs cargo for a crate of bindings/, which builds in a folder. Returns what it prints."""
    options = ["--quiet", "--offline", "--release", "--manifest-path"]
    options.append(f"bindings/{crate}/Cargo.toml")
    return output("cargo", command, *options, *words, CARGO_TARGET_DIR=target, **more)


def go(*words, **more):
    """Runs the command go in bindings/go, over the libraries. Returns what it prints."""
    require("go", "golang-go")
    return output("tests/store/go.sh", *words, **more)


def build_shared(path, file, *flags):
    """Builds a shared library of the tests."""
    words = ["-std=gnu11", "-O1", *WARNINGS, "-I", "include", "-shared", "-fPIC"]
    run("gcc", *words, file, *flags, "-o", path)
    return path
