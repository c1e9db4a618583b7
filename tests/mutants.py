#!/usr/bin/env python3
"""Plants faults outside of what is proved, and sees that the tests reject them.

    tests/mutants.py [--jobs N] [--only TEXT] [--times]
    tests/mutants.py --applies      plants nothing, and sees that each could be planted

A block of tests/mutants/*.txt is a mutant: the text `old` stands once in a file and becomes `new`.
The mutant is built in a copy of the tree, and the named test has to fail there. It also has to pass
in a copy without a mutant. A mutant that survives, does not build or no longer applies is a
failure. --only takes those that have the text, and --times prints for each test what it and its
mutants take of the processors. LRC_LIBRARIES names the folder of the libraries. The last line
counts.

What a mutant does not touch is built once: of the objects of a test, each copy makes those anew
that are made of the mutant's file, as the compiler lists them. With a mutant, a test ends at its
first failure (LRC_FIRST_FAILURE).
"""

import argparse
import concurrent.futures
import glob
import os
import shutil
import subprocess
import sys
import tempfile
import time
from pathlib import Path
from typing import NamedTuple

HERE = os.path.dirname(os.path.abspath(__file__))
TOP = os.path.dirname(HERE)
sys.path.append(os.path.join(TOP, "tools"))

import building  # noqa: E402
import python_extension  # noqa: E402

COPIED = ("include", "library", "bindings", "integrations", "packaging", "tests", "tools", "docs")
COPIED += ("examples",)
COPIED += ("pyproject.toml", "README.md", "CHANGELOG.md", "crates/test_vectors/data")
COPIED += ("crates/command_line/src", "crates/lrc_line/src")
COPIED += ("crates/coder_c/src", "crates/store_c/src", "crates.txt")
NOT_COPIED = shutil.ignore_patterns("__pycache__", "target", "*.so", "out")

C = "gcc -std=gnu11 -O1 -w -I include -I tests/store"
CPP = "g++ -std=c++17 -O0 -w -I include -I tests/store"
# A source of library/ comes before the archive, whose own is then left aside.
STORE = "-Wl,--allow-multiple-definition $LRC_LIBRARIES/liblrc_store.a -lpthread"
CODER = "$LRC_LIBRARIES/liblrc_coder.a"
TEXTS = "library/store_text.c library/coder_text.c"
BACKEND = "integrations/liberasurecode"
SANITIZED = "-g -fsanitize=address,undefined"
PYTEST = "pytest -q -x -p no:cacheprovider"
# What tests need: a command or a file, and the package that has it.
CARGO, GO, PYTEST_PACKAGE = {"cargo": "cargo"}, {"go": "golang-go"}, {"pytest": "python3-pytest"}
PYTHON = {python_extension.header(): "python3-dev"}
LIBERASURECODE = {"/usr/include/liberasurecode/erasurecode_backend.h": "liberasurecode-dev"}
PYECLIB = {"/usr/lib/python3/dist-packages/pyeclib": "python3-pyeclib"}
CEPH = {"ceph-osd": "ceph-osd", "/usr/include/rados/librados.h": "librados-dev"}
CEPH["/usr/include/rados/buffer.h"] = "libradospp-dev"
FUSE = {"/usr/lib/python3/dist-packages/fusepy.py": "python3-fusepy", "/dev/fuse": "FUSE"}
FUSE["fusermount"] = "fuse3"
CEPH_20 = "CEPH_VERSION=20.2.4"
# How long a command may take that should pass, and the status of one whose test does not build.
PATIENCE, NOT_BUILT = 600, 99


class Test(NamedTuple):
    """How a test is built, and how it is run. What `prepare` makes is made once, and so is the
    whole build for mutants of files that are not in `reads`. `needs` has packages by a command or
    a file, and `level` that of the processor."""

    build: str
    run: str
    prepare: str = "true"
    needs: dict = {}
    level: str = "v2"
    reads: tuple = ("",)

    def missing(self):
        """The packages that are not here, and what the processor lacks."""
        lacks = [package for it, package in self.needs.items() if not building.is_here(it)]
        return lacks + [f"x86-64-{self.level}"] * (self.level not in building.levels())


def objects(compile_one, *sources):
    """Makes the object of each source that is not there, and lists what it is made of."""
    made = [(source, os.path.basename(source).split(".")[0]) for source in sources]
    return " && ".join(
        f"{{ [ -e {name}.o ] || {compile_one} -MMD -c {source} -o {name}.o; }}"
        for source, name in made
    )


def program(compile_one, sources, linked):
    """Builds a program of the objects of its sources, and of what else is linked."""
    names = " ".join(os.path.basename(source).split(".")[0] + ".o" for source in sources)
    return f"{objects(compile_one, *sources)} && {compile_one} {names} {linked} -o program"


def of_program(name, words="", flags="", first=""):
    """A program of tests/building.py, with the sources of library/ that it tests. What is linked
    first comes before the archive, whose own is then left aside."""
    made = building.PROGRAMS[name]
    compile_one = f"{CPP if made.file.endswith('.cpp') else C} -I library {flags}"
    links = " ".join([first, *made.links()]).replace(building.library(""), "$LRC_LIBRARIES/")
    return Test(program(compile_one, made.sources(), links), f"./program {words}")


def store_program(name, words=""):
    """The same with the source of the waiting forms."""
    test = of_program(name, words, first="store_wait.o")
    return test._replace(build=f"{objects(C, 'library/store_wait.c')} && {test.build}")


def explored(name, source):
    """The orders of a source's threads, by tests/explore. The calls of ThreadSanitizer that the
    source makes are those of races.c, so its library is not linked."""
    c = f"{C} -I library -ffunction-sections"
    own = [f"tests/explore/{each}.c" for each in ("explore", "races", name)]
    called = objects(f"{c} -fsanitize=thread -include tests/explore/shim.h", source)
    names = " ".join(os.path.basename(each).split(".")[0] + ".o" for each in (*own, source))
    return Test(
        f"{objects(c, *own)} && {called} && {c} {names} -Wl,--gc-sections -o program", "./program"
    )


def copy_of_open(name):
    """Compiles library/store_open.c with other names."""
    return (
        f"{C} -Dlrc_store_open={name}_open -Dlrc_store_open_unjournaled={name}_unjournaled"
        " -Dlrc_store_open_numbered=open_numbered"
        " -Dlrc_store_open_unjournaled_numbered=unjournaled_numbered"
        f" -c library/store_open.c -o {name}.o"
    )


def choice(level):
    """A test of library/choice.c by mutants that show on processors of this level."""
    flags = " ".join(f"'{flag}'" for flag in (*building.CHOICE, "-DHAS_V4"))
    sources = " ".join(building.PROGRAMS["choice"].sources())
    built = f"{C} {flags} {sources} -o program"
    return Test(built, "tests/edges/choice.sh ./program", level=level)


# Compiles the extension module of Python's store.
NATIVE = "tools/python_extension.py --libraries $LRC_LIBRARIES --rpath $LRC_LIBRARIES"
NATIVE += " --to bindings/python/lrcstore _native"
NATIVE_READS = ("include/", "tools/", "bindings/python/lrcstore/_native.c")
COUNTED = "tests/store/counted.sh counted"
GO_CODER = "LRC_GO_LIBRARY=lrc_coder tests/store/go.sh"
RUST_LEAKS = "cargo test --quiet --offline --test leaks"


def rust_crate(folder):
    """The tests of a Rust crate, one program after the other, and then those of its documents."""
    tests = sorted(glob.glob(os.path.join(TOP, folder, "tests", "*.rs")))
    names = [f"--test {os.path.basename(path)[:-3]}" for path in tests]
    command = f"cd {folder}"
    for target in ("--lib", *names):
        words = f"cargo test --quiet --offline {target}"
        command += f" && {{ {words} --no-run || exit {NOT_BUILT}; }} && {words}"
    return Test(
        f"cd {folder} && cargo build --quiet --offline",
        f"{command} && cargo test --quiet --offline --doc",
        needs=CARGO,
    )


TESTS = {
    **{name: of_program(name) for name in ("waiting", "pool", "order")},
    **{f"explore_{name}": explored(name, of) for name, of in building.EXPLORED.items()},
    **{name: of_program(name) for name in ("shards", "totals", "plan", "handed", "versions")},
    "names": of_program("names"),
    "mending": store_program("mending"),
    "shards_sanitized": of_program("shards", "uncancelled", SANITIZED),
    "waits": store_program("waits"),
    "calls": store_program("random calls", "40"),
    "threads": store_program("random calls of threads", "4"),
    "numbers": Test(
        f"{copy_of_open('first')} && {copy_of_open('second')} && "
        + program(C, ["tests/edges/numbers.c"], "first.o second.o"),
        "./program",
    ),
    "texts": Test(
        f"{C} tests/edges/texts.c {TEXTS} -o program && {C} tests/library/texts.c {TEXTS} {CODER}"
        " -Wl,--allow-multiple-definition -o other",
        "./program && ./other",
    ),
    "processors": Test(
        " && ".join(
            f"{C} {has_v4} tests/edges/processors.c -o {made}"
            for made, has_v4 in (("program", ""), ("other", "-DHAS_V4"))
        ),
        "./program && ./other",
    ),
    "choice": choice("v3"),
    "choice_v4": choice("v4"),
    "coder": of_program("random calls of the coder", "60"),
    "cpp": of_program("C++"),
    "cpp_sanitized": of_program("C++", "", SANITIZED),
    "install": Test(
        "true",
        "tests/install.sh",
        prepare="for each in lrcstore lrc; do mkdir -p crates/$each/out || exit; "
        "printf '#!/bin/sh\\necho %s 0.1.0\\n' $each > crates/$each/out/$each; "
        "chmod +x crates/$each/out/$each; done",
        needs=PYTHON,
    ),
    "release": Test("true", "python3 tests/release/modules.py -f"),
    "checked": Test("true", f"{PYTEST} tests/test_checked.py -k misuse"),
    "python_coder": Test(
        "tools/python_extension.py --libraries $LRC_LIBRARIES --rpath $LRC_LIBRARIES"
        f" --to bindings/python/lrcstore _coder && {C} -shared -fPIC tests/library/watched.c"
        " -o watched.so",
        "LD_PRELOAD=./watched.so python3 tests/library/bindings.py -f",
        needs=PYTHON,
        reads=("include/", "tools/", "tests/", "bindings/python/lrcstore/_coder.c"),
    ),
    "declarations": Test("true", f"{PYTEST} tests/test_declarations.py", needs=PYTEST_PACKAGE),
    "python_package": Test(
        "tools/python_extension.py --libraries $LRC_LIBRARIES --rpath $LRC_LIBRARIES"
        f" --to bindings/python/lrcstore && {C} -shared -fPIC tests/store/busy.c -o busy.so",
        "python3 tests/store/package.py -f"
        " && LD_PRELOAD=./busy.so python3 tests/store/package_busy.py -f",
        needs=PYTHON,
        reads=("include/", "library/", "tools/", "tests/", "bindings/python/lrcstore/_native.c"),
    ),
    # What bindings leave of the memory of a library that counts its blocks.
    "python_leaks": Test(
        "tools/python_extension.py --libraries $LRC_LIBRARIES --rpath $PWD/counted"
        " --to bindings/python/lrcstore _native",
        "rm -f numbers && LRC_COUNTED=numbers PYTHONPATH=bindings/python:tests/store"
        " python3 tests/store/leaks.py -f",
        prepare=COUNTED,
        needs=PYTHON,
        reads=NATIVE_READS,
    ),
    "go_leaks": Test(
        "LRC_COUNTED=yes LRC_LIBRARIES=$PWD/counted tests/store/go.sh test -c -o ../../program .",
        "rm -f numbers && LRC_COUNTED=$PWD/numbers LD_LIBRARY_PATH=counted ./program"
        " -test.failfast -test.run TestLeaks",
        prepare=COUNTED,
        needs=GO,
    ),
    "rust_leaks": Test(
        f"cd bindings/rust_store && LRC_LIBRARIES=$PWD/../../counted {RUST_LEAKS} --no-run",
        f"cd bindings/rust_store && export LRC_LIBRARIES=$PWD/../../counted"
        f" && {{ {RUST_LEAKS} --no-run || exit {NOT_BUILT}; }} && rm -f ../../numbers"
        f" && LRC_COUNTED=$PWD/../../numbers {RUST_LEAKS}",
        prepare=COUNTED,
        needs=CARGO,
    ),
    "mount": Test(
        NATIVE,
        "/usr/bin/python3 tests/services/mount.py",
        needs={**FUSE, **PYTHON},
        reads=NATIVE_READS,
    ),
    "resp": Test(
        f"{C} examples/server_resp/server.c {STORE} -o program",
        "python3 tests/services/resp_server.py ./program OneThread FewFiles Words",
    ),
    "resp_sanitized": Test(
        f"{C} {SANITIZED} examples/server_resp/server.c {STORE} -o program",
        "python3 tests/services/resp_server.py ./program OneThread.test_large_values_on_their_way",
    ),
    "resp_counted": Test(
        f"{C} examples/server_resp/server.c -L counted -l:liblrc_store.so"
        " -Wl,-rpath,$PWD/counted -lpthread -o program",
        "rm -f numbers && LRC_COUNTED=numbers PYTHONPATH=tests/store python3"
        " tests/services/resp_server.py ./program OneThread.test_other_commands",
        prepare=COUNTED,
    ),
    "http": Test(
        NATIVE, "python3 tests/services/http_server.py", needs=PYTHON, reads=NATIVE_READS
    ),
    "rust_coder": rust_crate("bindings/rust"),
    "rust_store": rust_crate("bindings/rust_store"),
    "cache": rust_crate("examples/cache"),
    "go_store": Test(
        f"{C} -shared -fPIC tests/store/busy.c -o busy.so"
        " && tests/store/go.sh test -c -o ../../program .",
        "./program -test.failfast && LRC_BUSY=1 LD_PRELOAD=./busy.so ./program -test.failfast"
        " -test.run TestBusy",
        needs=GO,
    ),
    "go_coder": Test(
        f"{C} -shared -fPIC tests/library/refusing.c -o refusing.so"
        f" && {GO_CODER} test -c -o ../../program ./coder",
        "cd bindings/go/coder && ../../../program -test.failfast"
        " && for each in 2 3; do LRC_REFUSED=$each LD_PRELOAD=../../../refusing.so"
        " ../../../program -test.run TestStatuses || exit; done",
        needs=GO,
    ),
    "go_reedsolomon": Test(
        f"{GO_CODER} test -c -o ../../program ./coder/reedsolomon",
        "./program -test.failfast",
        needs=GO,
    ),
    "liberasurecode": Test(
        f"{C} -I integrations {BACKEND}/lrc_backend.c {BACKEND}/test_backend.c {CODER}"
        " -lerasurecode -o program",
        "./program",
        needs=LIBERASURECODE,
    ),
    "pyeclib": Test(
        f"{BACKEND}/build.sh .",
        f"LD_LIBRARY_PATH=. {PYTEST} {BACKEND}/test_pyeclib.py",
        needs={**LIBERASURECODE, **PYTEST_PACKAGE, **PYECLIB},
    ),
    "swift": Test("true", f"{PYTEST} integrations/swift/test_module.py", needs=PYTEST_PACKAGE),
    "reference": Test(
        "true",
        "python3 integrations/reference.py tests/corpus | diff - tests/library/reference.txt",
    ),
    "ceph": Test(
        "rm -rf plugins && work=$PWD && . integrations/ceph/programs.sh && plugins plugins -O0",
        "./plugin_test plugins tests/corpus integrations/ceph/README.md",
        prepare="work=$PWD && . integrations/ceph/programs.sh && program plugin_test -O0",
        needs=CEPH,
    ),
    # What Ceph 20.2 adds, beside any release.
    "ceph_shards": Test(
        f"work=$PWD && . integrations/ceph/programs.sh && {CEPH_20} compile_plugin shards -O0",
        "./shards/plugin_test shards tests/corpus built",
        prepare="mkdir shards && work=$PWD/shards && . integrations/ceph/programs.sh"
        f" && {CEPH_20} program plugin_test -O0",
        needs=CEPH,
    ),
}


class Mutant(NamedTuple):
    test: str
    file: str
    old: str
    new: str

    def __str__(self):
        return f"{self.file}: {self.new.strip() or 'without ' + self.old.strip()} ({self.test})"


def mutants_of(path):
    """The mutants of a file: blocks of lines `name: text` between empty lines. The first block says
    what they are in."""
    for block in Path(path).read_text("utf-8").strip().split("\n\n")[1:]:
        fields = {name: [] for name in Mutant._fields}
        for line in block.split("\n"):
            name, _, text = line.partition(":")
            fields[name].append(text[1:])
        yield Mutant(*map("\n".join, fields.values()))


def plant(mutant, tree, makes_edit=True):
    """Makes the edit, or sees that it could be made. Returns what is wrong with it, or None."""
    path = Path(tree, mutant.file)
    text = path.read_text("utf-8")
    if text.count(mutant.old) != 1:
        return f"its text stands {text.count(mutant.old)} times"
    if makes_edit:
        path.write_text(text.replace(mutant.old, mutant.new), "utf-8")
    return None


def apply_all(mutants):
    """Whether each mutant has a test and could be planted, and says which could not."""
    wrong = [f"{it}: there is no test {it.test}" for it in mutants if it.test not in TESTS]
    tried = [(it, plant(it, TOP, makes_edit=False)) for it in mutants]
    wrong += [f"{it}: {fault}" for it, fault in tried if fault]
    print(*wrong, f"{len(mutants)} mutants, {len(wrong)} wrong", sep="\n")
    return bool(wrong)


def succeeds(command, tree, seconds, **others):
    """Whether a command in the tree ends with status 0 in this time, or None if a test that it
    builds does not build. Gives also what it took of the processors. If its time is over, it ends
    with all that it has started."""
    environment = dict(
        os.environ,
        PYTHONDONTWRITEBYTECODE="1",
        PYTHONPATH="bindings/python",
        CARGO_TARGET_DIR=tree + ".cargo",
        CARGO_INCREMENTAL="0",
        CARGO_PROFILE_DEV_DEBUG="0",
        CARGO_PROFILE_TEST_DEBUG="0",
        LRC_CODER_SO=os.path.join(os.environ["LRC_LIBRARIES"], "liblrc_coder.so"),
        **others,
    )
    limited = ["timeout", "--signal=KILL", str(seconds), "bash", "-c", command]
    with open(os.path.join(tree, "printed"), "wb") as printed:
        streams = {"stdin": subprocess.DEVNULL, "stdout": printed, "stderr": subprocess.STDOUT}
        run = subprocess.Popen(limited, cwd=tree, env=environment, **streams)
    _, status, used = os.wait4(run.pid, 0)
    run.returncode = os.waitstatus_to_exitcode(status)
    succeeded = run.returncode == 0 if run.returncode != NOT_BUILT else None
    return succeeded, used.ru_utime + used.ru_stime


def last_lines(tree):
    printed = Path(tree, "printed").read_text("utf-8", "replace")
    return "".join(printed.splitlines(True)[-25:])


def forget(mutant, tree):
    """Removes the objects that are made of a mutant's file."""
    for path in Path(tree).glob("*.d"):
        if mutant.file in path.read_text("utf-8").split():
            path.with_suffix(".o").unlink()


def fault_of(mutant, tree, base):
    """Tries a mutant by its test, which may take much longer than without it. Returns what is
    wrong, or None, and the seconds that it took of the processors."""
    test, built = TESTS[mutant.test], 0
    wrong = plant(mutant, tree)
    if wrong:
        return wrong, 0
    if mutant.file.startswith(test.reads):
        forget(mutant, tree)
        builds, built = succeeds(test.build, tree, PATIENCE)
        if not builds:
            return f"does not build: {last_lines(tree)}", built
    command = f"ulimit -t {10 + 5 * int(base.ran)}; {test.run}"
    survives, ran = succeeds(command, tree, 60 + 5 * base.clock, LRC_FIRST_FAILURE="1")
    if survives is None:
        return f"does not build: {last_lines(tree)}", built + ran
    return "survives" if survives else None, built + ran


def trial(mutant, base):
    """The same in a copy of the tree in which the test is built, once that is there."""
    if base.exception():
        return None, 0
    built = base.result().tree
    folder = tempfile.mkdtemp(dir=os.path.dirname(built))
    tree = os.path.join(folder, "tree")
    # both commands take a quarter of what Python's functions take
    subprocess.run(["cp", "-a", built, tree], check=True)
    try:
        return fault_of(mutant, tree, base.result())
    finally:
        subprocess.run(["rm", "-rf", folder], check=True)


def copy_to(base):
    """Copies what tests need of the repository."""
    for part in COPIED:
        source, there = os.path.join(TOP, part), os.path.join(base, part)
        if os.path.isdir(source):
            shutil.copytree(source, there, ignore=NOT_COPIED)
        else:
            os.makedirs(os.path.dirname(there), exist_ok=True)
            shutil.copy(source, there)


class BaseFails(Exception):
    """A test that fails without a mutant. None of its mutants is tried then."""


class Base(NamedTuple):
    """A copy of the tree in which a test is built, what that took of the processors, and what the
    test itself took of them and by the clock."""

    tree: str
    took: float
    ran: float
    clock: float


def base_of(name, folder):
    """Builds a test in a copy of the tree, and runs it there. It has to pass."""
    test, base, took = TESTS[name], os.path.join(folder, name), 0.0
    copy_to(base)
    for command in (test.prepare, test.build):
        passes, seconds = succeeds(command, base, PATIENCE)
        took += seconds
        if not passes:
            raise BaseFails(f"does not build: {last_lines(base)}")
    built = os.path.join(folder, f"{name}.built")
    shutil.copytree(base, built, symlinks=True)
    began = time.monotonic()
    passes, seconds = succeeds(test.run, base, PATIENCE)
    if not passes:
        print(f"test {name}: failed once without a mutant: {last_lines(base)}", flush=True)
        passes, seconds = succeeds(test.run, base, PATIENCE)
    if not passes:
        raise BaseFails(f"fails without a mutant: {last_lines(base)}")
    return Base(built, took, seconds, time.monotonic() - began)


def try_all(mutants, jobs, has_times):
    """Tries the mutants, and their tests without one. Returns how many were rejected, and how often
    something was wrong."""
    names = sorted({it.test for it in mutants})
    rejected, wrong, took = 0, 0, dict.fromkeys(names, 0.0)
    jobs = concurrent.futures.ThreadPoolExecutor(jobs)
    with tempfile.TemporaryDirectory() as folder, jobs as pool:
        bases = {name: pool.submit(base_of, name, folder) for name in names}
        tried = {pool.submit(trial, it, bases[it.test]): it for it in mutants}
        for name, base in bases.items():
            try:
                took[name] += base.result().took + base.result().ran
            except BaseFails as fails:
                print(f"test {name}: {fails}", flush=True)
                wrong += 1
        for done in concurrent.futures.as_completed(tried):
            (what, seconds), it = done.result(), tried[done]
            took[it.test] += seconds
            if has_times:
                print(f"{seconds:6.1f} s of the processors: {it}")
            if what:
                print(f"{it}: {what}", flush=True)
            rejected += not what and not bases[it.test].exception()
            wrong += bool(what)
    if has_times:
        for name, seconds in sorted(took.items(), key=lambda row: -row[1]):
            print(f"{seconds:6.1f} s of the processors: test {name} and its mutants")
    return rejected, wrong


def arguments():
    parser = argparse.ArgumentParser(description=__doc__.splitlines()[0])
    parser.add_argument("--jobs", type=int, default=os.cpu_count())
    parser.add_argument("--only", default="", help="those whose file, test or text has this")
    parser.add_argument("--times", action="store_true", help="what each test takes")
    parser.add_argument("--applies", action="store_true", help="only see that they apply")
    return parser.parse_args()


def main():
    given = arguments()
    paths = sorted(glob.glob(os.path.join(HERE, "mutants", "*.txt")))
    mutants = [it for path in paths for it in mutants_of(path) if given.only in str(it)]
    if given.applies:
        return apply_all(mutants)
    if "LRC_LIBRARIES" not in os.environ:
        sys.exit("LRC_LIBRARIES has to name a folder that tools/libraries.py --to has filled")
    os.environ["LRC_LIBRARIES"] = os.path.abspath(os.environ["LRC_LIBRARIES"])
    lacks = {name: TESTS[name].missing() for name in sorted({it.test for it in mutants})}
    left = [it for it in mutants if not lacks[it.test]]
    rejected, wrong = try_all(left, given.jobs, given.times)
    shown = "; ".join(f"{name}: no {' '.join(all_of)}" for name, all_of in lacks.items() if all_of)
    tail = f", {len(mutants) - len(left)} skipped ({shown})" if shown else ""
    print(f"{rejected} mutants rejected, {wrong} survive{tail}")
    return wrong != 0


if __name__ == "__main__":
    sys.exit(main())
