"""Tests of what finds callers' mistakes: the attributes of lrc_store.h, by which compilers warn,
and liblrc_store_checked.so. Each program of tests/misuse/ breaks one rule, and stands here with
what finds it. Honest programs give no report. `-k misuse` runs the programs that break rules."""

import os
import re
import subprocess

import pytest
from building import INCLUDED, PROGRAMS, TOP, TSAN, WARNINGS
from building import build, go, library, output, require, run

pytestmark = pytest.mark.usefixtures("libraries")

# What a compiler warns of, by an attribute.
WARNED = [
    ("null_name", "gcc", "nonnull"),
    ("null_name", "clang", "nonnull"),
    ("uninitialised_slot", "gcc", "maybe-uninitialized"),
    ("status_ignored", "gcc", "unused-result"),
    ("status_ignored", "clang", "unused-result"),
    ("length_too_long", "gcc", "stringop-overread"),
]
CONTENT = "slot was not initialised, was overwritten, or is a copy of a slot used since"
# What the checked library reports.
REPORTED = {
    "null_name": "lrc_store_put: name is NULL",
    "unmapped_target": (
        "lrc_store_read: target has 10 bytes at 0x[0-9a-f]+, not all of them mapped"
    ),
    "same_slot_twice": "lrc_store_lend: other is the same slot as slot",
    "overlapping_outputs": "lrc_store_read: version overlaps lent",
    "uninitialised_slot": f"lrc_store_open_unjournaled: {CONTENT}",
    "overwritten_slot": f"lrc_slot_release: {CONTENT}",
    "copied_slot": f"lrc_store_put: {CONTENT}",
    "two_threads": "lrc_store_put: slot is in use by lrc_store_put of thread [0-9]+",
    "signal_handler": "lrc_store_delete is called by a signal handler inside lrc_store_put",
    "forked_child": "lrc_store_put is called in the child of a process with threads",
    "given_own_session": "lrc_pool_give: session is of no pool",
    "given_twice": "lrc_pool_give: session was given back before",
    "given_to_another_pool": "lrc_pool_give: session is of another pool",
    "given_while_in_use": (
        "lrc_pool_give: session is in use by lrc_store_put of thread [0-9]+"
    ),
    "used_after_give": "lrc_store_put: slot was given back to its pool",
    "released_while_lent": "lrc_slot_release: slot was emptied while its pool lends it",
    "leak": "lrc_slot_release was not called for what lrc_store_open left in a slot",
}
# What nothing finds yet. If something does, it is to be moved.
MISSED = [
    # it sees calls, and no use of what they gave: that would need copies of all that is lent
    "lent_after_release",
    # all 1,600 bytes are mapped. AddressSanitizer would know where the block ends
    "length_too_long",
    # no call is wrong: it is the status of one that says that nothing was written
    "status_ignored",
]
HONEST = {"calls": "", "versions": "", "threads": "16", "room of a blob": "", "lost sets": ""}
HONEST.update({"order": "", "pool": "shared", "mending": "", "shards": "shared", "C++": ""})
HONEST.update({"store in C": "", "shards in C": "", "store in C++": "", "shards in C++": ""})
HONEST["what looks like misuse"] = ""


@pytest.fixture(scope="module")
def checked(libraries, tmp_path_factory):
    """The checked library."""
    folder = tmp_path_factory.mktemp("checked")
    where = ["--libraries", libraries, "--to", folder, "--rpath", libraries]
    run("tools/checked_library.py", *where)
    return folder / "liblrc_store_checked.so"


class Ran:
    """How a program of tests/misuse/ ended, and what it printed."""

    def __init__(self, words, **environment):
        environment = {**os.environ, **{name: str(it) for name, it in environment.items()}}
        # what a program reads after its release may be no text
        streams = {"stdout": subprocess.PIPE, "stderr": subprocess.STDOUT, "errors": "replace"}
        ran = subprocess.run(words, cwd=TOP, env=environment, timeout=600, **streams)
        self.status, self.lines = ran.returncode, ran.stdout.splitlines()

    def has_report(self, pattern, name):
        """Whether it has this report, with a rule of the header and the place in the program."""
        with open(f"{TOP}/include/lrc_store.h", encoding="utf-8") as header:
            rules = " ".join(re.sub(r"^ \*", "", header.read(), flags=re.M).split())
        quoted = [re.fullmatch(r'    lrc_store\.h: "(.*)"', line) for line in self.lines]
        quoted = [rule.group(1) for rule in quoted if rule]
        pattern = f"lrc_store_checked: {pattern}"
        assert any(re.fullmatch(pattern, line) for line in self.lines), self.lines
        assert quoted and quoted[0] in rules, self.lines
        assert any(f"{name}(" in line for line in self.lines), "the stack has not the program"


@pytest.fixture
def compiled(tmp_path):
    """A function that builds a program of tests/misuse/ over the library."""

    def made(name, *linked):
        words = ["gcc", "-std=gnu11", "-O1", "-w", *INCLUDED, f"tests/misuse/{name}.c", *linked]
        over = [library("liblrc_store.so"), "-lpthread", f"-Wl,-rpath,{library('')}"]
        run(*words, *over, "-o", tmp_path / name)
        return tmp_path / name

    return made


@pytest.mark.parametrize("name, compiler, option", WARNED)
def test_misuse_is_warned_of(name, compiler, option):
    """The compiler warns of the program by an attribute, and else does not."""
    require(compiler)
    words = ["-std=gnu11", "-O2", "-Wall", *INCLUDED, "-c", f"tests/misuse/{name}.c"]
    for more, is_warned in (([], True), (["-DLRC_NO_ATTRIBUTES"], False)):
        printed = "\n".join(Ran([compiler, *words, *more, "-o", "/dev/null"]).lines)
        assert (f"[-W{option}]" in printed) == is_warned, printed


@pytest.mark.parametrize("name", REPORTED)
def test_misuse_is_reported(checked, compiled, name):
    """The checked library ends the program by this report."""
    ran = Ran([compiled(name)], LD_PRELOAD=checked)
    assert ran.status == 99, ran.lines
    ran.has_report(REPORTED[name], name)


@pytest.mark.parametrize("name", MISSED)
def test_misuse_is_missed(checked, compiled, name):
    assert "lrc_store_checked" not in "".join(Ran([compiled(name)], LD_PRELOAD=checked).lines)


def test_misuse_with_warn_and_count(checked, compiled):
    """With `warn` a program goes on after a report. With `count` it says how much was checked."""
    program = compiled("overlapping_outputs")
    ran = Ran([program], LD_PRELOAD=checked, LRC_STORE_CHECK="warn,count")
    assert ran.status == 0, ran.lines
    ran.has_report("lrc_store_read: version overlaps lent", "overlapping_outputs")
    assert "lrc_store_checked: 4 calls, 1 reports" in ran.lines
    assert "misuse: 0 wrong" in ran.lines


def test_misuse_keeps_the_output(checked, compiled):
    """A leak ends the program with the status, but only once all that it printed is written."""
    assert "misuse: 0 wrong" in Ran([compiled("leak")], LD_PRELOAD=checked).lines


def test_misuse_of_a_linked_program(checked, compiled):
    """A program that is linked with the library needs no LD_PRELOAD."""
    ran = Ran([compiled("null_name", checked, f"-Wl,-rpath,{checked.parent}")])
    assert ran.status == 99, ran.lines
    ran.has_report("lrc_store_put: name is NULL", "null_name")


def test_misuse_of_the_page(checked, compiled):
    """docs/library.md shows a report as it is."""
    program = compiled("given_twice", "-rdynamic")
    ran = Ran([program], LD_PRELOAD=checked)
    assert any(line.startswith(f"{program}(main+0x") for line in ran.lines), ran.lines
    with open(f"{TOP}/docs/library.md", encoding="utf-8") as page:
        shown = page.read().splitlines()
    assert not [line for line in ran.lines[:2] if line not in shown]


def test_misuse_by_a_cancelled_thread(checked, compiled, busy):
    """A call that waits ends also if its thread is cancelled. The wrappers call the store that is
    busy."""
    ran = Ran([compiled("cancelled", busy)], LD_PRELOAD=f"{checked} {busy}")
    assert ran.status == 0, ran.lines


def test_misuse_is_listed():
    """Each program stands here."""
    named = {*REPORTED, *MISSED, *(name for name, _, _ in WARNED), "honest", "cancelled"}
    files = os.listdir(f"{TOP}/tests/misuse")
    assert named == {name[:-2] for name in files if name.endswith(".c")}


# ---- Honest programs.


def is_quiet(checked, *words, **environment):
    """It passes under the checked library, which has seen calls and reports none."""
    ran = Ran([*map(str, words)], LD_PRELOAD=checked, LRC_STORE_CHECK="count", **environment)
    assert ran.status == 0, ran.lines
    pattern = "lrc_store_checked: [1-9][0-9]* calls, 0 reports"
    assert any(re.fullmatch(pattern, line) for line in ran.lines), ran.lines


@pytest.mark.parametrize("name", HONEST)
def test_honest(checked, tmp_path, name):
    how = "plain" if PROGRAMS[name].wrapped else "library"
    is_quiet(checked, build(tmp_path, name, how, ending=".so"), *HONEST[name].split())


@pytest.mark.parametrize("compiler", ["gcc", "clang"])
def test_sources(tmp_path, compiler):
    """The sources without a warning of either compiler, by strict options."""
    wrappers = tmp_path / "wrappers.c"
    wrappers.write_text(output("tools/checked_library.py", "--wrappers"))
    words = [compiler, "-std=gnu11", "-O2", "-fPIC", "-fexceptions", "-DLRC_NO_ATTRIBUTES"]
    for each in (wrappers, "library/checked/checks.c"):
        more = ["-I", "include", "-I", "library/checked", "-c", each]
        run(*words, *WARNINGS, *more, "-o", tmp_path / "source.o")


@pytest.mark.parametrize("how", ["asan", "tsan"])
def test_checks_sanitized(tmp_path, how):
    """The checks themselves, by sanitizers."""
    wrappers = tmp_path / "wrappers.c"
    wrappers.write_text(output("tools/checked_library.py", "--wrappers"))
    words = ["-fexceptions", "-DLRC_NO_ATTRIBUTES", "-w", "-I", "library/checked"]
    checks = [wrappers, "library/checked/checks.c", "-ldl"]
    run(build(tmp_path, "threads", how, flags=[*words, *checks], ending=".so"), 4, **TSAN)


def test_resp_server(checked, tmp_path):
    """Each connection of its tests has a server of its own."""
    server, script = tmp_path / "server", tmp_path / "resp"
    over = [library("liblrc_store.so"), "-lpthread", f"-Wl,-rpath,{library('')}"]
    words = ["gcc", "-std=gnu11", "-O1", "-w", "-I", "include", "examples/server_resp/server.c"]
    run(*words, *over, "-o", server)
    script.write_text(f'#!/bin/sh\nLD_PRELOAD={checked} exec {server} "$@"\n')
    script.chmod(0o755)
    ran = Ran(["python3", "tests/services/resp_server.py", script])
    assert ran.status == 0 and "lrc_store_checked" not in "".join(ran.lines), ran.lines


def test_python_package(checked, package_with, libraries):
    """The extension module calls the wrappers, which the loader finds before the library."""
    python = output("python3", "-c", "import sys; print(sys.executable)").strip()
    names = {"PYTHONPATH": package_with(libraries), "PYTHONDONTWRITEBYTECODE": 1}
    is_quiet(checked, python, "tests/store/package.py", **names)


def test_go_package(checked, tmp_path):
    """A Go program ends without the ends of C libraries, so that nothing counts."""
    go("test", "-c", "-o", tmp_path / "go.test", ".")
    run(tmp_path / "go.test", cwd=f"{TOP}/bindings/go", LD_PRELOAD=checked)
