"""Tests of the coder for C, C++, Rust, Python and Go and of its use under liberasurecode, Ceph and
Swift, which `rt ci` proves and does not run."""

import functools
import glob
import os
import re

import building
import pytest
from building import SANITIZERS, TOP, WARNINGS
from building import build, build_shared, cargo, check_symbols, levels, library
from building import output, require, run, run_program

pytestmark = pytest.mark.usefixtures("libraries")

BACKEND = "integrations/liberasurecode"
HEADERS = [(it, std) for it in ("lrc_coder.h", "lrc_store.h") for std in ("c99", "c11", "c17")]
HEADERS += [(it, std) for it in ("lrc_coder.h", "lrc_store.h") for std in ("c++11", "c++17")]
CHOOSING = ["-DEACH(of)=of(lrc_add)", "-DHAS_V4", "-DCHOICE_CPU=lrc_coder_cpu"]
CHOOSING.append('-DCHOICE_ENV="LRC_CODER_CPU"')
STRIPES = "HELLO, FRAGMENTS OF DATA\n"
EXAMPLES = {"rebuild": "HELL\n", "stripes": STRIPES}
GO = ["./coder/...", "./examples/rebuild", "./examples/stripes"]
PYTEST = ["pytest", "-q", "-p", "no:cacheprovider"]
# Sets of lost fragments that are put in order, or of which some are rebuilt first, with the set
# whose shape is then used, and at most how many percent of its instructions they take.
SHAPES = [("0043", "0003", 120), ("4041", "4000", 140), ("0047", "0007", 120)]
SHAPES += [("10C1", "00C3", 110), ("C041", "C000", 125), ("C001", "C000", 120)]
# The programs of docs/library.md, in order.
SHOWN = "c/store.c cpp/store.cpp rust_store/examples/store.rs python/store.py".split()
SHOWN += "go/examples/store/main.go c/rebuild.c rust/examples/rebuild.rs python/rebuild.py".split()
SHOWN += "python/stripes.py go/examples/rebuild/main.go go/examples/stripes/main.go".split()
go = functools.partial(building.go, LRC_GO_LIBRARY="lrc_coder")
KLAUSPOST = "/usr/share/gocode/src/github.com/klauspost/reedsolomon"


def standard_of(name):
    return "c++17" if "C++" in name else "c11"


@pytest.mark.parametrize("name", ["coder", "plans", "coder in C++"])
def test_program(tmp_path, name):
    run_program(tmp_path, name, "library", standard=standard_of(name))


@pytest.mark.parametrize("how", ["asan", "clang-asan"])
@pytest.mark.parametrize("name", ["coder", "plans", "coder in C++"])
def test_program_sanitized(tmp_path, name, how):
    """By the code for each level of the processor."""
    program = build(tmp_path, name, how, standard_of(name))
    for level in levels():
        run(program, LRC_CODER_CPU=level)


def test_program_with_the_shared_library(tmp_path):
    run(build(tmp_path, "coder", "library", "c11", ending=".so"))


def test_symbols(tmp_path):
    """The coder allocates no memory. It calls only what compilers count on, and getenv."""
    check_symbols(tmp_path, "lrc_coder", "getenv|strcmp|mem(cmp|cpy|move|set)")


@pytest.mark.parametrize("header, standard", HEADERS)
def test_header(tmp_path, header, standard):
    """The headers in each language that they are for."""
    file = tmp_path / ("header.cc" if "++" in standard else "header.c")
    file.write_text(f'#include "{header}"\n')
    compiler = "g++" if "++" in standard else "gcc"
    run(compiler, f"-std={standard}", *WARNINGS, "-I", "include", "-fsyntax-only", file)


@pytest.mark.parametrize("compiler", ["gcc", "clang"])
def test_sources(tmp_path, compiler):
    """The sources of the libraries without a warning of either compiler, by strict options."""
    words = [compiler, "-std=gnu11", "-O2", "-fPIC", *WARNINGS, "-I", "include", *CHOOSING]
    for each in glob.glob("library/*.c", root_dir=TOP):
        run(*words, "-c", each, "-o", tmp_path / "source.o")


def test_blocks_of_64_bytes():
    """The code for AVX-512 works on 64 bytes at once, whatever the processor here is."""
    code = output("objdump", "-d", "--no-show-raw-insn", library("liblrc_coder.a"))
    assert len(re.findall("vpshufb.*zmm", code)) > 100


def test_choice_of_the_processors_code(tmp_path):
    """Left alone, the library chooses the best."""
    program = build(tmp_path, "cpu", "library", "c11")
    assert output(program).strip() == f"x86-64-{levels()[-1]}"
    for level in levels():
        assert output(program, LRC_CODER_CPU=level).strip() == f"x86-64-{level}"


@pytest.mark.parametrize("name", ["coder", "plans"])
def test_program_by_each_level(tmp_path, name):
    """The same is printed by the code for each level."""
    program = build(tmp_path, name, "library", "c11")
    assert len({output(program, LRC_CODER_CPU=level) for level in levels()}) == 1


@pytest.fixture(scope="module")
def instructions(tmp_path_factory):
    """A function that counts the instructions by which a set is decoded many times."""
    program = build(tmp_path_factory.mktemp("shapes"), "shapes", "library", "c11")
    return lambda call, lost: building.instructions(program, call, lost, LRC_CODER_CPU="v2")


@pytest.mark.parametrize("call", ["plan", "decode"])
@pytest.mark.parametrize("lost, shape, most", SHAPES)
def test_instructions_of_lost_sets(instructions, call, lost, shape, most):
    assert 100 * instructions(call, lost) <= most * instructions(call, shape)


def test_network_in_c(tmp_path):
    assert output(build(tmp_path, "network in C", "library", "c11")) == "HELL\nHALL\nHALLO, F\n"


def test_rebuild_in_c(tmp_path):
    assert output(build(tmp_path, "rebuild in C", "library", "c11")) == "HELL\n"


def test_programs_of_the_page():
    """docs/library.md has the programs as they are: a line `FILE:`, and a block with its text."""
    with open(f"{TOP}/docs/library.md", encoding="utf-8") as page:
        shown = r"^`(bindings/\S+)`:\n\n```\w+\n(.*?)^```$"
        blocks = re.findall(shown, page.read(), flags=re.S | re.M)
    for path, text in blocks:
        with open(os.path.join(TOP, path), encoding="utf-8") as file:
            assert file.read() == text, path
    assert [path.removeprefix("bindings/") for path, _ in blocks] == SHOWN


# ---- Python


@pytest.fixture(scope="module")
def modules(package_with, libraries):
    """Python's modules, with the extension module of the coder."""
    return package_with(libraries, "_coder")


@pytest.fixture(scope="module")
def watched(tmp_path_factory):
    """Functions that watch the calls of the extension module."""
    path = tmp_path_factory.mktemp("watched") / "watched.so"
    return build_shared(path, "tests/library/watched.c")


def test_python(python, modules, watched):
    python(modules, "tests/library/bindings.py", LD_PRELOAD=watched)


def test_python_sanitized(python, python_header, watched, tmp_path):
    """All but the test of leaks, which counts what Python's own allocator has."""
    run("cp", "-r", "bindings/python", tmp_path / "python")
    made = ["-o", tmp_path / "python" / "lrcstore" / "_coder.abi3.so"]
    path = python_header.rpartition("/")[0]
    flags = ["-std=gnu11", "-O1", "-fPIC", "-shared", *SANITIZERS, "-I", "include", "-I", path]
    linked = [library("liblrc_coder.so"), f"-Wl,-rpath,{library('')}"]
    run("gcc", *flags, "bindings/python/lrcstore/_coder.c", *linked, *made)
    asan = output("gcc", "-print-file-name=libasan.so").strip()
    options = {"ASAN_OPTIONS": "detect_leaks=0:allocator_may_return_null=1"}
    options.update(PYTHONMALLOC="malloc", LD_PRELOAD=f"{asan} {watched}")
    tests = ["Calls", "Targets", "Buffers", "Stripes", "Watched", "Threads"]
    python(tmp_path / "python", "tests/library/bindings.py", *tests, **options)


@pytest.mark.parametrize("compiler", ["gcc", "clang"])
def test_source_for_python(python_header, tmp_path, compiler):
    words = ["-std=gnu11", "-O2", "-fPIC", *WARNINGS, "-Wno-missing-field-initializers"]
    words += ["-I", "include", "-isystem", python_header.rpartition("/")[0], "-c"]
    run(compiler, *words, "bindings/python/lrcstore/_coder.c", "-o", tmp_path / "source.o")


@pytest.mark.parametrize("name", EXAMPLES)
def test_example_in_python(python, modules, name):
    assert python(modules, f"{modules}/{name}.py") == EXAMPLES[name]


# ---- Rust and Go


def test_rust(cargo_target):
    cargo("rust", cargo_target, "test")


def test_example_in_rust(cargo_target):
    assert cargo("rust", cargo_target, "run", "--example", "rebuild") == "HELL\n"


def test_vet_in_go():
    go("vet", *GO)


@pytest.mark.parametrize("level", levels())
def test_go(level):
    """By the code for each level, and with all checks of what is passed to C."""
    go("test", "-count=1", *GO, LRC_CODER_CPU=level, GODEBUG="cgocheck=2")


@pytest.mark.parametrize("sanitizer", ["-race", "-asan"])
def test_go_sanitized(sanitizer):
    go("test", "-count=1", sanitizer, "./coder/...")


@pytest.mark.parametrize("status", [2, 3])
def test_statuses_in_go(tmp_path, status):
    """What the Go package makes of statuses that its own checks leave none for."""
    path = build_shared(tmp_path / "refusing.so", "tests/library/refusing.c")
    by = ["-exec", f"env LD_PRELOAD={path}"]
    go("test", "-count=1", "-run", "TestStatuses", *by, "./coder", LRC_REFUSED=status)


@pytest.mark.parametrize("name", EXAMPLES)
def test_example_in_go(name):
    assert go("run", f"./examples/{name}") == EXAMPLES[name]


def test_go_compared_with_klauspost(tmp_path):
    require(KLAUSPOST, "golang-github-klauspost-reedsolomon-dev")
    run("tests/library/klauspost.py", tmp_path / "klauspost")


# ---- liberasurecode, Swift and Ceph


@pytest.mark.parametrize("flags", [[], SANITIZERS], ids=["plain", "asan"])
def test_liberasurecode(tmp_path, flags):
    require("/usr/include/liberasurecode/erasurecode_backend.h", "liberasurecode-dev")
    words = "-std=c11 -O1 -Wall -Wextra -Werror -I include -I integrations".split()
    sources = [f"{BACKEND}/lrc_backend.c", f"{BACKEND}/test_backend.c", library("liblrc_coder.a")]
    run("gcc", *words, *flags, *sources, "-lerasurecode", "-o", tmp_path / "backend")
    run(tmp_path / "backend")


def test_pyeclib(tmp_path):
    require("/usr/lib/python3/dist-packages/pyeclib", "python3-pyeclib")
    run(f"{BACKEND}/build.sh", tmp_path)
    run(*PYTEST, f"{BACKEND}/test_pyeclib.py", LD_LIBRARY_PATH=tmp_path)


def test_reference_in_python():
    with open(f"{TOP}/tests/library/reference.txt", encoding="utf-8") as file:
        assert output("python3", "integrations/reference.py", "tests/corpus") == file.read()


def test_swift():
    run(*PYTEST, "integrations/swift/test_module.py")


def test_ceph():
    for need, package in (
        ("g++", "g++"),
        ("ceph-osd", "ceph-osd"),
        ("/usr/include/rados/librados.h", "librados-dev"),
        ("/usr/include/rados/buffer.h", "libradospp-dev"),
    ):
        require(need, package)
    run("tests/ceph.sh")
