"""Tests of the store for C, C++, Rust, Python and Go, which `rt ci` proves and does not run."""

import history
import pytest
from building import SANITIZERS, build, build_shared, cargo, check_symbols, go, library
from building import instructions, output, run, run_program

pytestmark = pytest.mark.usefixtures("libraries")

# How each program is built, and the words that it is run with.
RUNS = {
    "texts": ["library"],
    "calls": ["library", "asan", "clang-asan"],
    "versions": ["library", "asan"],
    "threads": ["library 4", "library 16", "tsan 4", "tsan 16"],
    "waiting": ["plain", "asan"],
    "pool": ["library", "asan", "tsan shared"],
    "order": ["plain", "asan"],
    "mending": ["plain", "asan", "tsan uncancelled"],
    "handed": ["plain", "asan", "tsan uncancelled"],
    "totals": ["asan"],
    "plan": ["plain"],
    "shards": ["plain", "asan uncancelled", "tsan shared"],
    "refused memory": ["library", "asan", "valgrind"],
    "lost sets": ["library"],
    "what a repair reads": ["library"],
    "room of a blob": ["library"],
    "names": ["library"],
    "C++": ["asan"],
}
CALLED = "malloc|realloc|free|getrandom|clock_gettime|nanosleep|calloc|getenv|strcmp"
CALLED += "|pthread_mutex_(init|destroy|lock|trylock|clocklock|unlock)|pthread_testcancel"
CALLED += "|pthread_cond_(init|clockwait|signal|broadcast|destroy)|mem(cmp|cpy|move|set)"
# what pthread_cleanup_push becomes
CALLED += "|__pthread_(register_cancel|unregister_cancel|unwind_next)|__sigsetjmp"
# What the examples of each language print.
EXAMPLES = {"store": "HELLO, WORLD\n", "shards": "HELLO, WORLD: 2000 repaired, 0 lost\n"}
RESTORED = "4 repaired: HELLO, WORLD\n"
example = pytest.mark.parametrize("name", EXAMPLES)


@pytest.mark.parametrize("name, how", [(name, how) for name, hows in RUNS.items() for how in hows])
def test_program(tmp_path, name, how):
    run_program(tmp_path, name, *how.split(), standard="c99" if name == "texts" else None)


def test_symbols(tmp_path):
    check_symbols(tmp_path, "lrc_store", CALLED, ["lrc_slot_number"])


@pytest.mark.parametrize("threads", [4, 16])
def test_journal(tmp_path, threads):
    """The journal of a run, by a replay that shares no code with the store."""
    printed = output(build(tmp_path, "threads", "library"), threads, "journal")
    replay, entries = history.Replay(4), history.entries(printed)  # of fragments of 4 bytes
    assert [entry for entry in entries if replay.note(entry) != entry.note] == []
    assert len(entries) >= 1000


@pytest.mark.parametrize("call, most", [("read", 1400), ("put", 2750), ("stat", 1000)])
def test_instructions_of_a_call(tmp_path, call, most):
    """Of a blob of 64 bytes, in a store of fifty."""
    program, rounds = build(tmp_path, "instructions", "library", "c11"), 100
    none, all_of_them = (instructions(program, call, n, LRC_STORE_CPU="v2") for n in (0, rounds))
    assert all_of_them - none <= most * 50 * rounds


def test_choice_of_the_processors_code(tmp_path):
    run(build(tmp_path, "calls", "library"), LRC_STORE_CPU="v2")


def test_two_copies_of_the_library(tmp_path):
    """Two shared objects that each have a copy of the library, and know nothing of each other."""
    hidden = ["-fvisibility=hidden", library("liblrc_store.a"), "-Wl,--exclude-libs,ALL"]
    names = ("first.so", "second.so")
    copies = [build_shared(tmp_path / it, "tests/store/copy.c", *hidden) for it in names]
    run(build(tmp_path, "copies", flags=["-ldl"]), *copies)


def test_limits(python):
    python("", "tests/store/limits.py")


@example
def test_example_in_c(tmp_path, name):
    assert output(build(tmp_path, f"{name} in C", standard="c99")) == EXAMPLES[name]


@example
def test_example_in_cpp(tmp_path, name):
    assert output(build(tmp_path, f"{name} in C++", flags=SANITIZERS)) == EXAMPLES[name]


# ---- Rust


@example
def test_example_in_rust(cargo_target, name):
    assert cargo("rust_store", cargo_target, "run", "--example", name) == EXAMPLES[name]


def test_rust(cargo_target):
    cargo("rust_store", cargo_target, "test")


def test_leaks_in_rust(cargo_target, counted, tmp_path):
    numbers = {"LRC_LIBRARIES": counted, "LRC_COUNTED": tmp_path / "numbers"}
    cargo("rust_store", cargo_target, "test", "--test", "leaks", **numbers)


# ---- Python


@pytest.fixture(scope="module")
def modules(package_with, libraries):
    """The Python package with its extension modules."""
    return package_with(libraries)


@example
def test_example_in_python(python, modules, name):
    assert python(modules, modules / f"{name}.py") == EXAMPLES[name]


def test_restoration_in_python(python, modules):
    assert python(modules, modules / "restore.py") == RESTORED


def test_python(python, modules):
    python(modules, "tests/store/package.py")


def test_busy_store_in_python(python, modules, busy):
    """The calls of a store that is busy for ever end at their deadline, or by a signal."""
    python(modules, "tests/store/package_busy.py", LD_PRELOAD=busy)


def test_leaks_in_python(python, package_with, counted, tmp_path):
    """What Python's package leaves of the library's memory."""
    modules = f"{package_with(counted, '_native')}:tests/store"
    python(modules, "tests/store/leaks.py", LRC_COUNTED=tmp_path / "numbers")


# ---- Go


@example
def test_example_in_go(name):
    assert go("run", f"./examples/{name}") == EXAMPLES[name]


def test_restoration_in_go():
    assert go("run", "./examples/restore") == RESTORED


def test_vet_in_go():
    go("vet", ".", "./examples/store", "./examples/shards", "./examples/restore")


@pytest.mark.parametrize("flags", [[], ["-race"]], ids=["plain", "race"])
def test_go(flags):
    go("test", "-count=1", *flags, ".")


def test_busy_store_in_go(busy):
    """The calls of a store that is busy for ever return once their context ends."""
    go("test", "-count=1", "-run", "TestBusy", "-exec", f"env LD_PRELOAD={busy}", ".", LRC_BUSY=1)


def test_leaks_in_go(counted, tmp_path):
    numbers = {"LRC_LIBRARIES": counted, "LRC_COUNTED": tmp_path / "numbers"}
    go("test", "-count=1", "-run", "TestLeaks", ".", **numbers)
