"""Rules of the crates: which functions enter a critical section, which clauses are about what a
caller passes, which names mean one thing, and how large the states of functions are."""

import glob
import os
import re
from collections import defaultdict

import pytest
from believed import HEAD
from sources import CRATES, TOP, blanked, crates, files_of, functions_of, read

ENTERS = re.compile(r"\.(?:try_)?enter\(")
ENTERING = {
    ("gate", "Gate::enter"),
    ("gate", "Gate::make_visit"),
    ("gate", "Gate::try_visit"),
    ("gate", "Gate::take"),
    ("ledger", "Ledger::make_visit"),
    ("ledger", "Ledger::try_visit"),
}
STORES = ("book", "requests", "shared", "named_calls", "mender", "shard", "sharded")
CALLS = ("put", "put_as", "put_copy", "read", "lose", "restore", "delete", "stat", "snapshot")
PASSED = re.compile(r"\b(?:remaining|contents|may_answer|FnOnceReturnsAt)\b")
ROW = re.compile(r"^\| `(\w+)::([\w:]+)`: `(\w+)` \| (.+) \|$", re.M)
HEADING = "## Clauses about what a caller passes\n"
TABLES = {"gate", "ledger", "mender"}  # each table has a rule, seats, and what these show
SAME = {
    "AreParitiesOf": "that four blocks are the parities of a stripe's bytes, by two definitions",
    "IsSeat": "a seat between two calls, of a gate and of a shard",
    "bytes_of": "the bytes of a slice, if there is one, and of a buffer",
    "code_with": "the code whose stripes have so many data fragments, for either library",
    "is_gone": "that a blob is gone, as an answer and as a note",
    "is_member": "that a number is in a list, in two crates of which neither uses the other",
    "is_not_lost": "that a fragment is not lost, as an answer and as a note",
    "is_repaired": "that a fragment is repaired, as an answer and as a note",
    "is_unrecoverable": "that a fragment is unrecoverable, as an answer and as a note",
    "name_of": "the name that a call is on, and that an operation is on",
    "nothing": "the empty set of lost fragments, and a view of a table that shows nothing",
    "opening": "how a table begins, and how a history does",
}
MOST = 5_000_000  # bytes of a function's states


def functions():
    """Each function of the crates outside of tests, with its crate and the text of its file."""
    for crate in sorted(os.listdir(CRATES)):
        folder = os.path.join(CRATES, crate, "src")
        for path in files_of(folder) if os.path.isdir(folder) else []:
            text = read(path)
            yield from ((crate, text, it) for it in functions_of(text) if not it.is_test)


def test_functions_that_enter_a_critical_section():
    """Every call of a store is a visit, a value that `Gate::make_visit` or `Gate::try_visit` takes
    in. The same of a shard's lock is recorded by the ledger."""
    found = {
        (crate, function.path())
        for crate, text, function in functions()
        if not crate.startswith("test_")
        and ENTERS.search(blanked(text[function.body : function.end]))
    }
    assert found == ENTERING


@pytest.mark.parametrize("call", CALLS)
def test_calls_by_name_stand_once(call):
    """Each is public in at most three functions outside of C: the book's, and the two of
    `named_calls` that wait and do not."""
    every = crates()
    public = [(name, it) for name in STORES for it in every[name].functions if it.is_public]
    made = [(name, it.path()) for name, it in public if it.name in (call, f"try_{call}")]
    assert len(made) <= 3, made


def clauses_about_what_is_passed():
    for crate, text, function in functions():
        if function.is_public:
            for word, clause, start, end in function.spans:
                if word == "ensures" and PASSED.search(text[start:end]):
                    yield crate, function.path(), clause or "result"


def test_clauses_about_what_a_caller_passes():
    """A clause may speak of what the logic knows of a caller's reader, writer, closure or pace.
    Where it knows nothing, as of a file, such a clause says nothing. So each has a row in
    tests/promises.md, with what it says at the program's own call."""
    page = read(os.path.join(TOP, "tests", "promises.md"))
    rows = {row[:3] for row in ROW.findall(page.partition(HEADING)[2])}
    assert set(clauses_about_what_is_passed()) == rows


def test_names_of_definitions():
    """Two crates may give one name only to what is the same: a part of the rules of their tables,
    or what SAME describes."""
    crates = defaultdict(set)
    for path in glob.glob(f"{CRATES}/*/specs/*.antt"):
        for name in HEAD.findall(read(path)):
            crates[name].add(os.path.relpath(path, CRATES).split(os.sep)[0])
    shared = {name for name, of in crates.items() if len(of) > 1}
    assert {name for name in shared if not crates[name] <= TABLES} <= set(SAME) <= shared


def test_states_of_functions():
    """How large they are, by what the gate or `tools/rt_once.py must-fail` has left, in each crate
    with mutants. The prover's time for a function grows with the square of its states. Each
    assignment over a value with drop code, and each exit past one, writes that code out again: call
    a function in its place."""
    found = {
        (path, function): int(size)
        for path in glob.glob(os.path.join(CRATES, "*", "out", "states"))
        for size, _, function in (line.partition(" ") for line in read(path).splitlines())
    }
    if not found:
        pytest.skip("neither the gate nor tools/rt_once.py must-fail has run")
    assert {it: size for it, size in found.items() if size > MOST} == {}
