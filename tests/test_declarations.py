"""Compares what the crates coder_c and store_c export with what the headers and the Rust crates
declare: names, types, structures, statuses. Python's extension modules include the headers, and its
package has the statuses."""

import os
import re
import subprocess
from typing import NamedTuple

import building
import declared
import pytest

# The functions of the store that are plain C, beside the waiting forms.
UNPROVED = re.compile("_pool_|_mending_|_shards_|lrc_store_name")
CALLS = ("PUT", "READ", "LOSE", "REPAIR", "DELETE", "STAT", "RESTORE")
# What callers may ignore the status of: what has no output that they have to have, what they know
# to be done, and the ends of pools and shards, after which there is nothing else to do.
IGNORED = "store_(lose|repair|delete|trim|trim_part|mend_step)(_wait)?|store_mend_wait"
IGNORED += "|shards_(trim|mend|close)|mending_work|store_join|slot_(learn|skip)|pool_close"
IGNORED += "|slot_(slices|runs|items|buffer|shape)"
NO_STATUS = "slot_release|store_name|pool_give|mending_close"


class Texts(NamedTuple):
    """Of a library: the crate whose functions it exports, its header, and the Rust crate."""

    rattle: str
    header: str
    rust: str


@pytest.fixture
def coder():
    return Texts(
        declared.read("crates", "coder_c", "src", "lib.rt"),
        declared.read("include", "lrc_coder.h"),
        declared.read("bindings", "rust", "src", "lib.rs"),
    )


@pytest.fixture
def store():
    return Texts(
        declared.read("crates", "store_c", "src", "lib.rt"),
        declared.read("include", "lrc_store.h"),
        declared.read("bindings", "rust_store", "src", "library.rs"),
    )


def in_python(file):
    """The statuses of a module of the Python package."""
    text = declared.read("bindings", "python", "lrcstore", file)
    block = re.search(r"class Status\(enum.IntEnum\):(.*?)\n\n\n", text, flags=re.S)[1]
    return declared.numbers(r"    (\w+) = (\d+)", block)


def test_statuses(coder):
    values = declared.numbers(r"const (\w+): u32 = (\d+);", coder.rattle)
    assert values == {"DONE": 0, "OPEN": 1, "BAD_ARGUMENT": 2}
    assert declared.numbers(r"    LRC_(\w+) = (\d+)", coder.header) == values, "the header's"
    assert "LRC_UNRECOVERABLE = LRC_OPEN" in coder.header
    members = in_python("coder.py")
    assert members == {**values, "UNRECOVERABLE": 1}, "the Python package's"
    named = {name: value for name, value in members.items() if name not in ("DONE", "OPEN")}
    assert declared.variants(coder.rust) == named, "the Rust crate's"


def test_numbers(coder):
    """That of no fragment, and the bytes of a plan."""
    for name, in_rattle in (("NONE", r"const NONE: u8 = "), ("PLAN_BYTES", r"plan: &\[u8; ")):
        number = re.search(rf"{in_rattle}(\d+)", coder.rattle)[1]
        assert re.search(rf"LRC_{name} = (\d+)", coder.header)[1] == number
        assert re.search(rf"const LRC_{name}: \w+ = (\d+);", coder.rust)[1] == number


def test_functions(coder):
    wanted = declared.exported(coder.rattle)
    assert declared.in_header(coder.header) == wanted
    assert declared.in_rust(coder.rust) == wanted


def test_attributes(coder):
    for name, kinds, follow in declared.attributes(coder.header):
        assert kinds == follow, name
        is_plain = name in ("lrc_encode", "lrc_encode_add", "lrc_add")
        assert kinds[0] == ("LRC_NONNULL" if is_plain else "LRC_STATUS"), name


def test_slices(coder):
    in_c = r"typedef struct \{\s*const uint8_t \*at;\s*size_t len;\s*\} lrc_slice;"
    in_rust = r"#\[repr\(C\)\]\n.*\nstruct Slice \{\s*at: \*const u8,\s*len: usize,\s*\}"
    assert re.search(in_c, coder.header) and re.search(in_rust, coder.rust)


def test_functions_of_the_store(store):
    header, exported = declared.in_header(store.header), declared.exported(store.rattle)
    for name in ("lrc_store_open", "lrc_store_open_unjournaled"):
        exported[name].remove("u64")  # the number of the store
    del exported["lrc_slot_number"]  # for the library's own use
    proved = {name: words for name, words in header.items() if not UNPROVED.search(name)}
    plain = {name: words for name, words in proved.items() if not name.endswith("_wait")}
    assert plain == exported
    forms = {name: words for name, words in header.items() if name.endswith("_wait")}
    assert len(forms) == 17
    assert forms.pop("lrc_store_mend_wait") == ["*mut slot", "*mut u64", "i64"]
    for name, words in forms.items():
        assert words == [*header[name.removesuffix("_wait")], "i64"]
    rust = declared.in_rust(store.rust)
    assert len(rust) == 46
    assert rust == {name: header[name] for name in rust}


def test_attributes_of_the_store(store):
    declarations = list(declared.attributes(store.header))
    assert len(declarations) == 70
    for name, kinds, wanted in declarations:
        assert kinds == wanted, name
        is_plain = re.fullmatch(f"lrc_({IGNORED}|{NO_STATUS})", name)
        assert kinds[0] == ("LRC_NONNULL" if is_plain else "LRC_STATUS"), name


@pytest.mark.parametrize(
    "name, rust",
    [
        ("slice", "Slice"),
        ("buffer", "RawBuffer"),
        ("slot", "Slot"),
        ("entry", "RawEntry"),
        ("numbers", "RawNumbers"),
        ("shape", "RawShape"),
        ("options", "RawOptions"),
    ],
)
def test_structures_of_the_store(store, name, rust):
    block = re.search(rf"typedef struct \{{([^}}]*)\}} lrc_{name};", store.header)[1]
    block = re.sub(r"/\*.*?\*/", "", block, flags=re.S)
    pattern = rf"#\[repr\(C\)\](?:\n#.*)?\npub struct {rust} \{{(.*?)\n\}}"
    in_rust = re.search(pattern, store.rust, flags=re.S)[1]
    assert re.findall(r"(\w+): ", in_rust) == re.findall(r"\*?(\w+)[,;]", block)


def test_statuses_of_the_store(store):
    rattle = declared.read("crates", "store_c", "src", "status.rt")
    values = declared.numbers(r"const (\w+): u32 = (\d+);", rattle)
    assert len(values) == 21
    assert declared.numbers(r"    LRC_STORE_(\w+) = (\d+)", store.header) == values
    assert in_python("_store.py") == values, "the Python package's"
    rust = declared.read("bindings", "rust_store", "src", "errors.rs")
    assert {**declared.variants(rust), "DONE": 0} == values, "the Rust crate's"


def test_calls_of_a_journal(store):
    calls = declared.numbers(r"    LRC_CALL_(\w+) = (\d+)", store.header)
    assert calls == {name: number for number, name in enumerate(CALLS)}


@pytest.mark.parametrize("standard, is_enough", [("14", False), ("17", True), ("20", True)])
def test_standard_of_cpp(standard, is_enough):
    building.require("g++")
    command = ["g++", f"-std=c++{standard}", "-fsyntax-only", "-Wall", "-Wextra", "-Werror"]
    header = os.path.join(declared.TOP, "include", "lrc_store.hpp")
    ran = subprocess.run([*command, "-x", "c++", header], capture_output=True, text=True)
    assert (ran.returncode == 0) == is_enough, ran.stderr
    is_named = "#error" in ran.stderr and "lrc_store.hpp needs C++17" in ran.stderr
    assert is_named != is_enough
