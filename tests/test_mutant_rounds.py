"""Tests of tools/rounds.py: mutants of each kind of a small crate, through the prover, and what a
report may not say of a mutant. It takes a minute or two of a processor."""

import os
import re
import subprocess
import sys
import tempfile
import types

import rounds
from sources import TOP, expect_none

SOURCE = """\
//! A few functions, for mutants of each kind.
#![tactic(auto)]

ghost use Rattle.std.specs.Prelude.{◌≡◌, ◌≤◌, slice_index, length};

/// The largest number that `limited` gives.
const LIMIT: u8 = 10;

/// A number that is neither above `a` nor above `b`.
pub fn least(a: u8, b: u8) -> u8
    ensures left { result ≤ a }
    ensures right { result ≤ b }
{
    if a < b { a } else { b }
}

/// At most ten.
pub fn limited(a: u8) -> u8
    ensures { result ≤ 10 }
{
    least(a, LIMIT)
}

/// The number itself.
pub fn same(a: u8) -> u8
    ensures { result ≡ a }
{
    a
}

/// The first of two numbers.
pub fn first(a: u8, b: u8) -> u8
    ensures { result ≡ a }
{
    let _b = b;
    same(a)
}

/// The second of two numbers.
pub fn second(a: u8, b: u8) -> u8
    ensures { result ≡ b }
{
    let _a = a;
    same(b)
}

/// A number that is not above `c`.
pub fn least_of(a: u8, b: u8, c: u8) -> u8
    ensures { result ≤ c }
{
    least(least(a, b), c)
}

/// The first byte.
pub fn head(bytes: &[u8]) -> u8
    requires { 1 ≤ length bytes.now }
    ensures { result ≡ slice_index bytes.now 0 }
{
    bytes[0]
}

/// A trait for values that give a number back.
pub trait Returns {
    /// The number itself.
    final fn given(&self, a: u8) -> u8
        ensures { result ≡ a }
    {
        if a < 1 { 0 } else { a }
    }
}
"""
ROUND, ALONE, SURVIVES = "refused, in a round", "refused, as it must be", "NOT REFUSED"
UNCOVERED, UNREAD = "BAD EDIT: the prover does not cover", "BAD EDIT: it did not reach the prover"
# Each mutant: what it writes in place of what, and what is to be said of it.
MUTANTS = {
    "least.gives_the_greater": ("if a < b { a } else { b }", "if a < b { b } else { a }", ROUND),
    "same.is_a_sum": ("    a", "    a + 0", SURVIVES),
    "least_of.calls_a_mutant": (
        "    least(least(a, b), c)",
        "    let _ = least(a, a); least(least(a, b), c)",
        SURVIVES,
    ),
    "limited.does_not_parse": ("least(a, LIMIT)", "least(a, LIMIT))", UNREAD),
    "small.limit_is_eleven": ("LIMIT: u8 = 10;", "LIMIT: u8 = 11;", ALONE),
    # these two make a cycle together
    "first.calls_second": ("let _b = b;", "if b < a { return second(b, b); }", ROUND),
    "second.calls_first": ("let _a = a;", "if a < b { return first(a, a); }", ROUND),
    "Returns.given.zero_becomes_one": ("if a < 1 { 0 } else", "if a < 1 { 1 } else", ROUND),
    "head.holds_a_loan": ("    bytes[0]", "    let _ = (bytes, bytes.len()); 0", UNCOVERED),
}
# What the prover says of `first` with a mutant, where the fault is its own.
OWN = "note: src/lib.rt:35:5: it is not proved that what the function ensures holds"
# Lines beside these with which a report may not refuse it: each with why.
OPEN = {
    "its proof cites another mutant": [
        "./proofs/first/Answers.antt:3:5: error: `Rattle.small.proofs.same.Met` was not admitted",
        "fn small::first: not proved",
    ],
    "it calls what is not proved": ["fn small::first: no proof: it calls `small::same`, which .."],
    "another function is refused": ["fn small::first: not proved", "fn small::head: not proved"],
    "a lemma is refused": [
        "./proofs/Lemmas.antt:9:1: error: `half`: expected type ..",
        "fn small::first: not proved",
    ],
    "its form is not covered": [
        "fn small::first: no proof: expected first_spec; the borrow checker does not cover this"
    ],
}
# Lines beside it with which a report has to refuse it.
SHOWN = [
    ["fn small::first: not proved", "fn small::same: proved"],
    ["fn small::first: not proved; it calls `small::same`, which is not proved"],
]


def write_crate(top):
    """A repository with the small crate and its mutants."""
    crate = os.path.join(top, "crates", "small")
    for folder in ("src", "must-fail"):
        os.makedirs(os.path.join(crate, folder))
    files = {
        os.path.join(top, "crates.txt"): "small: core\n",
        os.path.join(top, "HANDLES"): "Handles allowed: none.\n",
        os.path.join(crate, "src", "lib.rt"): SOURCE,
    }
    for name, (old, new, _) in MUTANTS.items():
        # the kit keeps what became of an edit: the first line makes this one new
        edit = f"# in {top}\nfile: src/lib.rt\nold: {old}\nnew: {new}\n"
        files[os.path.join(crate, "must-fail", f"{name}.edit")] = edit
    for path, text in files.items():
        with open(path, "w", encoding="utf-8") as file:
            file.write(text)
    return crate


def judged_wrong(top):
    """The mutants of which the prover's runs say something else than they are to."""
    command = [sys.executable, os.path.join(TOP, "tools", "rt_once.py"), "must-fail", "small"]
    ran = subprocess.run(command, cwd=top, stdout=subprocess.PIPE, text=True, check=False)
    said = dict(re.findall(r"^rt: must-fail small/(\S+)\.edit: (.*)$", ran.stdout, re.M))
    for name, (_, _, wanted) in MUTANTS.items():
        if not said.get(name, "").startswith(wanted):
            yield f"{name}: expected {wanted!r}, got {said.get(name)!r}"
    if ran.returncode != 1:
        yield f"status {ran.returncode}, expected 1"


def refused_wrong(folder):
    """The reports that refuse a mutant of `first` though they may not, or do not and have to."""
    rt = types.SimpleNamespace(
        read_edit=lambda path, _: ({"src/lib.rt": SOURCE.replace("let _b = b;", "")}, None),
        rtlib=types.SimpleNamespace(STALE=re.compile("Run the lower steps again")),
        unread=lambda line, texts: False,
    )
    crate = types.SimpleNamespace(name="small", folder=folder)
    edit = rounds.Edit(rt, crate, os.path.join(folder, "must-fail", "first.calls_second.edit"))
    for why, lines in [*OPEN.items(), *(("", lines) for lines in SHOWN)]:
        text = "\n".join([OWN, *lines, "logic=not-proved"])
        report = rounds.Report(rt, crate, types.SimpleNamespace(stdout=text, returncode=1), {})
        report.drop_unless_of([edit])
        if bool(report.refusal(edit)) != (why == ""):
            yield f"refused although {why}" if why else f"not refused: {lines[0]}"


def test_reports_that_refuse(tmp_path):
    expect_none(refused_wrong(write_crate(tmp_path)))


def test_mutants_by_the_prover():
    with tempfile.TemporaryDirectory(prefix="rounds ") as top:
        write_crate(top)
        expect_none(judged_wrong(top))
