"""Runs lrcstore with reads and writes that fail or are short.

A run with calls that are short, or that a signal interrupts, prints the same as without. If a read
fails, the run ends with status 1, `lrcstore: cannot read the script` and nothing on standard
output. If a write fails, it ends with status 1, `lrcstore: cannot write` and the first part of the
output. docs/errors.md has both lines.
"""

import errno
import itertools
import os
import subprocess

import pytest
from building import TOP, run

PROGRAM = os.path.join(TOP, "crates", "lrcstore", "out", "lrcstore")
NO_READ, NO_WRITE = b"lrcstore: cannot read the script\n", b"lrcstore: cannot write\n"
SHORT, NOTHING = 0, -1
EVERY_SECOND, EACH = 0, -1
# Short, and one that takes several reads, and whose output takes several writes.
SCRIPTS = {
    "short": ["1,1,put,a,text,HELLO"],
    "long": [f"1,1,put,name-{k},text,{'HELLO' * 20}" for k in range(400)]
    + [f"2,1,read,name-{k},0,100" for k in range(400)],
}


@pytest.fixture(scope="module")
def library(tmp_path_factory):
    """The library that fails calls."""
    path = tmp_path_factory.mktemp("io") / "io.so"
    run("gcc", "-std=gnu11", "-shared", "-fPIC", "tests/edges/io.c", "-o", path, "-ldl")
    return path


@pytest.fixture(params=SCRIPTS)
def run_with(request, library, tmp_path):
    """A function that runs a script with faults. It gives the run, and whether a fault was met."""
    (tmp_path / "script.csv").write_text("\n".join(SCRIPTS[request.param]) + "\n")
    seen = tmp_path / "seen"

    def of(**faults):
        seen.unlink(missing_ok=True)
        names = {f"FAULT_{name}".removesuffix("_FAULT"): str(it) for name, it in faults.items()}
        names.update(LD_PRELOAD=str(library), FAULT_SEEN=str(seen))
        words = [PROGRAM, "script.csv", "--history"]
        ran = subprocess.run(words, cwd=tmp_path, capture_output=True, env=names, timeout=60)
        return ran, seen.exists()

    return of


@pytest.mark.parametrize("fault, at", [(SHORT, EVERY_SECOND), (SHORT, EACH), (errno.EINTR, 0)])
@pytest.mark.parametrize("call", ["read", "write"])
def test_short_and_interrupted(run_with, call, fault, at):
    whole, _ = run_with()
    ran, is_met = run_with(CALL=call, FAULT=fault, AT=at)
    assert (whole.returncode, whole.stderr) == (ran.returncode, ran.stderr) == (0, b"")
    assert ran.stdout == whole.stdout and is_met


@pytest.mark.parametrize(
    "call, fault, said",
    [
        ("read", errno.EIO, NO_READ),
        ("write", errno.EIO, NO_WRITE),
        ("write", errno.ENOSPC, NO_WRITE),
        ("write", errno.EAGAIN, NO_WRITE),
        ("write", NOTHING, NO_WRITE),
    ],
)
def test_failed(run_with, call, fault, said):
    """The fault at each call in turn ends the run."""
    whole, _ = run_with()
    for at in itertools.count(1):
        ran, is_met = run_with(CALL=call, FAULT=fault, AT=at)
        if not is_met:
            break
        assert (ran.returncode, ran.stderr) == (1, said)
        assert whole.stdout.startswith(ran.stdout) if call == "write" else not ran.stdout
    assert at > 1
