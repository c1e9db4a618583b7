"""Runs lrcstore to each of its statuses, and compares the status, what it prints, and its line on
standard error."""

import os
import re
import subprocess

import pytest
from building import TOP

PROGRAM = os.path.join(TOP, "crates", "lrcstore", "out", "lrcstore")
FIRST_PATH = b"1,1,put,a,text,HELLO\n2,1,read,a,1,3\n"
PRINTED = b"1 stored 1\n2 granted 1 3 0 454c4c\ncalls 2\nlawful yes\n"
# The greatest numbers that are taken. In fragments so wide the read is one piece.
GREATEST = "--width 65536 --workers 16 --limit 1048576"
# What the help has to name: the operations, the statuses and the document with the rest.
HELPS = ["put", "put6", "read", "lose", "repair", "delete", "stat", "trim", "mend"]
HELPS += ["/dev/stdin", "--history", "Exit status", "docs/script.md"]
# What the example of the help prints.
EXAMPLE = b"1 stored 1\n2 lost 1\n3 granted 1 4 1 48454c4c4f\ncalls 3\nlawful yes\n"
MOST_ROWS = 65536
NOT_READ = b"lrcstore: cannot read the script\n"
PARSER = None  # some text of the parser's
# Words and standard input, and then the status, what is printed, and the line on standard error.
ENDINGS = [
    ("script.csv", b"", 0, PRINTED, b""),
    (f"script.csv {GREATEST}", b"", 0, PRINTED.replace(b"1 3 0", b"1 1 0"), b""),
    ("/dev/stdin", FIRST_PATH, 0, PRINTED, b""),
    ("--version", b"", 0, b"lrcstore 0.1.0\n", b""),
    ("/dev/stdin", b"1,1,stat,a,,\n" * (MOST_ROWS + 1), 1, b"", b"lrcstore: row 65537: rows\n"),
    ("cut.csv", b"", 1, b"", b"lrcstore: row 2: fields\n"),
    ("none.csv", b"", 1, b"", NOT_READ),
    (".", b"", 1, b"", NOT_READ),
    ("\udcff.csv", b"", 2, b"", b"lrcstore: an argument is not UTF-8\n"),
    ("", b"", 2, b"", PARSER),
    ("script.csv more", b"", 2, b"", PARSER),
    ("script.csv --unknown", b"", 2, b"", PARSER),
    *((f"script.csv --workers {n}", b"", 2, b"", PARSER) for n in (0, 17)),
    *((f"script.csv --width {n}", b"", 2, b"", PARSER) for n in (0, 65537)),
    *((f"script.csv --limit {n}", b"", 2, b"", PARSER) for n in (0, 1048577, "x")),
]


@pytest.fixture
def run(tmp_path):
    """A function that runs the program in a folder with a script, whole and cut."""
    (tmp_path / "script.csv").write_bytes(FIRST_PATH)
    (tmp_path / "cut.csv").write_bytes(FIRST_PATH[:-3])

    def of(words, given=b"", out=subprocess.PIPE, err=subprocess.PIPE):
        streams = {"stdout": out, "stderr": err, "input": given}
        command = [PROGRAM, *words.split()]
        return subprocess.run(command, cwd=tmp_path, env={}, timeout=60, **streams)

    return of


@pytest.mark.parametrize("words, given, status, out, err", ENDINGS, ids=[it[0] for it in ENDINGS])
def test_ending(run, words, given, status, out, err):
    ran = run(words, given)
    assert (ran.returncode, ran.stdout) == (status, out)
    assert ran.stderr.startswith(b"error: ") if err is PARSER else ran.stderr == err


def test_help(run):
    ran = run("--help")
    assert (ran.returncode, ran.stderr) == (0, b"")
    assert [word for word in HELPS if word.encode() not in ran.stdout] == []
    rows = b"".join(re.findall(rb"^ +(\d+,.*\n)", ran.stdout, re.MULTILINE))
    assert run("/dev/stdin", rows).stdout == EXAMPLE


@pytest.mark.parametrize("words", ["script.csv", "--help", "--version"])
def test_output_to_a_full_device(run, words):
    with open("/dev/full", "wb") as full:
        ran = run(words, out=full)
    assert (ran.returncode, ran.stderr) == (1, b"lrcstore: cannot write\n")


@pytest.mark.parametrize("words, status", [("", 2), ("none.csv", 1), ("cut.csv", 1)])
def test_message_to_a_full_device(run, words, status):
    """The status is that of the ending."""
    with open("/dev/full", "wb") as full:
        ran = run(words, err=full)
    assert (ran.returncode, ran.stdout) == (status, b"")
