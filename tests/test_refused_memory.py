"""Refuses each request for memory in turn, and then each thread.

It runs the programs that the merge gate has built. `test_refused_memory` and `test_sharded` must
print the same whichever request is refused. `lrcstore` must end with status 3, nothing on standard
output and the message of what was refused, or print what it prints with ample memory. Where a
thread is refused it must end so. In each run the threads are counted: with ample memory one for
each worker that has rows in a round, and for each worker of a mend; where one is refused, those
before it.
"""

import os
import subprocess
from collections import namedtuple
from pathlib import Path

import pytest
from building import TOP, run

DATA = os.path.join(TOP, "crates", "test_examples", "data")
# The workers of the scripts that `meeting_of` makes.
MEETINGS = (4, 16)
RUNS = [
    ["first_path.csv", "--workers", "2"],
    ["degraded_read.csv", "--history"],
    ["trimmed_journal.csv", "--limit", "3", "--history"],
    ["mend.csv"],
    ["mend.csv", "--workers", "4"],
    ["meeting_4.csv", "--workers", "4"],
]
# Programs that make a refused call again. With a word test_sharded starts no thread.
AGAIN = [["test_refused_memory"], ["test_sharded", "calls"]]
THREADED = [
    ["first_path.csv", "--workers", "2"],
    ["mend.csv", "--workers", "4"],
    ["meeting_4.csv", "--workers", "4"],
    ["meeting_16.csv", "--workers", "16"],
]
NO_THREAD = b"lrcstore: cannot start a worker\n"
NO_MEMORY = b"lrcstore: out of memory\n"
# What the program may say, by where memory was refused. The main thread asks for a block for each
# thread that it starts; if it gets none, the thread is not started.
MESSAGES = {b"start": (NO_THREAD,), b"main": (NO_MEMORY, NO_THREAD), b"worker": (NO_MEMORY,)}
# So many numbers in a row at which nothing was refused end a range: with several threads the count
# of requests differs between runs.
BEHIND = 8

Ran = namedtuple("Ran", "status out err threads where")


def meeting_of(workers):
    """A script: two rounds with several rows of each worker over a blob of its own, and a mend."""
    rows = [f"1,1,put,n{k},text,HELLO" for k in range(1, workers + 1)]
    texts = ("read,{},0,5", "lose,{},0,0", "read,{},0,2", "stat,{},,")
    rows += [
        f"{r},{k},{text.format(f'n{k}')}"
        for r in (2, 3)
        for text in texts
        for k in range(1, workers + 1)
    ]
    return "\n".join(rows + ["4,0,mend,,,", "5,1,stat,n1,,", ""])


def threads_of(path, workers):
    """How many threads a script takes: one for each worker with rows in a round, all for a mend."""
    lines = path.read_text("utf-8").splitlines()
    heads = {tuple(line.split(",")[:2]) for line in lines if line.strip()}
    return sum(workers if worker == "0" else 1 for _, worker in heads)


class Runs:
    """Runs of programs in a folder with all scripts, under the library that counts and refuses."""

    def __init__(self, folder):
        self.folder, self.library = folder, folder / "refuse.so"
        run("cc", "-O1", "-shared", "-fPIC", "-o", self.library, "tests/refuse.c")
        for script in Path(DATA).glob("*.csv"):
            (folder / script.name).symlink_to(script)
        for workers in MEETINGS:
            (folder / f"meeting_{workers}.csv").write_text(meeting_of(workers))

    def run(self, command, what="REFUSE", number=0):
        """A run in which the request or the thread of this number is refused, none if it is 0."""
        refused, started = (self.folder / name for name in ("refused", "started"))
        for path in (refused, started):
            path.write_bytes(b"")
        variables = {"LD_PRELOAD": self.library, what: str(number)}
        variables.update(REFUSED=refused, STARTED=started)
        more = {"cwd": self.folder, "env": variables, "timeout": 60, "capture_output": True}
        ran = subprocess.run(command, **more)
        threads, where = started.stat().st_size, refused.read_bytes()
        return Ran(ran.returncode, ran.stdout, ran.stderr, threads, where)

    def refusals(self, command, what="REFUSE"):
        """The runs in which something was refused, each with its number."""
        number, behind = 0, 0
        while behind < BEHIND:
            number += 1
            ran = self.run(command, what, number)
            behind = 0 if ran.where else behind + 1
            if ran.where:
                yield number, ran

    def check(self, command, least, is_right, what="REFUSE"):
        """Each run with a refusal is right. Of these there must be so many: fewer are seen if the
        library was not loaded."""
        seen = 0
        for number, ran in self.refusals(command, what):
            seen += 1
            assert is_right(number, ran), (number, ran)
        assert seen >= least

    def ample(self, command, threads=None):
        """A run with ample memory, whose threads are counted if it is said how many they are."""
        ran = self.run(command)
        assert not (ran.status or ran.err or ran.where) and threads in (None, ran.threads), ran
        return ran


@pytest.fixture(scope="module")
def runs(tmp_path_factory):
    return Runs(tmp_path_factory.mktemp("runs"))


def program(name):
    return os.path.join(TOP, "crates", name, "out", name)


def workers_of(words):
    return int(words[words.index("--workers") + 1]) if "--workers" in words else 1


@pytest.mark.parametrize("words", AGAIN, ids=" ".join)
def test_again(runs, words):
    command = [program(words[0]), *words[1:]]
    ample = runs.ample(command)
    runs.check(command, 1, lambda _, ran: ran[:3] == ample[:3])


@pytest.mark.parametrize("words", RUNS, ids=" ".join)
def test_memory(runs, words):
    workers = workers_of(words)
    threads = threads_of(runs.folder / words[0], workers)
    ample, blocks = runs.ample([program("lrcstore"), *words], threads), []

    def is_right(number, ran):
        if ran.where == b"main" and ran.err == NO_THREAD:
            blocks.append(number)
        is_ended = ran.status == 3 and not ran.out and ran.err in MESSAGES[ran.where]
        return ran[:4] == ample[:4] or is_ended and ran.threads <= threads

    runs.check([program("lrcstore"), *words], 1, is_right)
    # With one worker each run asks in the same order: one block for each thread, and no more.
    assert workers > 1 or len(blocks) == threads, blocks


@pytest.mark.parametrize("words", THREADED, ids=" ".join)
def test_threads(runs, words):
    threads = threads_of(runs.folder / words[0], workers_of(words))
    command = [program("lrcstore"), *words]
    runs.ample(command, threads)

    def is_right(number, ran):
        return ran[:4] == (3, b"", NO_THREAD, number - 1)

    runs.check(command, threads, is_right, "REFUSE_THREAD")
