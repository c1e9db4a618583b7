#!/usr/bin/env python3
"""Runs all tests but those of `rt ci`, and adds up what they count.

    tests/gate.py [PASSED]    so many tests passed before

The archives are built once, unless LRC_BUILT names a folder with them, which tools/package.py build
has filled, or LRC_LIBRARIES one with the libraries. Parts that need the libraries run side by side,
as many as processors. A part that hangs is killed, and named. At the end stand the seconds of each
part, of the processors and by the clock, and a line that counts all tests.
"""

import concurrent.futures
import os
import re
import subprocess
import sys
import tempfile
import threading
import time
from typing import NamedTuple

TOP = os.path.dirname(os.path.dirname(os.path.abspath(__file__)))
DOCUMENTS = "documents pages figures prose versions declarations crates commits form gate"
PROGRAMS = "statuses pictures limits refused_memory io files"
LIBRARIES = "store library edges explore services checked"
LIMIT = 2400  # seconds of a part, by the clock
RT = os.path.join(TOP, "tools", "rt_once.py")
# The programs that tests run, each with the words that `rt_once.py run` builds it by.
BUILT = {
    "test_refused_memory": [],
    "test_sharded": [],
    "lrcstore": ["--", "data/degraded_read.csv"],
    "lrc": ["--", "--version"],
}
# What the last line of a part counts: of pytest, tests/release.sh or tests/mutants.py.
COUNTED = {
    "passed": r"\b(\d+) (?:tests of the [a-z ]+ passed|passed|mutants rejected)",
    "failed": r"\b(\d+) (?:failed|errors?|survive)",
    "skipped": r"\b(\d+) skipped",
}


def pytest(names):
    """The command for the tests of these modules."""
    files = [f"tests/test_{name}.py" for name in names.split()]
    return ["pytest", "-q", "-rs", "-p", "no:cacheprovider", *files]


class Part(NamedTuple):
    """A part that was run: its name, what it printed and counted, and its seconds."""

    name: str
    printed: str
    counts: dict
    used: float
    clock: float


def counts_of(printed, status):
    """What the last line counts. A part that counts nothing is one test, and one that ends in
    another way than its last line says has failed."""
    last = printed.rstrip().rpartition("\n")[2]
    counts = {what: sum(map(int, re.findall(of, last))) for what, of in COUNTED.items()}
    if not counts["passed"] + counts["failed"]:
        counts["passed"] = int(status == 0 and not counts["skipped"])
    if status and not counts["failed"]:
        counts["failed"] = 1
    return counts


def kill(run, printed):
    """Lists what runs in the session of a command, and kills it."""
    session = str(run.pid)
    printed.write(f"{' '.join(run.args)} runs for too long, and is killed:\n")
    printed.flush()
    subprocess.run(["ps", "-ww", "-o", "pid,etime,time,args", "-s", session], stdout=printed)
    subprocess.run(["pkill", "-KILL", "-s", session])


def run_part(*words, limit=LIMIT, cwd=TOP):
    """Runs a command that tests, for so many seconds at most."""
    began = time.monotonic()
    with tempfile.TemporaryFile("w+", encoding="utf-8", errors="replace") as printed:
        streams = {"stdout": printed, "stderr": subprocess.STDOUT, "stdin": subprocess.DEVNULL}
        run = subprocess.Popen([*map(str, words)], cwd=cwd, start_new_session=True, **streams)
        timer = threading.Timer(limit, kill, (run, printed))
        timer.start()
        _, status, used = os.wait4(run.pid, 0)
        run.returncode = status
        timer.cancel()
        printed.seek(0)
        text = printed.read()
    text += f"failed: {' '.join(run.args)}\n" if status else ""
    name = " ".join(os.path.relpath(it, TOP) if os.path.isabs(it) else it for it in run.args)
    name = name.replace(" ".join(pytest("")), "pytest")
    seconds = used.ru_utime + used.ru_stime
    return Part(name, text, counts_of(text, status), seconds, time.monotonic() - began)


class Gate:
    """The parts that were run, and what they count."""

    def __init__(self, passed=0):
        self.passed, self.failed, self.skipped, self.parts = passed, 0, 0, []
        self.began, self.lock = time.monotonic(), threading.Lock()

    def part(self, *words, **more):
        """Runs a part, and prints what it printed."""
        part = run_part(*words, **more)
        with self.lock:
            print(part.printed, end="", flush=True)
            self.parts.append(part)
            for what, count in part.counts.items():
                setattr(self, what, getattr(self, what) + count)

    def side_by_side(self, *commands):
        with concurrent.futures.ThreadPoolExecutor(os.cpu_count()) as pool:
            for _ in pool.map(lambda words: self.part(*words), commands):
                pass

    def skip(self, count, what):
        self.skipped += count
        print("skipped:", what)

    def build(self, crate, *words):
        """Builds the program of a crate, unless that was done."""
        folder = os.path.join(TOP, "crates", crate)
        if not os.path.exists(os.path.join(folder, "out", crate)):
            command = [sys.executable, RT, "run", *words]
            if subprocess.run(command, cwd=folder, stdout=subprocess.DEVNULL).returncode:
                print(f"failed: the program {crate}")
                self.failed += 1

    def sum_up(self):
        """Prints the seconds and the last line, and returns the status."""
        print("seconds of the processors, and by the clock:")
        for part in sorted(self.parts, key=lambda part: -part.used):
            if part.used + part.clock >= 3:
                print(f"{part.used:6.0f} {part.clock:6.0f}  {part.name}")
        used, clock = sum(part.used for part in self.parts), time.monotonic() - self.began
        print(f"{used:6.0f} {clock:6.0f}  all")
        skipped = f", {self.skipped} skipped" if self.skipped else ""
        print(f"{self.passed} passed, {self.failed} failed{skipped}")
        return self.failed != 0


def run_all(gate, folder):
    gate.part(*pytest(DOCUMENTS))
    gate.part(*pytest("mutant_rounds"))
    for crate, words in BUILT.items():
        gate.build(crate, *words)
    builds = "LRC_BUILT" not in os.environ and "LRC_LIBRARIES" not in os.environ
    if builds:
        os.environ["LRC_BUILT"] = os.path.join(folder, "built")
    reused = [word for it in ("lrcstore", "lrc") for word in ("--reuse", f"crates/{it}/out")]
    package = ["tools/package.py", "build", "--to", os.environ.get("LRC_BUILT", ""), *reused]
    gate.side_by_side(*[package] * builds, pytest(PROGRAMS))
    if "LRC_LIBRARIES" not in os.environ:
        os.environ["LRC_LIBRARIES"] = os.path.join(folder, "libraries")
        where = ["--from", os.environ["LRC_BUILT"], "--to", os.environ["LRC_LIBRARIES"]]
        gate.part("tools/libraries.py", *where)
    parts = [pytest(it) for it in LIBRARIES.split()]
    if "LRC_BUILT" in os.environ:
        parts.insert(0, ["tests/release.sh"])
    else:
        gate.skip(1, "release.sh, as LRC_BUILT names no folder of tools/package.py")
    gate.side_by_side(*parts, ["tests/coverage.py"], ["tests/install.sh"])
    # some mutants wait in vain
    gate.part("tests/mutants.py", "--jobs", 2 * os.cpu_count(), limit=4800)


def main(words):
    os.chdir(TOP)
    for name in ("LRC_BUILT", "LRC_LIBRARIES"):
        if not os.environ.get(name):
            os.environ.pop(name, None)
    gate = Gate(*map(int, words))
    with tempfile.TemporaryDirectory() as folder:
        run_all(gate, folder)
    if os.environ.get("LRC_GATE_LOG"):
        with open(os.environ["LRC_GATE_LOG"], encoding="utf-8") as log:
            print("| Crate |" + log.read().partition("| Crate |")[2], end="")
    return gate.sum_up()


if __name__ == "__main__":
    sys.exit(main(sys.argv[1:]))
