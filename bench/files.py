#!/usr/bin/env python3
"""Measures `lrc`, and other programs that keep a file in fragments.

    bench/files.py [--mib N] [--times N] [--only TEXT] [LRC]

Each program splits a file of N MiB (1,024) of random bytes, checks the fragments, makes one and
four lost ones again, and joins the file. All files lie in memory, in /dev/shm. Each step is run N
times (3), those of par2 once, and the least time by the clock counts. --only takes the programs
whose names have the text. LRC is what tools/build.py lrc makes if none is given. Debian's par2,
python3-zfec and libisal2 have to be there.

The rows are seconds by the clock and of the processors, and MiB of memory. The loops over zfec and
ISA-L are file_loops.py, which checks nothing. par2 keeps the file in twelve parts, beside as many
blocks as four parts have.
"""

import json
import os
import shutil
import subprocess
import sys
import tempfile
from pathlib import Path

from program import GONE, measured
from turns import TOP, parser_of

LRC = os.path.join(TOP, "crates", "lrc", "out", "lrc")
LOOPS = ["/usr/bin/python3", os.path.join(TOP, "bench", "file_loops.py")]
ONE, FOUR = [0], list(GONE)
MIB = 1 << 20


class Lrc:
    """`lrc` by so many threads."""

    once = ()  # the steps that are run once

    def __init__(self, program, threads, source, folder):
        self.name = f"`lrc`, {threads} thread{'s' * (threads > 1)}"
        self.program, self.source, self.folder = program, source, folder
        self.more = ["--threads", str(threads)]
        self.made = os.path.join(folder, "made")

    def path(self, number):
        return os.path.join(self.folder, f"source.{number:02}.lrc")

    def words(self, verb, *words):
        return [self.program, verb, *words, *self.more]

    def steps(self):
        """Each step: its name, the fragments that are lost before, and the command."""
        yield "split", [], self.words("split", self.source, "--force", "--to", self.folder)
        yield "verify", [], self.words("verify", self.folder)
        yield "one", ONE, self.words("repair", self.folder)
        yield "four", FOUR, self.words("repair", self.folder)
        yield "join", [], self.words("join", self.folder, "--force", "--to", self.made)


class Loop:
    """A loop over a library that encodes."""

    once = ()

    def __init__(self, library, source, folder):
        self.name = {"zfec": "zfec", "isal": "ISA-L"}[library] + ", a loop, 1 thread"
        self.library, self.source, self.folder = library, source, folder

    def path(self, number):
        return os.path.join(self.folder, str(number))

    def steps(self):
        repair = [*LOOPS, self.library, "repair", self.folder]
        yield "split", [], [*LOOPS, self.library, "split", self.source, self.folder]
        yield "one", ONE, [*repair, *map(str, ONE)]
        yield "four", FOUR, [*repair, *map(str, FOUR)]


class Par2:
    """`par2` by its own threads. What it has created it does not create again."""

    once = ("split", "verify", "one", "four")

    def __init__(self, source, folder):
        self.name, self.folder = "`par2`, 4 threads", folder
        subprocess.run(["split", "-n", "12", "-d", source, self.path("")], check=True)

    def path(self, number):
        return os.path.join(self.folder, f"part{number:02}" if number != "" else "part")

    def words(self, verb, *words):
        return ["/usr/bin/par2", verb, "-q", "-q", "-t4", *words]

    def steps(self):
        index = os.path.join(self.folder, "all.par2")
        parts = [self.path(number) for number in range(12)]
        yield "split", [], self.words("create", f"-s{MIB}", "-r34", index, *parts)
        yield "verify", [], self.words("verify", index)
        yield "one", ONE, self.words("repair", index)
        yield "four", FOUR, self.words("repair", index)


def least(program, lost, command, times):
    """The run that takes the least time, after which what was lost is there as before."""
    whole, runs = [Path(program.path(number)).read_bytes() for number in lost], []
    for _ in range(times):
        for number in lost:
            os.remove(program.path(number))
        runs.append(measured(command[0], command[1:]))
        if runs[-1].status != 0:
            sys.exit(f"{command} ended with {runs[-1].status}")
    for number, content in zip(lost, whole):
        if Path(program.path(number)).read_bytes() != content:
            sys.exit(f"{program.name}: fragment {number} is another one")
    return min(runs, key=lambda run: run.wall)


def bytes_read(program, lost, source):
    """What a repair reads, as a part of the file."""
    for number in lost:
        os.remove(program.path(number))
    words = program.words("repair", program.folder, "--json")
    printed = subprocess.check_output(words)
    return json.loads(printed)["bytes_read"] / os.path.getsize(source)


def row(program, times):
    """The cells of a program: what each of its steps took."""
    cells = dict.fromkeys(("split", "verify", "one", "four", "join"), "-")
    peak = 0
    for step, lost, command in program.steps():
        run = least(program, lost, command, 1 if step in program.once else times)
        cells[step] = f"{run.wall:.2f} ({run.seconds:.2f})"
        peak = max(peak, run.peak)
    return [program.name, *cells.values(), f"{peak / MIB:.0f}"]


def programs(lrc, source, folder):
    for make in (
        lambda at: Lrc(lrc, 1, source, at),
        lambda at: Lrc(lrc, 4, source, at),
        lambda at: Loop("zfec", source, at),
        lambda at: Loop("isal", source, at),
        lambda at: Par2(source, at),
    ):
        at = tempfile.mkdtemp(dir=folder)
        yield make(at)
        shutil.rmtree(at)


def main():
    parser = parser_of(__doc__, mib=1024, times=3, only="")
    parser.add_argument("lrc", nargs="?", default=LRC, metavar="LRC")
    given = parser.parse_args()
    if not os.path.exists(given.lrc):
        sys.exit(f"no {given.lrc}: build it by tools/build.py lrc")
    with tempfile.TemporaryDirectory(dir="/dev/shm") as folder:
        source = os.path.join(folder, "source")
        with open(source, "wb") as file:
            for _ in range(given.mib):
                file.write(os.urandom(MIB))
        print("| Program | split | verify | repair one | repair four | join | MiB |")
        print("|---" * 7 + "|")
        parts = None
        for program in programs(os.path.abspath(given.lrc), source, folder):
            if given.only not in program.name:
                continue
            print("| " + " | ".join(row(program, given.times)) + " |", flush=True)
            if isinstance(program, Lrc):
                parts = [bytes_read(program, lost, source) for lost in (ONE, FOUR)]
        if parts:
            one, four = parts
            print(f"`lrc` reads {one:.2f} and {four:.2f} of the file to repair one and four.")


if __name__ == "__main__":
    main()
