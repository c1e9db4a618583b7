#!/usr/bin/env python3
"""Proves and builds a program with all crates below it, and says how far it is.

    tools/build.py [--cpu v2|v3] [CRATE]

CRATE is lrcstore if none is given. A program that was built from the same files is taken as it is,
and so is each crate that was proved before. A program for v3 (AVX2) ends with status 127 on a
processor without it.
"""

import argparse
import hashlib
import os
import re
import subprocess
import sys
import time

TOP = os.path.dirname(os.path.dirname(os.path.abspath(__file__)))
RT = os.path.join(TOP, "tools", "rt_once.py")
PARTS = ("src", "specs", "proofs")
MINUTES = {"lrcstore": "35 to 45", "lrc": "up to 25"}  # of several runs


def dependencies():
    """The crates of crates.txt, from the bottom up, each with those that it uses."""
    with open(os.path.join(TOP, "crates.txt"), encoding="utf-8") as lines:
        rows = [re.match(r"(\w+)[^:]*:(.*)", line) for line in lines if not line.startswith("#")]
    return {row.group(1): row.group(2).split() for row in rows if row}


def below(program):
    """The program and all crates below it, from the bottom up."""
    uses, wanted, ahead = dependencies(), set(), [program]
    while ahead:
        name = ahead.pop()
        if name in uses and name not in wanted:
            wanted.add(name)
            ahead += uses[name]
    return [name for name in uses if name in wanted]


def sources_of(names):
    """The files of the crates."""
    return [
        os.path.join(folder, file)
        for name in names
        for part in PARTS
        for folder, _, files in os.walk(os.path.join(TOP, "crates", name, part))
        for file in files
    ]


def files_of(names):
    """The files that the crates are made from, in a fixed order."""
    return sorted([os.path.join(TOP, "crates.txt"), *sources_of(names)])


def sum_of(names, cpu):
    """A checksum of the kit, the processor and the files of the crates."""
    kit = subprocess.run(["rt", "version"], stdout=subprocess.PIPE, check=True).stdout
    total = hashlib.sha256(kit + cpu.encode())
    for path in files_of(names):
        with open(path, "rb") as file:
            total.update(os.path.relpath(path, TOP).encode() + b"\0" + file.read() + b"\0")
    return total.hexdigest()


def follow(lines, count):
    """Says which crate is proved as its line comes, and gives all lines."""
    start, seen, done = time.monotonic(), [], 0
    for line in lines:
        seen.append(line)
        proved = re.match(r"rt: (\w+) (proved$|is kept: )", line)
        if proved:
            done += 1
            how = "proved" if proved.group(2) == "proved" else "proved before"
            seconds = time.monotonic() - start
            print(
                f"{done:2} of {count}  {proved.group(1):14} {how}, {seconds:5.0f} s from the start",
                flush=True,
            )
    return seen


def build_all(program, cpu="v2"):
    """Builds a program with the crates below it, and gives its path."""
    names = below(program)
    if not names or names[-1] != program:
        sys.exit(f"crates.txt has no crate {program}")
    if not os.path.exists(os.path.join(TOP, "crates", program, "src", "main.rt")):
        sys.exit(f"{program} is no program: run `rt lib` in crates/{program}")
    built = os.path.join(TOP, "crates", program, "out", program)
    sum_file, wanted = built + ".sum", sum_of(names, cpu)
    if os.path.exists(built) and os.path.exists(sum_file):
        with open(sum_file, encoding="utf-8") as file:
            if file.read() == wanted:
                print(f"{program} is as it was built before")
                return built
    minutes = MINUTES.get(program, "some")
    print(f"{len(names)} crates. From nothing they take {minutes} minutes on 4 cores.", flush=True)
    with subprocess.Popen(
        [sys.executable, RT, "program", program, cpu],
        env={**os.environ, "PYTHONUNBUFFERED": "1"},
        stdout=subprocess.PIPE,
        stderr=subprocess.STDOUT,
        text=True,
    ) as run:
        seen = follow(run.stdout, len(names))
    if run.returncode != 0 or not os.path.exists(built):
        sys.exit("".join(seen) + f"{program} is not built")
    with open(sum_file, "w", encoding="utf-8") as file:
        file.write(wanted)
    return built


def main():
    parser = argparse.ArgumentParser(description=__doc__.splitlines()[0])
    parser.add_argument(
        "--cpu",
        choices=("v2", "v3"),
        default="v2",
        help="the processor's level: v2 (SSE) or v3 (AVX2)",
    )
    parser.add_argument("program", nargs="?", default="lrcstore")
    given = parser.parse_args()
    print(os.path.relpath(build_all(given.program, given.cpu), TOP))


if __name__ == "__main__":
    main()
