#!/usr/bin/env python3
"""Measures the library, and the same in plain Rust.

    bench/library.py [--times N] [--millis M] [--folder FOLDER] [CLIENTS ..]

It needs rustc. The clients of bench/clients are a crate over `shared`: their files, and those of
the crates below, are copied into FOLDER, where `rt` proves and builds them, at first in some 6
minutes. bench/store.rs is the plain store. Each is run N times (9 without the option) for M
milliseconds (500), in turn. It prints the greatest number of calls a second, and the median.
CLIENTS are earlier builds of the clients, which are run too.
"""

import os
import shutil
import statistics
import subprocess
import sys
import tempfile
from pathlib import Path

from turns import TOP, compiled, in_turn, parser_of

sys.path.insert(0, os.path.join(TOP, "tools"))
import build  # noqa: E402

CLIENTS = os.path.join(TOP, "bench", "clients")
PARTS = ("src", "specs", "proofs", os.path.join("out", "rlib"))


def run_rt(crate, folder, *words):
    """Runs rt in the folder of a crate; what it prints."""
    kinds = {"stdout": subprocess.PIPE, "stderr": subprocess.STDOUT, "text": True}
    ran = subprocess.run(["rt", *words], cwd=folder, **kinds)
    if ran.returncode != 0:
        sys.exit(f"{ran.stdout}{crate} is not built")
    return ran.stdout


def copied(name, folder):
    """Proves a crate, where it isn't yet, and copies its files and its library."""
    run_rt(name, os.path.join(TOP, "crates", name), "lib")
    for part in PARTS:
        source, to = (os.path.join(top, "crates", name, part) for top in (TOP, folder))
        shutil.rmtree(to, ignore_errors=True)
        if os.path.isdir(source):
            shutil.copytree(source, to)


def sources():
    """The files of the clients of one store."""
    return [os.path.join(CLIENTS, name) for name in os.listdir(CLIENTS)]


def built(folder, crate, top, uses, files, words):
    """Clients, proved and built in a repository of their own: a crate of these files, over `top`
    and the crates below it. It is run once with these words."""
    names = build.below(top)
    for name in names:
        copied(name, folder)
    source = os.path.join(folder, "crates", crate, "src")
    os.makedirs(source, exist_ok=True)
    for file in files:
        shutil.copy(file, os.path.join(source, os.path.basename(file).replace(".rattle", ".rt")))
    shutil.copy(os.path.join(TOP, "HANDLES"), folder)
    lines = Path(TOP, "crates.txt").read_text("utf-8").splitlines(True)
    rows = [line for line in lines if line.partition(":")[0].partition(" ")[0] in names]
    Path(folder, "crates.txt").write_text("".join(rows) + f"{crate}: anyhow {uses}\n", "utf-8")
    printed = run_rt(crate, os.path.dirname(source), "run", "--", *words)
    program = os.path.join(os.path.dirname(source), "out", crate)
    if not os.path.exists(program):
        sys.exit(f"{printed}{crate} is not built")
    return program


def run_figures(program, *words):
    """What a run prints, as numbers by their names."""
    printed = subprocess.check_output([program, *words], text=True).split()
    return dict(zip(printed[::2], map(int, printed[1::2])))


def rate(program, calls, threads, millis):
    """Million calls a second."""
    run = run_figures(program, calls, str(threads), str(millis))
    if run["failed"] or (run["bytes"] == 0) != (calls == "reads"):
        sys.exit(f"{program}: {run}")
    return run["calls"] * 1000 / run["nanos"]


def main():
    folder = os.path.join(tempfile.gettempdir(), "lrcstore_clients")
    parser = parser_of(__doc__, times=9, millis=500, folder=folder)
    parser.add_argument("clients", nargs="*")
    given = parser.parse_args()
    os.makedirs(given.folder, exist_ok=True)
    clients = built(given.folder, "clients", "shared", "shared", sources(), ["trims"])
    programs = [*given.clients, clients, compiled("store.rs", given.folder)]
    for calls in ("reads", "walks"):
        for threads in (1, 4):
            runs = in_turn(given.times, lambda it: rate(it, calls, threads, given.millis), programs)
            for word, of in (("at most", max), ("median", statistics.median)):
                rates = [of(of_one) for of_one in runs]
                ratios = ", ".join(f"{one:.2f} ({one / rates[-1]:.2f})" for one in rates[:-1])
                print(
                    f"{calls} by {threads}, {word}: {ratios}; "
                    f"plain {rates[-1]:.2f} million a second",
                    flush=True,
                )
    for program in programs[:-1]:
        trims = [run_figures(program, "trims") for _ in range(given.times)]
        mean, greatest = min(run["mean"] for run in trims), sorted(run["greatest"] for run in trims)
        print(
            f"a trim among 30,000 names: {mean / 1000:.1f} microseconds in the mean, "
            f"at most {greatest[0] / 1000:.1f} to {greatest[-1] / 1000:.1f}"
        )


if __name__ == "__main__":
    main()
