#!/usr/bin/env python3
"""Prints which lines and branches of the headers, of library/ and of the Python modules the tests
run. Fails if it is less than 95 % of the lines of a file. LRC_LIBRARIES names the folder of the
libraries.

A line that several programs have counts as run if one of them ran it. The edges of exceptions are
no branches here.
"""

import glob
import json
import os
import shutil
import sys
import tempfile
from collections import defaultdict
from typing import NamedTuple

from building import CHOICE, TOP, build, build_numbers, library, output, require, run

LEAST = 95.0
FOLDERS = ("include/", "library/", "bindings/python/")
FLAGS = ["--coverage", "-O0", "-w"]
# The programs that are run. Some have more sources of library/ than they test, or words.
PROGRAMS = "waiting pool shards totals handed plan versions names coder".split()
MORE = {
    "waits": ["library/store_wait.c"],
    "mending": ["library/store_wait.c"],
    "edges of texts": ["library/store_text.c", "library/coder_text.c"],
    "texts": ["library/store_text.c", "library/coder_text.c"],
}
IN_CPP = {"random calls of the coder": ["40"], "C++": [], "store in C++": []}
MODULES = {"_native": "store", "_coder": "coder"}


def run_programs(work):
    """Builds each program in a folder of its own, where it leaves its counts."""
    rows = [(name, MORE.get(name, []), []) for name in (*PROGRAMS, *MORE)]
    rows += [(name, ["-fkeep-inline-functions"], words) for name, words in IN_CPP.items()]
    for name, flags, words in rows:
        folder = os.path.join(work, name)
        os.mkdir(folder)
        output(build(folder, name, flags=[*FLAGS, *flags]), *words)
    folder = tempfile.mkdtemp(dir=work)
    run(build_numbers(folder, *FLAGS))
    # both sources are called choice.c, and so would be their counts
    folder = tempfile.mkdtemp(dir=work)
    made = os.path.join(folder, "chosen.o")
    run("gcc", *FLAGS, "-O1", *CHOICE, "-DHAS_V4", "-c", "library/choice.c", "-o", made)
    chosen = build(folder, "choice", "library", flags=[*FLAGS, made])
    run(chosen, "v2", CHOICE="v2")
    output("tests/edges/choice.sh", chosen)


def of_python(work):
    """Runs the tests of the Python package, in a copy with the extension modules. Returns the path
    of what was counted."""
    package = os.path.join(work, "package")
    modules = os.path.join(TOP, "bindings", "python")
    shutil.copytree(modules, package)
    header = output("/usr/bin/python3", "tools/python_extension.py", "--header", PYTHONPATH="tools")
    where = ["-w", "-I", "include", "-I", os.path.dirname(header)]
    for module, name in MODULES.items():
        source = f"bindings/python/lrcstore/{module}.c"
        linked = [library(f"liblrc_{name}.so"), f"-Wl,-rpath,{library('')}"]
        made = os.path.join(package, "lrcstore", f"{module}.abi3.so")
        run("gcc", *FLAGS, *where, "-fPIC", "-shared", source, *linked, "-o", made)
    for file in ("library/watched", "store/busy"):
        made = os.path.join(work, f"{os.path.basename(file)}.so")
        run("gcc", *where, "-fPIC", "-shared", f"tests/{file}.c", "-o", made)
    names = {"LRC_CODER_SO": library("liblrc_coder.so"), "PYTHONPATH": package}
    names.update(PYTHONDONTWRITEBYTECODE="1", COVERAGE_FILE=os.path.join(work, "python"))
    counts = ["python3-coverage", "run", "--parallel-mode", "--branch"]
    counts.append("--include=*/lrc*.py,*/lrcstore/*")
    for preloaded, file in (
        (f"{work}/watched.so", "tests/library/bindings.py"),
        ("", "tests/store/package.py"),
        (f"{work}/busy.so", "tests/store/package_busy.py"),
    ):
        output(*counts, file, LD_PRELOAD=preloaded, **names)
    # the copy's lines are those of the package
    with open(os.path.join(work, "paths"), "w", encoding="utf-8") as paths:
        paths.write(f"[paths]\nof =\n    {modules}\n    {package}\n")
    run("python3-coverage", "combine", "--quiet", "--rcfile", f"{work}/paths", **names)
    run("python3-coverage", "json", "--quiet", "-o", f"{work}/python.json", **names)
    return f"{work}/python.json"


def of_c(work):
    """What gcov says of each object that has counted, as objects of JSON."""
    for path in glob.glob(f"{work}/**/*.gcda", recursive=True):
        folder, name = os.path.split(path)
        words = ["gcov", "--json-format", "--branch-probabilities", "--stdout", name]
        yield from map(json.loads, filter(str.strip, output(*words, cwd=folder).splitlines()))


class Counts:
    """Of a file: how often each line was run, and which branches of it were taken."""

    def __init__(self):
        self.lines, self.branches = {}, {}

    def add(self, number, count, branches):
        self.lines[number] = self.lines.get(number, 0) + count
        older = self.branches.setdefault(number, [0] * len(branches))
        if len(older) == len(branches):
            self.branches[number] = [old or new for old, new in zip(older, branches)]

    def report(self):
        branches = [taken for line in self.branches.values() for taken in line]
        missing = [number for number, count in sorted(self.lines.items()) if not count]
        return Report(len(self.lines), len(branches), sum(map(bool, branches)), missing)


class Report(NamedTuple):
    """Of a file: how many lines and branches it has, how many were taken, which lines were not
    run."""

    lines: int
    branches: int
    taken: int
    missing: list

    def part(self):
        return percent(self.lines - len(self.missing), self.lines)


def name_of(path, folder):
    """The path of a file from the top of the repository."""
    return os.path.relpath(os.path.join(folder, path), TOP)


def reports_of_c(runs):
    """The report on each file of the repository, by what gcov printed."""
    files = defaultdict(Counts)
    for run_of in runs:
        for file in run_of["files"]:
            name = name_of(file["file"], TOP)
            for line in file["lines"] if name.startswith(FOLDERS) else ():
                branches = [it["count"] for it in line["branches"] if not it["throw"]]
                files[name].add(line["line_number"], line["count"], branches)
    return {name: counts.report() for name, counts in files.items()}


def reports_of_python(path):
    with open(path, encoding="utf-8") as written:
        files = json.load(written)["files"]
    names = ("num_statements", "num_branches", "covered_branches")
    return {
        name_of(path, TOP): Report(*map(of["summary"].get, names), of["missing_lines"])
        for path, of in files.items()
    }


def percent(part, whole):
    return 100.0 * part / whole if whole else 100.0


def row(name, report):
    branches = f"{report.branches} | {percent(report.taken, report.branches):.1f} %"
    return f"| {name} | {report.lines} | {report.part():.1f} % | {branches} |"


def main():
    for each in ("gcc", "g++", "gcov", "python3-coverage"):
        require(each)
    os.environ["LRC_LIBRARIES"] = os.path.abspath(os.environ["LRC_LIBRARIES"])
    with tempfile.TemporaryDirectory() as work:
        run_programs(work)
        python = reports_of_python(of_python(work))
        reports = {**reports_of_c(of_c(work)), **python}
    print("| File | Lines | run | Branches | taken |\n|---|---|---|---|---|")
    for name, report in sorted(reports.items()):
        print(row(name, report))
    missing = [(name, line) for name, report in reports.items() for line in report.missing]
    sums = [sum(report[i] for report in reports.values()) for i in range(3)]
    print(row("all", Report(*sums, missing)))
    short = [name for name, report in sorted(reports.items()) if report.part() < LEAST]
    for name in short:
        lines = ", ".join(map(str, reports[name].missing))
        print(f"{name}: less than {LEAST:.0f} % of the lines are run, not {lines}")
    return 1 if short else 0


if __name__ == "__main__":
    sys.exit(main())
