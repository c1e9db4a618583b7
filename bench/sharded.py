#!/usr/bin/env python3
"""Measures threads on a sharded store.

    bench/sharded.py [--rounds N] [--millis M] [--folder FOLDER] [--write]

Clients of a plain store, of sharded stores and of plain Rust stores with as many mutexes are run in
turn, N times (30 without the option) for M milliseconds (25). Of each case the greatest number of
calls a second counts: short runs, so that some meet free processors. It needs rustc; the clients
are proved and built in FOLDER, at first in some minutes.

It prints a table. With --write it keeps the figures in bench/results/sharded.csv, draws
docs/pictures/sharded.svg from them, and puts table and picture into docs/performance.md.
"""

import csv
import functools
import itertools
import os
import platform
import subprocess
import sys
import tempfile
import textwrap
from pathlib import Path

import library
from turns import TOP, compiled, parser_of

sys.path.insert(0, os.path.join(TOP, "tools"))
from svg import GREY, INK, RED, drawing, line, middle, text  # noqa: E402

CLIENTS = os.path.join(TOP, "bench", "sharded_clients")
RESULTS = Path(TOP, "bench", "results", "sharded.csv")
PICTURE = Path(TOP, "docs", "pictures", "sharded.svg")
PAGE = Path(TOP, "docs", "performance.md")
HEADING = "## Threads on a sharded store"
CALLS, THREADS, SHARDS = ("reads", "walks"), (1, 2, 4), (1, 4, 16, 64)
NAMES = {"own": "a name for each", "one": "one name"}
# The programs: one store, a sharded store, and plain Rust.
STORE, SHARDED, PLAIN = "Store", "ShardedStore", "plain Rust"
FIELDS = ("calls", "names", "threads", "program", "shards", "rate", "machine")


def cases():
    """Each case: the calls, the names, how many threads, the program and how many shards."""
    for calls, names, threads in itertools.product(CALLS, NAMES, THREADS):
        yield calls, names, threads, STORE, 1
        for program, shards in itertools.product((SHARDED, PLAIN), SHARDS):
            yield calls, names, threads, program, shards


def command(programs, case, millis):
    """The words that run a case. The clients of a plain store all call one name."""
    calls, names, threads, program, shards = map(str, case)
    words = {
        STORE: [calls, threads, millis],
        SHARDED: [calls, names, shards, threads, millis],
        PLAIN: [calls, threads, millis, names, shards],
    }
    return [programs[program], *words[program]]


def measured(programs, rounds, millis):
    """Million calls a second of each case, the greatest of all rounds."""
    rates = dict.fromkeys(cases(), 0.0)
    for _ in range(rounds):
        for case in rates:
            run = library.run_figures(*command(programs, case, str(millis)))
            if run["failed"]:
                sys.exit(f"{case}: {run}")
            rates[case] = max(rates[case], run["calls"] * 1000 / run["nanos"])
    return rates


def machine():
    """The processor and how many there are."""
    found = subprocess.check_output(["lscpu"], text=True)
    rows = [row.partition(":") for row in found.splitlines()]
    models = [value.strip() for word, _, value in rows if word == "Model name"]
    return f"{os.cpu_count()} x {(models or [platform.machine()])[0]}"


def base(rates, calls):
    """What one thread makes of a plain store."""
    return rates[calls, "own", 1, STORE, 1]


def table(rates):
    """The rates as a table, each in times what one thread makes of a plain store."""
    columns = [(STORE, 1), *((SHARDED, shards) for shards in SHARDS), (PLAIN, 1), (PLAIN, 16)]
    heads = ["`Store`", "1 shard", "4", "16", "64", "plain Rust, 1 mutex", "16 mutexes"]
    yield "| " + " | ".join(["Calls", "Names", "Threads", *heads]) + " |"
    yield "|---" * (3 + len(columns)) + "|"
    for calls, names, threads in itertools.product(CALLS, NAMES, THREADS):
        ratios = (
            rates[(calls, names, threads, *column)] / base(rates, calls) for column in columns
        )
        cells = [calls, NAMES[names], str(threads), *(f"{ratio:.2f}" for ratio in ratios)]
        yield "| " + " | ".join(cells) + " |"


# ---- the picture

LINES = [
    ("1 lock", STORE, 1, RED, False),
    ("4 shards", SHARDED, 4, "#7fb2e5", False),
    ("16 shards", SHARDED, 16, "#1f5fa8", False),
    ("64 shards", SHARDED, 64, INK, False),
    ("plain Rust, 16 mutexes", PLAIN, 16, GREY, True),
]
WIDTH, HEIGHT, LEFT, GAP, TOP_EDGE = 300, 220, 50, 70, 96
TITLE = "Calls a second by threads, each on a name of its own"


def polyline(points, colour, is_dashed):
    dash = " stroke-dasharray='5 4'" if is_dashed else ""
    path = " ".join(f"{x:.1f},{y:.1f}" for x, y in points)
    style = f"fill='none' stroke='{colour}' stroke-width='2.2'{dash}"
    return f"<polyline points='{path}' {style}/>"


def panel(rates, calls, left, most):
    """The rates of these calls by the number of threads, each thread on a name of its own."""

    def at(threads, ratio):
        return left + THREADS.index(threads) * WIDTH / 2, TOP_EDGE + HEIGHT * (1 - ratio / most)

    yield text(left - 18, TOP_EDGE - 34, calls, 14, bold=True)
    yield text(left - 18, TOP_EDGE - 14, "times one thread on a plain store", 12, fill=GREY)
    for tick in range(most + 1):
        (x, y), (end, _) = at(THREADS[0], tick), at(THREADS[-1], tick)
        yield line(x, y, end, y, "#e3e7eb", 1)
        yield text(x - 10, y + 4, tick, 11, "end", GREY)
    for threads in THREADS:
        x, y = at(threads, 0)
        yield middle(x, y + 18, threads, 11, GREY)
    yield middle(left + WIDTH / 2, TOP_EDGE + HEIGHT + 36, "threads", 12, GREY)
    for _, program, shards, colour, is_dashed in LINES:
        own = [rates[calls, "own", threads, program, shards] for threads in THREADS]
        points = [at(threads, rate / base(rates, calls)) for threads, rate in zip(THREADS, own)]
        yield polyline(points, colour, is_dashed)
        yield from (f"<circle cx='{x:.1f}' cy='{y:.1f}' r='3' fill='{colour}'/>" for x, y in points)


def description(rates):
    """What is seen, in a sentence."""
    one, sixteen = (
        rates["reads", "own", 4, program, shards] / base(rates, "reads")
        for program, shards in ((STORE, 1), (SHARDED, 16))
    )
    return (
        "Four threads that each read one name make "
        f"{one:.1f} times the reads of one thread at a store with one lock, and {sixteen:.1f} "
        "times at one with 16 shards."
    )


def picture(rates):
    """Two panels and what their lines are."""
    greatest = max(rate / base(rates, case[0]) for case, rate in rates.items() if case[1] == "own")
    most = int(greatest) + 1
    second = LEFT + WIDTH + GAP
    shapes = [text(24, 30, TITLE, 16, bold=True)]
    shapes += [*panel(rates, "reads", LEFT, most), *panel(rates, "walks", second, most)]
    for number, (word, *_, colour, is_dashed) in enumerate(LINES):
        x, y = LEFT + number * 130, TOP_EDGE + HEIGHT + 66
        shapes.append(polyline([(x, y - 4), (x + 24, y - 4)], colour, is_dashed))
        shapes.append(text(x + 30, y, word, 12))
    return drawing(second + WIDTH + 40, TOP_EDGE + HEIGHT + 84, TITLE, description(rates), shapes)


# ---- what is kept


def keep(rates):
    with open(RESULTS, "w", encoding="utf-8", newline="") as out:
        rows = csv.writer(out, lineterminator="\n")
        rows.writerow(FIELDS)
        rows.writerows((*case, f"{rate:.3f}", machine()) for case, rate in rates.items())


def results():
    """The kept figures, and the machine that they are of."""
    with open(RESULTS, encoding="utf-8", newline="") as rows:
        found = list(csv.DictReader(rows))

    def case(row):
        return row["calls"], row["names"], int(row["threads"]), row["program"], int(row["shards"])

    rates = {case(row): float(row["rate"]) for row in found}
    return rates, found[0]["machine"]


def wrapped(words):
    """Some words on lines of at most 100 characters."""
    return textwrap.wrap(words, 100, break_long_words=False, break_on_hyphens=False)


def section(rates, where):
    """The section of docs/performance.md."""
    words = (
        "Each figure is how many calls a second a case makes, divided by those that one thread "
        "makes of a plain store. It is the greatest of many short runs, on a machine with "
        f"{where}. [Threads](threads.md#when-to-shard) says when to shard."
    )
    shown = wrapped(f"![{description(rates)}](pictures/sharded.svg)")
    for lines in [HEADING], wrapped(words), ["    bench/sharded.py --write"], shown, table(rates):
        yield from (*lines, "")


def with_section(page, lines):
    """The page with this section in place of the one that it had, or at its end."""
    before, found, rest = page.partition(HEADING + "\n")
    after = rest[rest.index("\n## ") + 1 :] if "\n## " in rest else ""
    start = before if found else page.rstrip("\n") + "\n\n"
    return start + "\n".join(lines) + ("\n" + after if after else "")


def wrong_pages():
    """The page, where it is not as the kept figures make it."""
    if not os.path.exists(RESULTS):
        return []
    made = "\n".join(section(*results())).strip()
    complaint = "docs/performance.md: bench/sharded.py makes another section of its kept figures"
    return [] if made in PAGE.read_text("utf-8") else [complaint]


def main():
    folder = os.path.join(tempfile.gettempdir(), "lrcstore_sharded")
    parser = parser_of(__doc__, rounds=30, millis=25, folder=folder)
    parser.add_argument("--write", action="store_true")
    given = parser.parse_args()
    os.makedirs(given.folder, exist_ok=True)
    own = [os.path.join(CLIENTS, name) for name in os.listdir(CLIENTS)]
    shared_work = os.path.join(library.CLIENTS, "work.rattle")
    build, words = functools.partial(library.built, given.folder), ["reads", "own", "4", "1", "1"]
    files = [*own, shared_work]
    programs = {
        STORE: build("clients", "shared", "shared", library.sources(), ["trims"]),
        SHARDED: build("sharded_clients", "sharded", "shared sharded", files, words),
        PLAIN: compiled("store.rs", given.folder),
    }
    rates = measured(programs, given.rounds, given.millis)
    if given.write:
        keep(rates)
        rates, where = results()
        PICTURE.write_text(picture(rates), "utf-8")
        page = with_section(PAGE.read_text("utf-8"), section(rates, where))
        PAGE.write_text(page, "utf-8")
    print(*table(rates), sep="\n")


if __name__ == "__main__":
    main()
