#!/usr/bin/env python3
"""Measures what scripts cost that are made to cost much, and how that grows as they double.

    bench/hostile.py [--times N] [--only KIND] [PROGRAM]

Each kind of script is made in three sizes, each twice the one before, and each is run N times (3
without the option); the least processor time and the greatest memory count. With no PROGRAM it is
the one that tools/build.py makes.
"""

import os
import tempfile

from program import BUILT, FULL, GONE, measured
from turns import parser_of

MIB = 1 << 20
BLOB = "x" * 49152
PUT = f"1,1,put,a,text,{BLOB}\n"
TRIM = "1,1,stat,a,,\n1,1,trim,,0,\n"
LOST = [f"1,1,lose,a,{stripe},{fragment}\n" for fragment in GONE for stripe in range(4096)]
COUNTS = (16384, 32768, 65536)
BYTES = (32 * MIB, 64 * MIB, 128 * MIB)
WIDE = "--width", "65536"
READ = f"1,1,read,a,0,{len(BLOB)}\n"


def puts(count):
    """Puts of as many names."""
    return [f"1,1,put,n{k},text,ABCDEFGHIJKL\n" for k in range(count)]


def long(head, piece, tail=""):
    """Of a size, the parts of a script with so many bytes of a piece."""
    mebibyte = piece * (MIB // len(piece))
    return lambda n: [head, *[mebibyte] * (n // MIB), tail]


# Each kind: what it is of, its sizes, the parts of the script of a size, and the program's other
# options.
KINDS = {
    "names": ("rows, each a put of a name of its own", COUNTS, puts),
    "trims": ("rows, half of them trims of all", COUNTS, lambda n: [TRIM] * (n // 2)),
    "trims of names": (
        "rows: half puts of names, a quarter trims of all",
        COUNTS,
        lambda n: puts(n // 2) + [TRIM] * (n // 4),
    ),
    "losses": (
        "losses in one blob of 4,096 stripes",
        (4096, 8192, 16384),
        lambda n: [PUT] + LOST[:n],
    ),
    "rounds": (
        "rows, each a round of its own",
        COUNTS,
        lambda n: (f"{k},1,stat,a,,\n" for k in range(1, n + 1)),
    ),
    "rounds of 16": (
        "rows, sixteen to a round, each of its own worker",
        (2048, 4096, 8192),
        lambda n: (f"{k // 16 + 1},{k % 16 + 1},stat,a,,\n" for k in range(n)),
        *("--workers", "16"),
    ),
    "mends": (
        "mends beside a blob of 4,096 stripes with no loss",
        (256, 512, 1024),
        lambda n: [PUT] + [f"{k},0,mend,,,\n" for k in range(2, n + 2)],
    ),
    "mends of losses": (
        "fragments lost in one blob and mended by one mend",
        (4096, 8192, 16384),
        lambda n: [PUT] + LOST[:n] + ["2,0,mend,,,\n"],
    ),
    "mends of names": (
        "rows, half of them puts of names, half mends",
        COUNTS,
        lambda n: puts(n // 2) + [f"{k + 2},0,mend,,,\n" for k in range(n // 2)],
    ),
    "reads": (
        "reads of all of a blob of 48 KiB, which print 96 KiB each",
        (512, 1024, 2048),
        lambda n: [PUT] + [READ] * n,
    ),
    "reads of a lost blob": (
        "reads of all of a blob of 4,096 stripes with four losses in each",
        (256, 512, 1024),
        lambda n: [PUT] + LOST + [READ] * n,
    ),
    "reads and losses": (
        "rows in turn a read of a byte, a loss, a read, a repair, in a blob of 4,096 stripes",
        (4096, 8192, 16384),
        lambda n: [PUT]
        + ["1,1,read,a,0,1\n", LOST[0], "1,1,read,a,0,1\n", "1,1,repair,a,0,0\n"] * (n // 4),
    ),
    "too many rows": (
        "rows, of which the 65,537th is refused",
        (131072, 262144, 524288),
        lambda n: ["1,1,stat,a,,\n"] * n,
    ),
    "empty lines": ("bytes of empty lines", BYTES, long("", "\n")),
    "commas": ("commas in one record", (8 * MIB, 16 * MIB, 32 * MIB), long("", ",")),
    "a field": ("bytes in one field", BYTES, long("", "x")),
    "quotes": ("bytes behind a quote that never ends", BYTES, long('"', "x")),
    "doubled quotes": ("bytes of doubled quotes in quotes", BYTES, long('"', '""')),
    "a number": ("digits of a number", BYTES, long("1,1,read,a,", "9", ",1\n")),
    "a put": ("digits of a put in hexadecimal", BYTES, long("1,1,put,a,hex,", "5a", "\n"), *WIDE),
    "a put and its end": (
        "digits of a put in hexadecimal, the last one wrong",
        BYTES,
        long("1,1,put,a,hex,", "5a", "zz\n"),
        *WIDE,
    ),
}


def main():
    parser = parser_of(__doc__, times=3, only="")
    parser.add_argument("program", nargs="?", default=BUILT)
    given = parser.parse_args()
    with tempfile.TemporaryDirectory() as folder:
        path = os.path.join(folder, "script.csv")
        for kind, (what, sizes, parts, *options) in KINDS.items():
            if given.only not in kind:
                continue
            seconds, peaks, statuses = [], [], set()
            for size in sizes:
                with open(path, "w", encoding="ascii") as file:
                    file.writelines(parts(size))
                words = [path, *FULL, *options]
                runs = [measured(given.program, words) for _ in range(given.times)]
                seconds.append(min(one.seconds for one in runs))
                peaks.append(max(one.peak for one in runs))
                statuses |= {one.status for one in runs}
            texts = [
                f"{size:,}: {second:.3f} s, {peak / MIB:.0f} MiB"
                for size, second, peak in zip(sizes, seconds, peaks)
            ]
            grows = [f"{after / before:.2f}" for before, after in zip(seconds, seconds[1:])]
            print(
                f"{kind} ({what}): "
                + "; ".join(texts)
                + f"; times {' and '.join(grows)}; status {sorted(statuses)}",
                flush=True,
            )


if __name__ == "__main__":
    main()
