#!/usr/bin/env python3
"""Measures the program beside the same in plain Rust, bench/plain.rs.

    bench/beside_plain.py [--times N] [--only WORD] [PROGRAM ..]

It needs rustc. Each script whose name has WORD in it is run N times (5 without the option), the
programs in turn, the plain one last, and the least processor time counts; the medians and the
greatest are told beside it. First it compares what they print, of scripts whose calls one worker
makes. With no PROGRAM it is the one that tools/build.py makes.
"""

import random
import statistics
import subprocess
import sys
import tempfile
from pathlib import Path

from program import BUILT, FULL, GONE, LONG, MIB_48, SMALL, run
from turns import compiled, in_turn, parser_of

WIDE = ["--width", "65536"]
ROWS = 65535


def mix(count, rng):
    """Calls of all kinds over a thousand names."""
    kinds = ["read {},0,12", "put {},text,ABCDEFGHIJKL", "lose {},0,{}", "repair {},0,{}"]
    kinds += ["stat {},,", "delete {},,"]
    for _ in range(count):
        operation, name, rest = (
            rng.choices(kinds, [50, 20, 10, 10, 5, 5])[0].replace(" ", ",").partition("{}")
        )
        yield f"1,1,{operation}n{rng.randrange(1000)}{name}{rest}".replace(
            "{}", str(rng.randrange(16))
        )


def any_calls(count, rng):
    """Calls of both codes, with trims, that meet each reply, over three names of short blobs."""
    number = lambda: rng.randrange(70)
    for _ in range(count):
        name = rng.choice("abc")
        yield "1,1," + rng.choice(
            [
                f"put,{name},text,{'x' * number()}",
                f"put6,{name},hex,{rng.randbytes(number()).hex()}",
                f"read,{name},{number()},{number() // 4}",
                f"read,{name},{number() // 4},{number() // 8}",
                f"lose,{name},{number() // 30},{number() // 4}",
                f"lose,{name},0,{rng.randrange(16)}",
                f"repair,{name},{number() // 30},{number() // 4}",
                f"stat,{name},,",
                f"delete,{name},," if rng.random() < 0.1 else f"stat,{name},,",
                f"trim,,{number()},"
                if rng.random() < 0.2
                else f"lose,{name},1,{rng.randrange(16)}",
            ]
        )


def turns(stripes):
    """Losses and repairs in turn, in a blob of so many stripes."""
    calls = (
        f"1,1,{('lose', 'repair')[k % 2]},a,{k // 2 % stripes},{k // 2 // stripes % 16}"
        for k in range(ROWS)
    )
    return ["1,1,put,a,text," + "x" * (12 * stripes), *calls]


def by_workers(row, workers):
    return [SMALL] + [f"2,{1 + k % workers},{row(k)}" for k in range(ROWS)]


def scripts(rng):
    """Each script with its name and its options."""
    blob = "1,1,put,a,hex," + rng.randbytes(MIB_48).hex()
    gone = [f"1,1,lose,a,{stripe},{fragment}" for stripe in range(64) for fragment in GONE]
    pieces = [f"2,1,read,a,{rng.randrange(MIB_48 - 100)},100" for _ in range(20000)]
    whole = f"2,1,read,a,0,{MIB_48}"
    mixed = list(mix(ROWS, rng))
    yield "one row", [SMALL], FULL
    yield "65,535 reads of 12 bytes", [SMALL] + ["1,1,read,a,0,12"] * ROWS, FULL
    yield "the same, with the history", [SMALL] + ["1,1,read,a,0,12"] * ROWS, [*FULL, "--history"]
    yield "65,536 puts of one name", [SMALL] * (ROWS + 1), FULL
    names = [f"1,1,put,n{k},text,ABCDEFGHIJKL" for k in range(ROWS + 1)]
    yield "65,536 puts of as many names", names, FULL
    yield "all calls, 1,000 names", mixed, FULL
    yield "the same, with the history", mixed, [*FULL, "--history"]
    yield "65,535 stats of 4,096 stripes", [LONG] + ["1,1,stat,a,,"] * ROWS, FULL
    for stripes in (1, 64, 512, 4096):
        yield f"losses and repairs, {stripes:,} stripes", turns(stripes), FULL
    for workers in (1, 4, 16):
        options = [*FULL, "--workers", str(workers)]
        yield f"reads by {workers}", by_workers(lambda k: "read,a,0,12", workers), options
        puts = by_workers(lambda k: f"put,n{k % 1000},text,{'x' * 768}", workers)
        yield f"puts by {workers}", puts, [*options, "--width", "64"]
    yield "65,535 rounds", [SMALL] + [f"{k + 2},1,read,a,0,12" for k in range(ROWS)], FULL
    yield "48 MiB put", [blob], WIDE
    yield "48 MiB put and read", [blob, whole], WIDE
    yield "the same, one fragment of each stripe lost", [blob, *gone[::4], whole], WIDE
    yield "the same, four lost", [blob, *gone, whole], WIDE
    yield "20,000 reads of 100 bytes", [blob, *pieces], [*FULL, *WIDE]
    yield "the same, four of each stripe lost", [blob, *gone, *pieces], [*FULL, *WIDE]
    yield "256 fragments of 65,536 bytes mended", [blob, *gone, "2,0,mend,,,"], [*FULL, *WIDE]
    lost = [f"1,1,lose,a,{stripe},{fragment}" for fragment in GONE for stripe in range(4096)]
    for workers in (1, 4):
        name = f"16,384 fragments of one byte mended by {workers}"
        yield name, [LONG, *lost, "2,0,mend,,,"], [*FULL, "--workers", str(workers)]


def compare(programs, folder, times):
    """Ends where two programs print different bytes for a script of random calls."""
    for seed in range(times):
        rng = random.Random(seed)
        path = Path(folder, "calls.csv")
        path.write_text("\n".join(any_calls(rng.randrange(1, 300), rng)) + "\n", "ascii")
        options = ["--history", "--width", str(rng.choice((1, 2, 3)))]
        options += ["--limit", str(rng.choice((40, 4096)))]
        printed = {subprocess.check_output([it, path, *options]) for it in programs}
        if len(printed) != 1:
            sys.exit(f"the scripts of seed {seed} are printed differently")
    print(f"{times} scripts of random calls: the same bytes")


def main():
    parser = parser_of(__doc__, times=5, only="")
    parser.add_argument("programs", nargs="*", default=[BUILT])
    given = parser.parse_args()
    with tempfile.TemporaryDirectory() as folder:
        programs = [*given.programs, compiled("plain.rs", folder)]
        compare(programs, folder, 200)
        for name, script, options in scripts(random.Random(1)):
            if given.only not in name:
                continue
            runs = in_turn(given.times, lambda it: run(it, script, options, folder)[0], programs)
            times = [sorted(of_one) for of_one in runs]
            ratios = ", ".join(
                f"{one[0]:.3f} s ({one[0] / times[-1][0]:.2f})" for one in times[:-1]
            )
            others = ", ".join(f"{statistics.median(one):.3f} and {one[-1]:.3f}" for one in times)
            print(
                f"{name}: {ratios}; plain {times[-1][0]:.3f} s; medians and greatest {others}",
                flush=True,
            )


if __name__ == "__main__":
    main()
