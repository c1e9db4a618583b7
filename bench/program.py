#!/usr/bin/env python3
"""Measures what a script's run costs, and how it grows.

    bench/program.py [--times N] [PROGRAM ..]

Each script is run N times (5 without the option), the programs in turn, and the least processor
time counts, of a mend the least wall time. With no PROGRAM it is the one that tools/build.py makes.
Nothing is fetched, and the scripts lie in a folder that is removed.
"""

import collections
import os
import subprocess
import sys
import tempfile
from pathlib import Path

from turns import TOP, in_turn, parser_of

BUILT = os.path.join(TOP, "crates", "lrcstore", "out", "lrcstore")
FULL = ["--limit", "1048576"]
GONE = (0, 1, 6, 7)  # four fragments, of both groups, that can be lost together
SMALL = "1,1,put,a,text,ABCDEFGHIJKL"
LONG = "1,1,put,a,text," + "x" * 49152
MIB_48 = 48 << 20
MIB_12 = 12 << 20
# What starts a run, and tells its status, its seconds and its peak in KiB.
START = """
import os, sys, time
none = os.open(os.devnull, os.O_WRONLY)
actions = [(os.POSIX_SPAWN_DUP2, none, 1), (os.POSIX_SPAWN_DUP2, none, 2)]
start = time.monotonic()
child = os.posix_spawn(sys.argv[1], sys.argv[1:], os.environ, file_actions=actions)
_, status, used = os.wait4(child, 0)
seconds = used.ru_utime + used.ru_stime
print(os.waitstatus_to_exitcode(status), seconds, time.monotonic() - start, used.ru_maxrss)
"""


def trims(names):
    """A put of each name, and half as many pairs of a stat and a trim that gives up all."""
    return [f"1,1,put,n{k},text,ABCDEFGHIJKL" for k in range(names)] + [
        "1,1,stat,n0,,",
        "1,1,trim,,0,",
    ] * (names // 2)


def losses(stripes):
    """16,384 losses, four in a stripe, in as many blobs of so many stripes as it takes."""
    put = "1,1,put,a,text," + "x" * (12 * stripes)
    lost = [f"1,1,lose,a,{stripe},{fragment}" for fragment in GONE for stripe in range(stripes)]
    return ([put] + lost) * (16384 // len(lost))


def reads(lost):
    """65,535 reads of 12 bytes in a blob with so many losses, and a trim at the end."""
    gone = [f"1,1,lose,a,{k % 4096},{GONE[k // 4096]}" for k in range(lost)]
    return (
        [LONG] + gone + ["1,1,trim,,0,"] + ["1,1,read,a,0,12"] * (65533 - lost) + ["1,1,trim,,0,"]
    )


def mend(width, is_mended):
    """4,096 losses, so many at a time as make four in each stripe of a blob of 48 MiB, and all of
    them mended each time."""
    stripes, rows = MIB_48 // (12 * width), ["1,1,put,a,hex," + "5a" * MIB_48]
    for turn in range(1024 // stripes):
        rows += [
            f"{2 * turn + 1},1,lose,a,{k % stripes},{GONE[k // stripes]}"
            for k in range(4 * stripes)
        ]
        rows += [f"{2 * turn + 2},0,mend,,,"] * is_mended
    return rows


def whole(is_read):
    """A blob of 48 MiB in hexadecimal, and the read of all of it."""
    return ["1,1,put,a,hex," + "5a" * MIB_48] + [f"2,1,read,a,0,{MIB_48}"] * is_read


def blob_size(width):
    """768 KiB, or as many bytes as 4,096 stripes hold: whole stripes at each width."""
    return min(768 << 10, 4096 * 12 * width)


def blobs(width, count):
    """So many blobs of that size under as many names."""
    return [f"1,1,put,n{k},text," + "x" * blob_size(width) for k in range(count)]


Run = collections.namedtuple("Run", "status seconds wall peak")


def measured(program, words):
    """The status of a run, its processor seconds, its wall seconds and its peak bytes.

    A process of its own starts the run, since what the system tells of a child's peak is no less
    than its parent had when it started it.
    """
    command = [sys.executable, "-I", "-c", START, program, *words]
    status, seconds, wall, peak = subprocess.check_output(command, text=True).split()
    return Run(int(status), float(seconds), float(wall), int(peak) * 1024)


def run(program, script, options, folder):
    """Processor seconds, wall seconds and peak bytes of a run that ends well."""
    path = Path(folder, "script.csv")
    path.write_text("\n".join(script) + "\n", "ascii")
    one = measured(program, [path, *options])
    if one.status != 0:
        sys.exit(f"{program} ended with {one.status}")
    return one.seconds, one.wall, one.peak


def least(programs, script, options, times, folder):
    """The least of each measure, for each program."""
    runs = in_turn(times, lambda program: run(program, script, options, folder), programs)
    return [[min(measure) for measure in zip(*of_one)] for of_one in runs]


def show(what, programs, figures):
    for program, figure in zip(programs, figures):
        print(f"{what}: {figure}" + (f"  ({program})" if len(programs) > 1 else ""), flush=True)


def compare(what, programs, less, more, options, times, folder):
    """The processor time of one script as a ratio to that of another one, both run in turn."""
    rounds = in_turn(
        times, lambda script: least(programs, script, options, 1, folder), (less, more)
    )
    small, great = ([min(one)[0] for one in zip(*of_script)] for of_script in rounds)
    ratios = [f"{a:.3f} and {b:.3f} s, {b / a:.2f} times" for a, b in zip(small, great)]
    show(what, programs, ratios)


def main():
    parser = parser_of(__doc__, times=5)
    parser.add_argument("programs", nargs="*", default=[BUILT])
    given = parser.parse_args()
    programs, times = given.programs, given.times
    with tempfile.TemporaryDirectory() as folder:
        wide = [*FULL, "--width", "65536"]
        for what, make, less, more, options in (
            ("4,000 and 8,000 names, with trims", trims, 4000, 8000, FULL),
            ("16,384 losses in blobs of 64 and of 4,096 stripes", losses, 64, 4096, FULL),
            ("reads of a blob with no loss and with 16,000", reads, 0, 16000, FULL),
            ("48 MiB put, and read", whole, False, True, wide),
        ):
            compare(what, programs, make(less), make(more), options, times, folder)
        for is_read, what in (False, "48 MiB put"), (True, "48 MiB put, and read"):
            peaks = least(programs, whole(is_read), wide, 1, folder)
            figures = [f"{one[2] / MIB_48:.2f} bytes for each of the blob" for one in peaks]
            show(f"{what}, peak memory", programs, figures)
        for width in (1, 64, 1024, 65536):
            wide, count = [*FULL, "--width", str(width)], MIB_12 // blob_size(width)
            some, twice = (
                least(programs, blobs(width, number), wide, 1, folder)
                for number in (count, 2 * count)
            )
            figures = [f"{(b[2] - a[2]) / MIB_12:.2f} bytes of memory" for a, b in zip(some, twice)]
            show(f"a stored byte at width {width}", programs, figures)
        for width in (4096, 65536):
            for workers in (1, 2, 4):
                options = [*FULL, "--width", str(width), "--workers", str(workers)]
                base, mended = (
                    least(programs, mend(width, is_mended), options, times, folder)
                    for is_mended in (False, True)
                )
                walls = [f"{b[1] - a[1]:.3f} s of wall time" for a, b in zip(base, mended)]
                show(f"4,096 fragments of {width} bytes mended by {workers}", programs, walls)


if __name__ == "__main__":
    main()
