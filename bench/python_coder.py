#!/usr/bin/env python3
"""Measures the coder's calls from Python beside the same calls from C.

    bench/python_coder.py [--rounds N] [--millis M]

LRC_LIBRARIES names the folder of the libraries. It needs gcc and the headers of Python, compiles
the extension module and bench/coder_calls.c, and calls both from one process, on the same
fragments. In each of N rounds (31 without the option) each call is made for M milliseconds (5),
from C and from Python in turn. It prints the median of C's times, and that of the ratios, each of
one round.
"""

from __future__ import annotations

import ctypes
import os
import shutil
import statistics
import sys
import tempfile
import time
import timeit

import turns
from turns import TOP

sys.path.insert(0, os.path.join(TOP, "tools"))
import libraries  # noqa: E402
import python_extension  # noqa: E402

WIDTHS = (4096, 65536)


class Arguments(ctypes.Structure):
    """Those of bench/coder_calls.c."""

    _fields_ = [
        ("fragments", ctypes.c_char_p * 16),
        ("targets", ctypes.c_void_p * 4),
        ("width", ctypes.c_size_t),
    ]


def compiled(folder, ready):
    """The package with its extension module in a folder, and the calls from C."""
    shutil.copytree(os.path.join(TOP, "bindings", "python"), os.path.join(folder, "python"))
    package = os.path.join(folder, "python", "lrcstore")
    python_extension.build("_coder", ready, package, ready)
    sys.path.insert(0, os.path.join(folder, "python"))
    calls, source = os.path.join(folder, "calls.so"), os.path.join(TOP, "bench", "coder_calls.c")
    words = "-shared", "-I", os.path.join(TOP, "include"), source, "-o", calls
    linked = f"-L{ready}", "-l:liblrc_coder.so", f"-Wl,-rpath,{ready}"
    libraries.run(*libraries.COMPILE[:-1], *words, *linked)
    return ctypes.CDLL(calls)


def from_c(function, arguments, nanos):
    """What a call from C takes, made for so many nanoseconds."""
    function.restype = ctypes.c_double
    times = max(1, int(nanos / function(ctypes.byref(arguments), 20)))
    taken = function(ctypes.byref(arguments), times)
    if taken < 0:
        sys.exit("a call from C failed")
    return taken


def from_python(timer, nanos):
    """What a call from Python takes, made for so many nanoseconds."""
    times = max(1, int(nanos / timer.timeit(20) * 20))
    return timer.timeit(times) / times


# Each call as Python makes it, its name in C, and the lost fragments, of which the first is made.
CALLS = {
    "encode": ("coder.encode(data)", "encode", ()),
    "encode_into": ("coder.encode_into(data, targets)", "encode", ()),
    "rebuild one from 6": ("coder.rebuild(12, left, 0)", "rebuild", (0,)),
    "rebuild_into one from 6": ("coder.rebuild_into(12, left, 0, targets[0])", "rebuild", (0,)),
    "rebuild one from 12": ("coder.rebuild(12, left, 0)", "rebuild", (0, 1, 2)),
    "Plan.decode one from 6": ("plan.decode(left)", "plan_decode", (0,)),
    "Plan.decode one from 12": ("plan.decode(left)", "plan_decode", (0, 1, 2)),
}


def stripe(coder, width):
    """The fragments of a stripe."""
    # a program that has freed a block of this length keeps as much memory, and so do its calls
    whole = bytes((7 * k + k // 251) % 256 for k in range(12 * width))
    data = [whole[i : i + width] for i in range(0, len(whole), width)]
    return [*data, *coder.encode(data)]


def timers(coder, fragments, width):
    """Of each call its timer from Python, its name in C, and the addresses for it."""
    targets = [bytearray(width) for _ in range(4)]
    for name, (statement, in_c, lost) in CALLS.items():
        left = {i: each for i, each in enumerate(fragments) if i not in lost}
        names = {"coder": coder, "data": fragments[:12], "left": left, "targets": targets}
        if lost:
            names["plan"] = coder.Plan(12, lost, lost[:1])
        timer = timeit.Timer(statement, timer=time.thread_time_ns, globals=names)
        yield name, timer, in_c, [left.get(i) for i in range(16)]


def measured(calls, coder, width, rounds, nanos):
    """Of each call C's times and the ratios, each of one round."""
    rows = list(timers(coder, stripe(coder, width), width))
    kept = [ctypes.create_string_buffer(width) for _ in range(4)]
    targets = (ctypes.c_void_p * 4)(*map(ctypes.addressof, kept))
    taken = {name: [] for name in CALLS}
    for _ in range(rounds):
        for name, timer, in_c, left in rows:
            arguments = Arguments((ctypes.c_char_p * 16)(*left), targets, width)
            c = from_c(getattr(calls, f"time_{in_c}"), arguments, nanos)
            taken[name].append((c, from_python(timer, nanos) / c))
    return taken


def main():
    given = turns.parser_of(__doc__, rounds=31, millis=5.0).parse_args()
    with tempfile.TemporaryDirectory() as folder:
        calls = compiled(folder, turns.libraries())
        from lrcstore import coder

        for width in WIDTHS:
            print(f"{width} bytes of a fragment | C, ns | Python, in times of C's time")
            taken = measured(calls, coder, width, given.rounds, given.millis * 1e6)
            for name, pairs in taken.items():
                c, ratio = map(statistics.median, zip(*pairs))
                print(f"{name} | {c:.0f} | {ratio:.2f}")


if __name__ == "__main__":
    main()
