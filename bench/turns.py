"""What the benchmarks share: their arguments, the libraries, programs in plain Rust, and rounds in
which programs take turns."""

import argparse
import os
import subprocess
import sys

TOP = os.path.dirname(os.path.dirname(os.path.abspath(__file__)))


def parser_of(description, **defaults):
    """A parser of options, each with its default."""
    parser = argparse.ArgumentParser(description=description.splitlines()[0])
    for name, default in defaults.items():
        parser.add_argument(f"--{name}", type=type(default), default=default)
    return parser


def in_turn(times, measure, programs):
    """What is measured of each program, so many times. In each round all have a turn."""
    rounds = [[measure(program) for program in programs] for _ in range(times)]
    return list(zip(*rounds))


def libraries():
    """The folder of the libraries, which LRC_LIBRARIES names."""
    if "LRC_LIBRARIES" not in os.environ:
        sys.exit("LRC_LIBRARIES has to name a folder that tools/libraries.py has filled")
    return os.path.abspath(os.environ["LRC_LIBRARIES"])


def compiled(source, folder):
    """A program of a file of bench/ in Rust."""
    program = os.path.join(folder, source.removesuffix(".rs"))
    words = ["rustc", "-O", "--edition", "2021", "-o", program, os.path.join(TOP, "bench", source)]
    subprocess.run(words, check=True)
    return program
