#!/usr/bin/env python3
"""Makes the packages of a release again, and compares them byte for byte.

    tools/verify_release.py DIST [--from BUILT | --verdicts LOG] [--keep FOLDER]

It clones the commit that DIST's provenance names, makes the same kinds of packages there, and
prints each file of DIST that differs, with its members that do. With --from it packs again from
BUILT, which needs no kit. Without, it builds first, which takes most of an hour on a machine that
has proved nothing of it; then LOG has the verdicts. --keep leaves the packages in FOLDER. The
status is 0 if and only if every file is the same.
"""

import argparse
import glob
import os
import sys
import tempfile

import libraries
from packages import comparing


def arguments():
    parser = argparse.ArgumentParser(description=__doc__.splitlines()[0])
    parser.add_argument("dist", metavar="DIST")
    parser.add_argument("--from", dest="built", metavar="BUILT", help="pack again from its files")
    parser.add_argument("--verdicts", metavar="LOG", help="what rt ci --anew has printed")
    parser.add_argument("--keep", metavar="FOLDER", help="where the packages are made")
    return parser.parse_args()


def clone_of(commit, folder):
    """A clone of this repository at a commit."""
    libraries.run("git", "clone", "-q", "--no-checkout", libraries.TOP, folder)
    libraries.run("git", "checkout", "-q", commit, cwd=folder)
    return folder


def made_again(given, folder):
    """The folder of the packages that are made again, and BUILT."""
    origin, names = comparing.provenance_of(given.dist), os.listdir(given.dist)
    clone = clone_of(origin["packed"]["commit"], os.path.join(folder, "clone"))
    tool = [sys.executable, os.path.join(clone, "tools", "package.py")]
    built = given.built
    if not built:
        built = os.path.join(folder, "built")
        log = ["--verdicts", os.path.abspath(given.verdicts)] if given.verdicts else []
        libraries.run(*tool, "build", "--to", built, *log)
    dist = given.keep or os.path.join(folder, "dist")
    words = [*comparing.options_of(names), *comparing.kinds_of(names)]
    libraries.run(*tool, "pack", "--from", built, "--to", dist, *words)
    return dist


def main():
    given = arguments()
    for each in (comparing.PROVENANCE, comparing.SUMS):
        if not glob.glob(os.path.join(given.dist, each)):
            sys.exit(f"{given.dist} has no {each}")
    wrong = list(comparing.wrong_sums(given.dist))
    with tempfile.TemporaryDirectory() as folder:
        wrong += comparing.differences(given.dist, made_again(given, folder))
    count = len(os.listdir(given.dist))
    print(*wrong, f"{count} files of the release, {len(wrong)} differ", sep="\n")
    return 1 if wrong else 0


if __name__ == "__main__":
    sys.exit(main())
