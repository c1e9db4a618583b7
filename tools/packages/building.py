"""With the kit: the programs, each library's archives for each processor, and their record."""

import os
import shutil
import sys
import tempfile

import build
import libraries
from packages import record
from packages.reproducible import git, sha256


def made(file, folder):
    """The path of a file of BUILT, once it is proved and built."""
    if file in record.PROGRAMS:
        return build.build_all(file)
    if file == record.LIBC:
        return libraries.kit_libc(None)
    return libraries.prove(*record.ARCHIVES[file], folder)


def fill(to, reuse):
    """Puts all files into BUILT, those of the folders `reuse` as they are."""
    for file in record.FILES:
        there = os.path.join(to, file)
        ready = [os.path.join(it, file) for it in reuse]
        ready = [it for it in ready if os.path.exists(it)]
        with tempfile.TemporaryDirectory() as folder:
            shutil.copyfile(ready[0] if ready else made(file, folder), there)
        os.chmod(there, 0o755 if file in record.PROGRAMS else 0o644)


def verdicts_of(log):
    """The verdict of each crate by a log, or None for each if there is no log."""
    names = record.crates()
    if not log:
        return dict.fromkeys(names)
    with open(log, encoding="utf-8", errors="replace") as file:
        found = record.verdicts(file.read())
    missing = [it for it in names if it not in found]
    if missing:
        sys.exit(f"{log} has no verdict of {', '.join(missing)}: run tools/rt_once.py ci --anew")
    return found


def build_to(to, reuse, log):
    """Fills BUILT, and writes what it was made from."""
    said = verdicts_of(log)
    os.makedirs(to, exist_ok=True)
    fill(to, reuse)
    written = {
        "commit": git("rev-parse", "HEAD"),
        "changed": bool(git("status", "--porcelain", "--untracked-files=no")),
        "compilers": record.compilers(),
        "crates": [
            {"crate": it, "sources": record.sources(it), "verdict": said[it]}
            for it in record.crates()
        ],
        "files": {it: sha256(os.path.join(to, it)) for it in record.FILES},
    }
    print(record.write_json(written, to, record.RECORD))
