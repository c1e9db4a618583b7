#!/usr/bin/env python3
"""Runs rt ci, by tools/rt_once.py, and says what each crate took of the processors:

    bench/gate_time.py [words for rt ci]

Each second it reads the processor time of the provers that the run has started. At the end it
prints for each crate the seconds for its proof, for that of its tests and for its must-fail edits,
and their sum in minutes. What ends within a second of its start is not seen. The status is that of
rt ci.
"""

import os
import subprocess
import sys
import time

KINDS = ("Proof", "Its tests", "Its edits")
TICKS = os.sysconf("SC_CLK_TCK")
TOP = os.path.dirname(os.path.dirname(os.path.abspath(__file__)))
RT = os.path.join(TOP, "tools", "rt_once.py")


def processes():
    """Each process: its parent, when it began, and its seconds of the processors."""
    found = {}
    for pid in filter(str.isdigit, os.listdir("/proc")):
        try:
            with open(f"/proc/{pid}/stat") as file:
                parts = file.read().rsplit(")", 1)[1].split()
        except OSError:
            continue
        found[int(pid)] = int(parts[1]), int(parts[19]), (int(parts[11]) + int(parts[12])) / TICKS
    return found


def is_below(pid, top, found):
    """Whether a process was started by another, or by one that it started."""
    while pid in found and pid != top:
        pid = found[pid][0]
    return pid == top


def work_of(pid):
    """The crate that a prover is at, and the kind of its work, or None."""
    try:
        with open(f"/proc/{pid}/cmdline") as file:
            words = file.read().split("\0")
        is_edit = "/rt-edit-" in os.readlink(f"/proc/{pid}/cwd")
    except OSError:
        return None
    if not words[0].endswith("/rattle") or "--crate-name" not in words:
        return None
    kind = KINDS[2] if is_edit else KINDS[1] if "--test" in words else KINDS[0]
    return words[words.index("--crate-name") + 1], kind


def watch(run):
    """What each prover took, until the run ends: (crate, kind, seconds) by process."""
    took = {}
    while run.poll() is None:
        found = processes()
        for pid, (_, began, seconds) in found.items():
            if is_below(pid, run.pid, found):
                work = took[pid, began][:2] if (pid, began) in took else work_of(pid)
                if work:
                    took[pid, began] = *work, seconds
        time.sleep(1)
    return took.values()


def main():
    start = time.monotonic()
    run = subprocess.Popen([sys.executable, RT, "ci", *sys.argv[1:]])
    sums = {}
    for crate, kind, seconds in watch(run):
        row = sums.setdefault(crate, dict.fromkeys(KINDS, 0.0))
        row[kind] += seconds
    print("| Crate | " + " | ".join(f"{kind}, s" for kind in KINDS) + " |")
    print("|---" * 4 + "|")
    for crate, row in sums.items():
        print(f"| {crate} | " + " | ".join(f"{row[kind]:.0f}" for kind in KINDS) + " |")
    whole = [sum(row[kind] for row in sums.values()) for kind in KINDS]
    print("| all | " + " | ".join(f"{seconds:.0f}" for seconds in whole) + " |")
    minutes = (time.monotonic() - start) / 60
    print(
        f"{sum(whole) / 60:.0f} minutes of the processors, "
        f"{minutes:.0f} by the clock on {os.cpu_count()} processors"
    )
    return run.returncode


sys.exit(main())
