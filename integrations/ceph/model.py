"""Ceph's own model test: it calls objects of a pool at random, and compares each with a model. OSDs
are killed meanwhile, one to three at a time."""

import random
import subprocess
import time
from pathlib import Path

import harness
from codes import SMALL, WIDE

PROGRAM = "ceph_test_rados"
SECONDS = 60
PATIENCE = 600  # seconds in which it has to end after it was started
REST = 15  # seconds without further losses, if recovery takes longer
COMMON = {"read": 100, "append": 100, "delete": 20, "snap_create": 20, "snap_remove": 20}
COMMON |= {"rollback": 20, "copy_from": 20}
OVERWRITES = {**COMMON, "write": 100, "write_excl": 30, "append_excl": 10}
SIZES = {"size": 600_000, "min-stride-size": 4000, "max-stride-size": 90_000}


def words_of(pool, calls, is_plain):
    numbers = {"max-ops": 4000, "objects": 40, "max-in-flight": 8, "max-seconds": SECONDS, **SIZES}
    words = [PROGRAM, "--pool", pool, "--no-omap", *(["--ec-pool"] if is_plain else [])]
    words += [word for name, value in numbers.items() for word in (f"--{name}", str(value))]
    return words + [word for name, share in calls.items() for word in ("--op", name, str(share))]


def disturb(cluster, program, dice):
    """Kills OSDs, and starts them again, until the program ends. Returns how often."""
    began, count = time.monotonic(), 0
    while program.poll() is None and time.monotonic() - began < PATIENCE:
        cluster.restart(dice.sample(sorted(cluster.up()), dice.choice([1, 1, 2, 3])))
        count += 1
        cluster.until("clean again", lambda: program.poll() is not None or cluster.is_clean(), REST)
    return count


def check_model(cluster, pool, profile, **settings):
    is_plain = "allow_ec_overwrites" not in settings
    cluster.make_pool(pool, profile, 8, **settings)
    cluster.wait_clean()
    words = words_of(pool, COMMON if is_plain else OVERWRITES, is_plain)
    path = Path(cluster.folder, f"{pool}.txt")
    with path.open("wb") as out:
        words = ["env", f"CEPH_CONF={cluster.settings}", *words]
        program = subprocess.Popen(words, stdout=out, stderr=subprocess.STDOUT)
        try:
            count = disturb(cluster, program, random.Random())
        finally:
            if program.poll() is None:
                program.kill()
            program.wait()
    lines = path.read_text("utf-8", "replace").splitlines()
    done = sum(": done (" in line for line in lines)
    good = program.returncode == 0 and any(line.strip() == "0 errors." for line in lines[-3:])
    what = f"{pool}: {PROGRAM} ends with 0 errors, while OSDs were killed {count} times"
    end = "" if good else f", status {program.returncode}: {' / '.join(lines[-3:])}"
    cluster.check(what, good, f"{done} calls{end}")
    cluster.wait_clean()
    cluster.scrub(pool)
    cluster.remove_pools(pool)


def check_models(cluster):
    """Pools without overwrites, with them and, in Ceph 20.2, with deltas of parities."""
    if not harness.has_program(PROGRAM, "ceph-test", cluster.note):
        return
    check_model(cluster, "model", WIDE.profile)
    check_model(cluster, "model_over", WIDE.profile, allow_ec_overwrites="true")
    if cluster.series() == 20:
        optimized = {"allow_ec_overwrites": "true", "allow_ec_optimizations": "true"}
        for pool, code in ("model_deltas", WIDE), ("model_small_deltas", SMALL):
            check_model(cluster, pool, [*code.profile, "stripe_unit=16384"], **optimized)


PARTS = {"model": (check_models,)}
