"""Tests of tests/gate.py: what parts count, and that one that hangs is killed."""

import gate
import pytest


@pytest.mark.parametrize(
    "last, status, counts",
    [
        ("1 failed, 53 passed, 2 skipped, 1 error in 2.50s", 1, (53, 2, 2)),
        ("============ 53 passed in 2.50s ============", 0, (53, 0, 0)),
        ("4 skipped in 2.50s", 0, (0, 0, 4)),
        ("9 tests of the release passed, 1 failed, 2 skipped (wheel: no gcc)", 1, (9, 1, 2)),
        ("600 mutants rejected, 3 survive, 20 skipped (mount: no FUSE)", 1, (600, 3, 20)),
        ("600 mutants rejected, 0 survive", 1, (600, 1, 0)),
        ("no tests ran in 0.01s", 5, (0, 1, 0)),
        ("lib.a and .so", 0, (1, 0, 0)),
        ("", 1, (0, 1, 0)),
    ],
)
def test_counts(last, status, counts):
    assert tuple(gate.counts_of(f"line\n{last}\n", status).values()) == counts


def test_a_part_that_hangs_is_killed_and_named():
    part = gate.run_part("sh", "-c", "sleep 50 & wait", limit=1)
    assert part.counts == {"passed": 0, "failed": 1, "skipped": 0}
    assert " sleep 50\n" in part.printed and part.clock < 40


def test_a_part_has_its_seconds():
    part = gate.run_part("sh", "-c", "i=0; while [ $i -lt 200000 ]; do i=$((i + 1)); done")
    assert part.counts["passed"] == 1 and part.used > 0.01
