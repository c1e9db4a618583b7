"""Runs lrcstore at its limits with ample memory, as tests/limits.py computes what it prints."""

import limits
import pytest
from sources import expect_none


@pytest.mark.parametrize("cases", limits.TABLES)
def test_limits(cases):
    expect_none(
        f"{case.what}, {workers} workers: {complaint}"
        for case in cases()
        for workers, complaint in zip(case.workers, limits.faults(case))
        if complaint
    )
