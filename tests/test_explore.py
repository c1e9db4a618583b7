"""Tests of the sources of library/ that lock and wait, in all orders of a few threads, within
bounds (tests/explore/explore.h). They need no library."""

import pytest
from building import EXPLORED, INCLUDED, WARNINGS, run

HERE = "tests/explore"
UNDEFINED = ["-fsanitize=undefined", "-fno-sanitize-recover=all"]


@pytest.mark.parametrize("how", [["gcc"], ["clang", *UNDEFINED]], ids=["gcc", "clang-ubsan"])
@pytest.mark.parametrize("name, source", EXPLORED.items())
def test_orders_of_threads(tmp_path, name, source, how):
    """The source calls ThreadSanitizer, whose library is not linked: the calls are those of
    races.c. What is not called is left out."""
    words = ["-std=gnu11", "-O1", *WARNINGS, *INCLUDED, "-ffunction-sections"]
    threads = ["-fsanitize=thread", "-include", f"{HERE}/shim.h"]
    objects = []
    for file in (f"{HERE}/explore.c", f"{HERE}/races.c", f"{HERE}/{name}.c", source):
        objects.append(tmp_path / f"{len(objects)}.o")
        more = threads if file == source else []
        run(*how, *words, *more, "-c", file, "-o", objects[-1])
    run(*how, *objects, "-Wl,--gc-sections", "-o", tmp_path / "program")
    run(tmp_path / "program")
