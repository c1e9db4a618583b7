"""The pictures of docs/pictures are what tools/ draws, and its rule of what is unrecoverable agrees
with the program.

For the rule a blob is put, some of its fragments are lost, and all of it is read and repaired. Each
note of the history is compared with what tools/history.py makes of the call, over every lost set of
up to four fragments of LRC(12,2,2) and every lost set of LRC(6,2,2).
"""

import functools
import itertools
import os
import subprocess

import draw_pictures
import draw_run
import history
import lrc
import pytest
import sharded
from building import TOP
from sources import read

PICTURES = os.path.join(TOP, "docs", "pictures")
EXAMPLES = os.path.join(TOP, "crates", "test_examples", "data")
# Which runs are drawn, each with its script, from the folder of the examples.
RUNS = {
    "degraded_read_run.svg": "degraded_read.csv",
    "mend_run.svg": "mend.csv",
    "unrecoverable_run.svg": "unrecoverable.csv",
}
MOST_ROWS = 65536


def printed_of(rows, *options):
    """What the program prints of a script's rows, with its history."""
    command = [draw_run.PROGRAM, "/dev/stdin", *options, "--history"]
    return subprocess.run(
        command, input="\n".join(rows), capture_output=True, text=True, check=True
    ).stdout


def test_calls_of_the_picture_of_passes():
    """They are noted as it says, each in its own round."""
    rows = [
        "1,1,put,a,text,ABCDEFGHIJKL",
        "2,2,lose,a,0,0",
        "3,1,read,a,0,12",
        "4,2,delete,a,,",
        "5,1,stat,a,,",
    ]
    noted = []
    for entry in history.entries(printed_of(rows, "--workers", "2")):
        numbers = [] if entry.word == "put" else entry.numbers
        call = " ".join([entry.word, entry.name, *map(str, numbers)])
        noted.append(("pq"[entry.worker - 1], f"{call} → {entry.note}"))
    assert noted == draw_pictures.CALLS


def test_recipes_of_the_pictures():
    recipes = draw_pictures.recipes()
    assert {lost: lrc.rebuilt_from("Wide", frozenset(lost), 0) for lost in recipes} == recipes


def run_of(script):
    path = os.path.join(EXAMPLES, script)
    is_mend = draw_run.has_only_mends(path)
    return draw_run.draw(draw_run.run(path, []), 1, "The run of " + script, is_mend)


PICTURES_OF = {
    **draw_pictures.PICTURES,
    **{name: functools.partial(run_of, script) for name, script in RUNS.items()},
    "sharded.svg": lambda: sharded.picture(sharded.results()[0]),
}


@pytest.mark.parametrize("name", sorted({*PICTURES_OF, *os.listdir(PICTURES)}))
def test_picture(name):
    """It is what tools/draw_pictures.py, draw_run.py or bench/sharded.py draws."""
    assert read(os.path.join(PICTURES, name)) == PICTURES_OF[name]()


def rows_of(op, code, lost):
    """A put, the losses, a read of each data fragment and a repair of each that is lost."""
    data = lrc.data_fragments(code)
    yield f"1,1,{op},a,text,{'ABCDEFGHIJKL'[:data]}"
    yield from (f"1,1,lose,a,0,{f}" for f in lost)
    yield from (f"1,1,read,a,{f},1" for f in range(data))
    yield from (f"1,1,repair,a,0,{f}" for f in lost)


def lost_sets():
    for size in range(5):
        yield from (
            ("put", "Wide", lost)
            for lost in itertools.combinations(range(lrc.fragments("Wide")), size)
        )
    for size in range(lrc.fragments("Small") + 1):
        yield from (
            ("put6", "Small", lost)
            for lost in itertools.combinations(range(lrc.fragments("Small")), size)
        )


def scripts():
    """The rows of all lost sets, in as many scripts as they need."""
    rows = []
    for case in lost_sets():
        more = list(rows_of(*case))
        if len(rows) + len(more) > MOST_ROWS:
            yield rows
            rows = []
        rows += more
    yield rows


def test_rule_of_what_is_unrecoverable():
    count = 0
    for rows in scripts():
        replay = history.Replay(1)
        for entry in history.entries(printed_of(rows, "--limit", str(MOST_ROWS))):
            count += 1
            assert replay.note(entry) == entry.note, entry
    assert count
