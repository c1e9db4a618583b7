#!/usr/bin/env python3
"""Draws the pictures of the documents: tools/draw_pictures.py [FOLDER], else into docs/pictures.

The codes come from the crate `lrc_code`; which fragments a lost one is rebuilt from is what the
program `demo_guide` prints; the layers are those of crates.txt, the plan's numbers those of
`demo_survey`.
"""

import os
import re
import sys
from pathlib import Path

import lrc
from draw_layers import layers
from draw_planner import planner
from draw_repair import repair
from svg import FIRST, GLOBAL, GREY, INK, MADE, RED, SECOND, WHITE
from svg import box, drawing, group_fill, line, middle, text

CODE = "Wide"
DATA, ALL = lrc.data_fragments(CODE), lrc.fragments(CODE)
HALF = DATA // 2
PLAIN = "#f4f6f8"
GLOBALS = f"{DATA + 2} and {DATA + 3} sum both groups, each fragment times its weight, "
GLOBALS += "or its weight squared."
FILLING = "Dashed: the last stripe is filled up with zero bytes, which are stored and can be lost."
UNRECOVERABLE = (
    "unrecoverable: two stripes agree on all remaining fragments and differ in these."
    " All others can be read"
)
# Which pass makes which call, in the order in which they enter, and what is noted.
CALLS = [
    ("p", "put a → stored 1"),
    ("q", "lose a 0 0 → lost 1"),
    ("p", "read a 0 12 → granted 1"),
    ("q", "delete a → deleted 1"),
    ("p", "stat a → no-name"),
]


def place(f, left, step, gap=14):
    """Where a fragment's box begins: gaps separate the groups, the local and the global
    parities."""
    return left + f * step + gap * sum(f >= border for border in (HALF, DATA, DATA + 2))


def fill(f):
    return group_fill(DATA, f)


def weighted_sum(f):
    """What a parity is, in short."""
    return {DATA: "sum of X", DATA + 1: "sum of Y", DATA + 2: "Σ w·d", DATA + 3: "Σ w²·d"}[f]


def blob_row(blob, stripe, width, left):
    """The blob's bytes, with a cut where a stripe ends."""
    for i, letter in enumerate(blob):
        x = left + i * 29
        yield box(x, 64, 26, 30, fill(i % stripe // width))
        yield middle(x + 13, 85, letter.replace(" ", "␣"), 15)
    for cut in range(stripe, len(blob), stripe):
        yield line(left + cut * 29 - 1.5, 58, left + cut * 29 - 1.5, 100, INK, 2)


def stripe_of(blob, stripe, width, left, j):
    """The fragments of stripe j, with the names of their groups below."""
    y = 140 + j * 124
    yield text(left, y - 10, f"stripe {j}", bold=True)
    for f in range(ALL):
        x = place(f, left, 52)
        part = blob[j * stripe + f * width :][:width].replace(" ", "␣") if f < DATA else ""
        words = " ".join(part.ljust(width, "0")) if f < DATA else weighted_sum(f)
        is_filling = f < DATA and not part
        yield middle(x + 23, y + 8, f, 12, GREY)
        yield box(x, y + 14, 46, 40, fill(f), dashed=is_filling)
        size, ink = 14 if f < DATA else 9.5, GREY if is_filling else INK
        yield middle(x + 23, y + 39, words, size, ink)
    names = ("group X", "group Y", "local parities", "global parities")
    borders = (0, HALF, DATA, DATA + 2, ALL)
    for name, first, end in zip(names, borders, borders[1:]):
        x1, x2 = place(first, left, 52), place(end - 1, left, 52) + 46
        yield line(x1, y + 62, x2, y + 62, INK)
        yield middle((x1 + x2) / 2, y + 80, name, 12)


def blob_in_stripes():
    blob, width, left = "THE QUICK BROWN FOX RUNS AWAY", 2, 24
    stripe = DATA * width
    title = (
        f"A blob of {len(blob)} bytes, fragments of {width}:"
        f" stripes of {DATA} data fragments and four parities"
    )
    shapes = [
        text(left, 30, title, 16, bold=True),
        text(left, 56, f"the blob, cut every {stripe} bytes", 12, fill=GREY),
        *blob_row(blob, stripe, width, left),
    ]
    for j in range(-(-len(blob) // stripe)):
        shapes += stripe_of(blob, stripe, width, left, j)
    sums = f"Parity {DATA} is the sum of group X, {DATA + 1} that of Y. {GLOBALS}"
    shapes += [text(left, 380, sums, 12), text(left, 399, FILLING, 12)]
    description = (
        f"A blob of {len(blob)} bytes is cut into {-(-len(blob) // stripe)} stripes, each with "
        f"{DATA} data fragments in two groups, two local parities and two global parities."
    )
    return drawing(930, 416, "A blob in its stripes", description, shapes)


def groups_legend(y):
    """What the colours of a stripe's fragments mean."""
    named = [
        (24, 0, "data of a group"),
        (160, HALF, "data of the other"),
        (310, DATA, ""),
        (332, DATA + 1, "local parity of each group"),
        (540, DATA + 2, "global parities"),
    ]
    for x, f, name in named:
        yield box(x, y - 12, 16, 14, fill(f))
        yield text(x + 22, y, name, 12, fill=GREY)


def fragment_box(x, y, f, paint, is_lost, is_open, is_read):
    """A fragment: struck out if it is lost, crossed out if it is unrecoverable, thick if it is
    read."""
    ink, thick = RED if is_lost else INK, 2.8 if is_read else 1.2
    yield box(x, y, 44, 34, WHITE if is_lost else paint, ink, thick, is_lost)
    yield middle(x + 22, y + 22, f, 14, ink, is_read)
    if is_lost:
        yield line(x + 7, y + 6, x + 37, y + 28, RED, 1.2)
    if is_open:
        yield line(x + 7, y + 28, x + 37, y + 6, RED, 1.2)


def rebuilt(y, lost, built_from, x_of):
    """The rebuilt fragment below its stripe, with a line from each that it is rebuilt from."""
    x = x_of(lost)
    for f in built_from:
        yield line(x_of(f) + 22, y, x + 22, y + 27)
    yield box(x, y + 27, 44, 26, MADE)
    yield middle(x + 22, y + 45, lost, 14, bold=True)
    yield text(x + 54, y + 45, f"rebuilt from {len(built_from)} fragments", 12)


def stripe_row(y, title, below, lost, built_from):
    """One stripe with its lost fragments, and those that the first one is rebuilt from, if any."""

    def x_of(f):
        return place(f, 24, 50)

    yield text(24, y, title, 14, bold=True)
    yield text(24, y + 18, below, 12, fill=GREY)
    for f in range(ALL):
        is_open = lrc.is_open(CODE, frozenset(lost), f)
        yield from fragment_box(x_of(f), y + 30, f, fill(f), f in lost, is_open, f in built_from)
    if built_from:
        yield from rebuilt(y + 65, lost[0], built_from, x_of)


def reed_solomon_row(y):
    """A stripe of Reed-Solomon, whose fragment 0 is rebuilt from twelve others, whichever they
    are."""

    def x_of(f):
        return 24 + f * 50 + (14 if f >= DATA else 0)

    read = range(1, DATA + 1)
    yield text(24, y, "Reed-Solomon 12+4", 14, bold=True)
    below = f"each parity is a sum of all data, so any {DATA} of the others are read"
    yield text(24, y + 18, below, 12, fill=GREY)
    for f in range(ALL):
        paint = PLAIN if f < DATA else GLOBAL
        yield from fragment_box(x_of(f), y + 30, f, paint, f == 0, False, f in read)
    yield from rebuilt(y + 65, 0, read, x_of)


def recipes():
    """The fragments that the first lost one is rebuilt from, by the lost ones, as `demo_guide`
    prints."""
    printed = lrc.definition("demo_guide", "stdout")
    found = {}
    for lost, built in re.findall(r"^lost ([\d ]+): 0 is (open|built from [\d ]+)$", printed, re.M):
        found[tuple(map(int, lost.split()))] = [int(f) for f in re.findall(r"\d+", built)]
    return found


def marks(words):
    """What the marks of fragments mean."""
    return text(24, 50, words, 12, fill=GREY)


def degraded_read():
    built = recipes()[0,]
    title = "What is read to rebuild a lost fragment"
    group = "the rest of the group and its parity are read, and added up by XOR"
    meaning = "Struck out: lost. Thick: read. Yellow: rebuilt."
    shapes = [
        text(24, 30, title, 16, bold=True),
        marks(f"{meaning} White: data of a code without groups."),
        *groups_legend(74),
        *reed_solomon_row(112),
        *stripe_row(260, "LRC(12,2,2) of lrcstore", group, (0,), built),
    ]
    description = (
        f"To rebuild fragment 0, Reed-Solomon 12+4 reads {DATA} other fragments, and LRC(12,2,2) "
        f"reads {len(built)}: the rest of its group and the group's parity."
    )
    return drawing(880, 392, title, description, shapes)


def several_losses():
    built = recipes()
    rows = [
        (
            (0, 1),
            "Two of one group are lost",
            "a global parity makes good the second loss; the other group's data is read with it",
        ),
        ((0, 1, 6, 7), "Two of each group are lost", "both global parities are needed"),
        ((0, 1, 2, 3), "Four of one group are lost", UNRECOVERABLE),
    ]
    title = "Several lost fragments of a stripe"
    meaning = "Struck out: lost. Crossed out: unrecoverable. Thick: read to rebuild fragment 0."
    shapes = [
        text(24, 30, title, 16, bold=True),
        marks(f"{meaning} Yellow: rebuilt."),
        *groups_legend(74),
    ]
    for number, (lost, name, below) in enumerate(rows):
        shapes += stripe_row(112 + number * 148, name, below, lost, built[lost])
    description = (
        "If two fragments of one group are lost, or two of each group, fragment 0 is rebuilt from "
        f"{len(built[0, 1])} others; if four of one group are lost, they are unrecoverable."
    )
    return drawing(880, 498, title, description, shapes)


def history_row(colour):
    """The calls in the order in which they entered."""
    yield text(24, 58, "the history: five calls, in the order in which p and q entered", bold=True)
    for i, (who, call) in enumerate(CALLS):
        x = 24 + i * 174
        yield box(x, 70, 168, 44, colour[who])
        yield middle(x + 84, 89, f"{i}: {who}", 12, bold=True)
        yield middle(x + 84, 106, call, 12)


def shown_by_passes(colour):
    """What each pass shows after its call."""
    title = "what each pass shows after its call; coloured: the places of its own calls"
    yield text(24, 152, title, bold=True)
    for seen, (who, call) in enumerate(CALLS, 1):
        y = 164 + (seen - 1) * 32
        yield text(24, y + 17, f"{who}, after its {call.split()[0]}", 12)
        for i in range(len(CALLS)):
            own, is_seen = CALLS[i][0] == who, i < seen
            paint = colour[who] if own else PLAIN
            stroke, paint = (INK, paint) if is_seen else ("#c5ccd3", WHITE)
            yield box(170 + i * 56, y, 50, 24, paint, stroke, dashed=not is_seen)
            if is_seen:
                yield middle(195 + i * 56, y + 17, i, 12, bold=own)


def passes_and_history():
    colour, title = {"p": FIRST, "q": SECOND}, "Two threads, their passes, and the one history"
    description = (
        "Threads p and q make five calls that stand in one history, and after each call the "
        "thread's pass shows a beginning of that history which ends with this call."
    )
    words = [
        "After an answered call the history begins with",
        "all that the pass had seen, and ends with this call,",
        "at one new place of its own.",
        "",
        "No place is the own place of two passes. Once all",
        "are joined, every place is the pass's own.",
    ]
    shapes = [
        text(24, 30, title, 16, bold=True),
        *history_row(colour),
        *shown_by_passes(colour),
        *(text(480, 182 + 20 * i, sentence, 12) for i, sentence in enumerate(words)),
    ]
    return drawing(910, 338, title, description, shapes)


PICTURES = {
    "blob_in_stripes.svg": blob_in_stripes,
    "degraded_read.svg": degraded_read,
    "several_losses.svg": several_losses,
    "passes_and_history.svg": passes_and_history,
    "layers.svg": layers,
    "planner.svg": planner,
    "repair.svg": repair,
}


def main(folder):
    for name, draw in PICTURES.items():
        Path(folder, name).write_text(draw(), "utf-8")


if __name__ == "__main__":
    main(sys.argv[1] if len(sys.argv) > 1 else os.path.join(lrc.TOP, "docs", "pictures"))
