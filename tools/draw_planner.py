"""The picture of what may be lost and what a rebuild reads, from what `demo_survey` prints."""

import re

import lrc
from svg import FIRST_PARITY, GREY, INK, RED, SECOND_PARITY, box, drawing, line, middle, text

TITLE = "What may be lost, and what a rebuild reads"
CODES = [
    ("LRC(12,2,2), 1.33 bytes stored", FIRST_PARITY),
    ("LRC(6,2,2), 1.67 bytes stored", SECOND_PARITY),
]
LEFT, TOP_EDGE, HEIGHT, STEP, BAR, SECOND_LEFT = 64, 76, 180, 76, 26, 520


def figures():
    """For each code: how many are lost, the percent recoverable, and how many are read, if any."""
    parts = re.split(r"^LRC.*\n", lrc.definition("demo_survey", "stdout"), flags=re.M)[1:]
    for part in parts:
        rows = [row.split() for row in part.splitlines()[1:]]
        yield [
            (int(row[0]), float(row[3]), None if row[4] == "-" else float(row[4])) for row in rows
        ]


def rivals(left, most, lines):
    """Lines of Reed-Solomon behind the bars: the value, how many lost, and the words beside."""
    for value, count, words in lines:
        y = TOP_EDGE + HEIGHT * (1 - value / most)
        yield line(left, y, left + count * STEP, y, RED, 1.2)
        for number, part in enumerate(reversed(words)):
            yield text(left + 5 * STEP, y - 5 - 13 * number, part, 11, "end", RED)


def panel(left, title, most, marks, values, lines):
    """Bars for both codes, by the number of lost fragments."""

    def height(value):
        return HEIGHT * value / most

    yield text(left, TOP_EDGE - 18, title, 13, bold=True)
    for mark in marks:
        y = TOP_EDGE + HEIGHT - height(mark)
        yield line(left, y, left + 5 * STEP, y, "#dde2e7", 1)
        yield text(left - 8, y + 4, mark, 11, "end", GREY)
    yield from rivals(left, most, lines)
    for place, lost in enumerate(range(1, 6)):
        x = left + 10 + place * STEP
        yield middle(x + BAR + 2, TOP_EDGE + HEIGHT + 18, lost, 12)
        for number, (value, (_, colour)) in enumerate(zip(values[lost], CODES)):
            at = x + number * (BAR + 4)
            if value:
                y = TOP_EDGE + HEIGHT - height(value)
                yield box(at, y, BAR, height(value), colour)
                yield middle(at + BAR / 2, y + 13, f"{value:.3g}", 9.5)
            else:
                yield middle(
                    at + BAR / 2, TOP_EDGE + HEIGHT - 5, "0" if value == 0 else "-", 11, GREY
                )
    yield middle(left + 2.5 * STEP, TOP_EDGE + HEIGHT + 38, "lost fragments of a stripe", 12, GREY)


def description(wide):
    """What is seen, in a sentence."""
    return (
        "Up to three lost fragments are always recoverable, and four in "
        f"{wide[3][1]:.0f} percent of the sets; a rebuild in LRC(12,2,2) reads {wide[0][2]:.3g} to "
        f"{wide[3][2]:.3g} fragments on average, where Reed-Solomon 12+4 reads 12."
    )


def planner():
    wide, small = figures()
    whole = {a[0]: (a[1], b[1]) for a, b in zip(wide, small)}
    reads = {a[0]: (a[2], b[2]) for a, b in zip(wide, small)}
    shapes = [text(24, 30, TITLE, 16, bold=True)]
    for number, (code, colour) in enumerate(CODES):
        shapes += [
            box(456 + number * 232, 18, 16, 14, colour),
            text(478 + number * 232, 30, code, 12, fill=GREY),
        ]
    all_four = [(100, 4, ("Reed-Solomon:", "all, up to four"))]
    each = [(12, 5, ("Reed-Solomon 12+4",)), (6, 5, ("Reed-Solomon", "6+4"))]
    shapes += panel(LEFT, "sets that are recoverable, percent", 110, (0, 50, 100), whole, all_four)
    shapes += panel(SECOND_LEFT, "fragments read to rebuild one, mean", 13, (0, 6, 12), reads, each)
    shapes += [line(LEFT, TOP_EDGE + HEIGHT, LEFT + 5 * STEP, TOP_EDGE + HEIGHT, INK, 1)]
    shapes += [
        line(SECOND_LEFT, TOP_EDGE + HEIGHT, SECOND_LEFT + 5 * STEP, TOP_EDGE + HEIGHT, INK, 1)
    ]
    return drawing(930, TOP_EDGE + HEIGHT + 52, TITLE, description(wide), shapes)
