"""The picture of what the repair of a disk reads and sends in Ceph, for codes of twelve data chunks
of sixteen.

Each place has its share of a disk's chunks. What is read goes to the primary, which is the first
place that is not lost, but what it has itself. The primary sends the rebuilt chunk to the new disk.
Clay reads one of four parts of each of the other chunks, as small pieces that are spread over it.
The places of azure_lrc are those of its order `interleaved`.
"""

import lrc
from svg import FIRST, FIRST_PARITY, GREY, INK, SECOND, SECOND_PARITY, box, drawing, line
from svg import middle, text

TITLE = "What Ceph reads and sends to rebuild a lost disk"
AXIS = "bytes for each byte of the lost disk, mean over its places in a stripe"
CHUNKS, DATA = 16, 12
LEFT, TOP_EDGE, STEP, HIGH, SCALE = 190, 62, 50, 18, 42
TICKS = (0, 3, 6, 9, 12)


def others(lost):
    return [place for place in range(CHUNKS) if place != lost]


# Of how many parts of a chunk clay reads one, and into how many pieces it cuts a chunk.
PARTS = CHUNKS - DATA
PIECES = PARTS ** (CHUNKS // PARTS)
NOTES = [
    f"clay reads {PIECES // PARTS} of the {PIECES} pieces of each of {CHUNKS - 1} chunks, if one "
    "is lost: fewer bytes, more seeks.",
    f"Its figures are by the formula of its page, d / (d - k + 1) = {CHUNKS - 1} / {PARTS}.",
]

# The place of each fragment: data of one group and of the other in turn, then the parities.
PLACES = [*range(0, DATA, 2), *range(1, DATA, 2), *range(DATA, CHUNKS)]


def interleaved(lost):
    fragment = PLACES.index(lost)
    return [PLACES[one] for one in lrc.rebuilt_from("Wide", frozenset([fragment]), fragment)]


# For each code, the chunks that are read for the one at a place, and what part of each.
CODES = {
    "azure_lrc k=12 m=4": (interleaved, 1),
    "lrc k=12 m=2 l=7": (lambda lost: [it for it in others(lost) if it // 8 == lost // 8], 1),
    "isa k=12 m=4": (lambda lost: others(lost)[:DATA], 1),
    "clay k=12 m=4 d=15": (others, 1 / PARTS),
}


def figures(chunks, part):
    """What is read and what is sent, means over the places."""
    read = [len(chunks(lost)) * part for lost in range(CHUNKS)]
    own = [part * (others(lost)[0] in chunks(lost)) for lost in range(CHUNKS)]
    return sum(read) / CHUNKS, sum(read) / CHUNKS - sum(own) / CHUNKS + 1


def bars(place, code, read, sent):
    """The two bars of a code, with the code's name before them."""
    ours = code.startswith("azure_lrc")
    y = TOP_EDGE + place * STEP
    yield text(LEFT - 12, y + HIGH + 5, code, 13, "end", bold=ours)
    rows = [
        (read, "read", FIRST_PARITY if ours else SECOND_PARITY),
        (sent, "sent", FIRST if ours else SECOND),
    ]
    for number, (value, word, fill) in enumerate(rows):
        at = y + number * (HIGH + 2)
        yield box(LEFT, at, value * SCALE, HIGH, fill)
        yield text(LEFT + value * SCALE + 8, at + 14, f"{round(value, 2):g} {word}", 12)


def axis(bottom):
    """The axis of bytes below the bars, with lines up to the top."""
    for tick in TICKS:
        x = LEFT + tick * SCALE
        yield line(x, TOP_EDGE - 8, x, bottom, INK if tick == 0 else "#dde2e7", 1)
        yield middle(x, bottom + 16, tick, 11, GREY)
    yield line(LEFT, bottom, LEFT + TICKS[-1] * SCALE, bottom, INK, 1)
    yield middle(LEFT + TICKS[-1] * SCALE / 2, bottom + 34, AXIS, 12, GREY)


def description():
    """What is seen, in a sentence."""
    read = {code.split()[0]: f"{figures(*shares)[0]:g}" for code, shares in CODES.items()}
    return (
        f"For each byte of a lost disk, azure_lrc reads {read['azure_lrc']} bytes, Ceph's lrc "
        f"{read['lrc']}, isa {read['isa']}, and clay {read['clay']} in small pieces of "
        f"{CHUNKS - 1} chunks."
    )


def repair():
    bottom = TOP_EDGE + len(CODES) * STEP - 4
    shapes = [text(24, 30, TITLE, 16, bold=True), *axis(bottom)]
    for place, (code, shares) in enumerate(CODES.items()):
        shapes += bars(place, code, *figures(*shares))
    shapes += [text(24, bottom + 60 + 18 * i, note, 12) for i, note in enumerate(NOTES)]
    return drawing(790, bottom + 92, TITLE, description(), shapes)
