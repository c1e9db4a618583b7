#!/usr/bin/env python3
"""Draws a run: tools/draw_run.py SCRIPT PICTURE [--width N] [--workers K] [--limit J]

The script is run by the program with `--history`. For each blob there is a row for each of its
calls, with the fragments as the call left them: which are stored, lost and unrecoverable, and which
a read or a repair used and rebuilt.
"""

import os
import subprocess
import sys
from dataclasses import replace
from pathlib import Path

import lrc
from history import CODES, Replay, entries
from svg import GREY, INK, MADE, RED, WHITE, box, drawing, group_fill, line, middle, text

PROGRAM = os.path.join(lrc.TOP, "crates", "lrcstore", "out", "lrcstore")
LEFT, FIRST_BOX, STEP, ROW = 24, 360, 30, 30
# What the drawing may have, beside what it means.
LEGEND = [
    ("lost", "Struck out: lost."),
    ("unrecoverable", "Crossed out: unrecoverable."),
    ("used", "Thick: read by the call."),
    ("built", "Yellow: rebuilt by the call."),
]


def run(script, options):
    """What the program prints of a script, with its history."""
    ran = subprocess.run([PROGRAM, script, *options, "--history"], capture_output=True, text=True)
    if ran.returncode != 0:
        sys.exit(ran.stderr.strip() or f"the program ended with status {ran.returncode}")
    return ran.stdout


def width_of(options):
    return int(options[options.index("--width") + 1]) if "--width" in options else 1


def x_of(data, f):
    return FIRST_BOX + f * STEP + 10 * sum(f >= border for border in (data // 2, data, data + 2))


def stripe_boxes(y, blob, stripe, used, built):
    """The fragments of a stripe after a call: those that it read, and those that it rebuilt."""
    data, shapes = lrc.data_fragments(blob.code), []
    for f in range(lrc.fragments(blob.code)):
        x, at = x_of(data, f), (stripe, f)
        is_lost = at in blob.lost
        paint = MADE if at in built else WHITE if is_lost else group_fill(data, f)
        shapes.append(
            box(x, y, 26, 22, paint, RED if is_lost else INK, 2.8 if at in used else 1.1, is_lost)
        )
        if is_lost:
            shapes.append(line(x + 5, y + 4, x + 21, y + 18, RED, 1.2))
        if blob.is_open(*at):
            shapes.append(line(x + 5, y + 18, x + 21, y + 4, RED, 1.2))
    return shapes


def sources_of(blob, stripe, f):
    """What is read for a fragment: itself if it is stored, else those that it is rebuilt from."""
    lost = blob.lost_of(stripe)
    return (
        {(stripe, i) for i in lrc.rebuilt_from(blob.code, lost, f)} if f in lost else {(stripe, f)}
    )


def used_by(blob, entry):
    """The fragments that a call read."""
    if entry.word == "read" and entry.note.startswith("granted"):
        return set().union(*(sources_of(blob, j, f) for j, f in blob.covers(*entry.numbers)))
    if entry.note.startswith("repaired"):
        stripe, f = entry.numbers
        return sources_of(replace(blob, lost=blob.lost | {(stripe, f)}), stripe, f)
    return set()


def built_by(blob, entry):
    """The fragments that a call rebuilt: a repair stores one, a read does not store those lost."""
    if entry.note.startswith("repaired"):
        return {tuple(entry.numbers)}
    is_granted = entry.word == "read" and entry.note.startswith("granted")
    return blob.lost & set(blob.covers(*entry.numbers)) if is_granted else set()


def call_of(entry, is_mend):
    """A call in words: of a put how many bytes it has, and of a mend's repair that it is one."""
    if entry.word in CODES:
        return f"{entry.word}, {entry.numbers[0]} bytes"
    words = " ".join([entry.word, *map(str, entry.numbers)])
    return f"mend: {words}" if is_mend and entry.word == "repair" else words


class Panel:
    """The calls of one blob from its put on, with the first stripe and those that lost
    something."""

    def __init__(self, blob, name, is_mend):
        self.blob, self.name, self.is_mend, self.calls = blob, name, is_mend, []

    def add(self, entry):
        """Notes a call that was made, with what is lost after it."""
        used, built = used_by(self.blob, entry), built_by(self.blob, entry)
        self.calls.append((entry, frozenset(self.blob.lost), used, built))

    def shows(self):
        """What occurs in the drawing, in the legend's words."""
        for entry, lost, used, built in self.calls:
            shown = (("lost", lost), ("used", used), ("built", built))
            yield from (word for word, those in shown if those)
            if any(replace(self.blob, lost=set(lost)).is_open(*at) for at in lost):
                yield "unrecoverable"

    def shown(self):
        return (
            sorted({0} | {j for _, lost, _, _ in self.calls for j, _ in lost})
            if self.blob.stripes()
            else []
        )

    def group_names(self, y):
        """What the fragments of a stripe are, above their numbers."""
        data = lrc.data_fragments(self.blob.code)
        borders = (0, data // 2, data, data + 2, data + 4)
        for name, first, end in zip(("data", "data", "local", "global"), borders, borders[1:]):
            x1, x2 = x_of(data, first), x_of(data, end - 1) + 26
            yield middle((x1 + x2) / 2, y, name, 11, GREY)

    def draw(self, y):
        """The panel's shapes, and where the next one begins."""
        blob, data = self.blob, lrc.data_fragments(self.blob.code)
        code = f"LRC({data},2,2)"
        stripes = "1 stripe" if blob.stripes() == 1 else f"{blob.stripes()} stripes"
        title = f"{self.name}, version {blob.version}: {blob.length} bytes in {code}, {stripes}"
        shapes = [text(LEFT, y, title, 14, bold=True)]
        y += 16
        shapes += self.group_names(y) if self.shown() else []
        for stripe in self.shown():
            shapes.append(
                text(LEFT, y + 16, f"stripe {stripe}" if blob.stripes() > 1 else "", 12, fill=GREY)
            )
            shapes += [
                middle(x_of(data, f) + 13, y + 16, f, 11, GREY)
                for f in range(lrc.fragments(blob.code))
            ]
            y += 22
            for entry, lost, used, built in self.calls:
                ink = RED if "unrecoverable" in entry.note else GREY
                shapes.append(
                    text(LEFT, y + 16, f"{entry.number}.  {call_of(entry, self.is_mend)}", 12)
                )
                shapes.append(text(LEFT + 150, y + 16, f"→ {entry.note}", 12, fill=ink))
                if entry.word != "delete":
                    shapes += stripe_boxes(y, replace(blob, lost=set(lost)), stripe, used, built)
                y += ROW
        return shapes, y + 26


def panels(printed, width, is_mend):
    """A panel for each put whose entry is in the history, in order."""
    replay, current, made = Replay(width), {}, []
    for entry in entries(printed):
        if entry.number != 1 and not made:
            sys.exit("the beginning of the journal was discarded")
        note = replay.note(entry)
        if note != entry.note:
            sys.exit(f"entry {entry.number}: noted {entry.note}, and by the rule {note}")
        if entry.word in CODES:
            current[entry.name] = Panel(replay.blobs[entry.name], entry.name, is_mend)
            made.append(current[entry.name])
        if entry.name in current:
            current[entry.name].add(entry)
        if entry.word == "delete":
            current.pop(entry.name, None)
    return made


def has_only_mends(script):
    """Whether all repairs of a script are those of its mends."""
    rows = Path(script).read_text("utf-8").split("\n")
    words = [row.split(",")[2] for row in rows if row.count(",") > 4]
    return "mend" in words and "repair" not in words


def draw(printed, width, title, is_mend=False):
    made = panels(printed, width, is_mend)
    shown = {word for panel in made for word in panel.shows()}
    legend = ["Each row: a call of the history, and the fragments after it."]
    legend += [meaning for word, meaning in LEGEND if word in shown]
    shapes = [text(LEFT, 30, title, 16, bold=True), text(LEFT, 50, " ".join(legend), 12, fill=GREY)]
    y = 82
    for panel in made:
        more, y = panel.draw(y)
        shapes += more
    calls = sum(len(panel.calls) for panel in made)
    description = (
        f"{title} has {calls} calls, drawn in order, each with its reply and with the fragments "
        "after it."
    )
    return drawing(910, y - 20, title, description, shapes)


def main(words):
    if len(words) < 2:
        sys.exit(__doc__)
    script, picture, *options = words
    title = "The run of " + os.path.basename(script)
    drawn = draw(run(script, options), width_of(options), title, has_only_mends(script))
    Path(picture).write_text(drawn, "utf-8")


if __name__ == "__main__":
    main(sys.argv[1:])
