"""The picture of the crates in layers, from crates.txt, without tests and demos."""

import build
from svg import FIRST, FIRST_PARITY, GLOBAL, GREY, MADE, SECOND, SECOND_PARITY
from svg import box, drawing, line, middle, text

ROW, WIDE, HIGH, GAP, LEFT, TOP_EDGE = 58, 106, 28, 12, 24, 84
# The width of a lane, how often places and before that orders are improved, the colour of a line.
LANE, SWEEPS, SORTED, EDGE = 6, 2000, 20, "#8d98a5"
CAPTION = (
    "A line leads from a crate to the nearest ones that it uses. Tests and demos are left out."
)
DESCRIPTION = (
    "The crates in layers, from the field at the bottom to the programs at the top, with a line "
    "from each crate to the nearest ones that it uses."
)
STORE_CRATES = "history book gate ledger one_map requests ledger_map shared named_calls"
STORE_CRATES += " shard mender sharded"
FILE_CRATES = "fragment_header fragments fragment_files lrc_files lrc_line lrc_json lrc_report"
FILE_CRATES += " lrc_commands lrc"
# The colours of the crates, by what they are for.
KINDS = [
    ("coding", FIRST, "gf256 kernels lrc_code one_pass syndromes decode"),
    ("blobs", SECOND, "sealed lent"),
    ("store", FIRST_PARITY, STORE_CRATES),
    ("scripts", MADE, "script command_line transcript rounds play program lrcstore"),
    ("for C", GLOBAL, "coder_c session pool_order store_c"),
    ("files", SECOND_PARITY, FILE_CRATES),
]


def uses():
    """The crates of crates.txt, from the bottom up, each with those of them that it uses."""
    used = build.dependencies()
    names = [name for name in used if not name.startswith(("test_", "demo_", "bench_"))]
    return {name: [one for one in used[name] if one in names] for name in names}


def below(name, used):
    """All crates that one uses, through others too."""
    return set(used[name]).union(*(below(one, used) for one in used[name]))


def neighbours(used):
    """The crates that each uses, but those that it uses through another one."""
    return {
        name: [one for one in ones if not any(one in below(other, used) for other in ones)]
        for name, ones in used.items()
    }


def level(name, used):
    """How many crates the longest way down from a crate has."""
    return 1 + max((level(one, used) for one in used[name]), default=-1)


def heights(used):
    """The level of each crate. One that uses no other stands right below the first that uses it."""
    found = {name: level(name, used) for name in used}
    for name in used:
        users = [found[one] for one in used if name in used[one]]
        if not used[name] and users:
            found[name] = min(users) - 1
    return found


def links_of(used, near):
    """The crates and lanes of each height, and from each those right below that it leads to.

    A lane, a pair of a crate and a height, leads a line to that crate past other rows.
    """
    height_of, links = heights(used), {}
    rows = [
        [name for name in used if height_of[name] == height]
        for height in range(max(height_of.values()) + 1)
    ]
    for name, ones in near.items():
        for one in ones:
            at = name
            for height in range(height_of[name] - 1, height_of[one], -1):
                lane = (one, height)
                links.setdefault(at, []).append(lane)
                at = lane
                if lane in rows[height]:
                    break
                rows[height].append(lane)
            else:
                links.setdefault(at, []).append(one)
    return rows, links


def neighbours_in(links):
    """For each crate and lane all that a line joins to it, above and below."""
    joined = {}
    for upper, lowers in links.items():
        for lower in lowers:
            joined.setdefault(upper, []).append(lower)
            joined.setdefault(lower, []).append(upper)
    return joined


def width_of(node):
    return WIDE if isinstance(node, str) else LANE


def spread(row, wanted):
    """The middles of a row's nodes: as near as wanted, in their order, and apart."""

    def apart(left, right):
        return (width_of(left) + width_of(right)) / 2 + GAP

    first, last = [wanted[row[0]]], [wanted[row[-1]]]
    for left, right in zip(row, row[1:]):
        first.append(max(wanted[right], first[-1] + apart(left, right)))
    for left, right in zip(row[-2::-1], row[:0:-1]):
        last.append(min(wanted[left], last[-1] - apart(left, right)))
    return {node: (a + b) / 2 for node, a, b in zip(row, first, reversed(last))}


def middles_of(rows, links):
    """Where the middle of each crate and lane is: about where those stand that it is joined to."""
    joined, at = neighbours_in(links), {}
    for row in rows:
        for number, node in enumerate(row):
            at[node] = (number - (len(row) - 1) / 2) * (WIDE + GAP)
    for turn in range(SWEEPS):
        for row in rows if turn % 2 == 0 else reversed(rows):
            mean = {node: sum(map(at.get, joined[node])) / len(joined[node]) for node in row}
            if turn < SORTED:
                row.sort(key=mean.get)
            at.update(spread(row, mean))
    return at


def fill(name):
    return next(colour for _, colour, names in KINDS if name in names.split())


def layers():
    used = uses()
    rows, links = links_of(used, neighbours(used))
    middles = middles_of(rows, links)
    left = min(x - width_of(node) / 2 for node, x in middles.items())
    right = max(x + width_of(node) / 2 for node, x in middles.items())
    at = {
        node: (LEFT + middles[node] - left, TOP_EDGE + (len(rows) - 1 - height) * ROW)
        for height, row in enumerate(rows)
        for node in row
    }
    shapes = [text(LEFT, 28, "The crates in layers", 16, bold=True)]
    for number, (kind, colour, _) in enumerate(KINDS):
        x = LEFT + number * 92
        shapes += [box(x, 42, 16, 14, colour), text(x + 22, 54, kind, 12, fill=GREY)]
    for upper, lowers in links.items():
        for lower in lowers:
            (x1, y1), (x2, y2) = at[upper], at[lower]
            shapes.append(line(x1, y1 + HIGH, x2, y2, EDGE, 1))
    for node, (x, y) in at.items():
        if isinstance(node, str):
            shapes += [box(x - WIDE / 2, y, WIDE, HIGH, fill(node)), middle(x, y + 19, node, 11.5)]
        else:
            shapes.append(line(x, y, x, y + HIGH, EDGE, 1))
    y = TOP_EDGE + len(rows) * ROW - 8
    shapes.append(text(LEFT, y, CAPTION, 12, fill=GREY))
    return drawing(right - left + 2 * LEFT, y + 16, "The crates in layers", DESCRIPTION, shapes)
