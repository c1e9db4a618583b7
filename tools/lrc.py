"""The two codes, read from the definitions that the proofs stand on, which lost fragments are
unrecoverable, and which others a lost one is rebuilt from."""

import itertools
import os
import re
from functools import lru_cache
from pathlib import Path

TOP = os.path.dirname(os.path.dirname(os.path.abspath(__file__)))


def definition(*path):
    return Path(TOP, "crates", *path).read_text("utf-8")


MODULUS = int(
    re.search(r"^modulus = (\w+)", definition("gf256", "specs", "Field.antt"), re.M).group(1), 0
)


def read_weights(code):
    """What each fragment weighs in the four equations: the table `weights` of `lrc_code`."""
    table = re.search(
        rf"^weights {code} =\n((?:    .*\n)+)", definition("lrc_code", "specs", "Code.antt"), re.M
    ).group(1)
    rows = re.findall(r"\(([^()]*) ∷ \[\]\)", table)
    return [[int(number, 0) for number in row.split(" ∷ ")] for row in rows]


WEIGHTS = {code: read_weights(code) for code in ("Wide", "Small")}


def data_fragments(code):
    """All fragments but the four parities, one for each equation."""
    return len(WEIGHTS[code][0]) - 4


def fragments(code):
    return len(WEIGHTS[code][0])


def product(a, b):
    """The carry-less product of two bytes, reduced by the modulus."""
    result = 0
    while b:
        if b & 1:
            result ^= a
        a = a << 1 ^ (MODULUS if a & 0x80 else 0)
        b >>= 1
    return result


INVERSE = {a: b for a in range(1, 256) for b in range(1, 256) if product(a, b) == 1}


def scales_for(rows, others):
    """Numbers by which the rows add up to 0 at each of the others, free ones being 1."""
    equations = [[row[i] for row in rows] for i in others]
    pivots = []
    for column in range(len(rows)):
        found = next((e for e in equations[len(pivots) :] if e[column]), None)
        if found is None:
            continue
        equations.remove(found)
        found = [product(INVERSE[found[column]], x) for x in found]
        equations.insert(len(pivots), found)
        for place, other in enumerate(equations):
            if other is not found and other[column]:
                equations[place] = [x ^ product(other[column], y) for x, y in zip(other, found)]
        pivots.append(column)
    free = [column for column in range(len(rows)) if column not in pivots]
    scales = [1] * len(rows)
    for pivot, equation in zip(pivots, equations):
        scales[pivot] = 0
        for column in free:
            scales[pivot] ^= equation[column]
    return scales if free else [0] * len(rows)


@lru_cache(maxsize=None)
def rebuilt_from(code, lost, f):
    """The fragments that a lost one is rebuilt from: those of the first sum of equations that
    weighs it and nothing else that is lost. Fewer equations come first. `lost` is a frozenset; an
    unrecoverable fragment is rebuilt from none.
    """
    for size in range(1, 5):
        for rows in itertools.combinations(WEIGHTS[code], size):
            total = [0] * fragments(code)
            for scale, row in zip(scales_for(rows, sorted(lost - {f})), rows):
                total = [x ^ product(scale, y) for x, y in zip(total, row)]
            if total[f]:
                return [i for i, weight in enumerate(total) if weight and i != f]
    return []


def is_open(code, lost, f):
    """Whether two columns agree on every fragment that is not in `lost`, and differ at `f`: whether
    no sum of equations weighs `f` and nothing else that is lost. `lost` is a frozenset."""
    return f in lost and not rebuilt_from(code, lost, f)
