#!/usr/bin/env python3
"""LRC(12,2,2) and LRC(6,2,2) in plain Python, for who writes them anew: the weights of the codes,
encoding, what can be recovered, and what to read. It needs nothing else, and is slow.

    integrations/reference.py CORPUS

It counts the lost sets that it recovers, and compares all with the stored chunks of CORPUS, which
is tests/corpus. docs/review/definitions.md says what of it is proved."""

import functools
import itertools
import sys
from pathlib import Path

MODULUS = 0x11D
PARITIES = 4
WEIGHTS = {  # of the data in the third sum, group after group
    12: (0x01, 0x02, 0x03, 0x04, 0x05, 0x06, 0x10, 0x20, 0x30, 0x40, 0x50, 0x60),
    6: (0x01, 0x02, 0x03, 0x10, 0x20, 0x30),
}
# The ends of the names of stored files, and the order of their chunks.
ORDERS = {"": "groups", "_interleaved": "interleaved"}


@functools.lru_cache(maxsize=None)
def product(a, b):
    """In the field of 256 elements."""
    total = 0
    while b:
        total ^= a if b & 1 else 0
        a = a << 1 ^ (MODULUS if a & 0x80 else 0)
        b >>= 1
    return total


@functools.lru_cache(maxsize=None)
def inverse(a):
    return next(b for b in range(1, 256) if product(a, b) == 1)


def sums_of(k):
    """Four lists of weights, one for each fragment: of each byte of all fragments, the weighted sum
    is 0. The fragments are the data of both groups, a parity of each, and two of all data."""
    third = WEIGHTS[k]
    rows = [
        [int(i < k // 2) for i in range(k)],
        [int(i >= k // 2) for i in range(k)],
        list(third),
        [product(weight, weight) for weight in third],
    ]
    return [row + [int(i == at) for i in range(PARITIES)] for at, row in enumerate(rows)]


def weighted(row, fragments):
    """The sum of fragments, each times its weight, byte by byte."""
    total = bytes(len(next(iter(fragments.values()))))
    for number, fragment in fragments.items():
        total = bytes(a ^ product(row[number], b) for a, b in zip(total, fragment))
    return total


def encode(data):
    """The fragments of data fragments: these, and four parities."""
    known = dict(enumerate(data))
    return [*data, *(weighted(row, known) for row in sums_of(len(data)))]


def solved(rows, wanted):
    """Numbers by which the sum of the rows is `wanted`, or None: by Gauss's elimination."""
    columns = [[*column, it] for *column, it in zip(*rows, wanted)]
    pivots = {}
    for at in range(len(rows)):
        rest = [column for column in columns if column[at]]
        if not rest:
            continue
        scale = inverse(rest[0][at])
        pivot = [product(scale, value) for value in rest[0]]
        columns.remove(rest[0])
        for column in (*columns, *pivots.values()):
            column[:] = [a ^ product(column[at], b) for a, b in zip(column, pivot)]
        pivots[at] = pivot
    if any(column[-1] for column in columns):
        return None
    return [pivots[at][-1] if at in pivots else 0 for at in range(len(rows))]


def recipe(k, lost, wanted):
    """The fragments to read for a lost one, each with its weight; None if it is unrecoverable. The
    sums of the groups come first, and have the fewest fragments."""
    sums, lost, total = sums_of(k), sorted(lost), [0] * (k + PARITIES)
    of_lost = [[row[number] for number in lost] for row in sums]
    by = solved(of_lost, [int(number == wanted) for number in lost])
    if by is None:
        return None
    for scale, row in zip(by, sums):
        total = [a ^ product(scale, b) for a, b in zip(total, row)]
    return {i: weight for i, weight in enumerate(total) if weight and i != wanted}


def rebuild(k, fragments, lost, wanted):
    """A lost fragment, or None if it is unrecoverable."""
    needed = recipe(k, lost, wanted)
    if needed is None:
        return None
    row = [needed.get(i, 0) for i in range(k + PARITIES)]
    return weighted(row, {i: fragments[i] for i in needed})


def place(k, order, number):
    """Where a fragment is among the stored chunks."""
    half, group = (k + PARITIES) // 2, k // 2
    if order == "interleaved":
        return number if number >= k else number % group * 2 + number // group
    if number < k:
        return number % group + number // group * half
    return group + (number - k) // 2 + (number - k) % 2 * half


def stored(corpus, k, suffix):
    """The fragments that a file has, by their numbers."""
    chunks = Path(corpus, f"ceph_{k}_4{suffix}").read_bytes()
    width = len(chunks) // (k + PARITIES)
    places = [place(k, ORDERS[suffix], number) for number in range(k + PARITIES)]
    return [chunks[at * width : (at + 1) * width] for at in places]


def check(corpus, k, suffix):
    """An object that was stored has its slices in the places of data in rising order."""
    fragments = stored(corpus, k, suffix)
    content = Path(corpus, "object").read_bytes()
    slices = sorted(range(k), key=lambda number: place(k, ORDERS[suffix], number))
    whole = b"".join(fragments[number] for number in slices)
    assert whole[: len(content)] == content and not any(whole[len(content) :])
    assert encode(fragments[:k]) == fragments
    lost = {0, k // 2, k, k + 2}
    assert all(rebuild(k, fragments, lost, it) == fragments[it] for it in lost)


def count(k):
    """Of the sets of at most four lost fragments: how many there are, and how many are recovered;
    and how many fragments a single lost one is made of."""
    sets = [set(it) for n in range(5) for it in itertools.combinations(range(k + PARITIES), n)]
    recovered = sum(all(recipe(k, lost, it) for it in lost) for lost in sets)
    single = [len(recipe(k, {it}, it)) for it in range(k + PARITIES)]
    return len(sets), recovered, single


def main(corpus):
    for k in WEIGHTS:
        for suffix in ORDERS:
            check(corpus, k, suffix)
        sets, recovered, single = count(k)
        print(f"k={k}: {recovered} of {sets} sets are recovered; one lost fragment reads {single}")


if __name__ == "__main__":
    main(sys.argv[1])
