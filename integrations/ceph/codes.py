"""The plugin's two codes by their places in the order `interleaved`, and lost sets that the tests
try."""

import random
from dataclasses import dataclass

OSD_EACH = "crush-failure-domain=osd"
STRIPE_UNIT = 4096


@dataclass(frozen=True)
class Code:
    """Its data chunks, the places of each local group, and sets of places."""

    k: int
    groups: tuple
    recoverable: tuple
    unrecoverable: tuple

    @property
    def places(self):
        return self.k + 4

    @property
    def profile(self):
        return ["plugin=azure_lrc", f"k={self.k}", "m=4"]

    def chunk_bytes(self, length):
        """The bytes of each chunk of an object: a stripe unit for each stripe."""
        return -(-length // (self.k * STRIPE_UNIT)) * STRIPE_UNIT

    def is_recoverable(self, lost):
        """Whether at most two losses remain after each group has made good one of its own."""
        return len(lost) - sum(bool(group & set(lost)) for group in self.groups) <= 2

    def drawn_sets(self, count, wanted=True):
        """Sets of four places, recoverable ones or not, drawn anew in each run."""
        while count:
            lost = sorted(random.sample(range(self.places), 4))
            if self.is_recoverable(lost) == wanted:
                count -= 1
                yield lost


# Places 0 to 11 are data, 12 and 13 local parities, 14 and 15 global ones.
WIDE = Code(
    12,
    (set(range(0, 14, 2)), set(range(1, 14, 2))),
    (
        [0],
        [12],
        [15],
        [0, 12],
        [0, 1],
        [0, 2],
        [14, 15],
        [0, 2, 1],
        [0, 12, 14],
        [0, 2, 4, 1],
        [0, 2, 1, 3],
        [0, 1, 14, 15],
        [0, 2, 12, 13],
        [12, 13, 14, 15],
    ),
    ([0, 2, 4, 6],),
)
# Places 0 to 5 are data, 6 and 7 local parities, 8 and 9 global ones.
SMALL = Code(
    6,
    ({0, 2, 4, 6}, {1, 3, 5, 7}),
    ([0, 2, 4], [6, 8, 9], [0, 2, 1, 3], [0, 6, 8, 7], [6, 8, 7, 9]),
    ([0, 2, 4, 6], [1, 3, 5, 9], [0, 2, 8, 1, 3]),
)
