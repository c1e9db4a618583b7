#!/usr/bin/env python3
"""Times LRC(12,2,2) beside liberasurecode's own codes by PyECLib, in one run.

    integrations/liberasurecode/build.sh /tmp
    LD_LIBRARY_PATH=/tmp /usr/bin/python3 integrations/liberasurecode/bench.py

The segments of 1 MiB are those into which Swift cuts objects. All codes take the rounds in turn,
and the best of each one's rounds counts."""

import random
import time

from pyeclib.ec_iface import ECDriver

TYPES = ("libphazr", "isa_l_rs_vand", "liberasurecode_rs_vand")
SEGMENT = random.Random(1).randbytes(1 << 20)
ROUNDS, CALLS = 15, 8


def lost_sets(count):
    """Sets of data fragments that LRC(12,2,2) recovers: in turn of one group and of the other."""
    return [[(first + 6 * i) % 12 + (i // 2) for i in range(count)] for first in range(0, 6, 2)]


class Contestant:
    def __init__(self, ec_type):
        self.driver = ECDriver(k=12, m=4, ec_type=ec_type)
        self.fragments = self.driver.encode(SEGMENT)

    def others(self, lost):
        return [fragment for i, fragment in enumerate(self.fragments) if i not in lost]

    def works(self):
        """Each kind of work, as the calls of one round."""
        yield "encode", [lambda: self.driver.encode(SEGMENT)]
        for count in range(5):
            lost = lost_sets(count) if count else [[14, 15]]
            remaining = [self.others(each)[:15] for each in lost]
            name = f"decode, {count} data fragments lost"
            yield name, [lambda each=each: self.driver.decode(each) for each in remaining]
        fifteen = self.others([3])
        yield "rebuild one data fragment", [lambda: self.driver.reconstruct(fifteen, [3])]


def seconds_of(calls):
    started = time.perf_counter()
    for number in range(CALLS):
        calls[number % len(calls)]()
    return (time.perf_counter() - started) / CALLS


def main():
    contestants = [Contestant(ec_type) for ec_type in TYPES]
    for contestant in contestants:
        for lost in lost_sets(4):
            assert contestant.driver.decode(contestant.others(lost)) == SEGMENT
    print("MiB/s of segments; in brackets how many times as fast as isa_l_rs_vand\n")
    print(f"| Work | {' | '.join(TYPES)} |\n|---|---|---|---|")
    for rows in zip(*(contestant.works() for contestant in contestants)):
        best = [float("inf")] * len(TYPES)
        for _ in range(ROUNDS):
            for i, (_, calls) in enumerate(rows):
                best[i] = min(best[i], seconds_of(calls))
        cells = [f"{1 / seconds:.0f} ({best[1] / seconds:.2f})" for seconds in best]
        print(f"| {rows[0][0]} | {' | '.join(cells)} |", flush=True)


if __name__ == "__main__":
    main()
