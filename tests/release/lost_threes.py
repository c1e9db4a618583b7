"""PyECLib decodes what it encoded without each set of three fragments, by the installed backend."""

import itertools
import os

from pyeclib.ec_iface import ECDriver

DRIVER = ECDriver(k=12, m=4, ec_type="libphazr")
DATA = os.urandom(100_000)
FRAGMENTS = DRIVER.encode(DATA)
assert len(FRAGMENTS) == 16
for lost in itertools.combinations(range(16), 3):
    remaining = [it for at, it in enumerate(FRAGMENTS) if at not in lost]
    assert DRIVER.decode(remaining) == DATA, lost
