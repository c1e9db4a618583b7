"""What is done to pools of the plugin: other stripe units, writers while OSDs come and go, and
Ceph's own benchmark."""

import itertools
import random
import re
import time

import harness
from codes import WIDE

UNITS = (4096, 65536, 64, 192, 12288, 1 << 20)
STORM_SECONDS = 60


# ---- stripe units


def lengths_of(unit):
    """Around what a unit and a stripe hold."""
    stripe = 12 * unit
    return 0, 1, 63, 64, 65, unit - 1, unit, stripe, stripe + 1, 5 * stripe + 7, 3_000_000


class Object:
    """An object with what it has to be: each write goes to both."""

    def __init__(self, io, name, dice):
        self.io, self.name, self.dice, self.data = io, name, dice, bytearray()

    def write(self, at, data):
        self.io.write(self.name, data, at)
        self.data.extend(bytes(max(0, at + len(data) - len(self.data))))
        self.data[at : at + len(data)] = data

    def write_full(self, data):
        self.io.write_full(self.name, data)
        self.data = bytearray(data)

    def append(self, data):
        self.write(len(self.data), data)

    def truncate(self, length):
        self.io.trunc(self.name, length)
        self.data = self.data[:length].ljust(length, b"\0")

    def is_equal(self):
        """The whole object, and a range of it."""
        whole = self.io.read(self.name, len(self.data) + 1)
        at = self.dice.randrange(len(self.data) + 1)
        part = self.io.read(self.name, 100_000, at)
        return whole == self.data and part == self.data[at : at + 100_000]


def make_objects(io, unit, dice):
    """An object of each length; four of them are appended to, written over, cut and stretched."""
    objects = [Object(io, f"o{number}", dice) for number in range(len(lengths_of(unit)))]
    for each, length in zip(objects, lengths_of(unit)):
        each.write_full(dice.randbytes(length))
    objects[3].append(dice.randbytes(unit + 1))
    objects[8].write(unit // 2, dice.randbytes(unit))
    objects[9].truncate(unit + 1)
    objects[2].write(3 * unit, dice.randbytes(10))
    return objects


def find_losses(cluster, pools):
    """Four OSDs that are recoverable in each pool, and have as many places there as can be."""
    groups = [cluster.places(pool)[0] for pool in pools]

    def lost_of(osds):
        return [[at for at, osd in enumerate(group) if osd in osds] for group in groups]

    def worth(osds):
        sets = lost_of(osds)
        return sum(map(len, sets)) if all(map(WIDE.is_recoverable, sets)) else -1

    return list(max(itertools.combinations(sorted(cluster.up()), 4), key=worth))


def check_units(cluster):
    """Objects in pools of other stripe units, with all OSDs, without four, and afterwards."""
    pools = {f"unit_{unit}": unit for unit in UNITS}
    for pool, unit in pools.items():
        profile = [*WIDE.profile, f"stripe_unit={unit}"]
        cluster.make_pool(pool, profile, 1, allow_ec_overwrites="true", min_size=12)
    cluster.wait_clean()
    dice = random.Random(1)
    opened = {pool: cluster.rados.open_ioctx(pool) for pool in pools}
    objects = {pool: make_objects(io, pools[pool], dice) for pool, io in opened.items()}

    def check(pool, what):
        equal = all(each.is_equal() for each in objects[pool])
        cluster.check(f"stripe_unit {pools[pool]}: {what}", equal)

    with cluster.without(find_losses(cluster, pools)):
        for pool, unit in pools.items():
            check(pool, "objects read back without four OSDs, by ranges too")
            objects[pool][5].append(dice.randbytes(12 * unit))
            objects[pool][10].write(unit + 3, dice.randbytes(unit))
    for pool in pools:
        check(pool, "what was written meanwhile, too")
        opened[pool].close()
        cluster.remove_pools(pool)


# ---- a storm


class Writer(harness.Caller):
    """Writes, removes and reads objects of its own."""

    def __init__(self, cluster, pool, number):
        super().__init__()
        self.io = cluster.rados.open_ioctx(pool)
        self.number, self.dice, self.objects = number, random.Random(number), {}

    def step(self):
        name = f"w{self.number}_{self.dice.randrange(30)}"
        there, what = self.objects.get(name), self.dice.randrange(8)
        if there is None or what < 3:
            data = self.dice.randbytes(self.dice.choice([0, 1, 5000, 49152, 300_000]))
            self.io.write_full(name, data)
            self.objects[name] = data
        elif what == 3:
            self.io.remove_object(name)
            del self.objects[name]
        else:
            self.compare(name)

    def compare(self, name):
        if self.io.read(name, 1 << 20) != self.objects[name]:
            self.wrong.append(f"{name} is not as it was written")

    def compare_all(self):
        for name in self.objects:
            self.compare(name)


def disturb(cluster, dice):
    """Ends one or two OSDs for some seconds, or marks one out, or weighs it less."""
    osds = dice.sample(sorted(cluster.up()), 2)
    what = dice.randrange(4)
    if what < 2:
        cluster.restart(osds[what:])
    elif what == 2:
        cluster.command("osd out", ids=[str(osds[0])])
        time.sleep(3)
        cluster.command("osd in", ids=[str(osds[0])])
    else:
        cluster.command("osd reweight", id=osds[0], weight=0.5)
        time.sleep(3)
        cluster.command("osd reweight", id=osds[0], weight=1.0)


def check_storm(cluster):
    """Three writers while OSDs are killed, one or two at a time, taken out and weighed less."""
    cluster.make_pool("storm", WIDE.profile, 8)
    cluster.wait_clean()
    writers = [Writer(cluster, "storm", number) for number in range(3)]
    dice = random.Random()
    events = harness.storm(writers, STORM_SECONDS, lambda: disturb(cluster, dice))
    calls = sum(writer.calls for writer in writers)
    clean = cluster.wait_clean()
    for writer in writers:
        writer.compare_all()
    wrong = [text for writer in writers for text in writer.wrong]
    what = f"{calls} calls of three writers while OSDs came and went {events.total()} times"
    cluster.check(f"{what}: no error, no wrong byte", clean and not wrong, "; ".join(wrong[:3]))
    cluster.scrub("storm")
    cluster.remove_pools("storm")


# ---- the benchmark

BENCHMARK = "ceph_erasure_code_benchmark"


def check_benchmark(cluster):
    """Ceph's own benchmark of codes, which Debian 12 does not have."""
    if not harness.has_program(BENCHMARK, "ceph-test", cluster.note):
        return
    for work in ["-w", "encode"], ["-w", "decode", "-e", "1"], ["-w", "decode", "-e", "2"]:
        ours, isa = (benchmark_seconds(cluster, plugin, work) for plugin in ("azure_lrc", "isa"))
        cluster.check(
            f"{BENCHMARK} {' '.join(work)} at 1 MiB", ours > 0, f"{isa / ours:.2f} times isa"
        )


def benchmark_seconds(cluster, plugin, work):
    words = ["-p", plugin, "-P", "k=12", "-P", "m=4", "-S", str(1 << 20), "-i", "300", *work]
    printed = cluster.run("env", f"CEPH_CONF={cluster.settings}", BENCHMARK, *words)
    found = re.search(r"^([0-9.]+)\t\d+$", printed, re.M)
    return float(found[1]) if found else 0.0


PARTS = {"units": (check_units,), "storm": (check_storm,), "benchmark": (check_benchmark,)}
