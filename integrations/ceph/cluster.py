"""A Ceph cluster on this machine's loopback address, in a temporary folder: a monitor, a manager
and OSDs, and what the tests ask of them. It wants Debian's interpreter, as python3-rados does."""

import collections
import contextlib
import glob
import json
import os
import random
import re
import shutil
import subprocess
import time
import uuid
from dataclasses import dataclass, field
from pathlib import Path

import harness
import rados
from codes import OSD_EACH, STRIPE_UNIT, WIDE

SECONDS = 900  # of patience on a loaded machine
NONE = 0x7FFFFFFF  # in a set of OSDs: no OSD is at this place

SETTINGS = """[global]
fsid = {fsid}
mon host = [v2:127.0.0.1:{port}]
mon initial members = a
public addr = 127.0.0.1
cluster addr = 127.0.0.1
ms bind port min = {first_port}
ms bind port max = {last_port}
auth cluster required = none
auth service required = none
auth client required = none
run dir = {folder}
admin socket = {folder}/$name.asok
log file = {folder}/$name.log
mon cluster log file = {folder}/cluster.log
pid file =
crash dir = {folder}/crash
erasure code dir = {plugins}
osd class dir = /usr/lib/x86_64-linux-gnu/rados-classes
osd erasure code plugins = isa lrc azure_lrc
osd pool default erasure code profile = plugin=azure_lrc k=12 m=4
osd pool default pg autoscale mode = off
osd crush chooseleaf type = 0
mon allow pool delete = true
mon max pg per osd = 1000
mon data = {folder}/mon.$id
mon data avail crit = 1
mgr data = {folder}/mgr.$id
osd data = {folder}/osd.$id
osd objectstore = bluestore
osd memory target = 939524096
osd memory cache min = 16777216
bluestore cache autotune = false
bluestore cache size = 16777216
bluestore block size = 2147483648
osd op queue = wpq
osd op num shards = 1
osd op num threads per shard = 2
ms async op threads = 1
osd fast shutdown = true
osd heartbeat interval = 5
osd heartbeat min size = 0
osd heartbeat grace = 300
mon mgr beacon grace = 300
mgr stats period = 1
osd scrub load threshold = 0
osd max backfills = 4
osd recovery max active = 4
osd recovery sleep hdd = 0
osd recovery sleep ssd = 0
bdev aio max queue depth = 128
rados osd op timeout = {seconds}
rados mon op timeout = {seconds}
"""

RULE = """rule {name} {{
    id {number}
    type erasure
    min_size 3
    max_size 16
    step set_chooseleaf_tries 5
    step set_choose_tries 100
    step take {root}
    step {first}
    step {second}
    step emit
}}
"""

# In an OSD's log: a read of the shard of a placement group, with its number and what is read.
READ = re.compile(
    r"-- \S+ --> .*MOSDECSubOpRead\((\d+)\.([0-9a-f]+)s(\d+) \S+ "
    r"ECSubRead\(tid=(\d+), to_read=\{(.*?)\}, "
)
EXTENT = re.compile(r"::(o\d+):head=\d+,(\d+),\d+")


def text_of(prefix, words):
    """A command of Ceph, as it is sent."""
    return json.dumps({"prefix": prefix, "format": "json", **words})


def length_of(number):
    stripe = 12 * STRIPE_UNIT
    return [1 << 20, stripe, 1, 300001, stripe + 1, 786432, 5 << 18, 4096][number % 8]


def content(pool, number, length=None):
    return random.Random(f"{pool} {number}").randbytes(length or length_of(number))


def stored_bytes(extents):
    """The bytes that are read of a chunk. What is asked for reaches past the end of a small one."""
    return sum(
        min(int(asked), WIDE.chunk_bytes(length_of(int(name[1:]))))
        for name, asked in EXTENT.findall(extents)
    )


@dataclass
class Read:
    """What a primary reads to rebuild a chunk: of which placement group, and at which places."""

    group: int
    places: list = field(default_factory=list)
    length: int = 0


class Cluster:
    """It runs inside a `with` block, in a folder that it makes. Each OSD is a host, in one of two
    racks."""

    osds = 18

    def __init__(self, folder, plugins, report):
        self.folder, self.plugins = folder, plugins
        self.check, self.note = report.check, report.note
        self.daemons, self.uuids, self.rados = {}, [], None
        self.settings, self.fsid = f"{folder}/ceph.conf", uuid.uuid4()
        (self.port,) = harness.free_ports(1)

    def __enter__(self):
        os.mkdir(self.folder)
        try:
            self.start()
        except BaseException:
            self.stop()
            raise
        return self

    def __exit__(self, *_):
        self.stop()

    # ---- daemons

    @staticmethod
    def location(osd):
        return f"rack=rack{osd % 2} host=host{osd}"

    def configure(self):
        text = SETTINGS.format(
            fsid=self.fsid,
            folder=self.folder,
            plugins=self.plugins,
            port=self.port,
            first_port=26800,
            last_port=32700,
            seconds=SECONDS,
        )
        for osd in range(self.osds):
            text += f"[osd.{osd}]\ncrush location = root=default {self.location(osd)}\n"
        Path(self.settings).write_text(text, "utf-8")

    def run(self, *words):
        done = subprocess.run(words, capture_output=True, text=True, check=False)
        if done.returncode:
            printed = (done.stdout + done.stderr)[-2000:]
            raise RuntimeError(f"{' '.join(words)}: status {done.returncode}\n{printed}")
        return done.stdout

    def version(self):
        """The version of the installed Ceph, as 20.2.4."""
        return self.run("ceph-osd", "--version").split()[2]

    def series(self):
        return int(self.version().split(".", maxsplit=1)[0])

    def spawn(self, name, *words):
        with open(f"{self.folder}/{name}.out", "a", encoding="utf-8") as out:
            self.daemons[name] = subprocess.Popen(
                words + ("-c", self.settings, "-f"),
                stdout=out,
                stderr=out,
                stdin=subprocess.DEVNULL,
            )

    def start(self):
        for name in ("mon.a", "mgr.x"):
            os.makedirs(f"{self.folder}/{name}")
        self.configure()
        monmap, address = f"{self.folder}/monmap", f"[v2:127.0.0.1:{self.port}]"
        words = "--create", "--fsid", str(self.fsid), "--addv", "a", address
        self.run("monmaptool", *words, monmap)
        words = "-c", self.settings, "--mkfs", "-i", "a", "--monmap", monmap
        self.run("ceph-mon", *words)
        self.spawn("mon.a", "ceph-mon", "-i", "a")
        self.rados = rados.Rados(conffile=self.settings)
        self.rados.connect(timeout=SECONDS)
        # The balancer would move places while the test counts what is read.
        active = {"who": "mgr", "name": "mgr/balancer/active", "value": "false"}
        self.command("config set", **active, force=True)
        self.spawn("mgr.x", "ceph-mgr", "-i", "x")
        for osd in range(self.osds):
            self.uuids.append(str(uuid.uuid4()))
            assert self.command("osd new", uuid=self.uuids[osd])["osdid"] == osd
            self.make_store(osd)
            self.start_osd(osd)
        self.until("all OSDs are up", lambda: len(self.up()) == self.osds)

    def start_osd(self, osd):
        self.spawn(f"osd.{osd}", "ceph-osd", "-i", str(osd))

    def make_store(self, osd):
        """Gives an OSD that is down an empty store, as when its disk is replaced."""
        shutil.rmtree(f"{self.folder}/osd.{osd}", ignore_errors=True)
        os.makedirs(f"{self.folder}/osd.{osd}")
        words = "-c", self.settings, "-i", str(osd), "--mkfs", "--osd-uuid", self.uuids[osd]
        self.run("ceph-osd", *words)

    def end(self, name):
        daemon = self.daemons.pop(name)
        daemon.kill()
        daemon.wait()

    def kill(self, osds):
        """Ends OSDs by SIGKILL, and has the monitor mark them down and dead: then no other OSD
        waits for the end of the time in which they might have answered reads. A client that does
        not know it yet would try to connect to them for some time."""
        for osd in osds:
            self.end(f"osd.{osd}")
        self.command("osd down", ids=[str(osd) for osd in osds], definitely_dead=True)
        self.until(f"OSDs {osds} are down", lambda: not self.up() & set(osds))
        self.rados.wait_for_latest_osdmap()

    def revive(self, osds):
        for osd in osds:
            self.start_osd(osd)
        self.until("all OSDs are up", lambda: set(osds) <= self.up())

    def restart(self, osds):
        """Ends OSDs, and starts them again some seconds later."""
        self.kill(osds)
        time.sleep(3)
        self.revive(osds)

    @contextlib.contextmanager
    def without(self, osds):
        """These OSDs are away inside the block. Afterwards all placement groups are clean again, if
        they come to be so."""
        self.kill(osds)
        yield
        self.wait_loss()
        self.revive(osds)
        self.wait_clean()

    def stop(self):
        if self.rados:
            self.rados.shutdown()
        for daemon in self.daemons.values():
            if daemon.poll() is None:
                daemon.kill()
        for daemon in self.daemons.values():
            daemon.wait()

    # ---- commands

    def command(self, prefix, data=b"", binary=False, **words):
        answer = self.rados.mon_command(text_of(prefix, words), data, timeout=SECONDS)
        return self.answer(prefix, answer, binary)

    def osd_command(self, osd, prefix, binary=False, **words):
        answer = self.rados.osd_command(osd, text_of(prefix, words), b"", timeout=SECONDS)
        return self.answer(f"osd.{osd} {prefix}", answer, binary)

    def manager_command(self, prefix, **words):
        return self.answer(prefix, self.rados.mgr_command(text_of(prefix, words), b""))

    def refusal(self, prefix, **words):
        """What the monitor says of a command that it refuses, or nothing."""
        try:
            self.command(prefix, **words)
        except RuntimeError as error:
            return str(error)
        return ""

    @staticmethod
    def answer(prefix, answer, binary=False):
        code, out, error = answer
        if code:
            raise RuntimeError(f"{prefix}: {code} {error}")
        return out if binary else json.loads(out) if out.strip() else None

    def until(self, what, holds, seconds=SECONDS):
        """Asks again and again; whether it came to hold."""
        end = time.monotonic() + seconds
        while time.monotonic() < end:
            try:
                if holds():
                    return True
            except (RuntimeError, rados.Error):
                pass
            time.sleep(0.25)
        self.note(f"not within {seconds} s: {what}")
        return False

    def up(self):
        return {osd["osd"] for osd in self.command("osd dump")["osds"] if osd["up"]}

    def groups(self):
        """The manager's statistics of all placement groups, by their names."""
        found = self.manager_command("pg dump", dumpcontents=["pgs"])
        return {
            group["pgid"]: group
            for group in (found["pg_stats"] if isinstance(found, dict) else found)
        }

    def state(self, pool, group=0):
        return self.groups()[f"{self.rados.pool_lookup(pool)}.{group:x}"]["state"]

    def is_serving(self, pool):
        """Whether the pool's placement group serves although some of its OSDs are lost."""
        return {"active", "undersized"} <= set(self.state(pool).split("+"))

    def is_inactive(self, pool):
        """Whether the pool's placement group has come to rest, and serves nothing."""
        return bool({"down", "incomplete", "peered"} & set(self.state(pool).split("+")))

    def check_inactive(self, pool, when):
        """Checks that the pool's placement group comes to rest, and serves nothing."""
        inactive = self.until("inactive", lambda: self.is_inactive(pool))
        self.check(f"{when} it is inactive", inactive, self.state(pool))

    def warns(self, *checks):
        """Whether Ceph's health comes to have these checks."""
        return self.until(
            f"health warns of {', '.join(checks)}",
            lambda: set(checks) <= set(self.command("health")["checks"]),
        )

    def is_clean(self):
        """By the manager's statistics, which come late: ask after a loss was seen in them."""
        states = [group["state"] for group in self.groups().values()]
        wanted = sum(pool["pg_num"] for pool in self.command("osd dump")["pools"])
        return len(states) == wanted and set(states) == {"active+clean"}

    def wait_clean(self):
        return self.until("all placement groups are active and clean", self.is_clean)

    def wait_loss(self):
        """Until the statistics of each placement group are younger than the loss of its OSDs."""
        return self.until(
            "the statistics name no OSD that is down", lambda: self.named() <= self.up()
        )

    def named(self):
        """The OSDs at the places of all placement groups, by the manager's statistics."""
        return {osd for group in self.groups().values() for osd in group["acting"]} - {NONE}

    # ---- pools and objects

    def make_pool(self, name, profile, groups, rule=None, app="rados", **settings):
        """A pool of its own profile. Its failure domain is an OSD, unless one is named."""
        if not any("failure-domain" in word for word in profile):
            profile = [*profile, OSD_EACH]
        self.command("osd erasure-code-profile set", name=name, profile=profile, force=True)
        words = {"rule": rule} if rule else {}
        self.create_pool(name, groups, erasure_code_profile=name, **words)
        self.command("osd pool application enable", pool=name, app=app)
        self.set_pool(name, **settings)

    def create_pool(self, name, groups, kind="erasure", **words):
        numbers = {"pool": name, "pg_num": groups, "pgp_num": groups, "pool_type": kind}
        self.command("osd pool create", **numbers, **words)

    def set_pool(self, name, **settings):
        for variable, value in settings.items():
            self.command("osd pool set", pool=name, var=variable, val=str(value))

    def make_filled_pool(self, name, profile, groups, count, length=None, **settings):
        """A pool with so many objects."""
        self.make_pool(name, profile, groups, **settings)
        self.wait_clean()
        self.fill(name, count, length)

    def remove_pools(self, *names):
        for name in names:
            self.command("osd pool rm", pool=name, pool2=name, yes_i_really_really_mean_it=True)

    def places(self, pool):
        """The OSD at each place of the pool's placement groups."""
        number = self.rados.pool_lookup(pool)
        count = next(
            item["pg_num"] for item in self.command("osd dump")["pools"] if item["pool"] == number
        )
        return [
            self.command("pg map", pgid=f"{number}.{group:x}")["acting"] for group in range(count)
        ]

    def osds_at(self, pool, places, group=0):
        """The OSDs at these places of a placement group."""
        there = self.places(pool)[group]
        return [there[place] for place in places]

    def group_of(self, pool, name):
        return int(self.command("osd map", pool=pool, object=name)["pgid"].split(".")[1], 16)

    def fill(self, pool, count, length=None):
        with self.rados.open_ioctx(pool) as io:
            for number in range(count):
                io.write_full(f"o{number}", content(pool, number, length))

    def equal_objects(self, pool, count, length=None):
        """How many objects are read back as they were written."""
        with self.rados.open_ioctx(pool) as io:
            return self.equal_in(io, pool, count, length)

    def check_objects(self, when, pool, count, length=None, is_clean=True):
        """Checks that so many objects are read back as they were written, and `is_clean`."""
        began = time.monotonic()
        equal = self.equal_objects(pool, count, length)
        good, took = is_clean and equal == count, f"{time.monotonic() - began:.1f} s"
        self.check(f"{when} {equal} of {count} objects read back", good, took)

    @staticmethod
    def begin_write(io, pool, number):
        """Begins to write an object. The result says whether it is written."""
        statuses, body = [], content(pool, number)
        io.aio_write_full(f"o{number}", body, lambda it: statuses.append(it.get_return_value()))
        return lambda: statuses == [0]

    @staticmethod
    def begin_read(io, pool, number):
        """Begins to read an object. The result says whether it was read as it was written."""
        answers, wanted = [], content(pool, number)
        io.aio_read(f"o{number}", len(wanted) + 1, 0, lambda _, data: answers.append(data))
        return lambda: answers == [wanted]

    def equal_in(self, io, pool, count, length=None):
        """The same by a pool that is open, for objects that were written to this one."""
        equal = 0
        for number in range(count):
            wanted = content(pool, number, length)
            try:
                equal += io.read(f"o{number}", len(wanted) + 1) == wanted
            except rados.Error as error:
                self.note(f"o{number}: {error}")
                return equal
        return equal

    def add_rule(self, name, number, root, first, second):
        """Adds a rule of two steps to the CRUSH map, as an administrator does by crushtool."""
        path = f"{self.folder}/crush"
        Path(path).write_bytes(self.command("osd getcrushmap", binary=True))
        self.run("crushtool", "-d", path, "-o", f"{path}.txt")
        with open(f"{path}.txt", "a", encoding="utf-8") as file:
            file.write(RULE.format(name=name, number=number, root=root, first=first, second=second))
        self.run("crushtool", "-c", f"{path}.txt", "-o", f"{path}.new")
        self.command("osd setcrushmap", Path(f"{path}.new").read_bytes())

    # ---- scrubs

    def deep_scrub(self, pool):
        """Scrubs each placement group of the pool deeply; whether it came to its end."""
        number = self.rados.pool_lookup(pool)

        def stamps():
            return {
                name: group["last_deep_scrub_stamp"]
                for name, group in self.groups().items()
                if name.startswith(f"{number}.")
            }

        before = stamps()
        for name in before:
            self.manager_command("pg deep-scrub", pgid=name)
        return self.until(
            "a deep scrub", lambda: all(before[name] != now for name, now in stamps().items())
        )

    def scrub(self, pool):
        done = self.deep_scrub(pool)
        states = [group["state"] for group in self.groups().values()]
        self.check(
            f"{pool}: a deep scrub finds nothing",
            done and not any("inconsistent" in state for state in states),
        )

    # ---- what recovery reads

    def log_reads(self, osds, on):
        for osd in osds:
            self.osd_command(osd, "config set", var="debug_ms", val=["1" if on else "0"])

    def log_sizes(self):
        return {path: os.path.getsize(path) for path in glob.glob(f"{self.folder}/osd.*.log")}

    def reads_since(self, sizes):
        """The reads of each pool's recovery, by the pool's number."""
        reads = collections.defaultdict(dict)
        for path, line in self.lines_since(sizes):
            found = READ.search(line) if "MOSDECSubOpRead(" in line else None
            if found:
                pool, group, place, number, extents = found.groups()
                key = (path, group, number)
                read = reads[int(pool)].setdefault(key, Read(int(group, 16)))
                read.places.append(int(place))
                read.length += stored_bytes(extents)
        return {pool: list(by_key.values()) for pool, by_key in reads.items()}

    def lines_since(self, sizes):
        """Lines of the OSDs' logs, each with the log's path."""
        for path in glob.glob(f"{self.folder}/osd.*.log"):
            with open(path, errors="replace", encoding="utf-8") as file:
                file.seek(sizes.get(path, 0))
                for line in file:
                    yield path, line

    def bytes_moved(self, osds):
        """The bytes that the stores of these OSDs were asked to read since they started, and those
        that the OSDs sent."""
        read = sent = 0
        for osd in osds:
            counters = self.osd_command(osd, "perf dump")
            # Ceph 16.2 has these counters with the prefix `bluestore_`, and 18.2 without it
            read += sum(
                count
                for name, count in counters["bluestore"].items()
                if re.fullmatch(r"(bluestore_)?buffer_(hit|miss)_bytes", name)
            )
            sent += sum(
                counters[name]["msgr_send_bytes"]
                for name in counters
                if name.startswith("AsyncMessenger::Worker")
            )
        return read, sent
