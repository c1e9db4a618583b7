#!/usr/bin/python3
"""LRC(12,2,2) in Ceph: a monitor, a manager and 18 OSDs on this machine's loopback address.

Pools in azure_lrc and in Ceph's own codes lose OSDs, objects are read back, and what recovery reads
is counted. Stores are damaged, and clients of Ceph use the pools.

    integrations/ceph/cluster_test.py [--only PART]..

PART is one of NAMES below. It installs Debian's packages where they are missing (as root), works in
a temporary folder, ends every process that it started, and prints `N passed, M failed`. It needs
the coder for C, in the folder that LRC_LIBRARIES names, or the Rattle kit's `rt`, which builds
it."""

import collections
import glob
import os
import random
import signal
import subprocess
import sys
import time

sys.dont_write_bytecode = True
HERE = os.path.dirname(os.path.abspath(__file__))
sys.path[:0] = [HERE, os.path.dirname(HERE)]
import harness  # noqa: E402
from codes import SMALL, WIDE  # noqa: E402

PACKAGES = "g++ libradospp-dev ceph-base ceph-osd ceph-mon ceph-mgr".split()
PACKAGES += ["python3-rados", "python3-rbd"]
CEPH_PLUGINS = "/usr/lib/x86_64-linux-gnu/ceph/erasure-code"
LAYERS = '[["DDDDDDDDDDDD__cc",""],["DDDDDD______c___",""],["______DDDDDD_c__",""]]'
POOLS = {
    "azure_lrc": WIDE.profile,
    "isa": ["plugin=isa", "k=12", "m=4"],
    "lrc_kml": ["plugin=lrc", "k=12", "m=2", "l=7"],
    "lrc_layers": ["plugin=lrc", "mapping=DDDDDDDDDDDD____", f"layers={LAYERS}"],
}
CLAY = ["plugin=clay", "k=12", "m=4", "d=15"]
HEAD = (1 << 64) - 2  # the number of the snapshot that is none
GLOBAL_PARITIES = (14, 15)  # their places
LOST_OSD = 5
WAITING = 2  # seconds for which a call that has to wait is watched


def build(folder):
    """A folder with the plugin and links to Ceph's own: `erasure code dir` names one. A plugin that
    is installed is neither used nor changed."""
    harness.coder_folder()
    own = set(glob.glob(f"{CEPH_PLUGINS}/libec_*.so")) - {f"{CEPH_PLUGINS}/libec_azure_lrc.so"}
    for name in ("plugins", "without"):
        os.mkdir(f"{folder}/{name}")
        for path in own:
            os.symlink(path, f"{folder}/{name}/{os.path.basename(path)}")
    subprocess.run([f"{HERE}/build.sh", f"{folder}/plugins"], check=True)
    return f"{folder}/plugins"


# ---- profiles


def check_profiles(cluster):
    """What the monitor refuses, with words that say why."""
    shapes = "k=10", "k=0", "k=16", "k=-6", "k=12.0", "k=012", "k=twelve", "m=3", "m=04"
    unknown = "l=6", "kk=12", "K=6", "w=8"
    units = "stripe_unit=100", "stripe_unit=3000", "stripe_unit=abc", "stripe_unit=-1"
    for words, refusal in (
        *((word, f"azure_lrc: no code has {shape_of(word)}; set k=12 m=4") for word in shapes),
        *((word, f"azure_lrc: there is no parameter {word.split('=')[0]};") for word in unknown),
        *((word, "stripe_unit") for word in units),
        ("plugin=AZURE_LRC", "libec_AZURE_LRC.so"),
        ("plugin=../azure_lrc", "azure_lrc.so"),
        ("crush-failure-domain=nowhere", "nowhere"),
    ):
        profile = [words] if words.startswith("plugin") else ["plugin=azure_lrc", words]
        printed = refusal_of(cluster, profile)
        cluster.check(f"the monitor refuses {words}", printed and refusal in printed, printed)


def shape_of(word):
    """The parameters of a profile that has only this word, as a refusal names them."""
    return f"{word} m=4" if word.startswith("k") else f"k=12 {word}"


def refusal_of(cluster, profile):
    """What the monitor says of a profile, or of a pool of it, or nothing if it takes both."""
    try:
        cluster.command("osd erasure-code-profile set", name="bad", profile=profile)
        cluster.create_pool("bad", 1, erasure_code_profile="bad")
    except RuntimeError as error:
        return str(error)
    return ""


def check_profile_in_use(cluster):
    """A profile that a pool has can be neither changed nor removed."""
    cluster.make_pool("of_a_pool", WIDE.profile, 1)
    for prefix, words in (
        ("osd erasure-code-profile set", {"profile": SMALL.profile}),
        ("osd erasure-code-profile rm", {}),
    ):
        printed = cluster.refusal(prefix, name="of_a_pool", **words)
        cluster.check(f"{prefix} is refused for a profile in use", "of_a_pool" in printed, printed)
    cluster.remove_pools("of_a_pool")


def check_orders(cluster, objects=8):
    """A new profile has the default order. The cluster was made with a default profile of the
    plugin, which the monitor stores as it is: it names no order, as profiles of earlier versions,
    and its pools are in groups."""
    cluster.command("osd erasure-code-profile set", name="of_now", profile=WIDE.profile)
    orders = [
        cluster.command("osd erasure-code-profile get", name=name).get("order")
        for name in ("of_now", "default")
    ]
    cluster.check("a new profile is stored with order=interleaved", orders[0] == "interleaved")
    cluster.check("the cluster's own profile names no order", orders[1] is None, str(orders[1]))
    cluster.create_pool("early", 1, erasure_code_profile="default")
    cluster.command("osd pool application enable", pool="early", app="rados")
    cluster.set_pool("early", min_size=12)
    cluster.wait_clean()
    cluster.fill("early", objects)
    osds = cluster.osds_at("early", range(4))
    cluster.kill(osds)
    cluster.check_inactive("early", "a pool of it is in groups: without places 0 to 3")
    cluster.revive(osds)
    cluster.check_objects("with them,", "early", objects, is_clean=cluster.wait_clean())
    cluster.remove_pools("early")


# ---- lost sets, in a pool of one placement group


def check_lost_sets(cluster, objects=24):
    cluster.make_pool("one", WIDE.profile, 1)
    least = cluster.command("osd pool get", pool="one", var="min_size")["min_size"]
    cluster.check("a pool begins with min_size 13", least == 13, str(least))
    cluster.set_pool("one", min_size=12)
    cluster.check("a pool of azure_lrc is active and clean", cluster.wait_clean())
    cluster.fill("one", objects)
    cluster.check_objects("with all OSDs,", "one", objects)
    check_sets(cluster, "one", WIDE, objects)


def check_small_sets(cluster, objects=12):
    """The same with k=6."""
    cluster.make_filled_pool("one_small", SMALL.profile, 1, objects, min_size=6)
    check_sets(cluster, "one_small", SMALL, objects)
    cluster.remove_pools("one_small")


def check_sets(cluster, pool, code, objects):
    """Recoverable sets of places and others: those of the code, and some that are drawn."""
    for lost in [*code.recoverable, *code.drawn_sets(3)]:
        with cluster.without(cluster.osds_at(pool, lost)):
            cluster.check_objects(f"k={code.k} without places {lost}:", pool, objects)
        if not cluster.check("clean again", cluster.wait_clean()):
            return
    for lost in [*code.unrecoverable, *code.drawn_sets(1, False)]:
        check_unrecoverable(cluster, pool, code, lost, objects)


def check_unrecoverable(cluster, pool, code, lost, objects):
    """Chunks that no code of this shape can restore, such as four of a group's data. A read and a
    write that are begun meanwhile end once enough of the OSDs are back."""
    osds = cluster.osds_at(pool, lost)
    cluster.kill(osds)
    cluster.check_inactive(pool, f"without places {lost}, which are unrecoverable,")
    cluster.check("health has PG_AVAILABILITY", cluster.warns("PG_AVAILABILITY"))
    enough = next(n for n in range(len(lost)) if code.is_recoverable(lost[n:]))
    with cluster.rados.open_ioctx(pool) as io:
        calls = cluster.begin_read(io, pool, 0), cluster.begin_write(io, pool, objects)
        time.sleep(WAITING)
        early = [is_right() for is_right in calls]
        cluster.revive(osds[:enough])
        late = [cluster.until("a call", is_right) for is_right in calls]
    cluster.check(
        f"a read and a write wait until {enough} of the OSDs are back",
        not any(early) and all(late),
        f"{early}, then {late}",
    )
    cluster.revive(osds[enough:])
    what = "with all OSDs and the object that was written,"
    cluster.check_objects(what, pool, objects + 1, is_clean=cluster.wait_clean())


def check_min_size(cluster, objects=24):
    """With Ceph's own min_size three lost chunks are served, with 12 four as well."""
    osds = cluster.osds_at("one", (2, 4, 3, 5, 6))
    cluster.set_pool("one", min_size=13)
    cluster.kill(osds[:3])
    cluster.check_objects("with min_size 13 and three chunks lost,", "one", objects)
    cluster.kill(osds[3:4])
    cluster.check_inactive("one", "with a fourth lost")
    cluster.set_pool("one", min_size=12)
    cluster.check_objects("with min_size 12,", "one", objects)
    cluster.kill(osds[4:])
    cluster.check_inactive("one", "with a fifth lost")
    cluster.revive(osds)
    cluster.check_objects("with the five OSDs,", "one", objects, is_clean=cluster.wait_clean())


def check_min_sizes(cluster):
    """The values that the monitor accepts for a pool of sixteen chunks, twelve of them data."""
    words = {"pool": "one", "var": "min_size"}
    accepted = [
        value
        for value in (0, 1, 11, *range(12, 18), 100)
        if not cluster.refusal("osd pool set", val=str(value), **words)
    ]
    cluster.check("min_size can be 12 to 16", accepted == [12, 13, 14, 15, 16], str(accepted))
    cluster.set_pool("one", min_size=12)


def check_beside_lrc(cluster):
    """Sets that LRC(12,2,2) recovers and Ceph's lrc in layers of the same shape does not."""
    cluster.make_pool("layers", POOLS["lrc_layers"], 1, min_size=12)
    cluster.wait_clean()
    for name, ours, theirs in (
        ("a data chunk and the local parity of its group", [0, 12], [0, 12]),
        ("three data chunks of a group", [0, 2, 4], [0, 1, 2]),
    ):
        for pool, lost in (("one", ours), ("layers", theirs)):
            osds = cluster.osds_at(pool, lost)
            cluster.kill(osds)
            wanted = cluster.is_serving if pool == "one" else cluster.is_inactive
            seen = cluster.until(f"the state of {pool}", lambda: wanted(pool))
            what = "azure_lrc serves" if pool == "one" else "Ceph's lrc of the same shape is down"
            cluster.check(f"without {name}, {what}", seen, cluster.state(pool))
            cluster.revive(osds)
            cluster.wait_clean()
    cluster.remove_pools("one", "layers")


# ---- what recovery reads


def check_recovery(cluster, count=96):
    """Replaces an OSD's disk by an empty one, and counts each pool's reads by the OSDs' logs."""
    for name, profile in POOLS.items():
        cluster.make_pool(name, profile, 64)
    cluster.check("pools of " + ", ".join(POOLS), cluster.wait_clean())
    for name in POOLS:
        cluster.fill(name, count)
    before = {name: cluster.places(name) for name in POOLS}
    cluster.log_reads(cluster.up(), True)
    sizes = cluster.log_sizes()
    replace_store(cluster)
    cluster.log_reads(cluster.up(), False)
    cluster.check("no place moved", {name: cluster.places(name) for name in POOLS} == before)
    reads = {name: cluster.reads_since(sizes)[cluster.rados.pool_lookup(name)] for name in POOLS}
    ratios = {name: ratio_of(cluster, name, reads[name], before[name]) for name in POOLS}
    check_places(cluster, reads, before["azure_lrc"])
    cluster.check(
        "azure_lrc reads at most 0.6 of what isa reads for each byte rebuilt",
        ratios["azure_lrc"] <= 0.6 * ratios["isa"],
        f"{ratios['azure_lrc'] / ratios['isa']:.3f}",
    )
    for name in POOLS:
        cluster.check_objects(f"{name}, after recovery:", name, count)


def replace_store(cluster):
    began = time.monotonic()
    cluster.kill([LOST_OSD])
    cluster.wait_loss()
    cluster.make_store(LOST_OSD)
    cluster.revive([LOST_OSD])
    cluster.check(
        f"osd.{LOST_OSD} is filled again", cluster.wait_clean(), f"{time.monotonic() - began:.0f} s"
    )


def ratio_of(cluster, name, reads, places):
    """Bytes read for each byte rebuilt. No place has moved, so each read rebuilds one chunk."""
    sizes = collections.Counter(len(read.places) for read in reads)
    ratio = sum(read.length for read in reads) / sum(
        read.length // len(read.places) for read in reads
    )
    lost = sum(group.count(LOST_OSD) for group in places)
    cluster.note(
        f"{name}: {lost} placement groups had the OSD; {len(reads)} reads, by number of chunks "
        f"{dict(sorted(sizes.items()))}; {ratio:.2f} bytes read for each byte rebuilt"
    )
    return ratio


def is_exact(read, places):
    """The six others of the lost one's group, or twelve if that is a global parity."""
    lost = places[read.group].index(LOST_OSD)
    if lost in GLOBAL_PARITIES:
        return len(read.places) == 12
    return any(set(read.places) == group - {lost} for group in WIDE.groups)


def check_places(cluster, reads, places):
    ours, isa = reads["azure_lrc"], reads["isa"]
    cluster.check(
        f"{len(ours)} reads of azure_lrc: six chunks of a group, or twelve for a global parity",
        ours and all(is_exact(read, places) for read in ours),
    )
    cluster.check(
        f"{len(isa)} reads of isa: twelve chunks", {len(read.places) for read in isa} == {12}
    )


def check_out(cluster, count=96):
    """The OSD is lost for good and marked out: its chunks are rebuilt on others."""
    cluster.kill([LOST_OSD])
    cluster.wait_loss()
    cluster.command("osd unset", key="noout")
    cluster.command("osd out", ids=[str(LOST_OSD)])
    cluster.check(f"recovered from the loss of osd.{LOST_OSD}", cluster.wait_clean())
    for name in POOLS:
        cluster.check_objects(f"{name}:", name, count)
        cluster.remove_pools(name)
    cluster.revive([LOST_OSD])
    cluster.command("osd in", ids=[str(LOST_OSD)])
    cluster.command("osd set", key="noout")


def counted_ratio(cluster, name, profile, count=48, length=4 << 20, is_checked=True):
    """Bytes read for each byte rebuilt, by the counters of the OSDs' stores, and the share of
    chunks at the places of global parities. There is no pool beside this one."""
    pool = f"large_{name}"
    cluster.make_filled_pool(pool, profile, 32, count, length)
    places = cluster.places(pool)
    groups = [places[cluster.group_of(pool, f"o{number}")] for number in range(count)]
    rebuilt = [group.index(LOST_OSD) for group in groups if LOST_OSD in group]
    others = cluster.up() - {LOST_OSD}
    before = cluster.bytes_moved(others)
    replace_store(cluster)
    whole = len(rebuilt) * WIDE.chunk_bytes(length)
    read, sent = ((now - then) / whole for now, then in zip(cluster.bytes_moved(others), before))
    wide = sum(place in GLOBAL_PARITIES for place in rebuilt)
    cluster.note(
        f"{name}: {len(rebuilt)} chunks rebuilt, {wide} of them at places 14 and 15; for each byte "
        f"rebuilt, the stores read {read:.2f} bytes, and the OSDs sent {sent:.2f}"
    )
    equal = cluster.equal_objects(pool, count, length)
    text = f"{name}: {equal} of {count} objects of 4 MiB read back"
    cluster.check(text, equal == count) if is_checked else cluster.note(text)
    cluster.remove_pools(pool)
    return read, wide / len(rebuilt)


def check_counters(cluster):
    """A global parity is rebuilt from twelve chunks, and how many there are is chance. What Ceph
    20.2.4 does to objects in its own clay is not for this test to judge."""
    is_sound = cluster.series() != 20
    ours, wide = counted_ratio(cluster, "azure_lrc", POOLS["azure_lrc"])
    counted_ratio(cluster, "lrc_kml", POOLS["lrc_kml"])
    counted_ratio(cluster, "clay", CLAY, is_checked=is_sound)
    ratio = ours / counted_ratio(cluster, "isa", POOLS["isa"])[0]
    cluster.check(
        "by the counters, half of what isa reads, and all of it for global parities",
        ratio <= 0.55 + 0.5 * wide,
        f"{ratio:.3f}",
    )


# ---- what operators do to a pool


def check_snapshots(cluster, objects=8):
    """Snapshots of a pool whose objects are written over while four places are lost."""
    cluster.make_filled_pool("kept", WIDE.profile, 1, objects, min_size=12)
    with cluster.rados.open_ioctx("kept") as io:
        io.create_snap("first")
        number = io.lookup_snap("first").snap_id
        with cluster.without(cluster.osds_at("kept", (0, 2, 1, 3))):
            for at in range(objects):
                io.write_full(f"o{at}", b"later" * (at + 1))
        now = all(io.read(f"o{at}") == b"later" * (at + 1) for at in range(objects))
        io.set_read(number)
        then = cluster.equal_in(io, "kept", objects) == objects
        io.set_read(HEAD)
        io.snap_rollback("o3", "first")
        back = cluster.equal_in(io, "kept", objects)
        io.remove_snap("first")
    cluster.check("written over without four OSDs, objects are as they were written", now)
    cluster.check("a snapshot has them as they were before", then)
    cluster.check("one is rolled back to it", back == 1, f"{back} are as before")
    cluster.remove_pools("kept")


def check_stopped(cluster, objects=24):
    """Two OSDs that do not answer, and are not yet known to be down, in a pool with fast_read. It
    is a new pool: in one that still trims snapshots, a read waits for the end of that."""
    cluster.make_filled_pool("fast", WIDE.profile, 1, objects, fast_read=1)
    stopped = [cluster.daemons[f"osd.{osd}"] for osd in cluster.osds_at("fast", (9, 13))]
    for daemon in stopped:
        daemon.send_signal(signal.SIGSTOP)
    try:
        cluster.check_objects("with fast_read while two OSDs are stopped,", "fast", objects)
    finally:
        for daemon in stopped:
            daemon.send_signal(signal.SIGCONT)
    cluster.remove_pools("fast")


def check_migration(cluster, objects=24):
    """A pool in isa is copied to one in azure_lrc by Ceph's own tool."""
    cluster.make_pool("new", WIDE.profile, 8)
    cluster.make_filled_pool("old", POOLS["isa"], 8, objects)
    cluster.run("rados", "-c", cluster.settings, "cppool", "old", "new")
    with cluster.rados.open_ioctx("new") as io:
        equal = cluster.equal_in(io, "old", objects)
    cluster.check(f"rados cppool copies {equal} of {objects} objects from isa", equal == objects)
    cluster.remove_pools("old", "new")


# ---- other pools


def check_racks(cluster):
    steps = "choose indep 2 type rack", "chooseleaf indep 8 type host"
    cluster.add_rule("racks", 99, "default", *steps)
    cluster.make_pool("in_racks", [*WIDE.profile, "order=groups"], 16, "racks")
    clean = cluster.wait_clean()
    halves = [
        ({osd % 2 for osd in group[:8]}, {osd % 2 for osd in group[8:]})
        for group in cluster.places("in_racks")
    ]
    cluster.check(
        "by a rule of two racks and order=groups, each group is in a rack of its own",
        clean
        and all(
            len(first) == 1 and len(second) == 1 and first != second for first, second in halves
        ),
    )
    cluster.fill("in_racks", 16)
    cluster.check_objects("in it,", "in_racks", 16)


def check_small(cluster):
    cluster.make_filled_pool("small", SMALL.profile, 8, 16)
    what = "in a pool of k=6 m=4,"
    cluster.check_objects(what, "small", 16, is_clean=cluster.wait_clean())


def check_overwrites(cluster, pool, profile, lost, **settings):
    """An object is written over at random, half of the time without two places. A deep scrub
    follows."""
    cluster.make_pool(pool, profile, 8, allow_ec_overwrites="true", **settings)
    cluster.wait_clean()
    dice = random.Random(1)
    image = bytearray(dice.randbytes(1 << 20))
    lost = cluster.osds_at(pool, lost, cluster.group_of(pool, "o"))
    with cluster.rados.open_ioctx(pool) as io:
        io.write_full("o", bytes(image))
        for number in range(40):
            if number == 20:
                cluster.kill(lost)
            at, piece = dice.randrange(1 << 20), dice.randbytes(dice.choice([1, 100, 4096, 60000]))
            piece = piece[: len(image) - at]
            image[at : at + len(piece)] = piece
            io.write("o", piece, at)
        cluster.check(
            f"{pool}: written over forty times, twenty of them without two OSDs",
            io.read("o", 1 << 21) == bytes(image),
        )
        cluster.wait_loss()
        cluster.revive(lost)
        cluster.check(
            f"{pool}: read back once all are there",
            cluster.wait_clean() and io.read("o", 1 << 21) == bytes(image),
        )
    cluster.scrub(pool)


def check_optimized(cluster):
    """A pool of Ceph 20 whose small writes change the parities by deltas. Without the places of a
    data chunk and of its local parity, and then without a global parity and the first place."""
    cluster.make_pool("in_groups", [*SMALL.profile, "order=groups"], 1)
    words = {"pool": "in_groups", "var": "allow_ec_optimizations", "val": "true"}
    refused = cluster.refusal("osd pool set", **words)
    cluster.remove_pools("in_groups")
    good = "not currently supported" in refused
    cluster.check("allow_ec_optimizations is refused with order=groups", good, refused)
    for pool, code, lost, order in (
        ("deltas", WIDE, (2, 12), "interleaved"),
        ("small_deltas", SMALL, (0, 8), "interleaved"),
        ("last_deltas", WIDE, (1, 12), "parities-last"),
    ):
        optimized = {"allow_ec_optimizations": "true", "min_size": code.k}
        profile = [*code.profile, f"order={order}"]
        check_overwrites(cluster, pool, profile, lost, **optimized)


def check_missing_plugin(cluster, folder):
    """An OSD that has no file of the plugin ends. At the start it may end before it has written to
    its log which file is missing."""
    check_tool(cluster, folder)
    for named, words, is_sure in (
        ("isa lrc azure_lrc", "libec_azure_lrc.so: cannot open shared object file", False),
        ("isa lrc", "FAILED ceph_assert(ec_impl)", True),
    ):
        osd = min(cluster.up())
        cluster.kill([osd])
        sizes, name = cluster.log_sizes(), f"osd.{osd}"
        without = f"--erasure_code_dir={folder}/without", f"--osd_erasure_code_plugins={named}"
        cluster.spawn(name, "ceph-osd", "-i", str(osd), *without)
        ended = cluster.until("the OSD ends", lambda: cluster.daemons[name].poll() is not None)
        printed = any(words in line for _, line in cluster.lines_since(sizes))
        cluster.check(
            f"an OSD without the plugin ends, with osd_erasure_code_plugins = {named}",
            ended and (printed or not is_sure),
            words if printed else "no word of it",
        )
        cluster.revive([osd])


def check_tool(cluster, folder):
    """Ceph's tool says whether a daemon would find the file, before one is started."""
    statuses = []
    for name in "plugins", "without":
        options = dict(os.environ, CEPH_ARGS=f"--erasure_code_dir={folder}/{name}")
        words = ["ceph-erasure-code-tool", "test-plugin-exists", "azure_lrc"]
        done = subprocess.run(words, env=options, capture_output=True, check=False)
        statuses.append(done.returncode)
    there, missing = statuses
    cluster.check("ceph-erasure-code-tool finds the plugin, or not", missing > there == 0)


# ---- the parts


def overwritten(cluster):
    check_overwrites(cluster, "over", WIDE.profile, (2, 4), min_size=12, fast_read=1)


NAMES = (
    *("profiles", "lost", "recovery", "counters", "operators"),
    *("damage", "units", "storm", "model", "benchmark", "images", "files", "buckets"),
    "domains",
    *("racks", "small", "overwrites"),  # these leave pools there, which `damage` would reach
    "missing",
)
PARTS = {
    "profiles": (check_profiles, check_profile_in_use, check_orders),
    "lost": (check_lost_sets, check_min_size, check_min_sizes, check_beside_lrc),
    "recovery": (check_recovery, check_out),
    "counters": (check_counters,),
    "operators": (check_snapshots, check_stopped, check_migration),
    "racks": (check_racks,),
    "small": (check_small, check_small_sets, check_optimized),
    "overwrites": (overwritten,),
}


def work(report, folder, options):
    """These modules want python3-rados, which the interpreter finds only after it was installed."""
    import clients
    import damage
    import domains
    import loads
    import model
    from cluster import Cluster

    only = options.only or NAMES
    with Cluster(f"{folder}/cluster", build(folder), report) as cluster:
        cluster.command("osd set", key="noout")
        count = len(cluster.up())
        cluster.check(f"{count} OSDs are up", count == cluster.osds, f"Ceph {cluster.version()}")
        parts = {**PARTS, **damage.PARTS, **domains.PARTS, **loads.PARTS, **clients.PARTS}
        parts |= model.PARTS
        later = (check_optimized, domains.check_own_rule) if cluster.series() != 20 else ()
        for name in NAMES:
            for check in parts.get(name, ()) if name in only else ():
                if check not in later:
                    check(cluster)
        if "missing" in only:
            check_missing_plugin(cluster, folder)


if __name__ == "__main__":
    arguments = harness.parser_of(__doc__)
    arguments.add_argument("--only", choices=NAMES, action="append", help="run this part")
    sys.exit(harness.run(arguments, PACKAGES, work))
