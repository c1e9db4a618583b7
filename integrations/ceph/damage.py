"""What stores lose or change behind Ceph's back: bytes of shards, whole disks, and reads that fail.

Each check makes a pool, damages it, and removes it. What is read may be right, an error, or late,
and is never wrong."""

import concurrent.futures
import errno
import json
import threading
from pathlib import Path

import rados
from cluster import content
from codes import WIDE

# Of each object, the places whose shards are changed. All of these sets are recoverable.
CHANGED = ([0], [0, 2], [12], [14], [4, 5, 6], [0, 1, 2, 3])
GROUP = [0, 2, 4, 6]  # data of one group: unrecoverable
SECONDS = 10  # how long a read that Ceph may hold back is waited for


def read_within(io, name, length):
    """What is read of an object: its bytes, or `an error`, or `nothing` if it does not end soon."""
    ended, answer = threading.Event(), []

    def keep(completion, data):
        answer.append(data if completion.get_return_value() >= 0 else "an error")
        ended.set()

    io.aio_read(name, length, 0, keep)
    return answer[0] if ended.wait(SECONDS) else "nothing"


# ---- changed shards


def change_shard(cluster, osd, shard, name):
    """Changes a byte in the middle of an object's shard, by Ceph's own tool for stores of OSDs."""
    path = Path(cluster.folder, f"{shard}_{name}")
    tool = ["ceph-objectstore-tool", "--no-mon-config", "--pgid", shard]
    tool += ["--data-path", f"{cluster.folder}/osd.{osd}", name]
    cluster.run(*tool, "get-bytes", str(path))
    data = bytearray(path.read_bytes())
    data[len(data) // 2] ^= 0x20
    path.write_bytes(data)
    cluster.run(*tool, "set-bytes", str(path))
    path.unlink()


def change_shards(cluster, pool, sets):
    """Changes shards of the objects o0, o1, .. at these places, while their OSDs are down."""
    changed = sorted({place for places in sets for place in places})
    osds = dict(zip(changed, cluster.osds_at(pool, changed)))
    number = cluster.rados.pool_lookup(pool)

    def change_at(place):
        for each, places in enumerate(sets):
            if place in places:
                change_shard(cluster, osds[place], f"{number}.0s{place}", f"o{each}")

    with cluster.without(list(osds.values())):
        cluster.wait_loss()
        with concurrent.futures.ThreadPoolExecutor(4) as threads:
            list(threads.map(change_at, changed))
    return cluster.wait_clean()


def inconsistent_shards(cluster, pool):
    """The places that the last deep scrub found wrong, by the names of their objects."""
    words = "list-inconsistent-obj", f"{cluster.rados.pool_lookup(pool)}.0", "--format=json"
    found = json.loads(cluster.run("rados", "-c", cluster.settings, *words))
    return {
        item["object"]["name"]: sorted(each["shard"] for each in item["shards"] if each["errors"])
        for item in found["inconsistents"]
    }


def check_changed(cluster, objects=len(CHANGED) + 2):
    """Changed shards are found by reads and by a deep scrub, and mended by a repair."""
    cluster.make_filled_pool("changed", WIDE.profile, 1, objects, 1 << 20, min_size=12)
    cluster.check("shards of six objects are changed", change_shards(cluster, "changed", CHANGED))
    cluster.check_objects("with them,", "changed", objects, 1 << 20)
    cluster.deep_scrub("changed")
    found = inconsistent_shards(cluster, "changed")
    wanted = {f"o{number}": places for number, places in enumerate(CHANGED)}
    cluster.check("a deep scrub names these shards", found == wanted, str(found))
    checks = "OSD_SCRUB_ERRORS", "PG_DAMAGED"
    cluster.check(f"health has {' and '.join(checks)}", cluster.warns(*checks))
    cluster.manager_command("pg repair", pgid=f"{cluster.rados.pool_lookup('changed')}.0")
    cluster.until("a repair", lambda: "inconsistent" not in cluster.state("changed"))
    cluster.wait_clean()
    cluster.deep_scrub("changed")
    found = inconsistent_shards(cluster, "changed")
    cluster.check("after pg repair a deep scrub names none", not found, str(found))
    cluster.check_objects("after it", "changed", objects, 1 << 20)


def check_changed_group(cluster):
    """Four changed data shards of a group cannot be made good: an error, and no wrong byte."""
    change_shards(cluster, "changed", [GROUP])
    with cluster.rados.open_ioctx("changed") as io:
        try:
            io.read("o0", 1 << 20)
            seen = "bytes"
        except rados.Error as error:
            seen = errno.errorcode.get(error.errno, str(error))
    cluster.check("with four shards of a group changed, a read is refused", seen == "EIO", seen)
    cluster.remove_pools("changed")


# ---- disks


def check_replaced(cluster, objects=16):
    """Four disks of a group are replaced by empty ones, and `mark_unfound_lost` abandons what was
    there."""
    cluster.make_filled_pool("replaced", WIDE.profile, 2, objects, min_size=12)
    places, osds = cluster.places("replaced"), cluster.osds_at("replaced", GROUP)
    cluster.kill(osds)
    cluster.wait_loss()
    for osd in osds:
        cluster.make_store(osd)
    cluster.revive(osds)
    lost = [group for group, at in enumerate(places) if not is_left(at, osds)]
    for group in lost:
        seen = cluster.until("unfound", lambda at=group: "unfound" in cluster.state("replaced", at))
        cluster.check(
            f"without the disks of a group, placement group {group} is recovery_unfound", seen
        )
    check_unfound(cluster, lost, objects)
    cluster.remove_pools("replaced")


def is_left(places, osds):
    return WIDE.is_recoverable([place for place, osd in enumerate(places) if osd in osds])


def check_unfound(cluster, lost, objects):
    """Objects of these placement groups are held back until they are abandoned, and others read."""
    names = {f"o{number}": content("replaced", number) for number in range(objects)}
    gone = {name for name in names if cluster.group_of("replaced", name) in lost}
    with cluster.rados.open_ioctx("replaced") as io:
        cluster.check("health has OBJECT_UNFOUND", cluster.warns("OBJECT_UNFOUND"))
        right = sum(io.read(name, 1 << 21) == names[name] for name in names.keys() - gone)
        cluster.check(
            "objects of the others read back", right == len(names) - len(gone), str(right)
        )
        seen = read_within(io, min(gone), 1 << 21)
        cluster.check("a read of what is lost does not end", seen == "nothing", str(seen)[:80])
        unfound = 0
        for group in lost:
            pgid = f"{cluster.rados.pool_lookup('replaced')}.{group:x}"
            tool = "ceph", "-c", cluster.settings, "pg", pgid
            unfound += json.loads(cluster.run(*tool, "list_unfound"))["num_unfound"]
            cluster.run(*tool, "mark_unfound_lost", "delete")
        cluster.check("list_unfound names what is lost", unfound == len(gone), str(unfound))
        clean = cluster.wait_clean()
        left = sum(is_there(io, name) for name in gone)
        cluster.check("mark_unfound_lost abandons them", clean and left == 0, f"{left} are there")


def is_there(io, name):
    try:
        io.stat(name)
        return True
    except rados.ObjectNotFound:
        return False


# ---- reads that fail


def inject(cluster, osd, value):
    """Whether a store answers with the errors that `injectdataerr` names."""
    cluster.osd_command(osd, "config set", var="bluestore_debug_inject_read_err", val=[value])


def check_errors(cluster, objects=8):
    """Stores that answer reads of up to four shards with errors, with and without fast_read."""
    cluster.make_filled_pool("errors", WIDE.profile, 1, objects, min_size=12)
    places = cluster.places("errors")[0]
    for osd in places:
        inject(cluster, osd, "true")
    for number, lost in enumerate(([0], [0, 2], [0, 1, 2], [0, 1, 2, 3])):
        for place in lost:
            words = {"pool": "errors", "objname": f"o{number}", "shardid": place}
            cluster.osd_command(places[place], "injectdataerr", binary=True, **words)
    sizes = cluster.log_sizes()
    for fast in 0, 1:
        cluster.set_pool("errors", fast_read=fast)
        when = f"with read errors of up to four stores and fast_read {fast},"
        cluster.check_objects(when, "errors", objects)
    count = sum("INJECT EIO" in line for _, line in cluster.lines_since(sizes))
    cluster.check("the stores have answered with errors", count >= 10, str(count))
    for osd in places:
        inject(cluster, osd, "false")
    cluster.remove_pools("errors")


PARTS = {"damage": (check_changed, check_changed_group, check_errors, check_replaced)}
