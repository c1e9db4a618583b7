"""Clients of pools of the plugin: images of RBD, files of CephFS, buckets of the gateway."""

import base64
import email.utils
import hashlib
import hmac
import http.client
import json
import os
import random

import harness
import rbd
from codes import WIDE

IMAGE_BYTES = 16 << 20
LOST = (2, 4, 3, 13)  # places: two data chunks of one group, one of the other, its local parity


def make_pools(cluster, data, app, *others):
    """A pool of the code for data, and replicated ones that stay while four OSDs are away."""
    settings = {"allow_ec_overwrites": "true", "min_size": 12, "app": app}
    cluster.make_pool(data, WIDE.profile, 1, **settings)
    for pool in others:
        cluster.create_pool(pool, 8, "replicated")
        cluster.set_pool(pool, size=6, min_size=1)
        cluster.command("osd pool application enable", pool=pool, app=app)
    cluster.wait_clean()


def without_four(cluster, pool):
    return cluster.without(cluster.osds_at(pool, LOST))


# ---- RBD


def check_images(cluster):
    """Images by the commands of operate.md: one that is made in the pool, and one that moves there
    from a replicated pool."""
    make_pools(cluster, "data", "rbd", "headers")
    tool = "rbd", "-c", cluster.settings
    cluster.run(*tool, "create", "--size", "16M", "headers/old")
    cluster.run(*tool, "create", "--size", "16M", "--data-pool", "data", "headers/new")
    with cluster.rados.open_ioctx("headers") as io:
        write_image(cluster, io)
        with rbd.Image(io, "old") as image:
            image.write(b"moved" * 1000, 12345)
        for words in (
            ["prepare", "--data-pool", "data", "headers/old", "headers/moved"],
            ["execute", "headers/moved"],
            ["commit", "headers/moved"],
        ):
            cluster.run(*tool, "migration", *words)
        with rbd.Image(io, "moved") as image:
            same = image.read(12345, 5000) == b"moved" * 1000
            cluster.check("rbd migration moves an image into the pool", same)
    cluster.scrub("data")
    cluster.remove_pools("data", "headers")


def write_image(cluster, io):
    """Random writes, half of them without four OSDs, and a snapshot."""
    dice, wanted = random.Random(2), bytearray(IMAGE_BYTES)

    def write_at_random(image):
        for _ in range(100):
            piece = dice.randbytes(dice.choice([1, 512, 4096, 100_000]))
            at = dice.randrange(IMAGE_BYTES - len(piece))
            image.write(piece, at)
            wanted[at : at + len(piece)] = piece

    with rbd.Image(io, "new") as image:
        write_at_random(image)
        image.create_snap("kept")
        kept = bytes(wanted)
        with without_four(cluster, "data"):
            write_at_random(image)
            same = image.read(0, IMAGE_BYTES) == wanted
            cluster.check("an image written to at random, half of the time without four OSDs", same)
        cluster.check("it reads back once all are there", image.read(0, IMAGE_BYTES) == wanted)
    with rbd.Image(io, "new", snapshot="kept", read_only=True) as image:
        cluster.check("its snapshot is as it was before", image.read(0, IMAGE_BYTES) == kept)


# ---- CephFS


def check_files(cluster):
    """A folder of CephFS whose files are in the pool."""
    harness.install(["ceph-mds", "python3-cephfs"])
    import cephfs

    make_pools(cluster, "files", "cephfs", "metadata", "root")
    for words in ["new", "cephfs", "metadata", "root"], ["add_data_pool", "cephfs", "files"]:
        cluster.run("ceph", "-c", cluster.settings, "fs", *words)
    folder = f"{cluster.folder}/mds.a"
    os.makedirs(folder)
    cluster.spawn("mds.a", "ceph-mds", "-i", "a", f"--mds_data={folder}")
    cluster.until("the file system is up", lambda: is_active(cluster))
    mounted = cephfs.LibCephFS(conffile=cluster.settings)
    mounted.mount()
    try:
        mounted.mkdir("/lrc", 0o755)
        mounted.setxattr("/lrc", "ceph.dir.layout.pool", b"files", 0)
        check_file(cluster, mounted)
    finally:
        mounted.unmount()
        mounted.shutdown()
    cluster.end("mds.a")
    cluster.command("fs fail", fs_name="cephfs")
    cluster.command("fs rm", fs_name="cephfs", yes_i_really_mean_it=True)
    cluster.remove_pools("files", "metadata", "root")


def is_active(cluster):
    found = cluster.command("fs dump")["filesystems"]
    return any(
        mds["state"] == "up:active" for each in found for mds in each["mdsmap"]["info"].values()
    )


def check_file(cluster, mounted):
    wanted = bytearray(random.Random(3).randbytes(9_000_000))
    file = mounted.open("/lrc/file", "w+", 0o644)
    mounted.write(file, bytes(wanted), 0)
    mounted.fsync(file, 0)
    with without_four(cluster, "files"):
        wanted[70_000:70_005] = b"later"
        mounted.write(file, b"later", 70_000)
        mounted.fsync(file, 0)
        mounted.close(file)
        file = mounted.open("/lrc/file", "r", 0)
        same = mounted.read(file, 0, len(wanted) + 1) == wanted
        mounted.close(file)
        with cluster.rados.open_ioctx("files") as io:
            count = sum(1 for _ in io.list_objects())
        name = f"a file of CephFS, in {count} objects of the pool, is read without four OSDs"
        cluster.check(name, same and count == 3)


# ---- the object gateway


class Bucket:
    """A client of a bucket, by the second version of S3's signatures."""

    def __init__(self, port, user, name):
        keys = user["keys"][0]
        self.port, self.name = port, name
        self.access, self.secret = keys["access_key"], keys["secret_key"]

    def ask(self, method, key="", body=b""):
        path = f"/{self.name}/{key}" if key else f"/{self.name}"
        date = email.utils.formatdate(usegmt=True)
        text = f"{method}\n\n\n{date}\n{path}".encode()
        signed = hmac.new(self.secret.encode(), text, hashlib.sha1).digest()
        headers = {
            "Date": date,
            "Authorization": f"AWS {self.access}:{base64.b64encode(signed).decode()}",
        }
        link = http.client.HTTPConnection("127.0.0.1", self.port, timeout=600)
        link.request(method, path, body, headers)
        answer = link.getresponse()
        return answer.status, answer.read()


def check_buckets(cluster):
    """The gateway's data pool is made in the code before the gateway makes it."""
    harness.install(["radosgw"])
    pool = "default.rgw.buckets.data"
    make_pools(cluster, pool, "rgw")
    cluster.command("config set", who="global", name="osd_pool_default_size", value="6", force=True)
    (port,), folder = harness.free_ports(1), f"{cluster.folder}/rgw"
    os.makedirs(folder)
    words = "-n", "client.rgw.a", f"--rgw_data={folder}", f"--rgw_frontends=beast port={port}"
    # There are no keys here, by which the gateway would have its link to the monitor encrypted.
    cluster.spawn("rgw", "radosgw", *words, "--ms_mon_client_mode=crc")
    made = cluster.run(
        *("radosgw-admin", "-c", cluster.settings, "user", "create"),
        *("--uid", "user", "--display-name", "User"),
    )
    bucket = Bucket(port, json.loads(made), "bucket")
    up = cluster.until("the gateway answers", lambda: is_made(bucket))
    data = random.Random(4).randbytes(9_000_000)
    put = bucket.ask("PUT", "object", data)[0]
    with without_four(cluster, pool):
        status, read = bucket.ask("GET", "object")
    right = up and put == status == 200 and read == data
    cluster.check("an object of the gateway is read without four OSDs", right, f"{put}, {status}")
    cluster.end("rgw")


def is_made(bucket):
    try:
        return bucket.ask("PUT")[0] == 200
    except OSError:
        return False


PARTS = {"images": (check_images,), "files": (check_files,), "buckets": (check_buckets,)}
