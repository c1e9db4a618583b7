"""What the parts of the cluster test share: policies, lost fragments, GETs and rebuilds."""

import collections
import contextlib
import ctypes
import hashlib
import os
import random
import re
import shutil
import subprocess
from pathlib import Path

from cluster import PYTHON, SERVERS, Client, Cluster, Policy

MIB = 1 << 20
GROUPS = ((0, 1, 2, 3, 4, 5, 12), (6, 7, 8, 9, 10, 11, 13))
GLOBALS = (14, 15)

REPLICATED = Policy(0, "replicated", None)
LRC = Policy(1, "lrc", "libphazr", diskfile_module="egg:lrcstore_swift#main")
SMALL = Policy(3, "small", "libphazr", 6, diskfile_module="egg:lrcstore_swift#main")
ISA = Policy(2, "isa", "isa_l_rs_vand")

RIGHT, REFUSED = ("right", 200), ("refused", 503)  # outcomes of a GET


def is_recoverable(lost):
    """Whether the remaining fragments determine all of them: each group makes good one loss, and
    the global parities two more."""
    beyond = sum(max(0, sum(i in group for i in lost) - 1) for group in GROUPS)
    return beyond + sum(i in GLOBALS for i in lost) <= 2


def outcome_without(lost):
    """The outcome of a GET of an object in LRC(12,2,2)."""
    return RIGHT if is_recoverable(lost) else REFUSED


def payload(size, seed=0):
    return random.Random(size * 31 + seed).randbytes(size)


def contents(path):
    return Path(path).read_bytes()


def change_byte(path, at):
    """Changes a bit of the byte there."""
    with open(path, "r+b") as file:
        file.seek(at)
        (byte,) = file.read(1)
        file.seek(at)
        file.write(bytes([byte ^ 1]))


def installed(folder):
    """The environment that stands for /usr/local/lib and Python's own folder of modules."""
    return {
        "LD_LIBRARY_PATH": f"{folder}/lib",
        "PYTHONPATH": f"{folder}/python",
        "PYTHONDONTWRITEBYTECODE": "1",
    }


def python(folder, program):
    """What a program in Python prints, with the modules as they are installed for the test."""
    settings = {"env": dict(os.environ, **installed(folder)), "cwd": folder, "text": True}
    return subprocess.check_output([PYTHON, "-c", program], **settings)


@contextlib.contextmanager
def running(folder, name, *policies, filters=("lrcstore",), **settings):
    """A cluster with these policies in a folder of its own, whose proxy has the module. Gives it
    and a client."""
    policies = [REPLICATED, *policies]
    cluster = Cluster(f"{folder}/{name}", policies, installed(folder), filters, **settings)
    cluster.prepare()
    try:
        cluster.start()
        client = Client(cluster.proxy_port)
        for policy in policies[1:]:
            status = client.call("PUT", policy.name, {"X-Storage-Policy": policy.name})[0]
            assert status == 201, f"PUT of the container {policy.name}: status {status}"
        yield cluster, client
    finally:
        cluster.stop()


def settings_beside(folder, cluster, policies, kind=Cluster, **environment):
    """The settings of another proxy and reconstructor in the cluster, with policies of their own.
    Only their logs are to be ended, by `stop`."""
    other = kind(folder, policies, {**cluster.environment, **environment}, ("lrcstore",))
    other.account_port, other.container_port = cluster.account_port, cluster.container_port
    other.memcached_port, other.object_ports = cluster.memcached_port, cluster.object_ports
    other.prepare()
    shutil.rmtree(f"{folder}/devices")
    os.symlink(f"{cluster.folder}/devices", f"{folder}/devices")
    return other


@contextlib.contextmanager
def proxy_beside(folder, cluster, policies, kind=Cluster, **environment):
    """Another proxy of the cluster, with such settings. Gives these and a client of it."""
    other = settings_beside(folder, cluster, policies, kind, **environment)
    try:
        other.spawn("proxy", other.command("swift-proxy-server", f"{folder}/proxy.conf"))
        other.wait_for(other.proxy_port)
        yield other, Client(other.proxy_port)
    finally:
        other.stop()


@contextlib.contextmanager
def without_fragments(cluster, path, numbers, files=None, whole_devices=False, policy=LRC):
    """Some fragments of an object are away inside the block, or their whole devices."""
    files = files or cluster.fragments(policy, path)
    place_of = device_folder if whole_devices else os.path.dirname
    name = hashlib.md5(path.encode()).hexdigest()
    moves = [(place_of(files[i]), f"{cluster.folder}/{name}.{i}") for i in numbers]
    for place, aside in moves:
        os.rename(place, aside)
    try:
        yield
    finally:
        for place, aside in moves:
            os.rename(aside, place)


def exchange(one, other):
    """Exchanges two paths at once: a server that found neither would make a folder in its place."""
    here, both = -100, 2  # AT_FDCWD, RENAME_EXCHANGE
    libc = ctypes.CDLL(None, use_errno=True)
    if libc.renameat2(here, one.encode(), here, other.encode(), both):
        raise OSError(ctypes.get_errno(), f"{one} and {other} can't be exchanged")


@contextlib.contextmanager
def without_devices(cluster, names):
    """Devices are away inside the block, also while servers write to them."""
    at = cluster.folder
    moves = [(f"{at}/devices/{name}", f"{at}/away.{name}") for name in names]
    for place, aside in moves:
        open(aside, "wb").close()
        exchange(place, aside)
    try:
        yield
    finally:
        for place, aside in moves:
            exchange(place, aside)
            os.unlink(aside)


class Outcomes(collections.Counter):
    """How many GETs had which outcome."""

    def __str__(self):
        return ", ".join(
            f"{count} {what} ({status})" for (what, status), count in sorted(self.items())
        )

    def wrong(self):
        return sum(count for (what, _), count in self.items() if what == "wrong")


def get(client, path, body, midway=None):
    """The outcome: `right`, `refused` (a status from 500 on, or a body that ends early) or `wrong`,
    and the status."""
    status, _, answer = client.get(path, midway=midway)
    if status == 200 and answer == body:
        return "right", status
    if status >= 500 or (status == 200 and (answer is None or len(answer) < len(body))):
        return "refused", status
    return "wrong", status


def count_gets(client, path, body, times):
    return Outcomes(get(client, path, body) for _ in range(times))


def are_right(client, bodies):
    """Whether GETs of these paths give these bodies."""
    return {get(client, path, body) for path, body in bodies.items()} == {RIGHT}


def reconstruct(cluster, *words):
    return cluster.run("swift-object-reconstructor", f"{cluster.folder}/object.conf", "-o", *words)


def reconstruct_until(holds, cluster, *words, most=3):
    """Runs the reconstructor again and again; how often."""
    runs = 0
    while runs < most and not holds():
        runs += 1
        reconstruct(cluster, *words)
    return runs


def is_on_primaries(cluster, policy, path):
    """Whether the newest version's fragments are on their primary devices and nowhere else."""
    return cluster.places(policy, path) == cluster.primaries(policy, path)


def move_to_primaries(cluster, policy, paths):
    """Runs the reconstructor until all fragments of the objects are on their primary devices and
    nowhere else. Returns how many are, and the number of runs."""

    def are_moved():
        return all(is_on_primaries(cluster, policy, path) for path in paths)

    runs = reconstruct_until(are_moved, cluster, most=10)
    found = [cluster.places(policy, path) & cluster.primaries(policy, path) for path in paths]
    return sum(map(len, found)), runs


def partition_of(file):
    return re.search(r"/objects-\d+/(\d+)/", file).group(1)


def fragments_of_server(cluster, policy, path, number):
    """The fragments of an object on the devices of an object server."""
    files = cluster.fragments(policy, path)
    return tuple(sorted(i for i in files if int(device_of(files[i])[1:]) % SERVERS == number))


def device_folder(file):
    return re.match(r".*/devices/d\d+", file).group(0)


def device_of(file):
    return re.search(r"/devices/(d\d+)/", file).group(1)


def replace_devices(files, numbers):
    """Replaces the devices of these fragments by empty ones; returns what the fragments were."""
    saved = {}
    for i in numbers:
        saved[i] = contents(files[i])
        shutil.rmtree(device_folder(files[i]))
        os.mkdir(device_folder(files[i]))
    return saved


def rebuild(cluster, policy, path, numbers):
    """Which of these fragments were rebuilt, equal to what they were, after their devices were
    replaced, and by how many fragment GETs."""
    files = cluster.fragments(policy, path)
    saved = replace_devices(files, numbers)
    start, partition = len(cluster.log("object")), partition_of(files[numbers[0]])

    def are_there():
        return len(cluster.fragments(policy, path)) >= policy.fragments

    reconstruct_until(are_there, cluster, "-p", partition)
    gets = cluster.count_logged("object", '"GET ', "obj-reconstructor", f'/{path}"', start=start)
    files = cluster.fragments(policy, path)
    return [i for i in numbers if i in files and contents(files[i]) == saved[i]], gets
