#!/usr/bin/python3
"""Two proxies of one cluster: one of this system's releases of Swift and liberasurecode, the other
of those of another root. The object servers are upgraded to the latter, one after the other.

    integrations/swift/releases_test.py ROOT

ROOT is a root that `LRC_ROOTS=FOLDER integrations/roots.sh swift SUITE` has left in FOLDER. It runs
as root after cluster_test.py, which installs what both need, and prints `N passed, M failed`."""

import functools
import os
import subprocess
import sys

sys.dont_write_bytecode = True
HERE = os.path.dirname(os.path.abspath(__file__))
sys.path[:0] = [HERE, os.path.dirname(HERE)]
import cluster_test  # noqa: E402
import other_root  # noqa: E402
from cluster import SERVERS, Client, Cluster  # noqa: E402
from cluster_test import segments  # noqa: E402
from fragments import LRC, MIB, RIGHT, SMALL, contents, count_gets, installed  # noqa: E402
from fragments import partition_of, payload, proxy_beside, reconstruct_until  # noqa: E402
from fragments import replace_devices, running, without_fragments  # noqa: E402

SIZES = (1, 5 * MIB + 13)
LOST = {LRC: ((), (3, 9, 14, 15)), SMALL: ((), (0, 1, 8))}


class Chrooted(Cluster):
    """Its programs run in another root, which sees the cluster's folder."""

    def __init__(self, root, *words):
        super().__init__(*words)
        self.root = root

    def command(self, program, *words):
        return ["chroot", self.root, *super().command(program, *words)]


def build_other(folder, root):
    """The library and the modules for the other root's Swift, built there."""
    steps = f"""
        mkdir -p {folder}/other/lib {folder}/other/python
        /src/integrations/liberasurecode/build.sh {folder}/other/lib
        cp -r /src/integrations/swift/lrcstore_swift* {folder}/other/python"""
    other_root.shell(root, steps)


def versions(*prefix):
    words = "dpkg-query", "-W", "-f", "${Package} ${Version}\n", "python3-swift", "liberasurecode1"
    return subprocess.check_output([*prefix, *words], text=True).split("\n")[:2]


def check_both(report, cluster, clients, when):
    """What each proxy puts, both read, also without some fragments."""
    for policy in LOST:
        for putter, to in clients.items():
            for size in SIZES:
                path = f"{policy.name}/{putter}{size}"
                to.put(path, payload(size))
                check_read(report, cluster, clients, policy, path, payload(size), when)


def check_read(report, cluster, clients, policy, path, body, when):
    whole = f"{Client.account}/{path}"
    files = cluster.fragments(policy, whole)
    for lost in LOST[policy]:
        with without_fragments(cluster, whole, lost, files):
            found = {each: count_gets(client, path, body, 5) for each, client in clients.items()}
        report.check(
            f"{when}: {path}, lost {list(lost)}: right by both proxies",
            all(set(outcomes) == {RIGHT} for outcomes in found.values()),
            "; ".join(f"{each} {outcomes}" for each, outcomes in found.items()),
        )


def upgrade(cluster, other, number):
    """Ends an object server, and starts it anew from the other root."""
    cluster.kill_object_server(number)
    conf = f"{cluster.folder}/object{number}.conf"
    other.spawn(f"object{number}", other.command("swift-object-server", conf), "object")
    other.wait_for(cluster.object_ports[number])


def check_roots(report, other, count, when):
    """A proxy and so many upgraded object servers run in the other root."""
    roots = [os.readlink(f"/proc/{each.pid}/root") for each in other.processes.values()]
    name = f"{when}: a proxy and {count} of {SERVERS} object servers run in the other root"
    report.check(name, roots == [other.root] * (1 + count), ", ".join(roots))


def check_rebuilt(report, cluster, rebuilders, when):
    """What the proxy of one root has put, the reconstructor of the other rebuilds. The headers have
    the version of liberasurecode that has written them."""
    for putter, by in rebuilders.items():
        whole = f"{Client.account}/{LRC.name}/{putter}{SIZES[-1]}"
        files = cluster.fragments(LRC, whole)
        saved, partition = replace_devices(files, (3,)), partition_of(files[3])
        is_there = functools.partial(os.path.exists, files[3])
        runs = reconstruct_until(is_there, by, "-p", partition)
        report.check(
            f"{when}: a fragment put by the proxy {putter} is rebuilt by the other's reconstructor",
            os.path.exists(files[3]) and segments(contents(files[3])) == segments(saved[3]),
            f"{runs} runs",
        )


def work(report, folder, options):
    cluster_test.build(folder)
    with other_root.seen_from(options.root, folder):
        build_other(folder, options.root)
        here, there = versions(), versions("chroot", options.root)
        different = all(one != other for one, other in zip(here, there))
        report.check("the releases differ", different, f"{', '.join(here)}; {', '.join(there)}")
        with running(folder, "cluster", LRC, SMALL) as (cluster, client):
            check(report, folder, options, cluster, client)


def check(report, folder, options, cluster, client):
    kind, environment = functools.partial(Chrooted, options.root), installed(f"{folder}/other")
    words = f"{folder}/beside", cluster, cluster.policies, kind
    with proxy_beside(*words, **environment) as (other, reader):
        clients, rebuilders = {"here": client, "there": reader}, {"here": other, "there": cluster}
        for first, count, when in (0, 0, "before"), (0, 3, "meanwhile"), (3, SERVERS, "afterwards"):
            for number in range(first, count):
                upgrade(cluster, other, number)
            check_roots(report, other, count, when)
            check_both(report, cluster, clients, when)
            check_rebuilt(report, cluster, rebuilders, when)


if __name__ == "__main__":
    needed = "usr/bin/swift-proxy-server"
    sys.exit(other_root.run(__doc__, cluster_test.PACKAGES, work, "swift", needed))
