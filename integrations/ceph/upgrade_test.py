#!/usr/bin/python3
"""Upgrades a cluster of this system's Ceph to that of another root, daemon by daemon. A pool of the
plugin is written and read meanwhile.

    integrations/ceph/upgrade_test.py ROOT

ROOT is a root that `LRC_ROOTS=FOLDER integrations/roots.sh ceph SUITE` has left in FOLDER, with a
later release of Ceph. It runs as root after cluster_test.py, which installs what both need, and
prints `N passed, M failed`."""

import os
import sys

sys.dont_write_bytecode = True
HERE = os.path.dirname(os.path.abspath(__file__))
sys.path[:0] = [HERE, os.path.dirname(HERE)]
import cluster_test  # noqa: E402
import other_root  # noqa: E402
from cluster import Cluster  # noqa: E402
from codes import WIDE  # noqa: E402

OBJECTS = 24


class Upgraded(Cluster):
    """A cluster whose daemons are started from the other root once `later` has their names."""

    def __init__(self, folder, plugins, report, root, later_plugins):
        super().__init__(folder, plugins, report)
        self.root, self.later_plugins, self.later = root, later_plugins, set()

    def spawn(self, name, *words):
        if name in self.later:
            words = ("chroot", self.root, *words, f"--erasure_code_dir={self.later_plugins}")
        super().spawn(name, *words)

    def upgrade(self, name):
        """Ends a daemon, and starts it anew from the other root."""
        kind, number = name.split(".")
        if kind == "osd":
            self.kill([int(number)])
        else:
            self.end(name)
        self.later.add(name)
        if kind == "osd":
            self.revive([int(number)])
        else:
            self.spawn(name, f"ceph-{kind}", "-i", number)


def build_later(folder, root):
    """The plugin for the other root's Ceph, built there."""
    plugins = f"{folder}/later"
    os.mkdir(plugins)
    steps = f"""
        ln -s {cluster_test.CEPH_PLUGINS}/libec_*.so {plugins}
        rm -f {plugins}/libec_azure_lrc.so
        /src/integrations/ceph/build.sh {plugins}"""
    other_root.shell(root, steps)
    return plugins


def check_serving(cluster, when):
    """All objects, with all OSDs and without three places; one more object is written."""
    cluster.wait_clean()
    cluster.check_objects(f"{when}:", "kept", OBJECTS)
    with cluster.without(cluster.osds_at("kept", (0, 1, 8))):
        equal = cluster.equal_objects("kept", OBJECTS)
        cluster.fill("kept", OBJECTS)
        again = cluster.equal_objects("kept", OBJECTS)
    cluster.check(f"{when}: also without three OSDs, and written again", equal == again == OBJECTS)


def work(report, folder, options):
    plugins = cluster_test.build(folder)
    with other_root.seen_from(options.root, folder):
        later = build_later(folder, options.root)
        words = f"{folder}/cluster", plugins, report, options.root, later
        with Upgraded(*words) as cluster:
            cluster.command("osd set", key="noout")
            cluster.make_filled_pool("kept", WIDE.profile, 1, OBJECTS)
            upgrade(cluster)


def upgrade(cluster):
    names = ["mon.a", "mgr.x", *(f"osd.{osd}" for osd in range(cluster.osds))]
    earlier = set(cluster.command("versions")["overall"])
    check_serving(cluster, "before")
    for number, name in enumerate(names):
        cluster.upgrade(name)
        if number == len(names) // 2:
            check_serving(cluster, f"with {number + 1} of {len(names)} daemons upgraded")
    versions = cluster.command("versions")["overall"]
    is_later = len(versions) == 1 and not earlier & set(versions)
    cluster.check(
        "all daemons have one version, and not that before", is_later, ", ".join(versions)
    )
    check_serving(cluster, "after")
    cluster.wait_clean()
    cluster.scrub("kept")


if __name__ == "__main__":
    sys.exit(other_root.run(__doc__, cluster_test.PACKAGES, work, "ceph", "usr/bin/ceph-osd"))
