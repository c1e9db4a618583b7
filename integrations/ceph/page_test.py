#!/usr/bin/python3
"""The commands of README.md, as they stand there, for a pool on eight hosts and one on four racks.

    integrations/ceph/page_test.py

The plugin has to be installed, by its package or by `build.sh` and `install`. The cluster has a
monitor, a manager and 16 OSDs on this machine's loopback address; hosts and racks are CRUSH
buckets. It runs as root, and prints `N passed, M failed`."""

import os
import re
import sys
from pathlib import Path

sys.dont_write_bytecode = True
HERE = os.path.dirname(os.path.abspath(__file__))
sys.path[:0] = [HERE, os.path.dirname(HERE)]
import cluster_test  # noqa: E402
import harness  # noqa: E402

HOSTS, OBJECTS = 8, 16
SECTION = "## Few hosts or racks"


def blocks_of(page):
    """The blocks of commands and texts of the section, in order."""
    section = page.split(SECTION + "\n")[1].split("\n## ")[0]
    found = re.findall(r"(?m)(?:^    .*\n|^\n(?=    ))+", section)
    return [re.sub(r"(?m)^    ", "", block).strip("\n") for block in found]


def run(cluster, commands):
    """Runs commands of the page in the cluster's folder."""
    settings = {"cwd": cluster.folder, "env": {**os.environ, "CEPH_CONF": cluster.settings}}
    status, printed = harness.outcome_of("sh", "-ec", commands, **settings)
    first, text = commands.split("\n", maxsplit=1)[0], printed if status else ""
    cluster.check(f"the page's commands from `{first}`", not status, text)


def check_pool(cluster, domains):
    """The pool has as many chunks in each domain as the page says. It serves without two hosts, or
    without a rack."""
    cluster.rados.wait_for_latest_osdmap()  # another client has made the pool
    cluster.check("the pool is active and clean", cluster.wait_clean())
    each = 16 // domains
    groups = [[osd // each for osd in group] for group in cluster.places("ecpool")]
    even = all(group == [one for one in group[::each] for _ in range(each)] for group in groups)
    cluster.check(f"{each} chunks that follow each other are in each of {domains}", even)
    cluster.command("osd pool application enable", pool="ecpool", app="rados")
    cluster.set_pool("ecpool", min_size=12)
    cluster.fill("ecpool", OBJECTS)
    with cluster.without([0, 1, 2, 3]):  # two hosts, which are a rack
        cluster.check_objects("without OSDs 0 to 3,", "ecpool", OBJECTS)
    cluster.remove_pools("ecpool")


def check_page(cluster, page):
    by_profile, rule, steps = blocks_of(page)
    profile = re.search(r"(?m)^    (ceph osd erasure-code-profile set lrc12 .*)$", page)[1]
    run(cluster, profile)
    if cluster.series() == 20:
        run(cluster, by_profile)
        check_pool(cluster, 8)
    for osd in range(2 * HOSTS):  # once more in racks of four hosts, in a tree of their own
        at = ["root=wide", f"rack=wide{osd // 4}", f"host=alone{osd}"]
        cluster.command("osd crush add", id=osd, weight=1.0, args=at)
    for (name, text), domains in zip(rules_of(page, rule), (8, 4)):
        Path(cluster.folder, "rule.txt").write_text(text + "\n", "utf-8")
        run(cluster, steps.replace("lrc12 hosts", f"lrc12 {name}"))
        check_pool(cluster, domains)


def rules_of(page, rule):
    """The page's rule for eight hosts, and that for four racks, whose steps are in a sentence."""
    yield "hosts", rule
    four = re.search(r"four\s+racks, its steps are\s+`(.*?)` and `(.*?)`", page).groups()
    eight = re.findall(r"step (choose indep .*)", rule)
    text = rule.replace("rule hosts", "rule quads").replace("id 98", "id 97")
    text = text.replace("take default", "take wide")
    for old, new in zip(eight, four):
        text = text.replace(old, new)
    yield "quads", text


def work(report, folder, options):
    from cluster import Cluster

    class Paired(Cluster):
        """Each host has two OSDs, and each rack two hosts."""

        osds = 2 * HOSTS

        @staticmethod
        def location(osd):
            return f"rack=rack{osd // 4} host=host{osd // 2}"

    page = Path(HERE, "README.md").read_text("utf-8")
    with Paired(f"{folder}/cluster", cluster_test.CEPH_PLUGINS, report) as cluster:
        check_page(cluster, page)


if __name__ == "__main__":
    sys.exit(harness.run(harness.parser_of(__doc__), cluster_test.PACKAGES[2:], work))
