"""Whole hosts and racks are lost, in pools whose hosts have two chunks and whose racks have four.

Sixteen OSDs have a second place in the map of the cluster: a host there has two of them, and a rack
has two hosts."""

import itertools
import random

from codes import WIDE

OBJECTS = 16
PAIRS = list(itertools.combinations(range(8), 2))
RACKS = [(host, host + 1) for host in range(0, 8, 2)]


def place_twice(cluster):
    for osd in range(16):
        at = ["root=paired", f"rack=quad{osd // 4}", f"host=pair{osd // 2}"]
        cluster.command("osd crush add", id=osd, weight=1.0, args=at)


def check_losses(cluster, pool, sets):
    """Loses sets of hosts. The objects are read, and written again meanwhile. A deep scrub follows,
    and the pool is removed."""
    cluster.wait_clean()
    cluster.fill(pool, OBJECTS)
    for hosts in sets:
        with cluster.without([osd for host in hosts for osd in (2 * host, 2 * host + 1)]):
            equal = cluster.equal_objects(pool, OBJECTS)
            cluster.fill(pool, OBJECTS)
        name = f"{pool}: without hosts {hosts}, {equal} of {OBJECTS} objects read back"
        cluster.check(name, cluster.wait_clean() and equal == OBJECTS)
    cluster.check_objects(f"{pool}: with all hosts,", pool, OBJECTS)
    cluster.scrub(pool)
    cluster.remove_pools(pool)


def check_domains(cluster):
    """Six pairs of hosts that are drawn, and each rack of four OSDs."""
    place_twice(cluster)
    for pool, domain, number, count, sets in (
        ("in_hosts", "host", 97, 8, random.sample(PAIRS, 6)),
        ("in_quads", "rack", 98, 4, RACKS),
    ):
        steps = f"choose indep {count} type {domain}", f"choose indep {16 // count} type osd"
        cluster.add_rule(pool, number, "paired", *steps)
        cluster.make_pool(pool, WIDE.profile, 4, pool, min_size=12)
        check_losses(cluster, pool, sets)


def check_own_rule(cluster):
    """The rule for two OSDs in each of eight hosts that Ceph 19 and later make by a profile."""
    words = {"version": "squid", "yes_i_really_mean_it": True}
    cluster.command("osd set-require-min-compat-client", **words)
    parameters = ["crush-root=paired", "crush-failure-domain=host"]
    parameters += ["crush-num-failure-domains=8", "crush-osds-per-failure-domain=2"]
    cluster.make_pool("by_profile", [*WIDE.profile, *parameters], 4, min_size=12)
    cluster.wait_clean()
    hosts = [[osd // 2 for osd in group] for group in cluster.places("by_profile")]
    paired = all(
        group[::2] == group[1::2] and sorted(group[::2]) == list(range(8)) for group in hosts
    )
    cluster.check("by its profile alone, a pool has two chunks in each host", paired, str(hosts))
    check_losses(cluster, "by_profile", random.sample(PAIRS, 3))


PARTS = {"domains": (check_domains, check_own_rule)}
