"""Fragments that were damaged on disk, and a reconstructor without the module."""

import glob
import os
import shutil
import struct

from cluster import Policy
from fragments import ISA, LRC, MIB, REPLICATED, Outcomes, contents, device_of, get, partition_of
from fragments import payload, reconstruct, replace_devices, running, settings_beside

DAMAGED = (2, 9)  # data fragments of both groups
OTHERS = {2: 5, 9: 13}  # whose bytes these get
SIZES = (100_000, 2 * MIB + 13)
TIMES = 12  # GETs
WITHOUT = ((3,), (13,), (15,), (2, 4), (6, 11), (0, 8, 14))  # lost sets


def damage(report, folder, options):
    with running(folder, "damage", LRC, ISA) as (cluster, client):
        for kind in KINDS:
            for size in SIZES:
                check_damaged(report, cluster, client, LRC, kind, size)
        check_damaged(report, cluster, client, ISA, HEADER, SIZES[0])
        for policy in (LRC, ISA):
            check_overwritten(report, cluster, client, policy)
        check_without_module(report, cluster, client, folder)


# ---- damaged files


def cut(files, i):
    os.truncate(files[i], os.path.getsize(files[i]) // 2)


def empty(files, i):
    os.truncate(files[i], 0)


def change_header(files, i):
    """Changes the number in the first fragment's header, which has a checksum."""
    with open(files[i], "r+b") as opened:
        opened.write(struct.pack("<I", i ^ 1))


def change_metadata(files, i):
    """Changes what Swift keeps in the file's extended attributes."""
    kept = os.getxattr(files[i], "user.swift.metadata")
    os.setxattr(files[i], "user.swift.metadata", kept[:50] + b"?" + kept[51:])


def overwrite(files, i):
    """The fragment gets the bytes of another one, in whose headers another number is."""
    with open(files[i], "r+b") as opened:
        opened.write(contents(files[OTHERS[i]]))


HEADER = "given another header"
KINDS = {
    "cut short": cut,
    "emptied": empty,
    HEADER: change_header,
    "given other metadata": change_metadata,
}


class Damage:
    """Two damaged fragments of an object. A GET may have them quarantined: for the next one they
    are put back."""

    def __init__(self, cluster, policy, path, change):
        self.policy, self.path = policy, path
        self.files = cluster.fragments(policy, path)
        self.before = {i: contents(self.files[i]) for i in DAMAGED}
        self.kept = {i: f"{cluster.folder}/damaged.{i}" for i in DAMAGED}
        for i in DAMAGED:
            change(self.files, i)
            shutil.copy2(self.files[i], self.kept[i])

    def count_gets(self, client, path, body):
        outcomes = Outcomes()
        for _ in range(TIMES):
            self.put_back()
            outcomes[get(client, path, body)] += 1
        self.put_back()
        return outcomes

    def put_back(self):
        for i in DAMAGED:
            if not os.path.exists(self.files[i]):
                os.makedirs(os.path.dirname(self.files[i]), exist_ok=True)
                shutil.copy2(self.kept[i], self.files[i])


def check_gets(report, name, outcomes, good):
    """Checks that no GET had another outcome than these."""
    words = " or ".join(sorted(good, reverse=True))
    report.check(f"{name}: GETs are {words}", good.issuperset(it for it, _ in outcomes), outcomes)


def check_damaged(report, cluster, client, policy, kind, size):
    """An object server compares the header of a whole segment before it has sent the fragment. That
    of a shorter one it compares after that, so a GET may be refused."""
    path, body = f"{policy.name}/{kind.split()[-1]}{size}", payload(size)
    client.put(path, body)
    damaged = Damage(cluster, policy, f"{client.account}/{path}", KINDS[kind])
    outcomes = damaged.count_gets(client, path, body)
    may_refuse = kind == HEADER and size < MIB
    good = {"right", "refused"} if may_refuse else {"right"}
    name = f"{policy.ec_type}, two fragments of {size} bytes {kind}"
    check_gets(report, name, outcomes, good)
    check_quarantined(report, cluster, damaged, name)


def check_quarantined(report, cluster, damaged, name):
    """Lets the auditor pass the devices of the damaged fragments, and then the reconstructor."""
    devices = ",".join(device_of(damaged.files[i]) for i in DAMAGED)
    cluster.run("swift-object-auditor", f"{cluster.folder}/object.conf", "-o", "-d", devices)
    aside = [i for i in DAMAGED if is_quarantined(damaged.files[i])]
    reconstruct(cluster, "-p", partition_of(damaged.files[0]))
    files = cluster.fragments(damaged.policy, damaged.path)
    equal = [i for i in DAMAGED if i in files and contents(files[i]) == damaged.before[i]]
    good = aside == equal == list(DAMAGED)
    shown = "" if good else f"quarantined {aside}, rebuilt {equal}"
    report.check(f"{name}: both are quarantined, and rebuilt byte-equal", good, shown)


def is_quarantined(file):
    """Whether Swift has put the fragment's folder aside."""
    device, name = file.split("/objects-")[0], os.path.basename(os.path.dirname(file))
    return not os.path.exists(file) and bool(glob.glob(f"{device}/quarantined/*/{name}*"))


def check_overwritten(report, cluster, client, policy):
    path, body = f"{policy.name}/overwritten", payload(SIZES[-1], 1)
    client.put(path, body)
    damaged = Damage(cluster, policy, f"{client.account}/{path}", overwrite)
    outcomes = damaged.count_gets(client, path, body)
    name = f"{policy.ec_type}, two fragments overwritten by two others"
    check_gets(report, name, outcomes, {"right", "refused"})
    check_quarantined(report, cluster, damaged, name)


# ---- a reconstructor without the module


def check_without_module(report, cluster, client, folder):
    """The settings of the reconstructor lack the diskfile module. What it rebuilds is equal, and
    what it does not rebuild, one with the module does."""
    plain = Policy(LRC.index, LRC.name, LRC.ec_type)
    other = settings_beside(f"{folder}/without_module", cluster, [REPLICATED, plain, ISA])
    path, body = "lrc/without", payload(SIZES[-1], 2)
    client.put(path, body)
    whole, differ, rebuilt, healed = f"{client.account}/{path}", [], [], []
    for lost in WITHOUT:
        files = cluster.fragments(LRC, whole)
        saved = replace_devices(files, lost)
        for each, equal in ((other, rebuilt), (cluster, healed)):
            reconstruct(each, "-p", partition_of(files[lost[0]]))
            found = cluster.fragments(LRC, whole)
            there = [i for i in lost if i in found]
            equal += [i for i in there if contents(found[i]) == saved[i]]
            differ += [i for i in there if contents(found[i]) != saved[i]]
    other.stop()
    count = sum(map(len, WITHOUT))
    report.check(
        f"a reconstructor without the module writes no wrong fragment for {len(WITHOUT)} lost sets",
        not differ,
        f"{len(rebuilt)} of {count} rebuilt, {len(differ)} differ",
    )
    report.check(
        "one with the module rebuilds what that one did not", len(healed) == count, str(len(healed))
    )
