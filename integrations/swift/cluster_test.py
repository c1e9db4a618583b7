#!/usr/bin/python3
"""LRC(12,2,2) in OpenStack Swift: a cluster of twenty devices on this machine's loopback address.

    integrations/swift/cluster_test.py

It installs Debian's packages where they are missing (as root), works in a temporary folder, ends
every process that it started, and prints `N passed, M failed`. It needs the coder for C, in the
folder that LRC_LIBRARIES names, or the Rattle kit's `rt`, which builds it. What is installed of
lrcstore is neither used nor changed."""

import collections
import concurrent.futures
import ctypes
import hashlib
import itertools
import os
import shutil
import struct
import subprocess
import sys
import time
from pathlib import Path

sys.dont_write_bytecode = True
HERE = os.path.dirname(os.path.abspath(__file__))
TOP = os.path.dirname(os.path.dirname(HERE))
sys.path[:0] = [HERE, os.path.dirname(HERE)]
import harness  # noqa: E402
from cluster import DATA, FRAGMENTS, PYTHON, Client, Policy  # noqa: E402
from fragments import ISA, LRC, MIB, REFUSED, REPLICATED, RIGHT, SMALL, Outcomes  # noqa: E402
from fragments import change_byte, contents, count_gets, device_of, get  # noqa: E402
from fragments import outcome_without, partition_of, payload, proxy_beside, python  # noqa: E402
from fragments import rebuild, reconstruct, running, without_fragments  # noqa: E402
from crashes import crashes  # noqa: E402
from damage import damage  # noqa: E402
from etags import etags  # noqa: E402
from handoffs import handoffs  # noqa: E402
from installations import other_code, wrong_installations  # noqa: E402
from storm import concurrent_storm, storm  # noqa: E402
from suppression import suppression  # noqa: E402

PACKAGES = "gcc libisal2 liberasurecode-dev memcached python3-pyeclib python3-pytest".split()
PACKAGES += "python3-swiftclient swift-account swift-container swift-object swift-proxy".split()
SIZES = (0, 1, 11, 12, MIB, 5 * MIB + 13)
VERSION = 0x4C520C01  # of the backend, in each fragment's header
LOST = ((), (3,), (3, 4), (3, 4, 14))
CLIENTS = 4


# ---- installation

CHECK_RELEASE = """
from lrcstore_swift import refuse_other_releases
try:
    refuse_other_releases()
except RuntimeError as error:
    print(error)
"""


def build(folder):
    """What an administrator installs: the library, and the Python modules. Besides, a library that
    can't be loaded, for none."""
    harness.coder_folder()
    os.mkdir(f"{folder}/lib")
    subprocess.run([f"{TOP}/integrations/liberasurecode/build.sh", f"{folder}/lib"], check=True)
    os.mkdir(f"{folder}/none")
    open(f"{folder}/none/libphazr.so.1", "wb").close()
    for name in os.listdir(HERE):
        if name.startswith("lrcstore_swift"):
            shutil.copytree(f"{HERE}/{name}", f"{folder}/python/{name}")


def check_versions(report, folder, is_untested):
    """Says what is installed. A release of Swift that the modules refuse ends the test, unless it
    is added to those that they take, in the copy of the test."""
    words = ["dpkg-query", "-W", "-f", "${Package} ${Version}, "]
    names = ("python3-swift", "python3-pyeclib", "liberasurecode1", "python3")
    report.note(subprocess.check_output([*words, *names], text=True).strip(", "))
    if is_untested:
        release = python(folder, "import swift; print(*swift.__version__.split('.')[:2], sep='.')")
        path = f"{folder}/python/lrcstore_swift/__init__.py"
        text = contents(path).decode().replace("TESTED = (", f'TESTED = ("{release.strip()}", ')
        Path(path).write_text(text, "utf-8")
    refused = python(folder, CHECK_RELEASE)
    if refused:
        raise RuntimeError(refused.strip())


# ---- fragments


def segments(archive):
    """The fragments of a fragment archive, each as (number, version, size of the object's segment,
    payload)."""
    at, found = 0, []
    while at < len(archive):
        number, size, extra, original = struct.unpack_from("<IIIQ", archive, at)
        (version,) = struct.unpack_from("<I", archive, at + 55)
        found.append((number, version, original, archive[at + 80 : at + 80 + size]))
        at += 80 + size + extra
    return found


def exclusive_or(bodies):
    total = 0
    for body in bodies:
        total ^= int.from_bytes(body, "little")
    return total.to_bytes(len(bodies[0]), "little")


class Slice(ctypes.Structure):
    _fields_ = [("at", ctypes.c_char_p), ("len", ctypes.c_size_t)]


def encoded(data):
    """The parities of data fragments, by the C library."""
    library = ctypes.CDLL(f"{harness.coder_folder()}/liblrc_coder.so")
    width = len(data[0])
    parities = [ctypes.create_string_buffer(width + 1) for _ in range(4)]
    targets = [word for parity in parities for word in (parity, ctypes.c_size_t(width))]
    slices = (Slice * DATA)(*((each, len(each)) for each in data))
    status = library.lrc_encode(slices, ctypes.c_size_t(DATA), *targets)
    if status:
        raise ValueError(f"lrc_encode: status {status}")
    return [parity.raw[:width] for parity in parities]


def check_fragments(report, cluster, path, body):
    """Compares what Swift has written with the C library, and the local parities with the plain
    exclusive or."""
    files = cluster.fragments(LRC, path)
    stripes = list(zip(*(segments(contents(files[i])) for i in range(FRAGMENTS))))
    bodies = [[fragment[3] for fragment in stripe] for stripe in stripes]
    facts = {
        "data": b"".join(
            b"".join(each[:DATA])[: stripe[0][2]] for each, stripe in zip(bodies, stripes)
        )
        == body,
        "parities": all(each[DATA:] == encoded(each[:DATA]) for each in bodies),
        "local": all(
            each[DATA + g] == exclusive_or(each[6 * g : 6 * g + 6])
            for each in bodies
            for g in (0, 1)
        ),
        "headers": all(
            fragment[:2] == (i, VERSION) for stripe in stripes for i, fragment in enumerate(stripe)
        ),
    }
    report.check(
        f"{len(body)} bytes on disk are LRC's fragments, {len(stripes)} stripes",
        all(facts.values()),
        ", ".join(name for name in facts if not facts[name]),
    )


# ---- Swift without the module


def swift_without_module(report, folder, options):
    """The code is in its place, and Swift takes any twelve fragments to be enough."""
    path, body, lrc = "lrc/object", payload(MIB), Policy(1, "lrc", "libphazr")
    with running(folder, "without", lrc, filters=()) as (cluster, client):
        client.put(path, body)
        for lost in LOST:
            with without_fragments(cluster, f"{client.account}/{path}", lost):
                outcomes = count_gets(client, path, body, options.times)
            name = f"without the module, lost {list(lost)}: right or refused"
            report.check(name, not outcomes.wrong(), outcomes)
        check_other_proxy(report, cluster, folder, path, body)


def check_other_proxy(report, cluster, folder, path, body):
    """A proxy with the module reads what one without it has put."""
    with proxy_beside(f"{folder}/other_proxy", cluster, [REPLICATED, LRC]) as (_, reader):
        outcomes = count_gets(reader, path, body, 20)
    name = "a proxy with the module reads what one without it has put"
    report.check(name, set(outcomes) == {RIGHT}, outcomes)


# ---- Swift with the module: reads


def swift_with_module(report, folder, options):
    with running(folder, "with", LRC, ISA, SMALL) as (cluster, client):
        check_reads(report, cluster, client)
        gets = check_few_lost(report, cluster, client, options.times)
        gets += check_lost_sets(report, cluster, client)
        gets += check_devices(report, cluster, client)
        check_total(report, gets)
        check_rebuilds(report, cluster, client)
        check_small(report, cluster, client)
        check_auditor(report, cluster, f"{client.account}/lrc/o{SIZES[-1]}")
        check_command_line(report, client, folder)
        check_migration(report, client, folder)
        check_large(report, client, options.large * MIB)


def check_reads(report, cluster, client):
    bodies = {f"lrc/o{size}": payload(size) for size in SIZES}
    good = []
    for path, body in bodies.items():
        client.put(path, body)
        status, headers, answer = client.get(path)
        good.append(
            status == 200
            and answer == body
            and headers["etag"].strip('"') == hashlib.md5(body).hexdigest()
        )
    report.check(f"objects of {', '.join(map(str, SIZES))} bytes come back", all(good))
    large = f"lrc/o{SIZES[-1]}"
    check_fragments(report, cluster, f"{client.account}/{large}", bodies[large])
    check_fragments(report, cluster, f"{client.account}/lrc/o12", bodies["lrc/o12"])
    check_ranges(report, client, large, bodies[large])


def check_few_lost(report, cluster, client, times):
    path, body, total = f"lrc/o{MIB}", payload(MIB), Outcomes()
    for lost in LOST:
        start = len(cluster.log("object"))
        with without_fragments(cluster, f"{client.account}/{path}", lost):
            outcomes = count_gets(client, path, body, times)
        total += outcomes
        asked = cluster.count_logged("object", '"GET ', '"proxy-server', start=start)
        shown = f"{outcomes}; {asked / times:.1f} fragment GETs for each"
        report.check(f"lost {list(lost)}: always right", set(outcomes) == {RIGHT}, shown)
    return total


def check_ranges(report, client, path, body):
    """At the edges of fragments, of segments and of the object."""
    size, fragment = len(body), -(-MIB // DATA)
    asked = [
        (0, 0),
        (fragment - 1, fragment),
        (MIB - 1, MIB),
        (MIB + 5, 3 * MIB + 7),
        (size - 1, size - 1),
        (size - 1000, size + 5),
    ]
    good = [
        client.get(path, {"Range": f"bytes={first}-{last}"})[::2] == (206, body[first : last + 1])
        for first, last in asked
    ]
    good.append(client.get(path, {"Range": "bytes=-777"})[::2] == (206, body[-777:]))
    good.append(client.get(path, {"Range": f"bytes={size}-"})[0] == 416)
    report.check(f"{len(good)} ranges", all(good))


def check_lost_sets(report, cluster, client):
    """All sets of at most four lost fragments. Several clients have an object each, and share the
    sets."""
    sets = [lost for n in range(5) for lost in itertools.combinations(range(FRAGMENTS), n)]
    bodies = {f"lrc/lost{n}": payload(100_000, n) for n in range(CLIENTS)}
    files = {}
    for path, body in bodies.items():
        client.put(path, body)
        files[path] = cluster.fragments(LRC, f"{client.account}/{path}")

    def try_sets(path, some):
        mine, found = Client(cluster.proxy_port), []
        for lost in some:
            with without_fragments(cluster, f"{client.account}/{path}", lost, files[path]):
                found.append((lost, get(mine, path, bodies[path])))
        return found

    with concurrent.futures.ThreadPoolExecutor(CLIENTS) as pool:
        tasks = [pool.submit(try_sets, path, sets[n::CLIENTS]) for n, path in enumerate(bodies)]
        found = [each for task in tasks for each in task.result()]
    differ = [each for each in found if each[1] != outcome_without(each[0])]
    outcomes = Outcomes(outcome for _, outcome in found)
    report.check(
        f"{len(found)} sets of at most four lost: right if and only if they are recoverable",
        not differ and outcomes[RIGHT] == 2265 and outcomes[REFUSED] == 252,
        f"{outcomes}{f'; differ: {differ[:5]}' if differ else ''}",
    )
    return outcomes


def check_devices(report, cluster, client):
    path, body, total = f"lrc/o{MIB}", payload(MIB), Outcomes()
    for lost in ((3, 9, 14, 15), (0, 1, 2, 13), (0, 1, 2, 3)):
        with without_fragments(cluster, f"{client.account}/{path}", lost, whole_devices=True):
            outcomes = count_gets(client, path, body, 3)
        total += outcomes
        good = set(outcomes) == {outcome_without(lost)}
        report.check(f"the devices of {list(lost)} are missing", good, outcomes)
    return total


def check_total(report, gets):
    statuses = collections.Counter()
    for (_, status), count in gets.items():
        statuses[status] += count
    total, wrong = sum(statuses.values()), gets.wrong()
    report.check(
        "no wrong byte and no status 500 in at least 2,000 GETs",
        total >= 2000 and not wrong and not statuses[500],
        f"{total} GETs, {wrong} wrong, statuses {dict(statuses)}",
    )


# ---- Swift with the module: rebuilds


def check_rebuilds(report, cluster, client):
    path = f"{client.account}/lrc/o{SIZES[-1]}"
    for name, lost, most in (
        ("data fragment", (3,), 6),
        ("local parity", (13,), 6),
        ("global parity", (15,), 12),
        ("two of a group", (2, 4), 19),
    ):
        equal, gets = rebuild(cluster, LRC, path, lost)
        report.check(
            f"{name} {list(lost)} is rebuilt, byte-equal, by at most {most} fragment GETs",
            equal == list(lost) and gets <= most,
            f"{gets} GETs",
        )
    check_moved(report, cluster, client)
    client.put("isa/o", payload(SIZES[-1]))
    equal, gets = rebuild(cluster, ISA, f"{client.account}/isa/o", (3,))
    report.check(
        "isa_l_rs_vand, as without the module: [3] is rebuilt", equal == [3], f"{gets} GETs"
    )


def check_moved(report, cluster, client):
    """An object whose time has an offset, as if Swift had moved it from another policy."""
    body, moved = payload(MIB, 7), {"X-Timestamp": f"{time.time():.5f}_{1:016x}"}
    status, _, _ = client.call("PUT", "lrc/moved", moved, body)
    answer = client.get("lrc/moved")[::2]
    equal, gets = rebuild(cluster, LRC, f"{client.account}/lrc/moved", (3,))
    report.check(
        "an object that was moved to the policy comes back, and is rebuilt by at most 6 GETs",
        status == 201 and answer == (200, body) and equal == [3] and gets <= 6,
        f"{gets} GETs",
    )


def check_small(report, cluster, client):
    """LRC(6,2,2): groups 0 to 2 with 6, and 3 to 5 with 7; global parities 8 and 9."""
    path, body = "small/object", payload(SIZES[-1])
    client.put(path, body)
    for lost, wanted in (((0, 1, 8), RIGHT), ((0, 1, 2, 6), REFUSED)):
        with without_fragments(cluster, f"{client.account}/{path}", lost, policy=SMALL):
            outcomes = count_gets(client, path, body, 10)
        name = f"LRC(6,2,2), lost {list(lost)}: {wanted[0]}"
        report.check(name, set(outcomes) == {wanted}, outcomes)
    for lost, most in ((1, 3), (9, 6)):
        equal, gets = rebuild(cluster, SMALL, f"{client.account}/{path}", (lost,))
        report.check(
            f"LRC(6,2,2): [{lost}] is rebuilt, byte-equal, by at most {most} fragment GETs",
            equal == [lost] and gets <= most,
            f"{gets} GETs",
        )


def check_auditor(report, cluster, path):
    """Swift's auditor and swift-object-info, over the code's fragments and over a changed one."""
    auditor = "swift-object-auditor", f"{cluster.folder}/object.conf", "-o"
    log = cluster.run(*auditor)
    aside = [
        name
        for name in os.listdir(f"{cluster.folder}/devices")
        if os.path.exists(f"{cluster.folder}/devices/{name}/quarantined")
    ]
    report.check(
        "the auditor passes all fragments", not aside and "ERROR" not in log, " ".join(aside)
    )
    file = cluster.fragments(LRC, path)[7]
    text = cluster.run("swift-object-info", file, "-d", cluster.folder)
    report.check(
        "swift-object-info takes a fragment as valid",
        "(valid)" in text and "doesn't match" not in text,
    )
    before = contents(file)
    change_byte(file, 5000)
    cluster.run(*auditor, "-d", device_of(file))
    gone = 7 not in cluster.fragments(LRC, path)
    reconstruct(cluster, "-p", partition_of(file))
    files = cluster.fragments(LRC, path)
    report.check(
        "a changed byte: the auditor quarantines the fragment, the reconstructor rebuilds it",
        gone and 7 in files and contents(files[7]) == before,
    )


# ---- Swift with the module: clients


def swift_command(client, folder, *words):
    """Runs Swift's own client: its status, and what it prints."""
    command = [PYTHON, "/usr/bin/swift", "-A", f"http://127.0.0.1:{client.port}/auth/v1.0"]
    command += ["-U", "test:tester", "-K", "testing"]
    return harness.outcome_of(*command, *words, cwd=folder)


def check_command_line(report, client, folder):
    """Swift's own client, with an object in segments."""
    body = payload(3 * MIB + 5, 9)
    Path(folder, "up").write_bytes(body)
    segmented = ("--object-name", "segmented", "-S", str(MIB), "--segment-container", "lrc")
    up, printed = swift_command(client, folder, "upload", "lrc", f"{folder}/up", *segmented)
    down, more = swift_command(
        client, folder, "download", "lrc", "segmented", "-o", f"{folder}/down"
    )
    same = os.path.exists(f"{folder}/down") and contents(f"{folder}/down") == body
    report.check(
        "the swift client uploads in segments, and downloads",
        not up and not down and same,
        "" if same else (printed + more)[-500:],
    )


def check_migration(report, client, folder):
    """Objects are copied into a container of the policy, as README.md says."""
    bodies, mark = {f"o{n}": payload(size, 5) for n, size in enumerate(SIZES)}, "x-object-meta-mark"
    client.call("PUT", "old", {"X-Storage-Policy": ISA.name})
    for name, body in bodies.items():
        client.call("PUT", f"old/{name}", {"Content-Length": str(len(body)), mark: name}, body)
    made, printed = swift_command(
        client, folder, "post", "new", "-H", f"X-Storage-Policy: {LRC.name}"
    )
    copied, more = swift_command(client, folder, "copy", "-d", "/new", "old", *bodies)
    policy = client.call("HEAD", "new")[1].get("x-storage-policy")
    same = [name for name, body in bodies.items() if is_object(client, f"new/{name}", body, name)]
    report.check(
        "swift copy takes a container from isa_l_rs_vand to libphazr, with metadata",
        not made and not copied and policy == LRC.name and same == list(bodies),
        "" if same == list(bodies) else (printed + more)[-500:],
    )


def is_object(client, path, body, mark):
    status, headers, answer = client.get(path)
    return (status, answer, headers.get("x-object-meta-mark")) == (200, body, mark)


def check_large(report, client, size):
    body = payload(size)
    for policy in (LRC, ISA):
        started = time.monotonic()
        client.put(f"{policy.name}/large", body)
        written = time.monotonic()
        status, _, answer = client.get(f"{policy.name}/large")
        read = time.monotonic()
        report.check(
            f"{size // MIB} MiB come back from {policy.ec_type}",
            status == 200 and answer == body,
            f"PUT {size / MIB / (written - started):.0f} MiB/s, "
            f"GET {size / MIB / (read - written):.0f} MiB/s",
        )


PARTS = (swift_without_module, swift_with_module, crashes, other_code, wrong_installations)
PARTS += (handoffs, damage, etags, storm, concurrent_storm, suppression)
PARTS = {part.__name__: part for part in PARTS}


def work(report, folder, options):
    # An OSError here: set TMPDIR to a file system that keeps extended attributes.
    os.setxattr(folder, "user.swift.metadata", bytes(3000))
    build(folder)
    check_versions(report, folder, options.untested)
    for name in options.only or PARTS:
        PARTS[name](report, folder, options)


def arguments():
    parser = harness.parser_of(__doc__)
    parser.add_argument("--only", choices=PARTS, action="append", help="run this part")
    parser.add_argument("--large", type=int, default=100, help="the largest object, in MiB")
    parser.add_argument("--times", type=int, default=30, help="GETs for each set of fragments")
    parser.add_argument("--crashes", type=int, default=10, help="GETs while a server is killed")
    parser.add_argument("--untested", action="store_true", help="take the release of Swift here")
    return parser


if __name__ == "__main__":
    sys.exit(harness.run(arguments(), PACKAGES, work))
