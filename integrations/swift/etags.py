"""Payloads that were changed on disk, which no header of a fragment shows. A proxy that compares
ETags sends no wrong body; one that does not is beside it, and what the comparison takes."""

import statistics
import time

from cluster import Cluster
from damage import Damage, check_gets, check_quarantined
from fragments import ISA, LRC, MIB, REPLICATED, change_byte, get, payload, proxy_beside, running

SIZES = (100_000, 2 * MIB + 13)
HEADER = 80  # bytes of a fragment before its payload
LARGE, ROUNDS = 16 * MIB, 9


class Compares(Cluster):
    """Its proxy compares ETags."""

    of_filter = "compare_etag = yes\n"


def etags(report, folder, options):
    with running(folder, "etags", LRC, ISA) as (cluster, client):
        policies = [REPLICATED, LRC, ISA]
        with proxy_beside(f"{folder}/compares", cluster, policies, Compares) as (_, strict):
            for policy in (LRC, ISA):
                for size in SIZES:
                    check_payloads(report, cluster, client, strict, policy, size)
            check_segments(report, client, strict)
            time_gets(report, client, strict)


def change_payload(files, i):
    """Changes a byte of the first fragment's payload, and no header."""
    change_byte(files[i], HEADER + 100)


def check_payloads(report, cluster, client, strict, policy, size):
    path, body = f"{policy.name}/payload{size}", payload(size)
    client.put(path, body)
    damaged = Damage(cluster, policy, f"{client.account}/{path}", change_payload)
    without = damaged.count_gets(client, path, body)
    outcomes = damaged.count_gets(strict, path, body)
    name = f"{policy.ec_type}, the payloads of two fragments of {size} bytes changed"
    report.note(f"{name}: a proxy that does not compare: {without}")
    check_gets(report, name, outcomes, {"right", "refused"})
    check_quarantined(report, cluster, damaged, name)


def check_segments(report, client, strict):
    """Objects whose ETags are not those of their bodies, and ranges."""
    body = payload(MIB, 3)
    client.put("lrc/first", body)
    client.put("lrc/second", body)
    listed = b'[{"path": "lrc/first"}, {"path": "lrc/second"}]'
    length = {"Content-Length": str(len(listed))}
    client.call("PUT", "lrc/whole?multipart-manifest=put", length, listed)
    outcome = get(strict, "lrc/whole", 2 * body)
    report.check("comparing, an object in segments", outcome[0] == "right", str(outcome))
    status, _, part = strict.get("lrc/first", {"Range": "bytes=1000-1999"})
    report.check("comparing, a range", status == 206 and part == body[1000:2000])


def time_gets(report, client, strict):
    """GETs of a large object by each proxy in turn."""
    body = payload(LARGE)
    client.put("lrc/large", body)
    seconds = {client: [], strict: []}
    for _ in range(ROUNDS):
        for each, its in seconds.items():
            began = time.monotonic()
            assert get(each, "lrc/large", body)[0] == "right"
            its.append(time.monotonic() - began)
    plain, compared = (statistics.median(its) for its in seconds.values())
    report.note(f"16 MiB, median of {ROUNDS}: {plain:.3f} s, comparing {compared:.3f} s")
