"""Objects that are put while devices are away. Some of their fragments go to handoffs, and the
reconstructor moves these to the primary devices."""

import time

from fragments import LRC, RIGHT, are_right, count_gets, device_of, get, is_on_primaries
from fragments import move_to_primaries, outcome_without, payload, replace_devices, running
from fragments import without_devices, without_fragments

SIZE = 100_000
LOST = (
    (),
    (0,),
    (3, 4),
    (6, 14, 15),
    (0, 1, 6, 7),
    (2, 5, 9, 13),
    (12, 13, 14, 15),
    (0, 1, 2, 3),
    (5, 12, 14, 15),
)


def handoffs(report, folder, options):
    with running(folder, "handoffs", LRC) as (cluster, client):
        check_four_away(report, cluster, client)
        check_eight_away(report, cluster, client)
        check_seven_away(report, cluster, client)
        check_replaced(report, cluster, client)


def devices_of(cluster, path, numbers):
    """The primary devices of these fragments of an object."""
    return [device for i, device in sorted(cluster.primaries(LRC, path)) if i in numbers]


def count_on_handoffs(cluster, path):
    return len(cluster.places(LRC, path) - cluster.primaries(LRC, path))


def put_all(client, prefix, count):
    """Puts objects; returns their bodies by their paths."""
    bodies = {f"lrc/{prefix}{n}": payload(SIZE, n) for n in range(count)}
    for path, body in bodies.items():
        client.put(path, body)
    return bodies


def check_four_away(report, cluster, client, objects=8):
    """The four devices are those of data fragments, a local and a global parity of one object."""
    away = devices_of(cluster, f"{client.account}/lrc/four0", (0, 5, 13, 14))
    with without_devices(cluster, away):
        bodies = put_all(client, "four", objects)
    paths = [f"{client.account}/{path}" for path in bodies]
    on_handoffs = [count_on_handoffs(cluster, path) for path in paths]
    report.check(
        f"{objects} objects are put while four devices are away",
        on_handoffs[0] == 4 and all(len(cluster.places(LRC, path)) == 16 for path in paths),
        f"{sum(on_handoffs)} of {16 * objects} fragments on handoffs",
    )
    check_lost(report, cluster, client, bodies)
    found, runs = move_to_primaries(cluster, LRC, paths)
    report.check(
        "the reconstructor moves all fragments from handoffs to their primary devices",
        all(is_on_primaries(cluster, LRC, path) for path in paths),
        f"{found} of {16 * objects}, {runs} runs",
    )
    report.check("these objects come back", are_right(client, bodies))


def check_lost(report, cluster, client, bodies):
    """Lost sets of objects that have fragments on handoffs, which are lost together, too."""
    differ = []
    for path, body in bodies.items():
        whole = f"{client.account}/{path}"
        away = cluster.places(LRC, whole) - cluster.primaries(LRC, whole)
        for lost in (*LOST, tuple(sorted(i for i, _ in away))):
            with without_fragments(cluster, whole, lost):
                outcome = get(client, path, body)
            if outcome != outcome_without(lost):
                differ.append((path, lost, outcome))
    report.check(
        f"{(len(LOST) + 1) * len(bodies)} GETs with fragments on handoffs: right if and only if "
        "the lost set is recoverable",
        not differ,
        str(differ[:5]) if differ else "",
    )


def check_eight_away(report, cluster, client):
    """Twelve devices remain. A PUT is refused, and what was there is unchanged."""
    before, after = payload(SIZE, 1), payload(SIZE, 2)
    client.put("lrc/old", before)
    with without_devices(cluster, [f"d{i}" for i in range(8)]):
        statuses = [
            client.call("PUT", path, {"Content-Length": str(SIZE)}, after)[0]
            for path in ("lrc/new", "lrc/old")
        ]
    absent = client.get("lrc/new")[0]
    old = get(client, "lrc/old", before)
    report.check(
        "eight devices are away: PUTs are refused, and leave objects as they were",
        statuses == [503, 503] and absent == 404 and old == RIGHT,
        f"statuses {statuses}, then {absent} and {old[1]}",
    )


def check_seven_away(report, cluster, client, times=10):
    """Thirteen devices remain, as many as a PUT asks for."""
    path, body = "lrc/thirteen", payload(SIZE, 3)
    whole = f"{client.account}/{path}"
    with without_devices(cluster, [f"d{i}" for i in range(7)]):
        client.put(path, body)
        outcomes = count_gets(client, path, body, times)
    count = len(cluster.places(LRC, whole))
    report.check(
        "seven devices are away: an object is put in 13 fragments, and readable at once",
        count == 13 and set(outcomes) == {RIGHT},
        f"{count} fragments; {outcomes}",
    )
    found, runs = move_to_primaries(cluster, LRC, [whole])
    report.check("it has sixteen fragments later", found == 16, f"{found}, {runs} runs")


def check_replaced(report, cluster, client, objects=60):
    """Three devices are away while objects are put. They come back, and get their fragments. Then
    the three are lost for good."""
    away = devices_of(cluster, f"{client.account}/lrc/sixty0", (2, 7, 12))
    with without_devices(cluster, away):
        bodies = put_all(client, "sixty", objects)
    paths = [f"{client.account}/{path}" for path in bodies]
    on_handoffs = sum(count_on_handoffs(cluster, path) for path in paths)
    found, runs = move_to_primaries(cluster, LRC, paths)
    report.check(
        f"{objects} objects put while three devices are away have all fragments later",
        found == 16 * objects and on_handoffs > 0,
        f"{on_handoffs} were on handoffs; {found} of {16 * objects}, {runs} runs",
    )
    files = cluster.fragments(LRC, paths[0])
    replace_devices(files, [i for i in files if device_of(files[i]) in away])
    lost = 16 * objects - sum(len(cluster.places(LRC, path)) for path in paths)
    started = time.monotonic()
    found, runs = move_to_primaries(cluster, LRC, paths)
    report.check(
        "the three devices are replaced by empty ones: all fragments are rebuilt",
        found == 16 * objects and lost > 0 and are_right(client, bodies),
        f"{lost} rebuilt, {runs} runs, {time.monotonic() - started:.0f} s",
    )
