"""A proxy that leaves out a server for some time after an error."""

import time

from cluster import DEVICES, SECONDS, SERVERS
from fragments import LRC, MIB, RIGHT, count_gets, fragments_of_server, is_recoverable, payload
from fragments import running

INTERVAL = 45  # seconds for which the proxy leaves out a device after one error


def suppression(report, folder, options):
    settings = {"error_suppression_interval": INTERVAL, "error_suppression_limit": 0}
    with running(folder, "suppression", LRC, **settings) as (cluster, client):
        check_left_out(report, cluster, client)


def count_asked(cluster, number):
    """How many GETs of the proxy an object server has answered."""
    devices = range(number, DEVICES, SERVERS)
    return sum(cluster.count_logged("object", '"proxy-server', f'"GET /d{i}/') for i in devices)


def check_left_out(report, cluster, client):
    """A server is killed, fails, and is started again at once."""
    path, body = "lrc/object", payload(MIB)
    client.put(path, body)
    number = next(
        each
        for each in range(SERVERS)
        if is_recoverable(fragments_of_server(cluster, LRC, f"{client.account}/{path}", each))
    )
    cluster.kill_object_server(number)
    started = time.monotonic()
    outcomes = count_gets(client, path, body, 30)
    cluster.restart_object_server(number)
    before = count_asked(cluster, number)
    while count_asked(cluster, number) == before and time.monotonic() < started + SECONDS:
        outcomes += count_gets(client, path, body, 1)
        time.sleep(0.5)
    waited = time.monotonic() - started
    report.check(
        f"a server that failed is asked again after {INTERVAL} seconds, and all GETs are right",
        set(outcomes) == {RIGHT} and INTERVAL <= waited < SECONDS,
        f"{outcomes}; asked again after {waited:.0f} s",
    )
