"""Object servers that end while they send."""

import collections
import itertools

from cluster import SERVERS
from fragments import ISA, LRC, MIB, fragments_of_server, get, is_recoverable, payload, running

CRASH_SIZE = 240 * MIB  # more than the sockets hold


def crashes(report, folder, options):
    """One object server after another is killed while a GET is answered."""
    body = payload(CRASH_SIZE)
    with running(folder, "crashes", LRC, ISA) as (cluster, client):
        for policy in (LRC, ISA):
            client.put(f"{policy.name}/large", body)
            check_crashes(report, cluster, client, policy, body, options.crashes)


def check_crashes(report, cluster, client, policy, body, times):
    path, found = f"{policy.name}/large", collections.Counter()
    for number in itertools.islice(itertools.cycle(range(SERVERS)), times):
        lost = fragments_of_server(cluster, policy, f"{client.account}/{path}", number)
        is_served = policy is ISA or is_recoverable(lost)
        outcome, _ = get(client, path, body, lambda: cluster.kill_object_server(number))
        found[lost, is_served, outcome] += 1
        cluster.restart_object_server(number)
    served = {outcome for _, is_served, outcome in found if is_served}
    others = {outcome for _, is_served, outcome in found if not is_served}
    texts = [f"{count} {each[2]} without {list(each[0])}" for each, count in found.items()]
    report.check(
        f"{policy.ec_type}: bodies are whole if a server is killed whose fragments can be spared",
        served <= {"right"} and others <= {"right", "refused"},
        ", ".join(texts),
    )
