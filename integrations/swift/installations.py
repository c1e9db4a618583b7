"""Wrong installations, and settings that exchange the codes of two policies."""

import concurrent.futures
import subprocess

from cluster import SECONDS, Client, Cluster, Policy
from fragments import ISA, LRC, MIB, REFUSED, REPLICATED, count_gets, installed, partition_of
from fragments import payload, proxy_beside, python, reconstruct, replace_devices, running

CLIENTS = 4  # services that are started at once


def exchanged():
    """The policies, with the codes of the two exchanged."""
    module = LRC.settings
    one = Policy(LRC.index, LRC.name, ISA.ec_type, **module)
    return [REPLICATED, one, Policy(ISA.index, ISA.name, LRC.ec_type, **module)]


def other_code(report, folder, options):
    """Another proxy and reconstructor have exchanged the codes of two policies."""
    body = payload(5 * MIB + 13)
    with running(folder, "right", LRC, ISA) as (cluster, client):
        for policy in (LRC, ISA):
            client.put(f"{policy.name}/object", body)
        with proxy_beside(f"{folder}/mistaken", cluster, exchanged()) as (other, reader):
            for policy in (LRC, ISA):
                outcomes = count_gets(reader, f"{policy.name}/object", body, 20)
                check_exchanged(report, cluster, other, policy, outcomes)


def check_exchanged(report, cluster, other, policy, outcomes):
    name = f"objects in {policy.ec_type} are refused by a policy of another code"
    report.check(name, set(outcomes) == {REFUSED}, outcomes)
    path = f"{Client.account}/{policy.name}/object"
    files = cluster.fragments(policy, path)
    lost = min(files)  # the other policy's object has lost what was on the device, too
    replace_devices(files, (lost,))
    log = reconstruct(other, "-p", partition_of(files[lost]))
    printed = f"the object is in {policy.ec_type} 12+4" in log
    report.check(
        f"a fragment of {policy.ec_type} is not rebuilt by another code",
        printed and lost not in cluster.fragments(policy, path),
    )


def start(folder, name, program, policy=LRC, **environment):
    """Starts a service that ought to end at once: its status, and what it printed."""
    at, environment = f"{name} {program}".replace(" ", "_"), {**installed(folder), **environment}
    cluster = Cluster(f"{folder}/{at}", [REPLICATED, policy], environment, ("lrcstore",))
    cluster.prepare()
    kind = program.split("-")[1]
    try:
        cluster.spawn(kind, cluster.command(program, f"{cluster.folder}/{kind}.conf"))
        status = cluster.processes[kind].wait(SECONDS)
    except subprocess.TimeoutExpired:
        status = 0
    finally:
        cluster.stop()
    return status, cluster.log(kind)


OTHER_RELEASE = """
import swift
swift.__version__ = "2.31.0"
for name in ("proxy", "reconstructor"):
    try:
        __import__("lrcstore_swift." + name)
    except RuntimeError as error:
        print(error)
"""


def wrong_installations(report, folder, options):
    proxy, server = "swift-proxy-server", "swift-object-server"
    others = ("swift-account-server", "swift-container-server")
    ten = Policy(1, "lrc", LRC.ec_type, 10)
    wrong_type = f"Wrong ec_type {LRC.ec_type} for policy {LRC.name}"
    mistakes = [
        ("no library", each, wrong_type, LRC, {"LD_LIBRARY_PATH": f"{folder}/none"})
        for each in (proxy, server, *others)
    ]
    hidden = {"PYTHONPATH": "", "LRC_CLUSTER_HIDES": "lrcstore_swift"}
    mistakes += [("no module", each, "lrcstore_swift", LRC, hidden) for each in (proxy, server)]
    mistakes += [("10 data fragments", proxy, "pyeclib_c_init ERROR", ten, {})]
    with concurrent.futures.ThreadPoolExecutor(CLIENTS) as pool:
        tasks = [
            pool.submit(start, folder, name, program, policy, **environment)
            for name, program, _, policy, environment in mistakes
        ]
    for (name, program, words, _, _), task in zip(mistakes, tasks):
        status, text = task.result()
        good = status != 0 and words in text
        shown = "" if good else f"status {status}: {text[-500:]}"
        report.check(f"{name}: {program} does not start", good, shown)
    check_other_release(report, folder)


def check_other_release(report, folder):
    text = python(folder, OTHER_RELEASE)
    report.check(
        "another release of Swift is refused",
        text.count("and this is 2.31.0") == 2,
        text.splitlines()[0] if text else "",
    )
