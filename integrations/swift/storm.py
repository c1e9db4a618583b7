"""Four clients call the proxy while devices go and come back, and object servers are killed,
stopped and continued. The objects of one are in segments."""

import collections
import glob
import hashlib
import http.client
import json
import os
import random
import signal
import time

import harness
from cluster import DEVICES, SERVERS, Client, Policy
from fragments import ISA, LRC, MIB, REFUSED, RIGHT, SMALL, contents, count_gets, partition_of
from fragments import payload, reconstruct, reconstruct_until, replace_devices, running
from fragments import without_devices, without_fragments

STORM_SECONDS = 60
CLIENTS = 3  # and one with objects in segments
SEGMENTS = 3  # of an object
OBJECTS = 6  # of a client in each policy
SIZES = (1000, 100_000, 300_000, MIB + 13, 2 * MIB + 5)
NODE_TIMEOUT = 5  # seconds, after which the proxy does without an answer of an object server
MARK = "x-object-meta-mark"
DUPLICATED = Policy(
    4, "duplicated", SMALL.ec_type, SMALL.data, **SMALL.settings, ec_duplication_factor=2
)


def impatient(folder, name, small, **settings):
    """A cluster whose proxy does without a server that does not answer soon."""
    return running(folder, name, LRC, ISA, small, node_timeout=NODE_TIMEOUT, **settings)


def storm(report, folder, options):
    with impatient(folder, "storm", SMALL) as (cluster, client):
        check_storm(report, cluster, client, "a storm")


def concurrent_storm(report, folder, options):
    """The proxy asks for two fragments more than needed at once, and a policy stores each twice."""
    settings = {"concurrent_gets": "yes", "concurrency_timeout": 0.5}
    settings["concurrent_ec_extra_requests"] = 2
    with impatient(folder, "concurrent", DUPLICATED, **settings) as (cluster, client):
        check_duplicated(report, cluster, client)
        name = "a storm with concurrent GETs and a duplication factor"
        check_storm(report, cluster, client, name)


# ---- LRC(6,2,2) with a duplication factor of two


def check_duplicated(report, cluster, client, times=10):
    """Groups 0 to 2 with 6, and 3 to 5 with 7; global parities 8 and 9."""
    path, body = "duplicated/object", payload(SIZES[-1])
    client.put(path, body)
    whole = f"{client.account}/{path}"
    folders = cluster.hash_folders(DUPLICATED, whole)
    files = {
        (i, copy): file
        for i in range(DUPLICATED.fragments)
        for copy, file in enumerate(glob.glob(f"{folders}/*#{i}#d.data"))
    }
    name = "LRC(6,2,2) with duplication factor 2"
    report.check(f"{name}: 20 fragments are stored", len(files) == 20, str(len(files)))
    for lost, wanted in (((0, 1, 8), RIGHT), ((0, 1, 2, 6), REFUSED)):
        both = [each for each in files if each[0] in lost]
        with without_fragments(cluster, whole, both, files):
            outcomes = count_gets(client, path, body, times)
        what = f"{name}, lost both of each of {list(lost)}: {wanted[0]}"
        report.check(what, set(outcomes) == {wanted}, outcomes)
    for lost in ([(1, 0)], [(1, 0), (1, 1)], [(9, 0), (9, 1), (3, 0)]):
        check_rebuilt(report, cluster, files, lost, name)


def check_rebuilt(report, cluster, files, lost, name):
    """Fragments, each as its number and which of both it is, are rebuilt on empty devices."""
    saved, partition = replace_devices(files, lost), partition_of(files[lost[0]])

    def are_there():
        return all(os.path.exists(files[each]) for each in lost)

    runs = reconstruct_until(are_there, cluster, "-p", partition)
    there = [each for each in lost if os.path.exists(files[each])]
    report.check(
        f"{name}: lost {[i for i, _ in lost]} are rebuilt, byte-equal",
        there == lost and all(contents(files[each]) == saved[each] for each in lost),
        f"{runs} runs",
    )


# ---- what an object can be


class Known:
    """The versions of an object, each as (size, seed) of its body, or None if it is absent: those
    that it can be now, and all that there ever were. After a call that failed it can be as before
    the call or as after it."""

    def __init__(self):
        self.now, self.ever, self.marks = [None], {None}, set()

    def change(self, versions, is_done):
        self.now = list(dict.fromkeys(versions if is_done else [*self.now, *versions]))
        self.ever.update(versions)

    def judge(self, seen, expected):
        """`right`; `older` if it was so before, which Swift's consistency allows; or `wrong`."""
        if any(seen == expected(version) for version in self.now):
            return "right"
        return "older" if any(seen == expected(version) for version in self.ever) else "wrong"


def body_of(version):
    """Of an object in segments, a version has those of its segments."""
    if isinstance(version[0], tuple):
        return b"".join(map(body_of, version))
    return payload(*version)


def etag_of(version):
    return hashlib.md5(body_of(version)).hexdigest()


def whole_answer(_, answer):
    return answer


def whole_or_absent(version):
    return body_of(version) if version else 404


def parts_of(headers, answer):
    """The bodies of the parts of an answer of several ranges."""
    kind, _, boundary = headers["content-type"].partition("boundary=")
    if not boundary:
        return kind, answer
    parts = answer.split(b"--" + boundary.encode())[1:-1]
    return [part.partition(b"\r\n\r\n")[2].removesuffix(b"\r\n") for part in parts]


# ---- clients


class Caller(harness.Caller):
    """Calls the proxy for objects of its own."""

    REFUSALS = ()  # of a read, besides the statuses from 500 on

    def __init__(self, cluster, number):
        super().__init__()
        self.client, self.number = Client(cluster.proxy_port), number
        self.policies = cluster.policies[1:]
        self.dice, self.known = random.Random(), collections.defaultdict(Known)
        self.found = collections.Counter()

    def kinds_of_calls(self):
        changes = [self.put, self.put, self.copy, self.delete, self.post]
        reads = [self.get, self.get, self.head, self.range, self.ranges, self.if_match]
        return changes, reads

    def step(self):
        self.dice.choice(self.dice.choice(self.kinds_of_calls()))(self.draw())

    def draw(self):
        policy = self.dice.choice(self.policies)
        return f"{policy.name}/c{self.number}_{self.dice.randrange(OBJECTS)}"

    def call(self, method, path, headers=(), body=None):
        """Status, headers and body, as of Client.call; status 599 if the proxy ended the call."""
        try:
            return self.client.call(method, path, headers, body)
        except (OSError, http.client.HTTPException):
            return 599, {}, None

    def count(self, what, path, outcome, seen=""):
        self.found[outcome] += 1
        if outcome == "wrong":
            self.wrong.append(f"{what} {path}: {seen}")

    # ---- changes

    def draw_version(self):
        return self.dice.choice(SIZES), self.dice.randrange(1 << 30)

    def put(self, path):
        version = self.draw_version()
        self.send(path, version, body_of(version))

    def send(self, path, version, body=b"", query="", **headers):
        """Puts what makes this version of the object. Whether it is done."""
        mark = str(self.dice.randrange(1 << 30))
        self.known[path].marks.add(mark)
        headers |= {"Content-Length": str(len(body)), MARK: mark}
        status = self.call("PUT", path + query, headers, body)[0]
        self.changed("PUT", path, [version], status, 201)
        return status == 201

    def delete(self, path):
        status = self.call("DELETE", path)[0]
        is_absent = status == 404 and self.known[path].now == [None]
        self.changed("DELETE", path, [None], 204 if is_absent else status, 204)

    def post(self, path):
        mark = str(self.dice.randrange(1 << 30))
        self.known[path].marks.add(mark)
        status = self.call("POST", path, {MARK: mark})[0]
        self.changed("POST", path, [], status, 202)

    def copy(self, path):
        """To a policy that is drawn. The new object's ETag says which version was copied."""
        to = self.draw()
        status, headers, _ = self.call("COPY", path, {"Destination": to, "Content-Length": "0"})
        source, target = self.known[path], self.known[to]
        target.marks |= source.marks
        versions = [each for each in source.now if each]
        if status == 201:
            etag = headers["etag"].strip('"')
            versions = [each for each in source.ever if each and etag_of(each) == etag]
            if not versions:
                self.count("COPY", path, "wrong", f"ETag {etag}")
        self.changed("COPY", to, versions, status, 201)

    def changed(self, method, path, versions, status, done):
        """After a call that makes one of the versions of an object, if it is done. An object that
        is absent is neither copied nor changed."""
        if versions and (method == "DELETE" or status != 404):
            self.known[path].change(versions, status == done)
        outcomes = {done: "done", 404: "absent"}
        self.count(method, path, outcomes.get(status, f"refused ({method} {status})"))

    # ---- reads

    def read(self, method, path, headers, look, expected):
        """Compares what `look` makes of an answer with what is expected of each version."""
        status, found, answer = self.call(method, path, headers)
        known, mark = self.known[path], found.get(MARK)
        if status >= 500 or status in self.REFUSALS:
            outcome = f"refused ({method} {status})"
        elif answer is None:
            outcome = self.judge_cut(known, expected)
        else:
            seen = look(found, answer) if status in (200, 206) else status
            outcome = known.judge(seen, expected)
        if mark is not None and mark not in known.marks:
            outcome = "wrong"
        if outcome == "older":
            outcome = f"older ({method} {status})"
        seen = f"{len(answer or b'')} bytes, status {status}, mark {mark}, asked {dict(headers)}"
        self.count(method, path, outcome, seen)

    def judge_cut(self, known, expected):
        """Of a body that ended early: `wrong` if no version begins so, else `cut`."""
        wholes = [each for each in map(expected, known.ever) if isinstance(each, bytes)]
        is_prefix = any(each.startswith(self.client.partial) for each in wholes)
        return "wrong" if wholes and not is_prefix else "cut"

    def get(self, path):
        self.read("GET", path, {}, whole_answer, whole_or_absent)

    def head(self, path):
        def look(found, _):
            return found["content-length"], found["etag"].strip('"')

        def expected(version):
            return (str(version[0]), etag_of(version)) if version else 404

        self.read("HEAD", path, {}, look, expected)

    def range(self, path):
        """A range that begins in every version, and ends in it or after it."""
        first = self.dice.randrange(SIZES[0])
        last = self.dice.randrange(first, SIZES[-1])

        def expected(version):
            return body_of(version)[first : last + 1] if version else 404

        self.read("GET", path, {"Range": f"bytes={first}-{last}"}, whole_answer, expected)

    def ranges(self, path):
        """Two ranges that every version has."""
        middle = self.dice.randrange(2, SIZES[0] - 2)

        def expected(version):
            body = version and body_of(version)
            return [body[1:middle], body[middle + 1 :]] if version else 404

        header = {"Range": f"bytes=1-{middle - 1},{middle + 1}-"}
        self.read("GET", path, header, parts_of, expected)

    def if_match(self, path):
        """With the ETag of the newest version, or of none."""
        newest = self.known[path].now[-1]
        etag = etag_of(newest) if newest and self.dice.randrange(3) else "0" * 32

        def expected(version):
            if version is None:
                return 404
            return body_of(version) if etag_of(version) == etag else 412

        self.read("GET", path, {"If-Match": f'"{etag}"'}, whole_answer, expected)


class LargeCaller(Caller):
    """Its objects are manifests of segments, static or dynamic."""

    REFUSALS = (409,)  # a segment can't be read

    def kinds_of_calls(self):
        changes = [self.put_static, self.put_dynamic, self.delete]
        return changes, [self.get, self.get, self.range]

    def put_segments(self, path):
        """New segments, each as its path and version. None if one of them is refused."""
        prefix = f"{path}_{self.dice.randrange(1 << 30)}/"
        segments = {f"{prefix}{number}": self.draw_version() for number in range(SEGMENTS)}
        for segment, version in segments.items():
            if not self.send(segment, version, body_of(version)):
                return prefix, None
        return prefix, segments

    def put_static(self, path):
        """Whether it is done."""
        _, segments = self.put_segments(path)
        if not segments:
            return False
        manifest = [
            {"path": f"/{segment}", "etag": etag_of(version), "size_bytes": version[0]}
            for segment, version in segments.items()
        ]
        body = json.dumps(manifest).encode()
        return self.send(path, tuple(segments.values()), body, "?multipart-manifest=put")

    def put_dynamic(self, path):
        """Once the segments are listed, since the object is what the listing says. Whether it is
        done."""
        prefix, segments = self.put_segments(path)
        if not segments or not self.is_listed(prefix, segments):
            return False
        return self.send(path, tuple(segments.values()), **{"X-Object-Manifest": prefix})

    def is_listed(self, prefix, segments):
        container, _, name = prefix.partition("/")
        status, _, listing = self.call("GET", f"{container}?prefix={name}")
        names = (listing or b"").decode().split()
        return status == 200 and [f"{container}/{each}" for each in names] == list(segments)


# ---- the storm


def disturb(cluster, dice):
    """One to three devices are away for some seconds, and an object server is killed or stopped."""
    number, what = dice.randrange(SERVERS), dice.choice(["kill", "stop", "leave"])
    devices = dice.sample(range(DEVICES), dice.randrange(1, 4))
    with without_devices(cluster, [f"d{i}" for i in devices]):
        if what == "kill":
            cluster.kill_object_server(number)
        if what == "stop":
            cluster.signal_object_server(number, signal.SIGSTOP)
        time.sleep(dice.uniform(0.5, 1.5 * NODE_TIMEOUT))
        if what == "stop":
            cluster.signal_object_server(number, signal.SIGCONT)
        if what == "kill":
            cluster.restart_object_server(number)
    time.sleep(dice.uniform(0, 2))
    return what


def check_large(report, cluster, client, most=10):
    """Both kinds of objects in segments, before the storm. A loaded machine may refuse some."""
    caller, good = LargeCaller(cluster, CLIENTS), []
    kinds = {caller.put_static: "x-static-large-object", caller.put_dynamic: "x-object-manifest"}
    for policy in caller.policies:
        for put, header in kinds.items():
            path = f"{policy.name}/{header}"
            is_done = any(put(path) for _ in range(most))
            is_right = is_done and is_as_known(client, path, caller.known[path])
            good.append(is_right and header in client.call("HEAD", path)[1])
    report.check(f"{len(good)} objects in segments, static and dynamic, come back", all(good))


def check_storm(report, cluster, client, name):
    check_large(report, cluster, client)
    callers = [Caller(cluster, number) for number in range(CLIENTS)]
    callers.append(LargeCaller(cluster, CLIENTS))
    cluster.spawn_reconstructor()
    dice = random.Random()
    try:
        events = harness.storm(callers, STORM_SECONDS, lambda: disturb(cluster, dice))
    finally:
        has_run = cluster.processes["reconstructor"].poll() is None
        cluster.kill("reconstructor")
    report_storm(report, callers, name, events, has_run)
    check_after_storm(report, cluster, client, callers, name)


def report_storm(report, callers, name, events, has_run):
    found = sum((caller.found for caller in callers), collections.Counter())
    wrong = [text for caller in callers for text in caller.wrong]
    report.check(
        f"{name}: no wrong byte in {sum(caller.calls for caller in callers)} calls, "
        f"{sum(events.values())} times devices away, {events['kill']} servers killed, "
        f"{events['stop']} stopped",
        not wrong and has_run and found["right"] > 0 and found["done"] > 0,
        "; ".join(wrong[:3]) or ", ".join(f"{found[each]} {each}" for each in sorted(found)),
    )


def check_after_storm(report, cluster, client, callers, name, most=10):
    """Afterwards the reconstructor runs until all fragments are on their primary devices."""
    known = {path: each for caller in callers for path, each in caller.known.items()}
    policies = {policy.name: policy for policy in cluster.policies}

    def lacking():
        return [path for path in known if lacks(cluster, policies, client, path)]

    reconstruct(cluster)
    runs = 1 + reconstruct_until(lambda: not lacking(), cluster, most=most - 1)
    differ = [path for path in known if not is_as_known(client, path, known[path])]
    there = sum(each.now != [None] for each in known.values())
    lack = lacking()
    shown = f"; lack fragments: {lack}; differ: {differ}" if lack or differ else ""
    report.check(
        f"after {name}: {there} objects are equal, those deleted absent, and all fragments on "
        "their primary devices",
        not lack and not differ,
        f"{runs} runs{shown}",
    )


def lacks(cluster, policies, client, path):
    """Whether fragments of the object's newest version are missing on their primary devices."""
    policy, whole = policies[path.partition("/")[0]], f"{client.account}/{path}"
    places = cluster.places(policy, whole)
    return bool(places) and not places >= cluster.primaries(policy, whole)


def is_as_known(client, path, known, most=10):
    """Asks again after a refusal, as a loaded machine may be slower than the time-out."""
    for _ in range(most):
        status, _, answer = client.get(path)
        if status < 500 and answer is not None:
            break
        time.sleep(NODE_TIMEOUT)
    return known.judge(answer if status == 200 else status, whole_or_absent) == "right"
