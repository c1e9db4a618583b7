"""What the modules for Swift decide, shown without Swift: stand-ins have what the modules call.

    pytest integrations/swift/test_module.py

That Swift calls the modules so is shown by cluster_test.py. The tests run for each release that
the modules take."""

import contextlib
import hashlib
import importlib
import itertools
import json
import random
import struct
import sys
import types
from pathlib import Path
from unittest import mock

import pytest

sys.dont_write_bytecode = True
HERE = Path(__file__).parent
sys.path.insert(0, str(HERE))
GROUPS = ((0, 1, 2, 3, 4, 5, 12), (6, 7, 8, 9, 10, 11, 13))
INDEX = "X-Object-Sysmeta-Ec-Frag-Index"
SCHEME = "X-Object-Sysmeta-Ec-Scheme"
OTHERS = "eventlet", "lrcstore_swift", "pyeclib", "swift"  # packages that a release has or needs
MOVED = "1700000000.00000_0000000000000001"  # the time of an object that Swift moved


class CodeError(Exception):
    pass


class FileError(Exception):
    pass


def rank_of(fragments):
    """Of LRC(12,2,2): a group counts up to six, and the global parities as they are."""
    groups = sum(min(6, sum(i in group for i in set(fragments))) for group in GROUPS)
    return min(12, groups + sum(i > 13 for i in set(fragments)))


class Driver:
    """What PyECLib knows of the code."""

    def fragments_needed(self, wanted, unavailable):
        read = [i for i in range(16) if i not in {*wanted, *unavailable}]
        if rank_of([*read, *wanted]) > rank_of(read):
            raise CodeError()
        mine = {i for group in GROUPS if set(wanted) & set(group) for i in group}
        for i in sorted(read, key=mine.__contains__):
            fewer = [j for j in read if j != i]
            if rank_of([*fewer, *wanted]) == rank_of(fewer):
                read = fewer
        return read  # of the wanted ones' groups alone, if that will do

    def reconstruct(self, fragments, wanted):
        return [sorted(fragments)]


class Policy:
    name, ec_ndata, ec_n_unique_fragments, pyeclib_driver = "a policy", 12, 16, Driver()

    def __init__(self, ec_type="libphazr"):
        self.ec_type, self.ec_scheme_description = ec_type, f"{ec_type} 12+4"
        self.object_ring = self

    def __int__(self):
        return 1

    def get_backend_index(self, index):
        return index % 16

    def get_part_nodes(self, partition):
        return [{"id": i, "index": i, "backend_index": i} for i in range(16)]


LRC, ISA = Policy(), Policy("isa_l_rs_vand")


# ---- stand-ins for the proxy's classes. A node is the number of its fragment.


class Response:
    def __init__(self, fragment):
        self.fragment, self.is_open = fragment, True

    def getheader(self, name):
        return None if self.fragment is None else {INDEX: str(self.fragment)}[name]


class Range:
    def __init__(self, text):
        parts = [part.split("-") for part in text[len("bytes=") :].split(",")]
        self.ranges = [tuple(int(it) if it else None for it in part) for part in parts]


def close_swift_conn(response):
    response.is_open = False


class Getter:
    def __init__(self, fragment, scheme=LRC.ec_scheme_description):
        self.last_headers = {INDEX: str(fragment), SCHEME: scheme}
        self.backend_headers = {"Range": "bytes=0-9"}
        self.source, self.answer = types.SimpleNamespace(resp=Response(fragment)), None
        self.partition = 0

    def _make_node_request(self, node, *words):
        assert not hasattr(self, "lrc_readers") or self.lrc_readers.is_searching
        node = node["index"] if isinstance(node, dict) else node
        self.answer.asked.append(node)
        if node in self.answer.gone:
            return None
        self.answer.responses.append(Response(node))
        return self.answer.responses[-1]

    def _find_source(self):
        for node in self.answer:
            response = self._make_node_request(node, 5)
            if response:
                self.source.resp = response
                return True
        return False


class Bucket:
    def __init__(self, policy, fragments):
        self.policy = policy
        self.gets = {i: [(Getter(i), f"body {i}")] for i in fragments}

    @property
    def shortfall(self):
        return max(0, 12 - len(self.gets))


class Answer:
    """Of a proxy. It gives nodes to ask: those that it provides before its own."""

    def __init__(self, bucket, nodes=(), gone=()):
        self.policy, self.bucket, self.nodes = bucket.policy, bucket, list(nodes)
        self.gone, self.asked, self.responses, self.added = gone, [], [], []
        for responses in bucket.gets.values():
            responses[0][0].answer = self

    def add_response(self, getter, body):
        self.added.append(getter)

    def choose_best_bucket(self):
        return self.bucket

    def provide_alternate_node(self):
        return None

    def __iter__(self):
        return self

    def __next__(self):
        node = self.provide_alternate_node()
        if node is None and not self.nodes:
            raise StopIteration
        return self.nodes.pop(0) if node is None else node


# ---- stand-ins for the reconstructor's


def timestamp(text):
    return types.SimpleNamespace(internal=text, normal=text.split("_")[0])


class Pile(list):
    def __init__(self, size):
        super().__init__()

    def spawn(self, call, *words):
        self.append(call(*words))


class Reconstructor:
    """It is told the fragments that can be had."""

    headers = {"User-Agent": "obj-reconstructor"}
    logger = types.SimpleNamespace(error=lambda *words: None)

    def __init__(self, there):
        self.there, self.asked, self.sent = there, [], []

    def _get_response(self, node, policy, partition, path, headers):
        assert node["index"] not in self.asked
        self.asked.append(node["index"])
        self.sent.append(headers)
        return node["index"] if node["index"] in self.there else None

    def _handle_fragment_response(self, node, policy, partition, index, path, *words):
        buckets, _, response = words
        if response is not None:
            buckets.only.useful_responses[response] = response

    def _make_fragment_requests(self, job, node, df, buckets, errors):
        self.asked.append("all")
        return types.SimpleNamespace(useful_responses={i: i for i in sorted(self.there)[:12]})

    def _reconstruct(self, policy, fragments, index):
        return "of all"


class Buckets(dict):
    """One for each time; here one for all times."""

    def __init__(self):
        super().__init__()
        self.clear()

    def clear(self):
        self.only = types.SimpleNamespace(useful_responses={})

    def __getitem__(self, time):
        return self.only


def members_of(version):
    """What the modules import of others."""
    return {
        "swift": {"__version__": version},
        "pyeclib.ec_iface": {"ECDriverError": CodeError},
        "eventlet": {"sleep": lambda seconds: None},
        "swift.common.swob": {"Range": Range},
        "swift.proxy.controllers.base": {"close_swift_conn": close_swift_conn},
        "swift.proxy.controllers.obj": {
            "ECFragGetter": Getter,
            "ECGetResponseBucket": Bucket,
            "ECGetResponseCollection": Answer,
        },
        "swift.common.exceptions": {"DiskFileError": FileError},
        "swift.common.utils": {
            "GreenAsyncPile": Pile,
            "Timestamp": timestamp,
            "config_true_value": {"yes": True, "no": False}.__getitem__,
            "get_logger": lambda settings, log_route: Log(settings),
        },
        "swift.obj.diskfile": {"ECDiskFileManager": object},
        "swift.obj.reconstructor": {"ObjectReconstructor": Reconstructor},
    }


@contextlib.contextmanager
def stand_ins(version, *names):
    """What the modules import of others is there inside the block, or of it these modules alone.
    Afterwards the stand-ins are as they were. Before 2.35, the search had another name."""
    members = members_of(version)
    before = {each: dict(vars(each)) for each in (Getter, Bucket, Answer, Reconstructor)}
    with mock.patch.dict(sys.modules):
        for name in [it for it in sys.modules if it.split(".")[0] in OTHERS]:
            del sys.modules[name]
        for name in names or members:
            for end in itertools.accumulate(name.split("."), "{}.{}".format):
                sys.modules.setdefault(end, types.ModuleType(end))
            vars(sys.modules[name]).update(members[name])
        if version.startswith("2.30."):
            Getter._dig_for_source_and_node = Getter._find_source
            del Getter._find_source
        try:
            yield
        finally:
            for each, its in before.items():
                for name in set(vars(each)) - set(its):
                    delattr(each, name)
                for name in [it for it in its if vars(each).get(it) is not its[it]]:
                    setattr(each, name, its[name])


with stand_ins("0", "swift", "pyeclib.ec_iface"):
    TESTED = importlib.import_module("lrcstore_swift").TESTED


@pytest.fixture(scope="module", autouse=True, params=[f"{series}.1" for series in TESTED])
def release(request):
    with stand_ins(request.param):
        importlib.import_module("lrcstore_swift.reconstructor")
        proxy = importlib.import_module("lrcstore_swift.proxy")
        assert proxy.filter_factory({})("the next one") == "the next one"
        yield


# ---- the proxy


def search(getter):
    """Calls the search of the getter's class, by the name that it has."""
    return getattr(getter, "_find_source", None) or getter._dig_for_source_and_node


def test_shortfall():
    assert Bucket(LRC, range(12)).shortfall == 0
    assert Bucket(LRC, range(11)).shortfall == 1
    assert Bucket(LRC, {*range(13)} - {11}).shortfall == 1
    assert Bucket(LRC, {*range(14)} - {11}).shortfall == 0
    assert Bucket(ISA, {*range(13)} - {11}).shortfall == 0


def test_other_code():
    for policy, scheme, is_added in (
        (LRC, LRC.ec_scheme_description, True),
        (LRC, None, True),
        (LRC, ISA.ec_scheme_description, False),
        (ISA, LRC.ec_scheme_description, False),
        (ISA, "liberasurecode_rs_vand 12+4", True),
    ):
        answer = Answer(Bucket(policy, ()))
        try:
            answer.add_response(Getter(0, scheme), None)
        except ValueError as error:
            assert "set the policy in swift.conf" in str(error)
        assert bool(answer.added) == is_added, (policy.ec_type, scheme)


def test_chosen():
    """Of the responses that came, those are taken that the others do not determine."""
    came = [6, 0, 1, 2, 3, 4, 5, 12, 7, 8, 9, 10, 14]
    bucket = Bucket(LRC, came)
    getters = {i: bucket.gets[i][0][0] for i in came}
    assert Answer(bucket).choose_best_bucket() is bucket
    assert list(bucket.gets) == [i for i in came if i != 12]
    assert [i for i in came if not getters[i].source.resp.is_open] == [12]
    for policy, fragments in ((ISA, came), (LRC, range(11)), (LRC, [None]), (LRC, [])):
        bucket = Bucket(policy, fragments)
        Answer(bucket).choose_best_bucket()
        assert list(bucket.gets) == list(fragments)


def crash(came, gone, order, early, places):
    """Whether an answer goes on after servers are gone with these fragments, and what its getters
    then read at each of four places. They come to their places in some order, some of them early,
    before the first asks other nodes."""
    bucket = Bucket(LRC, came)
    getters = {i: bucket.gets[i][0][0] for i in came}
    answer = Answer(bucket, [i for i in order if i not in came], gone)
    chosen = list(answer.choose_best_bucket().gets)
    failed = [i for i in order if i in gone and i in chosen]
    for i in failed:
        getters[i].backend_headers["Range"] = f"bytes={places[i]}-9"
    is_whole = search_all([getters[i] for i in failed], early)
    ends = {i: getters[i].source.resp for i in chosen}
    assert all(it.is_open == (it in ends.values()) for it in answer.responses)
    read = [
        {ends[i].fragment if i in failed and places[i] <= at else i for i in chosen}
        for at in range(4)
    ]
    return is_whole, read


def search_all(getters, early):
    """Whether all of them find something. Of those that have failed, the next one searches."""
    found = []
    for getter in getters[:early]:
        getter.lrc_readers.fail(getter)
    while getters:
        readers = getters[0].lrc_readers
        waiting = [it for it in getters if it in readers.waiting]
        getter = next((it for it in waiting if readers.is_next(it)), getters[0])
        getters.remove(getter)
        found.append(search(getter)())
    return all(found)


def test_crashes():
    """A body is whole only if what is read determines the data, at each place. It is if the
    remaining fragments determine the data, and all getters fail before one searches."""
    draw, wholes = random.Random(1), []
    lost = [set(some) for n in (2, 3, 4) for some in itertools.combinations(range(16), n)]
    for gone, early in zip(draw.sample(lost, 160), itertools.cycle(range(5))):
        order, came = draw.sample(range(16), 16), draw.sample(range(16), 12)
        came += [i for i in draw.sample(range(16), 16) if i not in came][: rank_of(came) < 12]
        places = [draw.randrange(4) for _ in range(16)]
        is_whole, read = crash(came, gone, order, early, places)
        is_recoverable = rank_of({*range(16)} - gone) == 12
        assert is_whole == is_recoverable or (is_recoverable and early < 4), (gone, came, order)
        if is_whole:
            assert all(rank_of(some) == 12 for some in read) and not gone & read[3]
        wholes.append(is_whole)
    assert wholes.count(True) > 130 and wholes.count(False) > 10, wholes.count(True)


def test_turns():
    """One getter searches at a time, those first that have come less far."""
    bucket = Bucket(LRC, [0, 1, 2, 3, 4, 5, 6, 7, 8, 9, 10, 14])
    Answer(bucket, [12, 11, 13, 15]).choose_best_bucket()
    far, near, last = (bucket.gets[i][0][0] for i in (0, 1, 14))
    far.backend_headers["Range"], near.backend_headers["Range"] = "bytes=7-9,20-29", "bytes=3-9,1-9"
    last.backend_headers["Range"] = "bytes=1-9"  # of the second of two ranges
    readers = far.lrc_readers
    for getter, is_next in ((last, {last}), (far, {far}), (near, {near})):
        readers.fail(getter)
        assert {it for it in (far, near, last) if readers.is_next(it)} == is_next
    readers.is_searching = True
    assert not readers.is_next(near)
    readers.is_searching = False
    assert search(near)() and readers.is_next(far) and search(far)() and search(last)()
    assert not readers.waiting and not readers.is_searching


def test_failure_in_a_search():
    """What was refused helps after another getter has failed, while the first still searches."""
    bucket = Bucket(LRC, range(12))
    first, second = (bucket.gets[i][0][0] for i in (6, 0))

    class Gone:
        def __contains__(self, node):
            if node == 13:
                second.lrc_readers.fail(second)
            return node > 12

    answer = Answer(bucket, [], Gone())
    answer.choose_best_bucket()
    assert search(first)() and answer.asked == [12, 13, 14, 15, 12]


def test_refused_node():
    """A fragment that the others determine is refused, and its node is asked again by the next
    getter. Getters of other policies take whatever comes."""
    bucket = Bucket(LRC, range(12))
    answer = Answer(bucket, [], {14, 15})
    answer.choose_best_bucket()
    first, second = (bucket.gets[i][0][0] for i in (6, 0))
    second.backend_headers["Range"] = "bytes=5-9"  # it has come further
    second.lrc_readers.fail(second)
    assert search(first)() and first.source.resp.fragment == 13
    assert search(second)() and second.source.resp.fragment == 12
    assert answer.asked == [12, 13, 14, 15, 12]
    bucket = Bucket(ISA, range(12))
    answer = Answer(bucket, [12])
    answer.choose_best_bucket()
    first = bucket.gets[6][0][0]
    assert search(first)() and first.source.resp.fragment == 12
    bucket = Bucket(LRC, range(12))
    Answer(bucket).choose_best_bucket()
    bucket.gets[0][0][0].lrc_readers.is_searching = True
    assert bucket.gets[0][0][0]._make_node_request(None).fragment is None  # as of a status 416


# ---- the reconstructor


class File:
    def __init__(self, scheme=LRC.ec_scheme_description):
        self.scheme = scheme

    def get_datafile_metadata(self):
        return {"name": "/a/c/o", "X-Timestamp": MOVED, SCHEME: self.scheme}


def asked_for(lost, there, policy=LRC):
    """Whom the reconstructor asks for a lost fragment, and which responses it goes on with."""
    it, node = Reconstructor(there), policy.get_part_nodes(0)[lost]
    job = {"policy": policy, "partition": 0}
    file = File(policy.ec_scheme_description)
    bucket = it._make_fragment_requests(job, node, file, Buckets(), {})
    for each in it.sent:
        (wanted,) = json.loads(each["X-Backend-Fragment-Preferences"])
        assert wanted == {"timestamp": MOVED, "exclude": []}
    return it.asked, bucket and sorted(bucket.useful_responses)


def test_reads():
    others = {*range(16)} - {3}
    assert asked_for(3, others) == ([0, 1, 2, 4, 5, 12], [0, 1, 2, 4, 5, 12])
    asked, read = asked_for(3, others - {4})
    assert asked[:6] == [0, 1, 2, 4, 5, 12] and "all" not in asked and len(read) == 12
    assert rank_of([*read, 3]) == rank_of(read) and 4 not in read
    asked, read = asked_for(3, others - {4, 15})
    assert {4, 15} < set(asked) and "all" not in asked and rank_of([*read, 3]) == rank_of(read)
    asked, read = asked_for(3, others - {4, 5, 0})
    assert asked[-1] == "all" and read is None
    assert asked_for(3, others, ISA)[0] == ["all"]


def test_other_code_is_not_rebuilt():
    node, job = LRC.get_part_nodes(0)[3], {"policy": LRC, "partition": 0}
    it, file = Reconstructor({*range(16)}), File(ISA.ec_scheme_description)
    with pytest.raises(FileError):
        it._make_fragment_requests(job, node, file, Buckets(), {})
    assert not it.asked


def fragment(number):
    return struct.pack("<I", number) + bytes(76) + b"payload"


def test_rebuilt():
    """Stand-ins make up the number of fragments, if the code does not read them."""
    it, six = Reconstructor(()), [0, 1, 2, 4, 5, 12]
    given = it._reconstruct(LRC, [fragment(i) for i in six], 3)
    numbers = {struct.unpack_from("<I", each)[0]: each[80:] for each in given}
    assert len(numbers) == 12 and 3 not in numbers
    assert all(numbers[i] == (b"payload" if i in six else bytes(7)) for i in numbers)
    with pytest.raises(CodeError, match="ask for all of them"):
        it._reconstruct(LRC, [fragment(i) for i in six[1:]], 3)
    assert it._reconstruct(ISA, [], 3) == "of all"


# ---- bodies and their ETags


class Log(list):
    """What is logged, with the settings of the logger."""

    def __init__(self, settings):
        super().__init__()
        self.settings = settings

    def error(self, text, *words):
        self.append(text % words)


class Body(list):
    """Pieces of a body, of which a server has to close each."""

    is_open = True

    def close(self):
        self.is_open = False


def compared(pieces, path="/v1/a/c/o", method="GET", status="200 OK", **headers):
    """The pieces that a client gets by the filter with `compare_etag`; and what was logged."""
    from lrcstore_swift import proxy
    from lrcstore_swift.etag import WrongBody

    body, seen, got = Body(pieces), [], []

    def app(environ, start_response):
        start_response(status, [(it.replace("_", "-"), value) for it, value in headers.items()])
        return body

    it = proxy.filter_factory({"log": "here"}, compare_etag="yes")(app)
    assert it.logger.settings == {"log": "here", "compare_etag": "yes"}
    environ = {"REQUEST_METHOD": method, "PATH_INFO": path}
    answer = it(environ, lambda *words: seen.append(words))
    assert seen[0][0] == status
    try:
        for piece in answer:
            got.append(piece)
    except WrongBody:
        got.append(None)
    answer.close()
    assert not body.is_open
    return got, it.logger


def test_etags():
    pieces = [b"one", b"two", b"three"]
    etag = hashlib.md5(b"onetwothree").hexdigest()
    for name, value in (("ETag", etag), ("Etag", f'"{etag}"')):
        assert compared(pieces, **{name: value}) == (pieces, [])
    assert compared([], ETag=hashlib.md5(b"").hexdigest()) == ([], [])
    wrong = [b"one", b"two", b"thr?e"]
    got, log = compared(wrong, ETag=etag)
    assert got == [b"one", b"two", None], "the last piece of a wrong body is not sent"
    assert log[0].startswith(f"/v1/a/c/o: the body has not the MD5 {etag}") and len(log) == 1
    assert compared(wrong[2:], ETag=etag)[0] == [None]


def test_etags_of_others():
    """Where the ETag is not that of the body, or nothing of the kind, the body is as it is."""
    etag = hashlib.md5(b"").hexdigest()
    for words in (
        {"method": "PUT"},
        {"path": "/v1/a/c"},
        {"path": "/v1/a/c/"},
        {"path": "/info"},
        {"status": "206 Partial Content"},
        {"X_Static_Large_Object": "True"},
        {"X_Object_Manifest": "c/o"},
        {"ETag": f"{etag}-2"},
    ):
        assert compared([b"one"], **{"ETag": etag, **words}) == ([b"one"], []), words
    assert compared([b"one"]) == ([b"one"], [])


def test_closed():
    """A client that goes away before the body came."""
    from lrcstore_swift.etag import Compared

    body = Body([b"one"])
    Compared(body, None, None).close()
    assert not body.is_open
    plain = Compared(iter([b"one"]), lambda: None, None)
    assert list(plain) == [b"one"] and plain.close() is None


# ---- releases


LISTED = f"{', '.join(TESTED[:-1])} and {TESTED[-1]}"


@pytest.mark.parametrize("module", ["proxy", "reconstructor"])
@pytest.mark.parametrize("version", ["2.31.0", "2.3.0", "2.300.1", "3.30.0"])
def test_other_release(version, module):
    """Each module refuses another release before it imports anything of it."""
    with stand_ins(version, "swift", "pyeclib.ec_iface"):
        with pytest.raises(RuntimeError) as error:
            importlib.import_module(f"lrcstore_swift.{module}")
    assert f"tested with Swift {LISTED}, and this is {version}: " in str(error.value)


def series_in_control(tested):
    """The dependencies that Swift of these series fulfils, and of no other. Debian's `2.31~` is
    before each package of 2.31, and before those of its candidates."""
    ends = [f"2.{int(series.split('.')[1]) + 1}~" for series in tested]
    gaps = [
        f"python3-swift (<< {end}) | python3-swift (>= {series})"
        for end, series in zip(ends, tested[1:])
    ]
    first, last = f"python3-swift (>= {tested[0]})", f"python3-swift (<< {ends[-1]})"
    return ", ".join([first, *gaps, last])


def test_documents():
    """They list the tested releases."""
    for name, words in {
        "README.md": f"For operators of Swift {LISTED}:",
        "lrcstore_swift-0.1.0.dist-info/METADATA": f"OpenStack Swift {LISTED} ",
        "../../packaging/debian/control": f" {series_in_control(TESTED)}, ",
        "../../docs/choose.md": f"OpenStack Swift {LISTED} |",
        "../../packaging/README.md": f"(../integrations/swift/README.md) {LISTED} |",
    }.items():
        assert words in Path(HERE, name).read_text("utf-8"), name
