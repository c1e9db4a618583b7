"""The filter of the proxy: a GET is answered if and only if the code determines the data. If object
servers fail while they send, it goes on with fragments that determine the rest."""

from lrcstore_swift import determines, is_lrc, rank, refuse_other_releases, wrong_scheme
from lrcstore_swift.etag import CompareEtag

refuse_other_releases()  # before another release lacks what is imported here

from eventlet import sleep  # noqa: E402
from swift.common.swob import Range  # noqa: E402
from swift.common.utils import config_true_value, get_logger  # noqa: E402
from swift.proxy.controllers.base import close_swift_conn  # noqa: E402
from swift.proxy.controllers.obj import (  # noqa: E402
    ECFragGetter,
    ECGetResponseBucket,
    ECGetResponseCollection,
)

# The search of a getter whose server has failed, by its name since 2.35, or before.
SEARCH = "_find_source" if hasattr(ECFragGetter, "_find_source") else "_dig_for_source_and_node"

BEGIN = float("-inf"), 0  # the position before all others
PAUSE = 0.05  # seconds, in which all getters of a server see that it has failed

counted_shortfall = ECGetResponseBucket.shortfall.fget
add_any_response = ECGetResponseCollection.add_response
choose_any_bucket = ECGetResponseCollection.choose_best_bucket
provide_any_node = ECGetResponseCollection.provide_alternate_node
request_any_node = ECFragGetter._make_node_request
search_any_source = getattr(ECFragGetter, SEARCH)


class Readers:
    """Which fragment each getter of an answer reads from which position on.

    If a server fails, its getters search, one at a time, those first that have come less far. A
    getter takes a fragment if, wherever others change theirs, those that are read there determine
    the data, with one more for each getter that searches there. A getter counts as reading until
    it fails itself, even if its server is gone. So a node that was refused is asked again after the
    next failure, and by the next getter."""

    def __init__(self, policy):
        self.policy, self.read = policy, {}
        self.refused, self.again = [], []
        self.waiting, self.is_searching = set(), False

    def begin(self, getter, fragment):
        self.read[getter] = [(BEGIN, fragment)]

    def fail(self, getter):
        if getter not in self.waiting:
            self.waiting.add(getter)
            self.read[getter].append((position(getter), None))
            self.ask_again()

    def ask_again(self):
        self.again += self.refused
        self.refused = []

    def is_next(self, getter):
        first = min(map(position, self.waiting))
        return not self.is_searching and position(getter) == first

    def takes(self, getter, node, fragment):
        """Whether the getter goes on with this fragment of the node."""
        at, others = position(getter), [it for each, it in self.read.items() if each is not getter]
        changes = {first for it in others for first, _ in it if first > at}
        if all(self.suffice(others, fragment, point) for point in {at, *changes}):
            self.read[getter].append((at, fragment))
            return True
        self.refused.append(node)
        return False

    def suffice(self, others, fragment, point):
        """Whether the others and this fragment can still determine what is at the point."""
        there = [[i for first, i in it if first <= point][-1] for it in others]
        known = [i for i in there if i is not None]
        return rank(self.policy, [*known, fragment]) + there.count(None) >= self.policy.ec_ndata


def position(getter):
    """How far a getter has come, by the ranges that it still has to ask for."""
    ranges = Range(getter.backend_headers["Range"]).ranges
    return -len(ranges), ranges[0][0] or 0


def close(source):
    """Ends the connection of a source. Since 2.35, a source has the response as its `resp`."""
    if source:
        close_swift_conn(getattr(source, "resp", source))


def shortfall(bucket):
    """How many responses are missing: as Swift counts them, and one more while the fragments that
    came are enough by number and do not determine the data."""
    short, policy = counted_shortfall(bucket), bucket.policy
    if short or not is_lrc(policy):
        return short
    fragments = {policy.get_backend_index(i) for i in bucket.gets if i is not None}
    return 0 if not fragments or determines(policy, fragments, range(policy.ec_ndata)) else 1


def add_response(collection, getter, parts_iter):
    """Refuses a response in another scheme than the policy's. Swift logs the error, and does
    without the response."""
    scheme = getter.last_headers.get("X-Object-Sysmeta-Ec-Scheme")
    if problem := wrong_scheme(collection.policy, scheme):
        raise ValueError(problem)
    add_any_response(collection, getter, parts_iter)


def choose_best_bucket(collection):
    """The responses that Swift takes for the answer, less those whose fragments the others
    determine: the body would end with any of its getters. If a getter fails, the nodes of all other
    fragments are asked, also those that Swift has asked before."""
    bucket, policy = choose_any_bucket(collection), collection.policy
    if not is_lrc(policy) or None in bucket.gets or not bucket.gets or bucket.shortfall:
        return bucket
    readers, fragments = Readers(policy), set()
    for index, responses in list(bucket.gets.items()):
        getter, fragment = responses[0][0], policy.get_backend_index(index)
        is_surplus = len(bucket.gets) > policy.ec_ndata
        if is_surplus and determines(policy, fragments, [fragment]):
            del bucket.gets[index]
            close(getter.source)
        else:
            fragments.add(fragment)
            readers.begin(getter, fragment)
            getter.lrc_readers = readers
    for node in policy.object_ring.get_part_nodes(getter.partition):
        if policy.get_backend_index(node["index"]) not in fragments:
            readers.refused.append(node)
    collection.lrc_readers = readers
    return bucket


def search(getter):
    """Looks for another source of a getter whose server has failed while it sent."""
    readers = getattr(getter, "lrc_readers", None)
    if readers is None:
        return search_any_source(getter)
    readers.fail(getter)
    try:
        sleep(PAUSE)
        while not readers.is_next(getter):
            sleep(PAUSE)
    finally:
        readers.waiting.remove(getter)
    readers.is_searching = True
    readers.ask_again()
    try:
        return search_any_source(getter)
    finally:
        readers.is_searching = False


def make_node_request(getter, node, *words):
    """The response of the node. In a search, a fragment that does not help is left aside."""
    response = request_any_node(getter, node, *words)
    readers = getattr(getter, "lrc_readers", None)
    index = response and readers and response.getheader("X-Object-Sysmeta-Ec-Frag-Index")
    if index is None or readers.takes(getter, node, int(index)):
        return response
    close(response)
    return None


def provide_alternate_node(collection):
    """A node to ask next: one that was refused before, or else Swift's choice."""
    readers = getattr(collection, "lrc_readers", None)
    if readers and readers.again:
        return readers.again.pop(0)
    return provide_any_node(collection)


def filter_factory(global_conf, **local_conf):
    """A filter that passes each request on and, with `compare_etag`, compares whole bodies with
    their ETags. Loading it replaces how the proxy takes fragments."""
    ECGetResponseBucket.shortfall = property(shortfall)
    ECGetResponseCollection.add_response = add_response
    ECGetResponseCollection.choose_best_bucket = choose_best_bucket
    ECGetResponseCollection.provide_alternate_node = provide_alternate_node
    ECFragGetter._make_node_request = make_node_request
    setattr(ECFragGetter, SEARCH, search)
    if not config_true_value(local_conf.get("compare_etag", "no")):
        return lambda app: app
    logger = get_logger({**global_conf, **local_conf}, log_route="lrcstore")
    return lambda app: CompareEtag(app, logger)
