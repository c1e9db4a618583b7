"""The diskfile module of a policy: the reconstructor reads what the code names, and no more.

Swift's diskfile manager is unchanged. Loading it from here replaces two methods of the
reconstructor."""

import json
import struct
import zlib

from lrcstore_swift import determines, fragments_needed, is_lrc, refuse_other_releases, wrong_scheme

refuse_other_releases()  # before another release lacks what is imported here

from pyeclib.ec_iface import ECDriverError  # noqa: E402
from swift.common.exceptions import DiskFileError  # noqa: E402
from swift.common.utils import GreenAsyncPile, Timestamp  # noqa: E402
from swift.obj.diskfile import ECDiskFileManager  # noqa: E402
from swift.obj.reconstructor import ObjectReconstructor  # noqa: E402

# A fragment's header: metadata, which begin with the number; magic; version; CRC32 of the metadata.
HEADER = struct.Struct("<59sIII9x")

ask_for_all = ObjectReconstructor._make_fragment_requests
reconstruct_from_all = ObjectReconstructor._reconstruct


class FragmentReader:
    """Reads fragments of the object in `df` for the one that `node` has lost."""

    def __init__(self, reconstructor, job, node, df, buckets, errors):
        self.reconstructor, self.node = reconstructor, node
        self.buckets, self.errors = buckets, errors
        self.policy, self.partition = job["policy"], job["partition"]
        metadata = df.get_datafile_metadata()
        self.path, self.timestamp = metadata["name"], Timestamp(metadata["X-Timestamp"])
        # with the offset that an object has if Swift moved it to this policy
        preferences = [{"timestamp": self.timestamp.internal, "exclude": []}]
        self.headers = dict(
            reconstructor.headers,
            **{
                "X-Backend-Storage-Policy-Index": int(self.policy),
                "X-Backend-Replication": "True",
                "X-Backend-Fragment-Preferences": json.dumps(preferences),
            },
        )
        self.nodes = {
            self.policy.get_backend_index(each["index"]): each
            for each in self.policy.object_ring.get_part_nodes(self.partition)
            if each["id"] != node["id"]
        }

    def ask(self, fragments):
        """Asks for the fragments with these numbers, and sorts the responses as Swift does."""
        asked = [self.nodes[i] for i in fragments if i in self.nodes]
        pile = GreenAsyncPile(max(1, len(asked)))
        for node in asked:
            pile.spawn(
                self.reconstructor._get_response,
                node,
                self.policy,
                self.partition,
                self.path,
                self.headers,
            )
        for response in pile:
            self.reconstructor._handle_fragment_response(
                self.node,
                self.policy,
                self.partition,
                self.node["backend_index"],
                self.path,
                self.buckets,
                self.errors,
                response,
            )

    def read_needed(self):
        """The bucket of the fragments that the code names, None if those that there are do not
        determine the lost one. After each that can't be had, the code is asked again."""
        asked, bucket = set(), self.buckets[self.timestamp]
        while True:
            came = bucket.useful_responses
            needed = fragments_needed(
                self.policy, [self.node["backend_index"]], asked.difference(came)
            )
            if needed is None:
                return None
            missing = set(needed).difference(came)
            if not missing:
                bucket.useful_responses = {i: came[i] for i in needed}
                return bucket
            asked |= missing
            self.ask(missing)


def make_fragment_requests(self, job, node, df, buckets, error_responses):
    """Reads the fragments that the code names. If these can't be had, Swift's own method looks for
    fragments on all nodes; what it finds has to determine the lost one."""
    policy = job["policy"]
    scheme = df.get_datafile_metadata().get("X-Object-Sysmeta-Ec-Scheme")
    if problem := wrong_scheme(policy, scheme):
        self.logger.error("%s: %s", df.get_datafile_metadata()["name"], problem)
        raise DiskFileError(problem)
    if not is_lrc(policy):
        return ask_for_all(self, job, node, df, buckets, error_responses)
    bucket = FragmentReader(self, job, node, df, buckets, error_responses).read_needed()
    if bucket:
        return bucket
    buckets.clear()
    error_responses.clear()
    bucket = ask_for_all(self, job, node, df, buckets, error_responses)
    found = bucket and determines(policy, bucket.useful_responses, [node["backend_index"]])
    return bucket if found else None


def stand_in(fragment, number):
    """A fragment with the header of `fragment`, but for the number, and zeros for its bytes."""
    metadata, magic, version, _ = HEADER.unpack_from(fragment)
    metadata = struct.pack("<I", number) + metadata[4:]
    header = HEADER.pack(metadata, magic, version, zlib.crc32(metadata))
    return header + bytes(len(fragment) - HEADER.size)


def reconstruct(self, policy, fragment_payload, frag_index):
    """liberasurecode takes no fewer than `ec_ndata` fragments. Stand-ins make up their number,
    after it was made sure that the code does not read them."""
    if not is_lrc(policy):
        return reconstruct_from_all(self, policy, fragment_payload, frag_index)
    fragments = {struct.unpack_from("<I", each)[0]: each for each in fragment_payload}
    read, others = set(fragments), set(range(policy.ec_n_unique_fragments)) - {frag_index}
    for number in sorted(others - read)[: max(0, policy.ec_ndata - len(read))]:
        fragments[number] = stand_in(fragment_payload[0], number)
    used = fragments_needed(policy, [frag_index], others.difference(fragments))
    if used is None or not read.issuperset(used):
        raise ECDriverError(
            f"fragment {frag_index} is made of the fragments {used}, and "
            f"{sorted(read)} were read: ask for all of them"
        )
    return policy.pyeclib_driver.reconstruct(list(fragments.values()), [frag_index])[0]


class DiskFileManager(ECDiskFileManager):
    """Swift's own."""


ObjectReconstructor._make_fragment_requests = make_fragment_requests
ObjectReconstructor._reconstruct = reconstruct
