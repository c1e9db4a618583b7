/* Compares ceph_interface.h and ceph_shards.h with the headers of Ceph 20.2 themselves, whose
 * source upstream_test.py has fetched. It is built with -fno-access-control, since members are
 * private. What a compiler can't compare, the program does: it prints what differs, and then its
 * status is 1. */
#include "crush/CrushWrapper.h"
#include "erasure-code/ErasureCodeInterface.h"
#include "erasure-code/ErasureCodePlugin.h"

#include <cstddef>
#include <cstdio>
#include <cstring>
#include <rados/buffer.h>
#include <type_traits>

/* The declarations of this repository, in a namespace of their own. */
namespace ours {
namespace ceph {
namespace buffer = ::ceph::buffer;
}
#include "ceph_interface.h"
} // namespace ours

/* ---- Places of members ---- */

#define SAME_SIZE(theirs, own) static_assert(sizeof(theirs) == sizeof(own), #own)
#define SAME_PLACE(theirs, member, own, own_member)                                                \
    static_assert(offsetof(theirs, member) == offsetof(own, own_member) &&                         \
                      sizeof(theirs::member) == sizeof(own::own_member),                           \
                  #own "::" #own_member)

using TheirMap = ::shard_id_map<int>;
using OurMap = ours::shard_id_map<int>;
using TheirSetEnd = ::shard_id_set::const_iterator;

SAME_SIZE(::shard_id_t, ours::shard_id_t);
SAME_PLACE(::shard_id_t, id, ours::shard_id_t, id);
static_assert(std::is_same_v<decltype(::shard_id_t::id), decltype(ours::shard_id_t::id)>);

SAME_SIZE(::shard_id_set, ours::shard_id_set);
SAME_PLACE(::shard_id_set, words, ours::shard_id_set, words);
static_assert(offsetof(::shard_id_set, _end) + offsetof(TheirSetEnd, set) ==
              offsetof(ours::shard_id_set, set));
static_assert(offsetof(::shard_id_set, _end) + offsetof(TheirSetEnd, pos) ==
              offsetof(ours::shard_id_set, end));
static_assert(::shard_id_set::max_bits == size_t(ours::shard_id_set::most()));

SAME_SIZE(TheirMap, OurMap);
SAME_SIZE(::shard_id_map<::ceph::buffer::list>, ours::ceph::ShardChunks);
SAME_SIZE(::shard_id_map<::ceph::buffer::ptr>, ours::ceph::ShardBuffers);
SAME_PLACE(TheirMap, data, OurMap, slots);
SAME_PLACE(TheirMap, _size, OurMap, count);
SAME_SIZE(TheirMap::iterator, OurMap::End);
SAME_PLACE(TheirMap::iterator, map, OurMap::End, map);
SAME_PLACE(TheirMap::iterator, value, OurMap::End, item);
SAME_PLACE(TheirMap::iterator, key, OurMap::End, key);
static_assert(offsetof(TheirMap, _end) == offsetof(OurMap, ends));
static_assert(offsetof(TheirMap, _const_end) == offsetof(OurMap, ends) + sizeof(OurMap::End));

SAME_SIZE(::ceph::ErasureCodeInterface, ours::ceph::ErasureCodeInterface);
SAME_SIZE(::ceph::ErasureCodePlugin, ours::ceph::ErasureCodePlugin);
SAME_PLACE(::ceph::ErasureCodePlugin, library, ours::ceph::ErasureCodePlugin, library);

/* ---- Values ---- */

#define SAME_FLAG(own, theirs)                                                                     \
    static_assert(uint64_t(ours::ceph::own) ==                                                     \
                  uint64_t(::ceph::ErasureCodeInterface::FLAG_EC_PLUGIN_##theirs))

SAME_FLAG(PARTIAL_READ, PARTIAL_READ_OPTIMIZATION);
SAME_FLAG(PARTIAL_WRITE, PARTIAL_WRITE_OPTIMIZATION);
SAME_FLAG(ZERO_INPUT_ZERO_OUTPUT, ZERO_INPUT_ZERO_OUTPUT_OPTIMIZATION);
SAME_FLAG(ZERO_PADDING, ZERO_PADDING_OPTIMIZATION);
SAME_FLAG(PARITY_DELTA, PARITY_DELTA_OPTIMIZATION);
SAME_FLAG(OPTIMIZED_SUPPORTED, OPTIMIZED_SUPPORTED);

/* ---- Functions: their types, and where they stand in the table ---- */

struct Theirs {
    using Interface = ::ceph::ErasureCodeInterface;
    using Plugin = ::ceph::ErasureCodePlugin;
    using Registry = ::ceph::ErasureCodePluginRegistry;
    using Crush = ::CrushWrapper;
    using Ref = ::ceph::ErasureCodeInterfaceRef;
    using Place = ::shard_id_t;
    using Set = ::shard_id_set;
    template <class T> using Map = ::shard_id_map<T>;
    using Parts = ::mini_flat_map<::shard_id_t, std::vector<std::pair<int, int>>>;
};

struct Ours {
    using Interface = ours::ceph::ErasureCodeInterface;
    using Plugin = ours::ceph::ErasureCodePlugin;
    using Registry = ours::ceph::ErasureCodePluginRegistry;
    using Crush = ours::CrushWrapper;
    using Ref = ours::ceph::ErasureCodeInterfaceRef;
    using Place = ours::ceph::Place;
    using Set = ours::ceph::ShardSet;
    template <class T> using Map = ours::shard_id_map<T>;
    using Parts = ours::ceph::ShardParts;
};

using Profile = std::map<std::string, std::string>;
using Numbers = std::set<int>;
using List = ::ceph::buffer::list;
using Ptr = ::ceph::buffer::ptr;
using Lists = std::map<int, List>;
using NumberParts = std::map<int, std::vector<std::pair<int, int>>>;

/* The place in the table, of which a pointer to a virtual function has the offset and 1. */
template <class Function> size_t slot(Function function) {
    size_t offset;
    memcpy(&offset, &function, sizeof offset);
    return (offset - 1) / sizeof(void *);
}

/* Each function is named by its type: a header that declares another one does not compile. */
template <class W> std::vector<std::pair<const char *, size_t>> slots() {
    using I = typename W::Interface;
    using Set = typename W::Set;
    using Chunks = typename W::template Map<List>;
    using Buffers = typename W::template Map<Ptr>;
    using Costs = typename W::template Map<int>;
#define SLOT(result, name, parameters, ...)                                                        \
    { #name, slot(static_cast <result(I::*) parameters __VA_ARGS__>(&I::name)) }
    return {
        SLOT(int, init, (Profile &, std::ostream *)),
        SLOT(const Profile &, get_profile, (), const),
        SLOT(int, create_rule, (const std::string &, typename W::Crush &, std::ostream *), const),
        SLOT(unsigned, get_chunk_count, (), const),
        SLOT(unsigned, get_data_chunk_count, (), const),
        SLOT(unsigned, get_coding_chunk_count, (), const),
        SLOT(int, get_sub_chunk_count, ()),
        SLOT(unsigned, get_chunk_size, (unsigned), const),
        SLOT(int, minimum_to_decode, (const Set &, const Set &, Set &, typename W::Parts *)),
        SLOT(int, minimum_to_decode, (const Numbers &, const Numbers &, NumberParts *)),
        SLOT(int, minimum_to_decode_with_cost, (const Set &, const Costs &, Set *)),
        SLOT(int, minimum_to_decode_with_cost,
             (const Numbers &, const std::map<int, int> &, Numbers *)),
        SLOT(size_t, get_minimum_granularity, ()),
        SLOT(int, encode, (const Set &, const List &, Chunks *)),
        SLOT(int, encode, (const Numbers &, const List &, Lists *)),
        SLOT(int, encode_chunks, (const Numbers &, Lists *)),
        SLOT(int, encode_chunks, (const Buffers &, Buffers &)),
        SLOT(void, encode_delta, (const Ptr &, const Ptr &, Ptr *)),
        SLOT(void, apply_delta, (const Buffers &, Buffers &)),
        SLOT(int, decode, (const Set &, const Chunks &, Chunks *, int)),
        SLOT(int, decode, (const Numbers &, const Lists &, Lists *, int)),
        SLOT(int, decode_chunks, (const Set &, Buffers &, Buffers &)),
        SLOT(int, decode_chunks, (const Numbers &, const Lists &, Lists *)),
        SLOT(const std::vector<typename W::Place> &, get_chunk_mapping, (), const),
        SLOT(int, decode_concat, (const Numbers &, const Lists &, List *)),
        SLOT(int, decode_concat, (const Lists &, List *)),
        SLOT(uint64_t, get_supported_optimizations, (), const),
        SLOT(std::string, get_optimizations_flags_string, (), const),
        {"factory",
         slot(static_cast<int (W::Plugin::*)(const std::string &, Profile &, typename W::Ref *,
                                             std::ostream *)>(&W::Plugin::factory))},
    };
#undef SLOT
}

/* Functions of Ceph that a plugin calls: that they have this type is seen by the compiler. */
template <class W> void name_called() {
    using Text = std::string;
    using Crush = typename W::Crush;
    (void)static_cast<int (W::Registry::*)(const Text &, typename W::Plugin *)>(&W::Registry::add);
    (void)static_cast<int (Crush::*)(Text, Text, Text, int, Text, Text, int, std::ostream *)>(
        &Crush::add_simple_rule);
    (void)static_cast<int (Crush::*)(Text, Text, Text, int, int, Text, std::ostream *)>(
        &Crush::add_indep_multi_osd_per_failure_domain_rule);
}

/* ---- What one of both has filled is read by the other ---- */

static int passed, failed;

static void check(bool good, const char *name) {
    (good ? passed : failed)++;
    if (!good) printf("failed: %s\n", name);
}

static void compare_sets() {
    ::shard_id_set theirs;
    auto &set = reinterpret_cast<ours::shard_id_set &>(theirs);
    theirs.insert(::shard_id_t(3));
    set.insert(70);
    check(set.contains(3) && !set.contains(4) && theirs.contains(::shard_id_t(70)) &&
              theirs.size() == 2 && *++theirs.begin() == ::shard_id_t(70),
          "a set of Ceph's is read and filled");
    ours::shard_id_set own;
    auto &seen = reinterpret_cast<::shard_id_set &>(own);
    own.insert(127);
    int count = 0;
    for (auto place : seen) count += int(place);
    check(count == 127 && seen.end() == ::shard_id_set().end(), "Ceph iterates over a set of ours");
}

static void compare_maps() {
    ::shard_id_map<List> theirs(16);
    auto &map = reinterpret_cast<ours::ceph::ShardChunks &>(theirs);
    List chunk;
    chunk.append("chunk");
    theirs[::shard_id_t(2)] = chunk;
    map.set(15, chunk);
    size_t bytes = 0;
    for (const auto &[place, each] : theirs) bytes += each.length();
    check(map.most() == 16 && map.contains(2) && !map.contains(3) &&
              map.at(2).contents_equal(chunk) && theirs.size() == 2 && bytes == 10,
          "a map of Ceph's is read and filled");
    ours::ceph::ShardChunks own(10);
    auto &seen = reinterpret_cast<::shard_id_map<List> &>(own);
    own.set(9, chunk);
    int last = 0;
    for (const auto &[place, each] : seen) last = int(place);
    check(last == 9 && seen.size() == 1 && seen.max_size() == 10,
          "Ceph iterates over a map of ours");
}

int main() {
    name_called<Theirs>();
    name_called<Ours>();
    const auto theirs = slots<Theirs>(), own = slots<Ours>();
    for (size_t i = 0; i < theirs.size(); i++)
        check(theirs[i].second == own[i].second, theirs[i].first);
    compare_sets();
    compare_maps();
    printf("Ceph's headers: %d checks of the types passed, %d failed\n", passed, failed);
    return failed ? 1 : 0;
}
