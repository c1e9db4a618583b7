/* LRC(12,2,2) and LRC(6,2,2) as an erasure code plugin of Ceph, for profiles with
 * plugin=azure_lrc.
 *
 * A chunk's place in Ceph (its shard) is not its fragment's number in lrc_coder.h. The profile's
 * order says which place a fragment has:
 *
 * - interleaved: the data of the first group is at the even places and that of the second group at
 *   the odd ones, so that the object's slices are in their order; then the two local parities, and
 *   the two global ones. Two or four places that follow each other have few chunks of one group.
 * - groups: the first half of the places has the first group: its data, its local parity, and the
 *   first global parity. The second half has the second group and the other global parity.
 * - parities-last: a place is its fragment's number.
 *
 * Each order is an on-disk format. */
#include "ceph_interface.h"
#include "lrc_stripe.h"

#include <array>
#include <cerrno>
#include <cstdlib>
#include <cstring>
#include <numeric>
#include <optional>

#ifndef CEPH_VERSION
#error                                                                                             \
    "CEPH_VERSION has to be the version that `ceph-osd --version` prints, as a string: see build.sh"
#endif

namespace {

using ceph::ChunkParts;
using ceph::Chunks;
using ceph::ErasureCodeProfile;
using Places = std::set<int>;

enum class Order { INTERLEAVED, GROUPS, PARITIES_LAST };

constexpr unsigned CHUNK_ALIGN = 64;  /* a chunk's length is a multiple of it */
constexpr unsigned BUFFER_ALIGN = 64; /* new buffers start at a multiple of it */
constexpr int POOL_TYPE_ERASURE = 3;

ceph::buffer::ptr new_buffer(unsigned len) {
    return ceph::buffer::ptr(ceph::buffer::create_aligned(len, BUFFER_ALIGN));
}

/* The chunk's bytes, in one piece. */
uint8_t *bytes_of(ceph::buffer::list &chunk) { return reinterpret_cast<uint8_t *>(chunk.c_str()); }

int result_of(uint32_t status) {
    return status == LRC_DONE ? 0 : status == LRC_OPEN ? -EIO : -EINVAL;
}

/* The profile's value. If it has none, it gets the default. */
std::string value_of(ErasureCodeProfile &profile, const char *key, const char *by_default) {
    std::string &value = profile[key];
    if (value.empty()) value = by_default;
    return value;
}

int place_of_item(int place) { return place; }
template <class T> int place_of_item(const std::pair<const int, T> &item) { return item.first; }

class AzureLrc final : public ceph::ErasureCodeInterface {
public:
    int init(ErasureCodeProfile &profile, std::ostream *ss) override;
    const ErasureCodeProfile &get_profile() const override { return profile; }
    int create_rule(const std::string &name, CrushWrapper &crush, std::ostream *ss) const override;
    unsigned get_chunk_count() const override { return k + LRC_PARITIES; }
    unsigned get_data_chunk_count() const override { return k; }
    unsigned get_coding_chunk_count() const override { return LRC_PARITIES; }
    int get_sub_chunk_count() override { return 1; }
    unsigned get_chunk_size(unsigned object_size) const override;
    int minimum_to_decode(const Places &want, const Places &available,
                          ChunkParts *minimum) override;
    int minimum_to_decode_with_cost(const Places &want, const std::map<int, int> &available,
                                    Places *minimum) override;
    int encode(const Places &want, const ceph::buffer::list &in, Chunks *encoded) override;
    int encode_chunks(const Places &want, Chunks *encoded) override;
    int decode(const Places &want, const Chunks &chunks, Chunks *decoded, int chunk_size) override;
    int decode_chunks(const Places &want, const Chunks &chunks, Chunks *decoded) override;
    const std::vector<ceph::Place> &get_chunk_mapping() const override { return mapping; }
    int decode_concat(const Chunks &chunks, ceph::buffer::list *decoded) override;
#if CEPH_RELEASE >= 20
    int minimum_to_decode(const ceph::ShardSet &want, const ceph::ShardSet &available,
                          ceph::ShardSet &read, ceph::ShardParts *parts) override;
    int minimum_to_decode_with_cost(const ceph::ShardSet &want, const ceph::ShardCosts &available,
                                    ceph::ShardSet *minimum) override;
    size_t get_minimum_granularity() override { return 1; }
    int encode(const ceph::ShardSet &want, const ceph::buffer::list &in,
               ceph::ShardChunks *encoded) override;
    int encode_chunks(const ceph::ShardBuffers &data, ceph::ShardBuffers &parities) override;
    void encode_delta(const ceph::buffer::ptr &before, const ceph::buffer::ptr &after,
                      ceph::buffer::ptr *delta) override;
    void apply_delta(const ceph::ShardBuffers &deltas, ceph::ShardBuffers &parities) override;
    int decode(const ceph::ShardSet &want, const ceph::ShardChunks &chunks,
               ceph::ShardChunks *decoded, int chunk_size) override;
    int decode_chunks(const ceph::ShardSet &want, ceph::ShardBuffers &chunks,
                      ceph::ShardBuffers &decoded) override;
    int decode_concat(const Places &want, const Chunks &chunks,
                      ceph::buffer::list *decoded) override;
    uint64_t get_supported_optimizations() const override;
    std::string get_optimizations_flags_string() const override;
#endif

private:
    unsigned k = 12;
    Order order = Order::GROUPS;
    bool is_initialized = false;
    ErasureCodeProfile profile;
    std::vector<ceph::Place> mapping;  /* of each slice of the object, then of parities */
    std::vector<ceph::Place> place_of; /* of each fragment */
    uint8_t fragment_at[LRC_MOST_FRAGMENTS] = {}; /* of each place */

    bool is_place(int place) const { return place >= 0 && unsigned(place) < get_chunk_count(); }
    uint16_t all() const { return uint16_t((1u << get_chunk_count()) - 1); }
    bool is_optimized() const { return order != Order::GROUPS; }
    std::string refusal_of(const ErasureCodeProfile &asked) const;
    void set_places();
    template <class Items> bool fragments_at(const Items &items, uint16_t *fragments) const;
    template <class Items>
    int to_read(const Places &want, const Items &available, Places *read) const;
    ceph::buffer::list data_chunk(const ceph::buffer::list &in, unsigned slice, unsigned len) const;
#if CEPH_RELEASE >= 20
    template <class Items>
    int to_read_parts(const ceph::ShardSet &want, const Items &available, Places *read) const;
    std::array<uint8_t *, LRC_PARITIES> parities_in(ceph::ShardBuffers &map, size_t len,
                                                    std::vector<uint8_t> *unused) const;
#endif
};

/* The fragments at the places of the items, or false if one is no place of the code. */
template <class Items> bool AzureLrc::fragments_at(const Items &items, uint16_t *fragments) const {
    unsigned set = 0;
    for (const auto &item : items) {
        const int place = place_of_item(item);
        if (!is_place(place)) return false;
        set |= 1u << fragment_at[place];
    }
    *fragments = uint16_t(set);
    return true;
}

/* ---- Profile ---- */

void AzureLrc::set_places() {
    const unsigned group = k / 2, half = get_chunk_count() / 2;
    place_of.resize(get_chunk_count());
    std::iota(place_of.begin(), place_of.end(), 0);
    for (unsigned fragment = 0; order == Order::INTERLEAVED && fragment < k; fragment++)
        place_of[fragment] = int(fragment % group * 2 + fragment / group);
    for (unsigned fragment = 0; order == Order::GROUPS && fragment < k; fragment++)
        place_of[fragment] = int(fragment % group + fragment / group * half);
    for (unsigned parity = 0; order == Order::GROUPS && parity < LRC_PARITIES; parity++)
        place_of[k + parity] = int(group + parity / 2 + parity % 2 * half); /* local, then global */
    mapping = place_of;
    if (order == Order::INTERLEAVED) std::iota(mapping.begin(), mapping.end(), 0);
    for (unsigned fragment = 0; fragment < get_chunk_count(); fragment++)
        fragment_at[place_of[fragment]] = uint8_t(fragment);
}

static const std::map<std::string, Order> ORDERS = {
    {"interleaved", Order::INTERLEAVED},
    {"groups", Order::GROUPS},
    {"parities-last", Order::PARITIES_LAST},
};

constexpr char DOMAINS[] = "crush-num-failure-domains", EACH[] = "crush-osds-per-failure-domain";

/* What a profile may have. A technique has no effect. The last two are read by Ceph alone. */
static const std::set<std::string> PARAMETERS = {
    "plugin",
    "k",
    "m",
    "order",
    "technique",
    "crush-root",
    "crush-failure-domain",
    "crush-device-class",
#if CEPH_RELEASE >= 20
    DOMAINS,
    EACH,
#endif
    "stripe_unit",
    "directory",
};

/* Parameters of other plugins and releases that say where chunks are. */
static const std::set<std::string> PLACING = {"crush-locality", DOMAINS, EACH};

/* A number of the profile, 0 if it has none, or nothing if it is not one below 1,000. */
std::optional<unsigned> number_of(const ErasureCodeProfile &profile, const char *key) {
    const auto found = profile.find(key);
    if (found == profile.end()) return 0;
    const std::string &text = found->second;
    if (text.empty() || text.size() > 3 || text.find_first_not_of("0123456789") != text.npos)
        return {};
    return unsigned(atoi(text.c_str()));
}

/* Why the domains have no room for n chunks, or nothing. */
std::string refusal_of_domains(const ErasureCodeProfile &asked, unsigned n) {
    for (const char *key : {DOMAINS, EACH})
        if (!number_of(asked, key))
            return std::string(key) + "=" + asked.at(key) + " is no number; set one of 1 to 999";
    const unsigned domains = *number_of(asked, DOMAINS), each = *number_of(asked, EACH);
    if (!domains && each > 1) return std::string(EACH) + " is alone; set " + DOMAINS + ", too";
    const unsigned room = domains * (each ? each : 1);
    if (!domains || room >= n) return "";
    return std::string(DOMAINS) + " times " + EACH + " is " + std::to_string(room) +
           "; set them for " + std::to_string(n) + " chunks";
}

/* Why the profile is refused, or nothing. */
std::string AzureLrc::refusal_of(const ErasureCodeProfile &asked) const {
    const std::string &data = asked.at("k"), &parities = asked.at("m");
    if ((data != "12" && data != "6") || parities != "4")
        return "no code has k=" + data + " m=" + parities + "; set k=12 m=4 or k=6 m=4";
    for (const auto &[key, value] : asked)
        if (!PARAMETERS.count(key))
            return "there is no parameter " + key + "; remove it from the profile" +
                   (PLACING.count(key) ? ", and name a CRUSH rule when you create the pool" : "");
    const auto named = asked.find("order");
    if (named != asked.end() && !ORDERS.count(named->second))
        return "no order is called " + named->second +
               "; set order=interleaved, order=groups or order=parities-last";
    return refusal_of_domains(asked, data == "12" ? 16 : 10);
}

/* A stored profile without an order is of pools in groups: earlier versions stored no name for that
 * order. A monitor that makes a profile calls this twice for the same code, and stores what the
 * second call leaves: that is a new profile, and gets the default order. */
int AzureLrc::init(ErasureCodeProfile &asked, std::ostream *ss) {
    value_of(asked, "k", "12");
    value_of(asked, "m", "4");
    value_of(asked, "crush-root", "default");
    value_of(asked, "crush-failure-domain", "host");
    asked["crush-device-class"];
    const std::string refusal = refusal_of(asked);
    if (!refusal.empty()) {
        if (ss) *ss << "azure_lrc: " << refusal << std::endl;
        return -EINVAL;
    }
    if (is_initialized) asked.emplace("order", "interleaved");
    const auto named = asked.find("order");
    order = named == asked.end() ? Order::GROUPS : ORDERS.at(named->second);
    k = asked.at("k") == "12" ? 12 : 6;
    set_places();
    profile = asked;
    is_initialized = true;
    return 0;
}

int AzureLrc::create_rule(const std::string &name, CrushWrapper &crush, std::ostream *ss) const {
    const std::string &root = profile.at("crush-root"),
                      &domain = profile.at("crush-failure-domain"),
                      &device_class = profile.at("crush-device-class");
#if CEPH_RELEASE >= 20
    const int domains = int(*number_of(profile, DOMAINS)), each = int(*number_of(profile, EACH));
    if (each > 1)
        return crush.add_indep_multi_osd_per_failure_domain_rule(name, root, domain, domains, each,
                                                                 device_class, ss);
    return crush.add_simple_rule(name, root, domain, domains ? domains : -1, device_class, "indep",
                                 POOL_TYPE_ERASURE, ss);
#else
    return crush.add_simple_rule(name, root, domain, device_class, "indep", POOL_TYPE_ERASURE, ss);
#endif
}

unsigned AzureLrc::get_chunk_size(unsigned object_size) const {
    const uint64_t stripe = uint64_t(k) * CHUNK_ALIGN;
    return unsigned((object_size + stripe - 1) / stripe * CHUNK_ALIGN);
}

/* ---- What to read ---- */

/* The places to read for those wanted: the wanted ones that are available, and what the others are
 * made of. */
template <class Items>
int AzureLrc::to_read(const Places &want, const Items &available, Places *read) const {
    uint16_t wanted, there, needed;
    if (!fragments_at(want, &wanted) || !fragments_at(available, &there)) return -EINVAL;
    if (int r = result_of(lrc_read_set(k, uint16_t(all() & ~there), wanted, &needed))) return r;
    for (unsigned fragment = 0; fragment < get_chunk_count(); fragment++)
        if (lrc_has(needed | (wanted & there), fragment)) read->insert(place_of[fragment]);
    return 0;
}

int AzureLrc::minimum_to_decode(const Places &want, const Places &available, ChunkParts *minimum) {
    Places read;
    if (int r = to_read(want, available, &read)) return r;
    for (int place : read) (*minimum)[place] = {{0, 1}};
    return 0;
}

/* The costs are not compared. */
int AzureLrc::minimum_to_decode_with_cost(const Places &want, const std::map<int, int> &available,
                                          Places *minimum) {
    return to_read(want, available, minimum);
}

/* ---- Encoding ---- */

/* The chunk of a slice of the object: it shares the object's bytes, unless it has to be filled up
 * with zeros. */
ceph::buffer::list AzureLrc::data_chunk(const ceph::buffer::list &in, unsigned slice,
                                        unsigned len) const {
    ceph::buffer::list chunk;
    const uint64_t from = uint64_t(slice) * len;
    const unsigned rest = from < in.length() ? in.length() - unsigned(from) : 0;
    if (rest >= len) {
        chunk.substr_of(in, unsigned(from), len);
        return chunk;
    }
    ceph::buffer::ptr filled = new_buffer(len);
    if (rest) in.begin(unsigned(from)).copy(rest, filled.c_str());
    memset(filled.c_str() + rest, 0, len - rest);
    chunk.push_back(std::move(filled));
    return chunk;
}

int AzureLrc::encode(const Places &want, const ceph::buffer::list &in, Chunks *encoded) {
    const unsigned len = get_chunk_size(in.length());
    for (unsigned slice = 0; slice < get_chunk_count(); slice++) {
        ceph::buffer::list chunk;
        if (len && slice < k)
            chunk = data_chunk(in, slice, len);
        else if (len)
            chunk.push_back(new_buffer(len));
        (*encoded)[mapping[slice]] = std::move(chunk);
    }
    if (int r = encode_chunks(want, encoded)) return r;
    for (int place : place_of)
        if (!want.count(place)) encoded->erase(place);
    return 0;
}

/* All chunks are given; the parities are written. */
int AzureLrc::encode_chunks(const Places &, Chunks *encoded) {
    lrc_slice data[LRC_MOST_FRAGMENTS];
    uint8_t *parities[LRC_PARITIES];
    size_t len[LRC_PARITIES];
    for (unsigned fragment = 0; fragment < get_chunk_count(); fragment++) {
        const auto chunk = encoded->find(place_of[fragment]);
        if (chunk == encoded->end()) return -EINVAL;
        if (!chunk->second.length())
            return 0; /* an object of no bytes, whose buffers have no memory */
        if (fragment < k) {
            data[fragment] = {bytes_of(chunk->second), chunk->second.length()};
        } else {
            parities[fragment - k] = bytes_of(chunk->second);
            len[fragment - k] = chunk->second.length();
        }
    }
    return result_of(lrc_encode(data, k, parities[0], len[0], parities[1], len[1], parities[2],
                                len[2], parities[3], len[3]));
}

/* ---- Decoding ---- */

int AzureLrc::decode(const Places &want, const Chunks &chunks, Chunks *decoded, int) {
    if (chunks.empty()) return want.empty() ? 0 : -EIO;
    const unsigned len = chunks.begin()->second.length();
    for (const auto &chunk : chunks) (*decoded)[chunk.first] = chunk.second; /* shares the bytes */
    for (int place : want)
        if (is_place(place) && !chunks.count(place)) {
            ceph::buffer::list chunk;
            if (len) chunk.push_back(new_buffer(len));
            (*decoded)[place] = std::move(chunk);
        }
    return decode_chunks(want, chunks, decoded);
}

/* The wanted chunks that are not among `chunks` are written into the buffers that `decoded` has for
 * them. */
int AzureLrc::decode_chunks(const Places &want, const Chunks &chunks, Chunks *decoded) {
    static const uint8_t nothing = 0;
    lrc_slice fragments[LRC_MOST_FRAGMENTS];
    uint8_t *targets[LRC_MOST_FRAGMENTS] = {};
    uint16_t wanted, there, read;
    std::optional<size_t> len;
    if (!fragments_at(want, &wanted) || !fragments_at(chunks, &there)) return -EINVAL;
    const uint16_t lost = uint16_t(all() & ~there), to_write = wanted & lost;
    for (unsigned fragment = 0; fragment < LRC_MOST_FRAGMENTS; fragment++) {
        fragments[fragment] = {&nothing, 0};
        if (!lrc_has(there | to_write, fragment)) continue;
        const auto chunk = decoded->find(place_of[fragment]);
        if (chunk == decoded->end() ||
            len.value_or(chunk->second.length()) != chunk->second.length())
            return -EINVAL;
        len = chunk->second.length();
        if (*len) targets[fragment] = bytes_of(chunk->second);
        if (*len && lrc_has(there, fragment)) fragments[fragment] = {targets[fragment], *len};
    }
    if (!len.value_or(0)) /* an object of no bytes, whose buffers have no memory */
        return result_of(lrc_read_set(k, lost, wanted, &read));
    return result_of(lrc_rebuild_set(k, fragments, lost, to_write, targets, *len));
}

int AzureLrc::decode_concat(const Chunks &chunks, ceph::buffer::list *decoded) {
    const Places want(place_of.begin(), place_of.begin() + k);
    Chunks whole;
    if (int r = decode(want, chunks, &whole, 0)) return r;
    for (unsigned slice = 0; slice < k; slice++) decoded->claim_append(whole[mapping[slice]]);
    return 0;
}

#if CEPH_RELEASE >= 20

/* ---- The same for Ceph's own types of sets and maps ---- */

Places places_in(const ceph::ShardSet &set) {
    Places places;
    for (int place = 0; place < set.most(); place++)
        if (set.contains(place)) places.insert(place);
    return places;
}

/* The map's items, which share their bytes. */
template <class T> std::map<int, T> items_of(const shard_id_map<T> &map) {
    std::map<int, T> items;
    for (int place = 0; place < map.most(); place++)
        if (map.contains(place)) items[place] = map.at(place);
    return items;
}

/* Adds the chunks to the map, or nothing if it has no room for one. */
int add_all(Chunks &chunks, ceph::ShardChunks *map) {
    if (!chunks.empty() && chunks.rbegin()->first >= map->most()) return -EINVAL;
    for (auto &[place, chunk] : chunks) map->set(place, std::move(chunk));
    return 0;
}

/* A pool with allow_ec_optimizations makes a lost parity by encoding: first it decodes all data. */
template <class Items>
int AzureLrc::to_read_parts(const ceph::ShardSet &want, const Items &available,
                            Places *read) const {
    Places wanted = places_in(want);
    bool encodes = false;
    for (int place : wanted) encodes |= place >= int(k) && !available.count(place);
    for (int place = 0; is_optimized() && encodes && place < int(k); place++) wanted.insert(place);
    return to_read(wanted, available, read);
}

int AzureLrc::minimum_to_decode(const ceph::ShardSet &want, const ceph::ShardSet &available,
                                ceph::ShardSet &read, ceph::ShardParts *parts) {
    Places places;
    if (parts && parts->most() < int(get_chunk_count())) return -EINVAL;
    if (int r = to_read_parts(want, places_in(available), &places)) return r;
    for (int place : places) {
        read.insert(place);
        if (parts) parts->set(place, {{0, 1}});
    }
    return 0;
}

int AzureLrc::minimum_to_decode_with_cost(const ceph::ShardSet &want,
                                          const ceph::ShardCosts &available,
                                          ceph::ShardSet *minimum) {
    Places places;
    if (int r = to_read_parts(want, items_of(available), &places)) return r;
    for (int place : places) minimum->insert(place);
    return 0;
}

int AzureLrc::encode(const ceph::ShardSet &want, const ceph::buffer::list &in,
                     ceph::ShardChunks *encoded) {
    Chunks chunks;
    if (int r = encode(places_in(want), in, &chunks)) return r;
    return add_all(chunks, encoded);
}

int AzureLrc::decode(const ceph::ShardSet &want, const ceph::ShardChunks &chunks,
                     ceph::ShardChunks *decoded, int chunk_size) {
    Chunks made;
    if (int r = decode(places_in(want), items_of(chunks), &made, chunk_size)) return r;
    return add_all(made, decoded);
}

int AzureLrc::decode_concat(const Places &want, const Chunks &chunks, ceph::buffer::list *decoded) {
    Chunks whole;
    if (int r = decode(want, chunks, &whole, 0)) return r;
    for (unsigned slice = 0; slice < k; slice++)
        if (want.count(mapping[slice])) decoded->claim_append(whole[mapping[slice]]);
    return 0;
}

/* ---- Parts of chunks, for pools with allow_ec_optimizations ---- */

const uint8_t *bytes_in(const ceph::ShardBuffers &map, int place) {
    return reinterpret_cast<const uint8_t *>(map.at(place).c_str());
}

uint8_t *bytes_in(ceph::ShardBuffers &map, int place) {
    return reinterpret_cast<uint8_t *>(map.at(place).c_str());
}

/* The length of all buffers of both maps, or nothing if two differ or there is none. */
std::optional<size_t> length_of(const ceph::ShardBuffers &some, const ceph::ShardBuffers &others) {
    std::optional<size_t> len;
    for (const ceph::ShardBuffers *map : {&some, &others})
        for (int place = 0; place < map->most(); place++) {
            if (!map->contains(place)) continue;
            if (len.value_or(map->at(place).length()) != map->at(place).length()) return {};
            len = map->at(place).length();
        }
    return len;
}

/* A call that returns nothing ends the process if it can't be right, as in Ceph's own plugins. */
void insist(bool is_right) {
    if (!is_right) abort();
}

/* The addresses of the four parities. Those that the map does not have get bytes of `unused`. */
std::array<uint8_t *, LRC_PARITIES> AzureLrc::parities_in(ceph::ShardBuffers &map, size_t len,
                                                          std::vector<uint8_t> *unused) const {
    std::array<uint8_t *, LRC_PARITIES> parities;
    for (unsigned parity = 0; parity < LRC_PARITIES; parity++) {
        const int place = place_of[k + parity];
        if (!map.contains(place)) unused->resize(LRC_PARITIES * len);
        parities[parity] =
            map.contains(place) ? bytes_in(map, place) : unused->data() + parity * len;
    }
    return parities;
}

int AzureLrc::encode_chunks(const ceph::ShardBuffers &data, ceph::ShardBuffers &parities) {
    const auto len = length_of(data, parities);
    if (!len.value_or(0)) return len ? 0 : -EINVAL;
    std::vector<uint8_t> zeros, unused;
    const uint8_t *fragments[LRC_MOST_FRAGMENTS];
    for (unsigned fragment = 0; fragment < k; fragment++) {
        const int place = place_of[fragment];
        if (!data.contains(place)) zeros.resize(*len);
        fragments[fragment] = data.contains(place) ? bytes_in(data, place) : zeros.data();
    }
    return result_of(
        lrc_encode_arrays(k, *len, fragments, parities_in(parities, *len, &unused).data()));
}

/* What is added to a chunk's bytes before a write gives those after it. */
void AzureLrc::encode_delta(const ceph::buffer::ptr &before, const ceph::buffer::ptr &after,
                            ceph::buffer::ptr *delta) {
    const size_t len = delta->length();
    insist(before.length() == len && after.length() == len);
    if (!len) return;
    uint8_t *const sum = reinterpret_cast<uint8_t *>(delta->c_str());
    memcpy(sum, before.c_str(), len);
    insist(!lrc_add(sum, len, 1, reinterpret_cast<const uint8_t *>(after.c_str()), len));
}

void AzureLrc::apply_delta(const ceph::ShardBuffers &deltas, ceph::ShardBuffers &parities) {
    const auto len = length_of(deltas, parities);
    insist(len.has_value());
    if (!*len) return;
    std::vector<uint8_t> unused;
    const auto targets = parities_in(parities, *len, &unused);
    for (unsigned fragment = 0; fragment < k; fragment++) {
        const int place = place_of[fragment];
        if (deltas.contains(place))
            insist(!lrc_encode_add_arrays(k, *len, uint8_t(fragment), bytes_in(deltas, place),
                                          targets.data()));
    }
}

/* A chunk to be decoded counts as lost, also if it is among `chunks`. */
int AzureLrc::decode_chunks(const ceph::ShardSet &, ceph::ShardBuffers &chunks,
                            ceph::ShardBuffers &decoded) {
    static const uint8_t nothing = 0;
    lrc_slice fragments[LRC_MOST_FRAGMENTS];
    uint8_t *targets[LRC_MOST_FRAGMENTS] = {};
    unsigned lost = 0, to_write = 0;
    const auto len = length_of(chunks, decoded);
    if (!len.value_or(0)) return len ? 0 : -EINVAL;
    for (unsigned fragment = 0; fragment < LRC_MOST_FRAGMENTS; fragment++) {
        const int place = fragment < get_chunk_count() ? int(place_of[fragment]) : -1;
        fragments[fragment] = {&nothing, 0};
        if (is_place(place) && decoded.contains(place)) {
            targets[fragment] = bytes_in(decoded, place);
            to_write |= 1u << fragment;
        } else if (is_place(place) && chunks.contains(place)) {
            fragments[fragment] = {bytes_in(chunks, place), *len};
            continue;
        }
        lost |= 1u << fragment;
    }
    return result_of(
        lrc_rebuild_set(k, fragments, uint16_t(lost), uint16_t(to_write), targets, *len));
}

/* Without OPTIMIZED_SUPPORTED, Ceph refuses allow_ec_optimizations. Such a pool names a primary by
 * its number among the places that may be one, and takes them to be 0 and the last four: in groups
 * they are 0, 6, 7, 14 and 15. Ceph 20.2.4 then waits for ever when place 0 is lost. Deltas are for
 * such pools alone: so groups claims what Ceph's lrc does, which has a mapping, too. */
uint64_t AzureLrc::get_supported_optimizations() const {
    const uint64_t always = ceph::PARTIAL_READ | ceph::PARTIAL_WRITE | ceph::ZERO_INPUT_ZERO_OUTPUT;
    return always | (is_optimized() ? ceph::PARITY_DELTA | ceph::OPTIMIZED_SUPPORTED : 0);
}

std::string AzureLrc::get_optimizations_flags_string() const {
    const char *const optimized = is_optimized() ? ",paritydelta,optimizedsupport" : "";
    return std::string("partialread,partialwrite,zeroinout") + optimized;
}

#endif

/* ---- The plugin ---- */

class Plugin final : public ceph::ErasureCodePlugin {
public:
    int factory(const std::string &, ErasureCodeProfile &profile,
                ceph::ErasureCodeInterfaceRef *code, std::ostream *ss) override {
        auto made = std::make_shared<AzureLrc>();
        const int r = made->init(profile, ss);
        if (!r) *code = made;
        return r;
    }
};

} // namespace

#define EXPORTED __attribute__((visibility("default")))

extern "C" EXPORTED const char *__erasure_code_version() { return CEPH_VERSION; }

extern "C" EXPORTED int __erasure_code_init(char *plugin_name, char *) {
    auto plugin = std::make_unique<Plugin>();
    const int r = ceph::ErasureCodePluginRegistry::singleton.add(plugin_name, plugin.get());
    if (!r) plugin.release();
    return r;
}
