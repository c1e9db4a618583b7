/* Tests libec_azure_lrc.so without a cluster: plugin_test FOLDER CORPUS PAGE|built
 *
 * FOLDER has the plugin and Ceph's own, CORPUS is tests/corpus, and PAGE is README.md of this
 * folder, whose table of failure domains is compared. By the word built, only what the release of
 * Ceph changes is tested: types and tables, for which FOLDER may have Ceph's own plugins, and what
 * Ceph 20.2 adds. */
#include "plugin_loader.h"
#if CEPH_RELEASE >= 20
#include "shards_test.h"
#endif

#include <algorithm>
#include <array>
#include <cstdlib>
#include <cxxabi.h>
#include <fstream>
#include <functional>
#include <iterator>
#include <numeric>
#include <unistd.h>

static int passed, failed;

static bool check(bool good, const std::string &name) {
    (good ? passed : failed)++;
    if (!good) printf("failed: %s\n", name.c_str());
    return good;
}

static ErasureCodeInterfaceRef code_of(const std::string &plugin,
                                       const ErasureCodeProfile &profile) {
    std::string error;
    auto code = make_code(plugin, profile, &error);
    if (!check(code != nullptr, plugin + " is loaded")) printf("  %s\n", error.c_str());
    return code;
}

/* Whether the chunks at the places are those of the whole. */
static bool are_equal(const Chunks &chunks, const Chunks &whole, unsigned set) {
    for (int place : places_of(set))
        if (!chunks.count(place) || !chunks.at(place).contents_equal(whole.at(place))) return false;
    return true;
}

/* ---- Whether ceph_interface.h declares what the installed plugins export ---- */

namespace ceph {

/* The functions as ceph_interface.h declares them, under names that can be asked for. */
class ErasureCodeProbe : public ErasureCodeInterface {
public:
    ~ErasureCodeProbe() override;
    int init(ErasureCodeProfile &, std::ostream *) override;
    const ErasureCodeProfile &get_profile() const override;
    int create_rule(const std::string &, CrushWrapper &, std::ostream *) const override;
    unsigned get_chunk_count() const override;
    unsigned get_data_chunk_count() const override;
    unsigned get_coding_chunk_count() const override;
    int get_sub_chunk_count() override;
    unsigned get_chunk_size(unsigned) const override;
    int minimum_to_decode(const std::set<int> &, const std::set<int> &, ChunkParts *) override;
    int minimum_to_decode_with_cost(const std::set<int> &, const std::map<int, int> &,
                                    std::set<int> *) override;
    int encode(const std::set<int> &, const buffer::list &, Chunks *) override;
    int encode_chunks(const std::set<int> &, Chunks *) override;
    int decode(const std::set<int> &, const Chunks &, Chunks *, int) override;
    int decode_chunks(const std::set<int> &, const Chunks &, Chunks *) override;
    const std::vector<Place> &get_chunk_mapping() const override;
    int decode_concat(const Chunks &, buffer::list *) override;
#if CEPH_RELEASE >= 20
    int minimum_to_decode(const ShardSet &, const ShardSet &, ShardSet &, ShardParts *) override;
    int minimum_to_decode_with_cost(const ShardSet &, const ShardCosts &, ShardSet *) override;
    size_t get_minimum_granularity() override;
    int encode(const ShardSet &, const buffer::list &, ShardChunks *) override;
    int encode_chunks(const ShardBuffers &, ShardBuffers &) override;
    void encode_delta(const buffer::ptr &, const buffer::ptr &, buffer::ptr *) override;
    void apply_delta(const ShardBuffers &, ShardBuffers &) override;
    int decode(const ShardSet &, const ShardChunks &, ShardChunks *, int) override;
    int decode_chunks(const ShardSet &, ShardBuffers &, ShardBuffers &) override;
    int decode_concat(const std::set<int> &, const Chunks &, buffer::list *) override;
    uint64_t get_supported_optimizations() const override;
    std::string get_optimizations_flags_string() const override;
#endif
};

/* Each returns something of its own, so that no two become one function. */
ErasureCodeProbe::~ErasureCodeProbe() {}
int ErasureCodeProbe::init(ErasureCodeProfile &, std::ostream *) { return 0; }
const ErasureCodeProfile &ErasureCodeProbe::get_profile() const { abort(); }
int ErasureCodeProbe::create_rule(const std::string &, CrushWrapper &, std::ostream *) const {
    return 1;
}
unsigned ErasureCodeProbe::get_chunk_count() const { return 2; }
unsigned ErasureCodeProbe::get_data_chunk_count() const { return 3; }
unsigned ErasureCodeProbe::get_coding_chunk_count() const { return 4; }
int ErasureCodeProbe::get_sub_chunk_count() { return 5; }
unsigned ErasureCodeProbe::get_chunk_size(unsigned) const { return 6; }
int ErasureCodeProbe::minimum_to_decode(const std::set<int> &, const std::set<int> &,
                                        ChunkParts *) {
    return 7;
}
int ErasureCodeProbe::minimum_to_decode_with_cost(const std::set<int> &, const std::map<int, int> &,
                                                  std::set<int> *) {
    return 8;
}
int ErasureCodeProbe::encode(const std::set<int> &, const buffer::list &, Chunks *) { return 9; }
int ErasureCodeProbe::encode_chunks(const std::set<int> &, Chunks *) { return 10; }
int ErasureCodeProbe::decode(const std::set<int> &, const Chunks &, Chunks *, int) { return 11; }
int ErasureCodeProbe::decode_chunks(const std::set<int> &, const Chunks &, Chunks *) { return 12; }
const std::vector<Place> &ErasureCodeProbe::get_chunk_mapping() const { abort(); }
int ErasureCodeProbe::decode_concat(const Chunks &, buffer::list *) { return 13; }
#if CEPH_RELEASE >= 20
int ErasureCodeProbe::minimum_to_decode(const ShardSet &, const ShardSet &, ShardSet &,
                                        ShardParts *) {
    return 14;
}
int ErasureCodeProbe::minimum_to_decode_with_cost(const ShardSet &, const ShardCosts &,
                                                  ShardSet *) {
    return 15;
}
size_t ErasureCodeProbe::get_minimum_granularity() { return 16; }
int ErasureCodeProbe::encode(const ShardSet &, const buffer::list &, ShardChunks *) { return 17; }
int ErasureCodeProbe::encode_chunks(const ShardBuffers &, ShardBuffers &) { return 18; }
void ErasureCodeProbe::encode_delta(const buffer::ptr &, const buffer::ptr &, buffer::ptr *) {}
void ErasureCodeProbe::apply_delta(const ShardBuffers &, ShardBuffers &) { abort(); }
int ErasureCodeProbe::decode(const ShardSet &, const ShardChunks &, ShardChunks *, int) {
    return 19;
}
int ErasureCodeProbe::decode_chunks(const ShardSet &, ShardBuffers &, ShardBuffers &) { return 20; }
int ErasureCodeProbe::decode_concat(const std::set<int> &, const Chunks &, buffer::list *) {
    return 21;
}
uint64_t ErasureCodeProbe::get_supported_optimizations() const { return 22; }
std::string ErasureCodeProbe::get_optimizations_flags_string() const { return "23"; }
#endif

} // namespace ceph

static std::string demangled(const char *name) {
    int status;
    char *const text = abi::__cxa_demangle(name, nullptr, nullptr, &status);
    const std::string whole = text ? text : name;
    free(text);
    return whole;
}

/* The functions in the object's table, without the names of their classes. */
static std::vector<std::string> table_of(const ErasureCodeInterface &code) {
    constexpr int DESTRUCTORS = 2, SLOTS = CEPH_RELEASE >= 20 ? 30 : 18;
    void *const *const table = *reinterpret_cast<void *const *const *>(&code);
    std::vector<std::string> names;
    for (int slot = 0; slot < SLOTS; slot++) {
        Dl_info info;
        std::string name = "unknown";
        if (dladdr(table[slot], &info) && info.dli_sname && info.dli_saddr == table[slot]) {
            const std::string whole = demangled(info.dli_sname);
            const size_t from = whole.rfind("::", whole.find('('));
            name =
                slot < DESTRUCTORS ? "~" : whole.substr(from == std::string::npos ? 0 : from + 2);
        }
        names.push_back(name);
    }
    return names;
}

static void test_tables() {
    const ceph::ErasureCodeProbe probe;
    const auto declared = table_of(probe);
    const std::vector<std::pair<const char *, ErasureCodeProfile>> theirs = {
        {"isa", {{"k", "4"}, {"m", "2"}}},
        {"jerasure", {{"k", "4"}, {"m", "2"}, {"technique", "reed_sol_van"}}},
        {"lrc", {{"k", "4"}, {"m", "2"}, {"l", "3"}}},
    };
    for (const auto &[plugin, profile] : theirs) {
        auto code = code_of(plugin, profile);
        if (!code) continue;
        const auto table = table_of(*code);
        check(declared == table, std::string("ceph_interface.h declares the table of ") + plugin);
        for (size_t slot = 0; slot < declared.size(); slot++)
            if (declared[slot] != table[slot])
                printf("  %zu: %s, declared %s\n", slot, table[slot].c_str(),
                       declared[slot].c_str());
    }
}

/* ---- The field and ranks, for what can be recovered at all ---- */

static uint8_t product(uint8_t a, uint8_t b) {
    unsigned sum = 0;
    for (unsigned x = a; b; b = uint8_t(b >> 1), x = x << 1 ^ (x & 0x80 ? 0x11D : 0))
        if (b & 1) sum ^= x;
    return uint8_t(sum);
}

static uint8_t inverse(uint8_t a) {
    for (unsigned b = 1; b < 256; b++)
        if (product(a, uint8_t(b)) == 1) return uint8_t(b);
    return 0;
}

using Row = std::vector<uint8_t>;

/* For each place the coefficient of each data fragment, found by encoding stripes with one byte. */
static std::vector<Row> rows_of(ErasureCodeInterface &code) {
    const unsigned k = code.get_data_chunk_count(), n = code.get_chunk_count();
    const unsigned len = code.get_chunk_size(1);
    std::vector<Row> rows(n, Row(k));
    for (unsigned data = 0; data < k; data++) {
        buffer::list in;
        in.append_zero(k * len);
        in.c_str()[data * len] = 1;
        Chunks encoded;
        code.encode(places_of(all_of(code)), in, &encoded);
        for (unsigned place = 0; place < n; place++)
            rows[place][data] = uint8_t(encoded[int(place)].c_str()[0]);
    }
    return rows;
}

/* For each set of places, those that it determines: the rows in the span of the set's. */
class Determined {
public:
    explicit Determined(std::vector<Row> of) : rows(std::move(of)), basis(rows[0].size()) {
        for (unsigned a = 0; a < 256; a++)
            for (unsigned b = 0; b < 256; b++) products[a][b] = product(uint8_t(a), uint8_t(b));
        by_set.resize(1u << rows.size());
        add_from(0, 0);
    }
    unsigned operator[](unsigned set) const { return by_set[set]; }

private:
    std::vector<Row> rows, basis; /* the basis by its first column, empty where there is none */
    std::vector<uint16_t> by_set;
    uint8_t products[256][256];

    Row reduce(Row row) const {
        for (unsigned column = 0; column < row.size(); column++)
            if (row[column] && !basis[column].empty())
                for (unsigned i = unsigned(row.size()), by = row[column]; i-- > column;)
                    row[i] ^= products[by][basis[column][i]];
        return row;
    }

    /* Goes through all sets that begin with `set` and go on with places from `from`. */
    void add_from(unsigned from, unsigned set) {
        unsigned determined = set;
        for (unsigned place = 0; place < rows.size(); place++) {
            const Row rest = reduce(rows[place]);
            if (std::all_of(rest.begin(), rest.end(), [](uint8_t byte) { return !byte; }))
                determined |= 1u << place;
        }
        by_set[set] = uint16_t(determined);
        for (unsigned place = from; place < rows.size(); place++) {
            Row row = reduce(rows[place]);
            const auto first =
                std::find_if(row.begin(), row.end(), [](uint8_t byte) { return byte; });
            const size_t column = size_t(first - row.begin());
            if (first != row.end()) {
                const uint8_t by = inverse(*first);
                for (auto &byte : row) byte = products[by][byte];
                basis[column] = row;
            }
            add_from(place + 1, set | 1u << place);
            if (column < basis.size()) basis[column].clear();
        }
    }
};

/* ---- Every set of lost chunks ---- */

/* Decodes a stripe without each set of lost chunks, from exactly what minimum_to_decode names. */
class LostSets {
public:
    LostSets(const std::string &of, ErasureCodeInterface &by, unsigned most)
        : name(of), code(by), most_lost(most), all(all_of(by)), data(data_of(by)),
          determined(rows_of(by)) {
        in = random_bytes(code.get_data_chunk_count() * 512, code.get_chunk_count());
        code.encode(places_of(all), in, &whole);
    }

    void test() {
        for (unsigned lost = 0; lost <= all; lost++)
            if (count_of(lost) <= most_lost) test_lost(lost);
        check(!wrong, name + ": decoded right or refused");
        check(!longer, name + ": reads no more than is needed");
        printf(
            "%s: of %u sets of at most %u lost chunks %u are decoded, %u refused, %u wrong; of %u "
            "questions what to read, %u are answered by more than is needed\n",
            name.c_str(), right + refused + wrong, most_lost, right, refused, wrong, questions,
            longer);
        printf("%s: one lost chunk reads", name.c_str());
        for (const auto &[reads, chunks] : single) printf(" %u (%u of the places)", reads, chunks);
        printf("\n");
    }

    unsigned right = 0, refused = 0;

private:
    const std::string name;
    ErasureCodeInterface &code;
    const unsigned most_lost, all, data;
    const Determined determined;
    buffer::list in;
    Chunks whole;
    unsigned wrong = 0, longer = 0, questions = 0;
    std::map<unsigned, unsigned> single;

    void test_lost(unsigned lost) {
        bool good = test_want(lost, data) & test_want(lost, all) & test_concat(lost);
        for (unsigned part = lost; part; part = (part - 1) & lost) good &= test_want(lost, part);
        const bool recoverable = determined[all & ~lost] == all;
        right += good && recoverable;
        refused += good && !recoverable;
        wrong += !good;
        if (!good) printf("  %s: lost places %#x\n", name.c_str(), lost);
    }

    bool test_want(unsigned lost, unsigned want) {
        const unsigned available = all & ~lost;
        unsigned read = 0;
        Chunks decoded;
        const int asking = to_read(code, want, available, &read);
        questions++;
        if (want & ~determined[available]) {
            const int decoding =
                code.decode(places_of(want), chunks_at(whole, available), &decoded, 0);
            return asking == -EIO && decoding == -EIO;
        }
        longer += want && count_of(read) > fewest(want, available);
        if (count_of(lost) == 1 && want == lost) single[count_of(read)]++;
        const int decoding = code.decode(places_of(want), chunks_at(whole, read), &decoded, 0);
        return !asking && !(read & lost) && !decoding && are_equal(decoded, whole, want);
    }

    /* The fewest places that determine those wanted. A wanted chunk that is available is read
     * itself. */
    unsigned fewest(unsigned want, unsigned available) const {
        unsigned least = all;
        for (unsigned some = available; some; some = (some - 1) & available)
            if (!(want & ~determined[some]) && !(want & available & ~some))
                least = std::min(least, count_of(some));
        return least;
    }

    bool test_concat(unsigned lost) {
        const unsigned available = all & ~lost;
        buffer::list concat;
        const int r = code.decode_concat(chunks_at(whole, available), &concat);
        return data & ~determined[available] ? r == -EIO : !r && concat.contents_equal(in);
    }
};

/* ---- The calls ---- */

static const std::vector<int> groups_of_12 = {0, 1, 2, 3, 4, 5, 8, 9, 10, 11, 12, 13, 6, 14, 7, 15};
static const std::vector<int> groups_of_6 = {0, 1, 2, 5, 6, 7, 3, 8, 4, 9};

/* Whether the code has the mapping of the order. Only groups has one that is not the identity. */
static bool is_mapped(ErasureCodeInterface &code, const std::string &order) {
    const auto &mapping = code.get_chunk_mapping();
    std::vector<int> expected(code.get_chunk_count());
    std::iota(expected.begin(), expected.end(), 0);
    if (order == "groups") expected = expected.size() == 16 ? groups_of_12 : groups_of_6;
    return std::vector<int>(mapping.begin(), mapping.end()) == expected;
}

static void test_shape(const std::string &name, ErasureCodeInterface &code, unsigned k) {
    check(code.get_chunk_count() == k + 4 && code.get_data_chunk_count() == k &&
              code.get_coding_chunk_count() == 4 && code.get_sub_chunk_count() == 1,
          name + ": counts");
    const auto &profile = code.get_profile();
    check(is_mapped(code, profile.at("order")), name + ": places");
    check(profile.at("crush-failure-domain") == "host" && profile.at("crush-root") == "default" &&
              profile.at("k") == std::to_string(k) && profile.at("m") == "4",
          name + ": the profile has the defaults");
    bool sizes = code.get_chunk_size(0) == 0 && code.get_chunk_size(4096 * k) == 4096;
    for (unsigned size = 1; size < 20000; size++) {
        const unsigned chunk = code.get_chunk_size(size);
        sizes &= chunk % 64 == 0 && chunk * k >= size && (chunk - 64) * k < size &&
                 code.get_chunk_size(chunk * k) == chunk;
    }
    check(sizes && code.get_chunk_size(0xFFFFFFFFu) >= 0xFFFFFFFFu / k, name + ": chunk sizes");
}

/* The same bytes in pieces that cut chunks. */
static buffer::list in_pieces(const buffer::list &whole) {
    const std::string bytes = whole.to_str();
    buffer::list pieces;
    for (size_t from = 0, step = 1; from < bytes.size(); from += step, step = step * 3 % 1021 + 1) {
        buffer::list piece;
        piece.append(bytes.substr(from, step));
        pieces.claim_append(piece);
    }
    return pieces;
}

static bool test_len(ErasureCodeInterface &code, unsigned len) {
    const Places all = places_of(all_of(code));
    const buffer::list in = random_bytes(len, len);
    Chunks whole, cut, some;
    bool good = !code.encode(all, in, &whole) && !code.encode(all, in_pieces(in), &cut) &&
                !code.encode({1, 7}, in, &some);
    good = good && whole.size() == all.size() && are_equal(cut, whole, all_of(code)) &&
           some.size() == 2 && are_equal(some, whole, 1u << 1 | 1u << 7);
    for (const auto &chunk : whole) good &= chunk.second.length() == code.get_chunk_size(len);
    buffer::list back, front;
    good = good && !code.decode_concat(chunks_at(whole, all_of(code) & ~0x9u), &back);
    good = good && back.length() == code.get_chunk_size(len) * code.get_data_chunk_count();
    if (good && len) {
        front.substr_of(back, 0, len);
        good = front.contents_equal(in);
    }
    return good;
}

/* Chunks of equal length in buffers of their own, filled with one byte. */
static Chunks filled(unsigned n, unsigned len, char byte) {
    Chunks chunks;
    for (unsigned place = 0; place < n; place++) chunks[int(place)].append(std::string(len, byte));
    return chunks;
}

/* encode_chunks and decode_chunks write into the caller's buffers. */
static void test_buffers(const std::string &name, ErasureCodeInterface &code) {
    const unsigned n = code.get_chunk_count(), all = all_of(code), len = 4096;
    Chunks whole, own = filled(n, len, 'U');
    code.encode(places_of(all), random_bytes(code.get_data_chunk_count() * len, 7), &whole);
    std::vector<char *> at;
    for (unsigned place = 0; place < n; place++) at.push_back(own[int(place)].c_str());
    for (int place : places_of(data_of(code))) memcpy(at[size_t(place)], whole[place].c_str(), len);
    bool good = !code.encode_chunks(places_of(all), &own) && are_equal(own, whole, all);
    const unsigned lost = 1u | 1u << (n - 1);
    for (int place : places_of(lost)) memset(at[size_t(place)], 'U', len);
    good = good && !code.decode_chunks(places_of(lost), chunks_at(whole, all & ~lost), &own) &&
           are_equal(own, whole, all);
    for (unsigned place = 0; place < n; place++) good &= own[int(place)].c_str() == at[place];
    check(good, name + ": encode_chunks and decode_chunks write into the caller's buffers");
}

static void test_refusals(const std::string &name, ErasureCodeInterface &code) {
    const int n = int(code.get_chunk_count());
    const unsigned all = all_of(code);
    Chunks whole, decoded;
    code.encode(places_of(all), random_bytes(code.get_data_chunk_count() * 64, 7), &whole);
    for (unsigned len : {0u, 63u, 65u}) {
        Chunks uneven = chunks_at(whole, all & ~1u);
        uneven[3].clear();
        uneven[3].append_zero(len);
        check(code.decode({0}, uneven, &decoded, 64) == -EINVAL,
              name + ": a chunk of another length is refused");
    }
    ceph::ChunkParts parts;
    check(code.decode({n}, whole, &decoded, 64) == -EINVAL &&
              code.decode({-1}, whole, &decoded, 64) == -EINVAL &&
              code.minimum_to_decode({n}, {0}, &parts) == -EINVAL &&
              code.minimum_to_decode({0}, {99}, &parts) == -EINVAL,
          name + ": a place that the code does not have is refused");
    check(code.decode({0}, {}, &decoded, 64) == -EIO, name + ": nothing is decoded from no chunks");
    Places read;
    std::map<int, int> costs;
    for (int place = 1; place < n; place++) costs[place] = 1;
    check(!code.minimum_to_decode_with_cost({0}, costs, &read) &&
              read.size() == code.get_data_chunk_count() / 2,
          name + ": with costs, the same is read");
}

/* Place 0 is unrecoverable, the other lost place is not: neither is written. */
static void test_unchanged(const std::string &name, ErasureCodeInterface &code) {
    const unsigned n = code.get_chunk_count(), all = all_of(code);
    const auto [group, other] = losses_of(code);
    const unsigned lost = group | 1u << other;
    Chunks whole, own = filled(n, 64, 'U');
    code.encode(places_of(all), random_bytes(code.get_data_chunk_count() * 64, 7), &whole);
    for (int place : places_of(all & ~lost)) own[place] = whole[place];
    const Chunks remaining = chunks_at(whole, all & ~lost), before = own;
    bool good = code.decode_chunks({0, int(other)}, remaining, &own) == -EIO;
    good &= are_equal(own, filled(n, 64, 'U'), 1u | 1u << other);
    good &=
        !code.decode_chunks({int(other)}, remaining, &own) && are_equal(own, whole, 1u << other);
    check(good, name + ": nothing is written if one wanted chunk is unrecoverable");
}

static void test_profiles() {
    std::vector<std::pair<ErasureCodeProfile, std::string>> bad = {
        {{{"k", "10"}}, "azure_lrc: no code has k=10 m=4; set k=12 m=4 or k=6 m=4"},
        {{{"m", "3"}}, "azure_lrc: no code has k=12 m=3; set k=12 m=4 or k=6 m=4"},
        {{{"k", "12x"}}, "azure_lrc: no code has k=12x m=4; set k=12 m=4 or k=6 m=4"},
        {{{"k", "-12"}}, "azure_lrc: no code has k=-12 m=4; set k=12 m=4 or k=6 m=4"},
        {{{"l", "6"}}, "azure_lrc: there is no parameter l; remove it from the profile"},
        {{{"mapping", "DD"}},
         "azure_lrc: there is no parameter mapping; remove it from the profile"},
        {{{"crush-locality", "rack"}},
         "azure_lrc: there is no parameter crush-locality; remove it from the profile, and name a "
         "CRUSH rule when you create the pool"},
        {{{"k", "6"}, {"K", "6"}},
         "azure_lrc: there is no parameter K; remove it from the profile"},
        {{{"order", "data-first"}},
         "azure_lrc: no order is called data-first; set order=interleaved, order=groups or "
         "order=parities-last"},
        {{{"crush-failure-domian", "osd"}},
         "azure_lrc: there is no parameter crush-failure-domian; remove it from the profile"},
    };
    if (CEPH_RELEASE < 20)
        bad.push_back({{{"crush-num-failure-domains", "8"}},
                       "azure_lrc: there is no parameter crush-num-failure-domains; remove it from "
                       "the profile, and name a CRUSH rule when you create the pool"});
    for (const auto &[profile, words] : bad) {
        std::string error;
        check(!make_code("azure_lrc", profile, &error) && error == words + "\n",
              "refused: " + words + ", printed: " + error);
    }
    const ErasureCodeProfile whole = {
        {"plugin", "azure_lrc"},
        {"k", "6"},
        {"m", "4"},
        {"crush-root", "default"},
        {"crush-device-class", ""},
        {"crush-failure-domain", "osd"},
        {"order", "interleaved"},
        {"technique", "reed_sol_van"}, /* of Ceph's default profile: Rook passes it */
        {"stripe_unit", "4096"},
        {"directory", "/usr/lib/ceph/erasure-code"},
    };
    std::string error;
    check(bool(make_code("azure_lrc", whole, &error)), "all parameters: " + error);
}

/* ---- The rule for CRUSH ---- */

static std::vector<std::string> rule;

/* The plugin calls this one and not Ceph's, which another test of tests/ceph.sh looks for. */
int CrushWrapper::add_simple_rule(std::string name, std::string root, std::string failure_domain,
#if CEPH_RELEASE >= 20
                                  int domains,
#endif
                                  std::string device_class, std::string mode, int pool_type,
                                  std::ostream *) {
    rule = {name, root, failure_domain, device_class, mode, std::to_string(pool_type)};
#if CEPH_RELEASE >= 20
    rule.push_back(std::to_string(domains));
#endif
    return 5;
}

#if CEPH_RELEASE >= 20
int CrushWrapper::add_indep_multi_osd_per_failure_domain_rule(std::string name, std::string root,
                                                              std::string failure_domain,
                                                              int domains, int osds_each,
                                                              std::string device_class,
                                                              std::ostream *) {
    rule = {name,        root, failure_domain, std::to_string(domains), std::to_string(osds_each),
            device_class};
    return 6;
}
#endif

/* Whether a profile makes this rule. */
static bool makes_rule(ErasureCodeProfile profile, const std::vector<std::string> &expected) {
    CrushWrapper crush;
    profile["crush-root"] = "r";
    profile["crush-device-class"] = "ssd";
    auto code = code_of("azure_lrc", profile);
    return code && code->create_rule("name", crush, nullptr) > 4 && rule == expected;
}

static void test_rule() {
    std::vector<std::string> expected = {"name", "r", "host", "ssd", "indep", "3"};
    if (CEPH_RELEASE >= 20) expected.push_back("-1");
    check(makes_rule({}, expected), "the rule for CRUSH");
}

/* Rules for several OSDs in each failure domain, which Ceph 19 and later make. */
static void test_domains() {
#if CEPH_RELEASE >= 20
    const std::string domains = "crush-num-failure-domains", each = "crush-osds-per-failure-domain";
    const std::vector<std::string> many = {"name", "r", "host", "8", "2", "ssd"},
                                   single = {"name", "r", "host", "ssd", "indep", "3", "16"},
                                   small = {"name", "r", "rack", "5", "2", "ssd"};
    check(makes_rule({{domains, "8"}, {each, "2"}}, many), "a rule for two OSDs in each domain");
    check(makes_rule({{domains, "16"}, {each, "1"}}, single), "a rule for sixteen domains");
    check(makes_rule({{"k", "6"}, {domains, "5"}, {each, "2"}, {"crush-failure-domain", "rack"}},
                     small),
          "a rule for five domains");
    const std::string no_number = "azure_lrc: crush-num-failure-domains=";
    std::vector<std::pair<ErasureCodeProfile, std::string>> bad = {
        {{{domains, "7"}, {each, "2"}},
         "azure_lrc: crush-num-failure-domains times crush-osds-per-failure-domain is 14; set them "
         "for 16 chunks"},
        {{{domains, "9"}, {"k", "6"}},
         "azure_lrc: crush-num-failure-domains times crush-osds-per-failure-domain is 9; set them "
         "for 10 chunks"},
        {{{each, "2"}},
         "azure_lrc: crush-osds-per-failure-domain is alone; set crush-num-failure-domains, too"},
        {{{domains, "x8"}}, no_number + "x8 is no number; set one of 1 to 999"},
        {{{domains, "1000"}}, no_number + "1000 is no number; set one of 1 to 999"},
        {{{domains, ""}}, no_number + " is no number; set one of 1 to 999"},
    };
    for (const auto &[profile, words] : bad) {
        std::string error;
        check(!make_code("azure_lrc", profile, &error) && error == words + "\n",
              "refused: " + words + ", printed: " + error);
    }
#endif
}

/* ---- Stored chunks ---- */

static std::string bytes_of_file(const std::string &path) {
    std::ifstream file(path, std::ios::binary);
    return {std::istreambuf_iterator<char>(file), {}};
}

/* Chunks that an earlier version stored, one after the other by their places: the object encodes to
 * them, and they are decoded without each recoverable set of at most four. */
static void test_corpus(const std::string &corpus, ErasureCodeInterface &code, unsigned k) {
    const std::string order = code.get_profile().at("order"),
                      name = "corpus, k=" + std::to_string(k) + " " + order,
                      object = bytes_of_file(corpus + "/object");
    const std::string stored = bytes_of_file(corpus + "/ceph_" + std::to_string(k) + "_4" +
                                             (order == "groups" ? "" : "_" + order));
    const unsigned n = code.get_chunk_count(), all = all_of(code),
                   len = code.get_chunk_size(unsigned(object.size()));
    if (!check(!object.empty() && stored.size() == n * len,
               name + ": " + corpus + " has the chunks"))
        return;
    buffer::list in;
    in.append(object);
    Chunks encoded, whole;
    for (unsigned place = 0; place < n; place++)
        whole[int(place)].append(stored.substr(place * len, len));
    check(!code.encode(places_of(all), in, &encoded) && are_equal(encoded, whole, all),
          name + ": encoded alike");
    bool good = true;
    for (unsigned lost = 0; lost <= all; lost++) {
        Chunks decoded;
        unsigned read;
        if (count_of(lost) <= 4 && !to_read(code, all, all & ~lost, &read))
            good &= !code.decode(places_of(all), chunks_at(whole, read), &decoded, int(len)) &&
                    are_equal(decoded, whole, all);
    }
    check(good, name + ": decoded alike");
}

/* What Ceph 20.2 adds. Ceph's own isa passes, too: so its types are those of ceph_shards.h. */
static void test_shards(const std::string &plugin, ErasureCodeProfile profile) {
    auto code = code_of(plugin, profile);
#if CEPH_RELEASE >= 20
    if (!code) return;
    const std::string order = profile["order"];
    ShardsTest test(plugin + " k=" + profile["k"] + " " + order, *code, check);
    test.test();
    test.test_optimized(plugin == "isa" || order != "groups");
    if (plugin == "azure_lrc") test.test_refused();
#endif
}

static ErasureCodeProfile profile_of(unsigned k, const std::string &order) {
    return {{"k", std::to_string(k)}, {"m", "4"}, {"order", order}};
}

/* In this order a place is its fragment's number, and a chunk has the same bytes as in groups. */
static void test_parities_last(unsigned k) {
    const std::string name = "k=" + std::to_string(k) + ", parities last";
    auto groups = code_of("azure_lrc", profile_of(k, "groups")),
         code = code_of("azure_lrc", profile_of(k, "parities-last"));
    if (!groups || !code) return;
    const auto &in_groups = groups->get_chunk_mapping();
    const buffer::list in = random_bytes(k * 4096, k);
    Chunks chunks, expected;
    bool good = is_mapped(*code, "parities-last") &&
                !code->encode(places_of(all_of(*code)), in, &chunks) &&
                !groups->encode(places_of(all_of(*code)), in, &expected);
    for (unsigned fragment = 0; fragment < k + 4; fragment++)
        good = good && chunks[int(fragment)].contents_equal(expected[in_groups[fragment]]);
    check(good, name + ": the chunks");
    check(code->get_profile().at("order") == "parities-last", name + ": the profile");
    unsigned read = 0;
    check(!to_read(*code, 1u << k, all_of(*code) & ~(1u << k), &read) && read == (1u << k / 2) - 1,
          name + ": a local parity is read from its group");
}

/* In this order a group is at the even places or at the odd ones, up to those of the global
 * parities. */
static void test_interleaved(unsigned k) {
    auto code = code_of("azure_lrc", profile_of(k, "interleaved"));
    bool good = bool(code);
    for (unsigned place = 0; good && place < k + 2; place++) {
        const unsigned group = (place % 2 ? 0xAAAAu : 0x5555u) & ((1u << (k + 2)) - 1);
        unsigned read = 0;
        good = !to_read(*code, 1u << place, all_of(*code) & ~(1u << place), &read) &&
               read == (group & ~(1u << place));
    }
    check(good, "k=" + std::to_string(k) + ", interleaved: a chunk is read from its group");
}

/* The profile that a monitor stores: it has the plugin make a code, and initializes that once more
 * with what the plugin has completed. */
static ErasureCodeProfile stored_by_monitor(const ErasureCodeProfile &asked) {
    auto code = code_of("azure_lrc", asked);
    if (!code) return {};
    ErasureCodeProfile profile = code->get_profile();
    check(!code->init(profile, nullptr) && profile == code->get_profile(), "initialized again");
    check(is_mapped(*code, profile["order"]), "and has the order of the profile");
    return profile;
}

/* A new profile is interleaved, and says so. A profile that names no order was stored by an earlier
 * version, which had groups by default; or raw, as the default of a new cluster. */
static void test_default_order(unsigned k) {
    const std::string name = "k=" + std::to_string(k) + ": ", data = std::to_string(k);
    const ErasureCodeProfile raw = {{"plugin", "azure_lrc"}, {"k", data}, {"m", "4"}};
    ErasureCodeProfile complete = raw, changed = raw;
    complete.insert(
        {{"crush-device-class", ""}, {"crush-failure-domain", "host"}, {"crush-root", "default"}});
    changed["order"] = "groups";
    for (const auto &profile : {raw, complete}) {
        auto code = code_of("azure_lrc", profile);
        check(code && is_mapped(*code, "groups") && code->get_profile() == complete,
              name + "a stored profile that names no order is of groups");
    }
    ErasureCodeProfile expected = complete;
    expected["order"] = "interleaved";
    check(stored_by_monitor(raw) == expected, name + "a new profile is interleaved");
    check(stored_by_monitor(expected) == expected, name + "a stored profile keeps its order");
    auto code = code_of("azure_lrc", expected);
    check(code && is_mapped(*code, "interleaved"), name + "the order that was stored");
    check(stored_by_monitor(changed).at("order") == "groups",
          name + "the order that was asked for");
}

/* What a build has to pass before it is used. */
static void test_built() {
    if (!access((plugins + "/libec_isa.so").c_str(), R_OK)) {
        test_tables();
        test_shards("isa", {{"k", "12"}, {"m", "4"}});
    }
    test_rule();
    test_domains();
    for (unsigned k : {12u, 6u})
        for (const char *order : {"interleaved", "groups", "parities-last"})
            test_shards("azure_lrc", profile_of(k, order));
}

static void test_code(const ErasureCodeProfile &profile, const std::string &corpus) {
    auto code = code_of("azure_lrc", profile);
    if (!code) return;
    const unsigned k = code->get_data_chunk_count();
    const std::string name = "k=" + std::to_string(k) + " " + profile.at("order");
    test_shape(name, *code, k);
    bool lengths = true;
    for (unsigned len :
         {0u, 1u, 63u, 64u, 767u, 768u, 769u, 4096u, 49151u, 49152u, 49153u, 100000u})
        lengths &= test_len(*code, len);
    check(lengths, name + ": lengths that fill no stripe, and bytes in pieces");
    test_buffers(name, *code);
    test_refusals(name, *code);
    test_unchanged(name, *code);
    test_corpus(corpus, *code, k);
}

static void test_sets(unsigned k) {
    const std::string name = "k=" + std::to_string(k);
    auto code = code_of("azure_lrc", profile_of(k, "interleaved"));
    if (!code) return;
    LostSets sets(name, *code, k == 12 ? 4 : 10);
    sets.test();
    check(k == 12 ? sets.right == 2265 && sets.refused == 252
                  : sets.right == 356 && sets.refused == 668,
          name + ": the numbers of sets decoded and refused");
}

/* ---- Whole failure domains ---- */

/* How many sets of so many lost domains there are, and of how many all chunks are recoverable. Each
 * domain has `each` places that follow each other. */
static std::pair<unsigned, unsigned> domains_of(ErasureCodeInterface &code, unsigned each,
                                                unsigned lost_domains) {
    const unsigned all = all_of(code), domains = code.get_chunk_count() / each;
    unsigned sets = 0, served = 0;
    for (unsigned some = 0; some < 1u << domains; some++) {
        unsigned lost = 0, read;
        if (count_of(some) != lost_domains) continue;
        for (int domain : places_of(some)) lost |= ((1u << each) - 1) << unsigned(domain) * each;
        sets++;
        served += !to_read(code, all, all & ~lost, &read);
    }
    return {sets, served};
}

static std::string with_commas(unsigned number) {
    const std::string digits = std::to_string(number);
    return number < 1000
               ? digits
               : digits.substr(0, digits.size() - 3) + "," + digits.substr(digits.size() - 3);
}

/* The rows of the table of README.md. */
static void test_page(const std::string &path) {
    const std::string page = bytes_of_file(path);
    for (const auto &[k, each, lost] : std::vector<std::array<unsigned, 3>>{
             {12, 1, 4}, {12, 2, 2}, {12, 4, 1}, {6, 1, 4}, {6, 2, 2}}) {
        std::string row;
        for (const char *order : {"interleaved", "groups", "parities-last", "isa"}) {
            const bool is_isa = std::string(order) == "isa";
            ErasureCodeProfile profile = profile_of(k, order);
            if (is_isa) profile.erase("order");
            auto code = code_of(is_isa ? "isa" : "azure_lrc", profile);
            if (!code) return;
            const auto [sets, served] = domains_of(*code, each, lost);
            if (row.empty())
                row = "| " + std::to_string(k) + " | " + std::to_string((k + 4) / each) + " | " +
                      std::to_string(each) + " | any " + std::to_string(lost) + " | " +
                      with_commas(sets) + " |";
            row += " " + with_commas(served) + " |";
        }
        check(page.find("\n" + row + "\n") != page.npos, path + " has no row " + row);
    }
}

int main(int argc, char **argv) {
    if (argc != 4 || !begin(argv[1])) {
        fprintf(stderr, "usage: plugin_test FOLDER CORPUS PAGE|built\n");
        return 2;
    }
    test_built();
    if (std::string(argv[3]) != "built") {
        test_profiles();
        for (unsigned k : {12u, 6u}) {
            test_default_order(k);
            for (const char *order : {"interleaved", "groups"})
                test_code(profile_of(k, order), argv[2]);
            test_sets(k);
            test_interleaved(k);
            test_parities_last(k);
        }
        test_page(argv[3]);
    }
    printf("Ceph: %d checks of the plugin passed, %d failed\n", passed, failed);
    fflush(stdout);
    _exit(failed ? 1 : 0); /* a plugin is never unloaded */
}
