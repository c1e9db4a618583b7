// An independent model of the store, for the random tests. It keeps each blob's bytes as they were
// put. Which lost fragments are unrecoverable follows from the ranks of the parities' columns.
#ifndef EDGES_MODEL_HPP
#define EDGES_MODEL_HPP

#include "lrc_store.h"

#include <algorithm>
#include <array>
#include <cstdint>
#include <deque>
#include <map>
#include <memory>
#include <optional>
#include <string>
#include <tuple>
#include <vector>

namespace model {

// The products in GF(2^8) with the polynomial 0x11D.
class Products {
public:
    Products() {
        for (unsigned a = 0; a < 256; a++)
            for (unsigned b = 0; b < 256; b++)
                for (unsigned bit = 0, shifted = a; bit < 8; bit++) {
                    if (b >> bit & 1) table[a][b] = uint8_t(table[a][b] ^ shifted);
                    shifted = shifted << 1 ^ (shifted & 0x80 ? 0x11D : 0);
                }
    }
    uint8_t table[256][256] = {};
};

inline const Products products;

inline unsigned product(unsigned a, unsigned b) { return products.table[a & 255][b & 255]; }

inline unsigned inverse(unsigned a) {
    unsigned power = 1;
    for (int i = 0; i < 254; i++) power = product(power, a);
    return power;
}

// LRC(12,2,2) or LRC(6,2,2). A column has a fragment's coefficients in the four parities.
class Code {
public:
    using Column = std::array<uint8_t, 4>;
    const unsigned data, all;

    explicit Code(unsigned data_fragments)
        : data(data_fragments), all(data + 4), ranks(size_t{1} << all) {
        for (unsigned f = 0; f < data; f++) {
            const bool is_first = f < data / 2;
            const unsigned weight = is_first ? f + 1 : 16 * (f - data / 2 + 1);
            columns[f] = {is_first, !is_first, uint8_t(weight), uint8_t(product(weight, weight))};
        }
        for (unsigned p = 0; p < 4; p++) columns[data + p][p] = 1;
        for (unsigned lost = 0; lost < ranks.size(); lost++) ranks[lost] = rank_of(lost);
    }

    const Column &column(unsigned fragment) const { return columns[fragment]; }

    // Whether a stripe that differs in this fragment agrees on all remaining ones: whether the
    // fragment's column is a sum of multiples of the other lost fragments' columns.
    bool is_unrecoverable(unsigned lost, unsigned fragment) const {
        lost &= (1u << all) - 1;
        return (lost >> fragment & 1) && ranks[lost] == ranks[lost & ~(1u << fragment)];
    }

private:
    std::array<Column, 16> columns{};
    std::vector<uint8_t> ranks;

    uint8_t rank_of(unsigned lost) const {
        std::array<Column, 4> basis{};
        uint8_t rank = 0;
        for (unsigned f = 0; f < all; f++)
            if (lost >> f & 1) rank += is_added(basis, columns[f]);
        return rank;
    }

    // Reduces a column by a basis, and adds what is not zero to it.
    static bool is_added(std::array<Column, 4> &basis, Column column) {
        for (unsigned p = 0; p < 4; p++) {
            if (column[p] == 0) continue;
            if (basis[p][p] == 0) {
                const unsigned scale = inverse(column[p]);
                for (unsigned q = 0; q < 4; q++) basis[p][q] = uint8_t(product(scale, column[q]));
                return true;
            }
            const unsigned factor = column[p];
            for (unsigned q = 0; q < 4; q++) column[q] ^= uint8_t(product(factor, basis[p][q]));
        }
        return false;
    }
};

inline const Code &code_of(unsigned data_fragments) {
    static const Code wide(12), small(6);
    return data_fragments == 12 ? wide : small;
}

inline bool is_name(const std::string &name) {
    static const char letters[] = "abcdefghijklmnopqrstuvwxyz0123456789._-";
    return !name.empty() && name.size() <= 32 &&
           name.find_first_not_of(letters, 0, sizeof letters - 1) == std::string::npos;
}

using Bytes = std::shared_ptr<const std::string>;

// A call with its reply, as a journal has it.
struct Entry {
    uint32_t who = 0, call = 0;
    std::string name;
    uint64_t first = 0, second = 0, third = 0;
    uint64_t version = 0, len = 0, stripes = 0, lost = 0;
    uint32_t status = LRC_STORE_DONE;
};

// A part of one fragment.
struct Part {
    uint64_t stripe;
    unsigned fragment;
    uint64_t len;
    bool is_lost;
};

struct Blob {
    uint64_t version = 0, len = 0, stripes = 0, lost_count = 0;
    uint32_t width = 1;
    unsigned data = 12;
    Bytes bytes;
    std::map<uint64_t, unsigned> lost; // by stripe

    unsigned lost_of(uint64_t stripe) const {
        const auto found = lost.find(stripe);
        return found == lost.end() ? 0 : found->second;
    }
    bool is_lost(uint64_t stripe, uint64_t fragment) const {
        return lost_of(stripe) >> fragment & 1;
    }
    bool is_unrecoverable(uint64_t stripe, uint64_t fragment) const {
        return code_of(data).is_unrecoverable(lost_of(stripe), unsigned(fragment));
    }

    uint32_t status_of_read(uint64_t start, uint64_t count) const {
        if (start > len || count > len - start) return LRC_STORE_OUT_OF_RANGE;
        for (const Part &part : parts(start, count))
            if (is_unrecoverable(part.stripe, part.fragment)) return LRC_STORE_UNRECOVERABLE;
        return LRC_STORE_DONE;
    }

    std::vector<Part> parts(uint64_t start, uint64_t count) const {
        std::vector<Part> cut;
        for (uint64_t at = start, end = start + count; at < end; at += cut.back().len) {
            const uint64_t number = at / width, rest = (number + 1) * width - at;
            const uint64_t stripe = number / data;
            const unsigned fragment = unsigned(number % data);
            cut.push_back(
                {stripe, fragment, rest < end - at ? rest : end - at, is_lost(stripe, fragment)});
        }
        return cut;
    }
};

struct Item {
    std::string name;
    uint64_t stripe;
    unsigned fragment;

    bool operator<(const Item &other) const {
        return std::tie(name, stripe, fragment) <
               std::tie(other.name, other.stripe, other.fragment);
    }
};

class Store {
public:
    uint32_t width = 1;
    std::optional<uint32_t> limit; // of the journal, if there is one
    std::map<std::string, Blob> blobs;
    std::deque<Entry> journal;
    uint64_t puts = 0, discarded = 0; // the latter are calls that have no entry

    bool is_full() const { return limit && journal.size() >= *limit; }

    // Takes note of an answered call.
    void note(const Entry &entry) {
        if (limit)
            journal.push_back(entry);
        else
            discarded++;
    }

    const Blob *find(const std::string &name) const {
        const auto found = blobs.find(name);
        return found == blobs.end() ? nullptr : &found->second;
    }

    // Makes the change of a call, and fills in its reply.
    void answer(Entry &entry, const Bytes &bytes = nullptr) {
        const auto found = blobs.find(entry.name);
        if (entry.call == LRC_CALL_PUT) return put(entry, bytes);
        if (found == blobs.end()) {
            entry.status = LRC_STORE_NO_NAME;
            return;
        }
        Blob &blob = found->second;
        if (entry.call == LRC_CALL_READ)
            entry.status = blob.status_of_read(entry.first, entry.second);
        if (entry.call == LRC_CALL_RESTORE && entry.third != blob.version)
            entry.status = LRC_STORE_REPLACED;
        else if (entry.call == LRC_CALL_LOSE || entry.call == LRC_CALL_REPAIR ||
                 entry.call == LRC_CALL_RESTORE)
            entry.status = entry.first >= blob.stripes || entry.second >= blob.data + 4
                               ? uint32_t{LRC_STORE_NO_FRAGMENT}
                           : entry.call == LRC_CALL_LOSE ? lose(entry, blob)
                                                         : repair(entry, blob);
        if (entry.status == LRC_STORE_DONE || entry.status == LRC_STORE_UNRECOVERABLE ||
            entry.status == LRC_STORE_REPLACED)
            entry.version = blob.version;
        if (entry.call == LRC_CALL_STAT) {
            entry.len = blob.len;
            entry.stripes = blob.stripes;
            entry.lost = blob.lost_count;
        }
        if (entry.call == LRC_CALL_DELETE) blobs.erase(found);
    }

    lrc_numbers numbers() const {
        lrc_numbers all = {blobs.size(), 0, 0, 0, discarded + journal.size(), journal.size()};
        for (const auto &[name, blob] : blobs) {
            all.bytes += blob.len;
            all.lost += blob.lost_count;
            for (const auto &[stripe, lost] : blob.lost)
                for (unsigned f = 0; f < 16; f++)
                    if (blob.is_unrecoverable(stripe, f)) {
                        all.unrecoverable++;
                        break;
                    }
        }
        return all;
    }

    // All lost fragments, by name, stripe and fragment.
    std::vector<Item> plan() const {
        std::vector<Item> items;
        for (const auto &[name, blob] : blobs)
            for (const auto &[stripe, lost] : blob.lost)
                for (unsigned f = 0; f < 16; f++)
                    if (lost >> f & 1) items.push_back({name, stripe, f});
        return items;
    }

    // The first `most` of them behind an item, or the first of all.
    std::vector<Item> plan_part(const std::optional<Item> &after, uint64_t most) const {
        std::vector<Item> items = plan();
        if (after) items.erase(items.begin(), std::upper_bound(items.begin(), items.end(), *after));
        if (items.size() > most) items.resize(most);
        return items;
    }

private:
    void put(Entry &entry, const Bytes &bytes) {
        Blob blob;
        blob.version = entry.version = ++puts;
        blob.len = entry.second;
        blob.data = unsigned(entry.first);
        blob.width = width;
        const uint64_t stripe = uint64_t{blob.data} * width;
        blob.stripes = (blob.len + stripe - 1) / stripe;
        blob.bytes = bytes;
        blobs[entry.name] = blob;
    }

    static uint32_t lose(const Entry &entry, Blob &blob) {
        if (blob.is_lost(entry.first, entry.second)) return LRC_STORE_ALREADY_LOST;
        blob.lost[entry.first] |= 1u << entry.second;
        blob.lost_count++;
        return LRC_STORE_DONE;
    }

    static uint32_t repair(const Entry &entry, Blob &blob) {
        if (!blob.is_lost(entry.first, entry.second)) return LRC_STORE_NOT_LOST;
        if (entry.call == LRC_CALL_REPAIR && blob.is_unrecoverable(entry.first, entry.second))
            return LRC_STORE_UNRECOVERABLE;
        unsigned &lost = blob.lost[entry.first];
        lost &= ~(1u << entry.second);
        if (lost == 0) blob.lost.erase(entry.first);
        blob.lost_count--;
        return LRC_STORE_DONE;
    }
};

} // namespace model
#endif
