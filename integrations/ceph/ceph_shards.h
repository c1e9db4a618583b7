/* The types by which Ceph 20.2 passes chunks to a plugin, beside std::set<int> and std::map<int,
 * T>.
 *
 * Their names are in those of the functions that the installed plugins export, and the places of
 * their members in the code of these functions. plugin_test.cc passes each type to Ceph's own isa.
 * Ceph makes the sets and maps; a plugin reads them, and adds to those that it is given. */
#ifndef CEPH_SHARDS_H
#define CEPH_SHARDS_H

#include <cstddef>
#include <cstdint>
#include <optional>
#include <utility>
#include <vector>

/* A place, which Ceph calls a shard. */
struct shard_id_t {
    int8_t id = 0;
    shard_id_t() = default;
    shard_id_t(int place) : id(int8_t(place)) {}
    operator int() const { return id; }
};

/* A set of numbers below Bits: a bit for each. */
template <size_t Bits, class Key> class bitset_set {
public:
    bitset_set() = default;
    bitset_set(const bitset_set &) = delete;
    bitset_set &operator=(const bitset_set &) = delete;
    static constexpr int most() { return int(Bits); }
    bool contains(int key) const { return words[key / 64] >> key % 64 & 1; }
    void insert(int key) { words[key / 64] |= uint64_t(1) << key % 64; }

private:
    uint64_t words[Bits / 64] = {};
    /* Ceph's end of an iteration */
    const bitset_set *set = this;
    Key end = Key(int(Bits));
};

/* A map from numbers below a bound, with a slot for each. */
template <class Key, class T, class Number> class mini_flat_map {
public:
    explicit mini_flat_map(unsigned most)
        : slots(most), ends{{this, int(most)}, {this, int(most)}} {}
    mini_flat_map(const mini_flat_map &) = delete;
    mini_flat_map &operator=(const mini_flat_map &) = delete;
    int most() const { return int(slots.size()); }
    bool contains(int key) const { return key < most() && slots[size_t(key)].has_value(); }
    const T &at(int key) const { return *slots[size_t(key)]; }
    T &at(int key) { return *slots[size_t(key)]; }
    /* The key is below the bound. */
    void set(int key, T value) {
        count += !slots[size_t(key)];
        slots[size_t(key)] = std::move(value);
    }

private:
    /* Ceph's end of an iteration, which has no item. */
    struct End {
        End(const mini_flat_map *of, int most) : map(of), key(most) {}
        const mini_flat_map *map;
        std::optional<std::pair<const void *, const void *>> item;
        Key key;
    };
    std::vector<std::optional<T>> slots;
    End ends[2];
    size_t count = 0;
};

using shard_id_set = bitset_set<128, shard_id_t>;
template <class T> using shard_id_map = mini_flat_map<shard_id_t, T, signed char>;

static_assert(sizeof(shard_id_set) == 32 && sizeof(shard_id_map<int>) == 112, "Ceph's sizes");

#endif
