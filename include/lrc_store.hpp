// lrc_store.hpp: the store of lrc_store.h for C++17. Destructors release slots, and errors are
// thrown. A call waits while other threads are in the critical section, as long as its session's
// timeout allows. What lrc_store.h says of signals and of fork holds here too.
#ifndef LRC_STORE_HPP
#define LRC_STORE_HPP

#if __cplusplus < 201703L
#error "lrc_store.hpp needs C++17: compile with -std=c++17 or later"
#endif

#include "lrc_store.h"

#include <algorithm>
#include <array>
#include <chrono>
#include <iterator>
#include <optional>
#include <stdexcept>
#include <string>
#include <string_view>
#include <utility>
#include <vector>

namespace lrc {

// The error of a call that failed, with its status. LRC_STORE_BUSY if the timeout has passed.
class store_error : public std::runtime_error {
public:
    store_error(const std::string &call, uint32_t code)
        : std::runtime_error(call + ": " + lrc_store_text(code)), status(code) {}
    const uint32_t status;
};

// The error of a mend that stopped, with the number of fragments that it repaired before.
class mend_error : public store_error {
public:
    mend_error(uint32_t code, uint64_t count)
        : store_error("mend() after " + std::to_string(count) + " repaired fragments", code),
          repaired(count) {}
    const uint64_t repaired;
};

namespace detail {

inline std::string shown(std::string_view text) { return '"' + std::string(text) + '"'; }
inline std::string shown(uint64_t number) { return std::to_string(number); }

// Throws store_error if a call failed. The error shows the call and its arguments, such as
// read("photo", 0, 12). A put has the blob's length in place of the blob.
template <class... Arguments>
void check(uint32_t status, const char *call, const Arguments &...arguments) {
    if (status == LRC_STORE_DONE) return;
    std::string text = std::string(call) + '(';
    [[maybe_unused]] const char *before = "";
    ((text.append(before).append(shown(arguments)), before = ", "), ...);
    throw store_error(text + ')', status);
}

// A pool or a store that is open. Throws store_error with LRC_STORE_EMPTY if it was closed.
template <class Held> Held *opened(Held *held, const char *call) {
    check(held ? uint32_t{LRC_STORE_DONE} : uint32_t{LRC_STORE_EMPTY}, call);
    return held;
}

// What a mend with this status returns.
inline uint64_t mended(uint32_t status, uint64_t repaired) {
    if (status != LRC_STORE_DONE) throw mend_error(status, repaired);
    return repaired;
}

inline const uint8_t *bytes(std::string_view text) {
    return reinterpret_cast<const uint8_t *>(text.data() ? text.data() : "");
}

// An address that is not NULL, also if no byte is written there.
inline uint8_t *target(void *at) {
    static uint8_t none;
    return at ? static_cast<uint8_t *>(at) : &none;
}

// A timeout as the library has it. Without one a call waits for ever.
inline int64_t wait_of(std::optional<std::chrono::milliseconds> timeout) {
    return timeout ? std::max<int64_t>(timeout->count(), 0) : -1;
}

} // namespace detail

// A name for a key of any bytes. Nobody has found two keys with one name.
inline std::string name_of(std::string_view key) {
    std::string name(LRC_STORE_NAME_LEN, '\0');
    lrc_store_name(detail::bytes(key), key.size(), reinterpret_cast<uint8_t *>(name.data()));
    return name;
}

// A slot, which its destructor releases. Its content may be moved: one copy counts at a time.
class slot {
public:
    slot() = default;
    slot(slot &&other) noexcept : held(std::exchange(other.held, lrc_slot LRC_SLOT_EMPTY)) {}
    // What was in this slot is released, and the other one is left empty.
    slot &operator=(slot &&other) noexcept {
        slot moved(std::move(other));
        std::swap(held, moved.held);
        return *this;
    }
    ~slot() { lrc_slot_release(&held); }
    lrc_slot *get() { return &held; }

private:
    lrc_slot held LRC_SLOT_EMPTY;
};

// A lent range of a blob. Its bytes do not change while this lives.
class grant {
public:
    uint64_t version() const { return number; }
    // The bytes, with those that lie one behind another in memory as one slice.
    const std::vector<lrc_slice> &runs() const { return joined; }
    // The same bytes in pieces, each of one fragment. They are listed anew, for one thread at a
    // time.
    std::vector<lrc_slice> slices() {
        std::vector<lrc_slice> listed(pieces + 1, none);
        uint64_t written = 0;
        lrc_slot_slices(lent.get(), listed.data(), pieces, &written);
        listed.resize(written);
        return listed;
    }
    std::string str() const {
        size_t len = 0;
        for (const lrc_slice &run : joined) len += run.len;
        std::string text;
        text.reserve(len);
        for (const lrc_slice &run : joined)
            text.append(reinterpret_cast<const char *>(run.at), run.len);
        return text;
    }

private:
    friend class calls;
    friend class version;

    // Takes all runs from the slot, which has `count` pieces.
    void take(uint64_t count) {
        uint64_t written = 0, from = 0;
        pieces = count;
        std::array<lrc_slice, 16> some;
        do {
            some.fill(none);
            lrc_slot_runs(lent.get(), from, some.data(), some.size(), &written);
            for (size_t i = 0; i < written; i++) from += some[i].len;
            joined.insert(joined.end(), some.data(), some.data() + written);
        } while (written == some.size());
    }

    static inline const lrc_slice none{reinterpret_cast<const uint8_t *>(""), 0};
    slot lent;
    uint64_t number = 0, pieces = 0;
    std::vector<lrc_slice> joined;
};

// A version of a blob that is held, for one thread at a time. It stays as it is while this lives,
// whatever happens to the blob and to the store. Its calls take no lock and make no journal entry.
class version {
public:
    // The number of the put that stored it, and its length in bytes.
    uint64_t number() const { return put_number; }
    uint64_t size() const { return len; }

    lrc_shape shape() {
        lrc_shape found{};
        detail::check(lrc_slot_shape(held.get(), &found), "shape");
        return found;
    }

    // Which fragments of a stripe were lost when it was held: bit f if fragment f was.
    uint16_t lost(uint64_t stripe) {
        uint16_t found = 0;
        detail::check(lrc_slot_lost(held.get(), stripe, &found), "lost", stripe);
        return found;
    }

    // Lends `count` bytes, from the byte `start` on.
    grant read(uint64_t start, uint64_t count) {
        grant made;
        uint64_t pieces = 0;
        made.number = put_number;
        detail::check(lrc_slot_lend(held.get(), start, count, made.lent.get(), &pieces), "read",
                      start, count);
        made.take(pieces);
        return made;
    }

    // Copies `count` bytes, from the byte `start` on, into `target`.
    void read_into(uint64_t start, void *target, size_t count) {
        detail::check(lrc_slot_copy(held.get(), start, detail::target(target), count), "read_into",
                      start, count);
    }

    // Lends a fragment of a stripe, data or parity, until the next call of this version.
    lrc_slice fragment(uint64_t stripe, uint64_t number) {
        lrc_slice found{reinterpret_cast<const uint8_t *>(""), 0};
        detail::check(lrc_slot_fragment(held.get(), stripe, number, &found), "fragment", stripe,
                      number);
        return found;
    }

private:
    friend class calls;
    slot held;
    uint64_t put_number = 0, len = 0;
};

// Bytes that the caller fills, and that a put stores without a copy. After the put there are none.
class buffer {
public:
    buffer(buffer &&) = delete;
    explicit buffer(size_t len) : reserved_len(len) {
        detail::check(lrc_slot_reserve(len, reserved.get()), "reserve", len);
        lrc_slot_buffer(reserved.get(), &bytes);
    }
    uint8_t *data() { return bytes.at; }
    size_t size() const { return bytes.len; }

private:
    friend class calls;
    static inline uint8_t none = 0;
    slot reserved;
    const size_t reserved_len;
    lrc_buffer bytes{&none, 0};
};

// The journal of a closed store. An entry's name is valid until the next call.
class journal {
public:
    // The number of calls that have no entry: without a journal, of all.
    uint64_t discarded() const { return without_entry; }
    uint64_t size() const { return count; }
    // Whether a check found it lawful. False if there was no memory for the check, or no journal.
    bool is_checked() const { return lawful == 1; }
    lrc_entry entry(size_t index) {
        lrc_entry found{{reinterpret_cast<const uint8_t *>(""), 0}, 0, 0, 0, 0, 0, 0, 0, 0, 0, 0};
        detail::check(lrc_slot_entry(held.get(), index, &found), "entry", index);
        return found;
    }

private:
    friend class session;
    slot held;
    uint64_t without_entry = 0, count = 0;
    uint32_t lawful = 0;
};

struct shape {
    uint64_t version, len, stripes, lost;
};

// A lost fragment of a blob.
struct lost_fragment {
    std::string name;
    uint64_t version, stripe, fragment;
};

struct closed {
    uint64_t entries;
    // Whether a check found the journal lawful. False if there was no memory for the check, or no
    // journal.
    bool is_checked;
};

// The calls of a session, for one thread at a time. A session is one, and so is what a lease lends:
// that cannot be moved, joined or closed.
class calls {
public:
    calls(const calls &) = delete;
    calls &operator=(const calls &) = delete;

    // How long a call waits for the critical section at a time. It then throws store_error with
    // LRC_STORE_BUSY. Without a timeout, as at first, it waits until it gets in.
    void set_timeout(std::optional<std::chrono::milliseconds> timeout) {
        wait_ms = detail::wait_of(timeout);
    }

    // Stores a buffer without a copy. After an error the same bytes can be put again.
    uint64_t put(std::string_view name, buffer &blob, uint32_t data_fragments = 12) {
        uint64_t version = 0;
        blob.bytes = lrc_buffer{&buffer::none, 0};
        detail::check(named(name,
                            [&](const uint8_t *at, size_t name_len) {
                                return lrc_store_put_from_wait(held.get(), at, name_len,
                                                               blob.reserved.get(), data_fragments,
                                                               &version, wait_ms);
                            }),
                      "put", name, blob.reserved_len, data_fragments);
        return version;
    }

    uint64_t put(std::string_view name, std::string_view blob, uint32_t data_fragments = 12) {
        uint64_t version = 0;
        detail::check(named(name,
                            [&](const uint8_t *at, size_t name_len) {
                                return lrc_store_put_wait(held.get(), at, name_len,
                                                          detail::bytes(blob), blob.size(),
                                                          data_fragments, &version, wait_ms);
                            }),
                      "put", name, blob.size(), data_fragments);
        return version;
    }

    // Lends `len` bytes of a blob, from the byte `start` on.
    grant read(std::string_view name, uint64_t start, uint64_t len) {
        grant made;
        uint64_t count = 0;
        detail::check(named(name,
                            [&](const uint8_t *at, size_t name_len) {
                                return lrc_store_lend_wait(held.get(), at, name_len, start, len,
                                                           made.lent.get(), &made.number, &count,
                                                           wait_ms);
                            }),
                      "read", name, start, len);
        made.take(count);
        return made;
    }

    // Copies `len` bytes of a blob, from the byte `start` on, into `target`. Returns the version.
    uint64_t read_into(std::string_view name, uint64_t start, void *target, size_t len) {
        uint64_t version = 0, lent = 0, built = 0;
        detail::check(named(name,
                            [&](const uint8_t *at, size_t name_len) {
                                return lrc_store_read_wait(held.get(), at, name_len, start,
                                                           detail::target(target), len, &version,
                                                           &lent, &built, wait_ms);
                            }),
                      "read_into", name, start, len);
        return version;
    }

    // A copy of the whole blob, all of one version.
    std::string get(std::string_view name) {
        slot kept;
        uint64_t version = 0, len = 0;
        detail::check(named(name,
                            [&](const uint8_t *at, size_t name_len) {
                                return lrc_store_hold_wait(held.get(), at, name_len, kept.get(),
                                                           &version, &len, wait_ms);
                            }),
                      "get", name);
        std::string blob(len, '\0');
        detail::check(lrc_slot_copy(kept.get(), 0, detail::target(blob.data()), len), "get", name);
        return blob;
    }

    // Holds the version that the blob has now.
    version hold(std::string_view name) {
        version made;
        detail::check(named(name,
                            [&](const uint8_t *at, size_t name_len) {
                                return lrc_store_hold_wait(held.get(), at, name_len,
                                                           made.held.get(), &made.put_number,
                                                           &made.len, wait_ms);
                            }),
                      "hold", name);
        return made;
    }

    // Restores a lost fragment of a version with its bytes, such as those of another machine,
    // whatever else is lost. Returns the version. The status is LRC_STORE_REPLACED if the name has
    // another one by now.
    uint64_t restore(version &known, uint64_t stripe, uint64_t fragment, std::string_view whole) {
        uint64_t number = 0;
        detail::check(lrc_store_restore_wait(held.get(), known.held.get(), stripe, fragment,
                                             detail::bytes(whole), whole.size(), &number, wait_ms),
                      "restore", stripe, fragment, whole.size());
        return number;
    }

    // The lost fragments of all blobs, by name, stripe and fragment. They are listed in parts, each
    // as of a moment of its own.
    std::vector<lost_fragment> lost_fragments() {
        constexpr uint64_t at_once = 512; // between which other threads call
        std::vector<lost_fragment> all;
        slot plan;
        uint64_t planned = 0, count = 0;
        do {
            detail::check(
                lrc_store_plan_part_wait(held.get(), plan.get(), at_once, &planned, wait_ms),
                "lost_fragments");
            lrc_item item{{reinterpret_cast<const uint8_t *>(""), 0}, 0, 0, 0};
            while (lrc_slot_items(plan.get(), &item, 1, &count) == LRC_STORE_DONE && count) {
                const auto *at = reinterpret_cast<const char *>(item.name.at);
                all.push_back({{at, item.name.len}, item.version, item.stripe, item.fragment});
                lrc_slot_skip(plan.get());
            }
        } while (planned == at_once);
        return all;
    }

    // The numbers of the store, such as those of its blobs and of its lost fragments.
    lrc_numbers numbers() {
        lrc_numbers found{};
        detail::check(lrc_store_numbers_wait(held.get(), &found, wait_ms), "numbers");
        return found;
    }

    uint64_t lose(std::string_view name, uint64_t stripe, uint64_t fragment) {
        uint64_t version = 0;
        detail::check(named(name,
                            [&](const uint8_t *at, size_t name_len) {
                                return lrc_store_lose_wait(held.get(), at, name_len, stripe,
                                                           fragment, &version, wait_ms);
                            }),
                      "lose", name, stripe, fragment);
        return version;
    }

    uint64_t repair(std::string_view name, uint64_t stripe, uint64_t fragment) {
        uint64_t version = 0;
        detail::check(named(name,
                            [&](const uint8_t *at, size_t name_len) {
                                return lrc_store_repair_wait(held.get(), at, name_len, stripe,
                                                             fragment, &version, wait_ms);
                            }),
                      "repair", name, stripe, fragment);
        return version;
    }

    uint64_t remove(std::string_view name) {
        uint64_t version = 0;
        detail::check(named(name,
                            [&](const uint8_t *at, size_t name_len) {
                                return lrc_store_delete_wait(held.get(), at, name_len, &version,
                                                             wait_ms);
                            }),
                      "remove", name);
        return version;
    }

    shape stat(std::string_view name) {
        shape found{};
        detail::check(named(name,
                            [&](const uint8_t *at, size_t name_len) {
                                return lrc_store_stat_wait(held.get(), at, name_len, &found.version,
                                                           &found.len, &found.stripes, &found.lost,
                                                           wait_ms);
                            }),
                      "stat", name);
        return found;
    }

    uint64_t trim(uint64_t keep) {
        uint64_t discarded = 0;
        detail::check(lrc_store_trim_wait(held.get(), keep, &discarded, wait_ms), "trim", keep);
        return discarded;
    }

    // Repairs all lost fragments that can be rebuilt, and returns their number. Throws mend_error.
    uint64_t mend() {
        uint64_t repaired = 0;
        const uint32_t status = lrc_store_mend_wait(held.get(), &repaired, wait_ms);
        return detail::mended(status, repaired);
    }

protected:
    calls() = default;
    calls(calls &&) = default;
    calls &operator=(calls &&) = default;
    ~calls() = default;

private:
    // The status of a call of a name. It is not made if the calls are of another shard.
    template <class Call> uint32_t named(std::string_view name, const Call &call) {
        uint32_t found = shard;
        const uint32_t status =
            shards ? lrc_store_shard(detail::bytes(name), name.size(), shards, &found)
                   : uint32_t{LRC_STORE_DONE};
        if (status != LRC_STORE_DONE) return status;
        return found == shard ? call(detail::bytes(name), name.size())
                              : uint32_t{LRC_STORE_BAD_ARGUMENT};
    }

    friend class session;
    friend class pool;
    slot held;
    int64_t wait_ms = -1;
    uint32_t shard = 0, shards = 0; // of how many; 0 if they may call any name
};

// A session of a store, for one thread at a time.
class session : public calls {
public:
    // Opens a store without a journal and returns its first session. Its fragments have `width`
    // bytes.
    static session open(uint32_t width) {
        session made;
        detail::check(lrc_store_open_unjournaled(width, made.held.get()), "open", width);
        return made;
    }

    // The same with a journal, of at most `limit` entries.
    static session open(uint32_t width, uint32_t limit) {
        session made;
        detail::check(lrc_store_open(width, limit, made.held.get()), "open", width, limit);
        return made;
    }

    // Splits off a session, with the label `who` in the journal and with this session's timeout.
    session split(uint32_t who) {
        session made;
        detail::check(lrc_store_split(held.get(), who, made.held.get()), "split", who);
        made.wait_ms = wait_ms;
        return made;
    }

    // Learns all that another session of the store has seen, so that whatever this one does next
    // stands after all of that. The other session is unchanged.
    void learn(session &other) {
        if (&other != this) detail::check(lrc_slot_learn(held.get(), other.held.get()), "learn");
    }

    // Joins another session of the store into this one. On an error, it is unchanged.
    void join(session &&other) {
        detail::check(&other == this ? uint32_t{LRC_STORE_BAD_ARGUMENT}
                                     : lrc_store_join(held.get(), other.held.get()),
                      "join");
    }

    closed close() {
        closed report{};
        uint32_t lawful = 0;
        detail::check(lrc_store_close(held.get(), &report.entries, &lawful), "close");
        report.is_checked = lawful == 1;
        return report;
    }

    // Closes the store and returns its journal.
    journal close_to_journal() {
        journal made;
        detail::check(lrc_store_close_to(held.get(), made.held.get(), &made.without_entry,
                                         &made.count, &made.lawful),
                      "close_to_journal");
        return made;
    }

    // The slot, for calls of lrc_store.h that have no other form here. It has to keep a session of
    // this store.
    lrc_slot *native_handle() { return held.get(); }

private:
    friend class pool;
};

// The sessions of a store, for threads that come and go. Any threads may share it.
class pool {
public:
    // A session that is lent to a thread until this ends. It gives the session's calls. If a
    // sharded_store lends it, these are of names of the shard for which it was taken, and others
    // throw store_error with LRC_STORE_BAD_ARGUMENT.
    class lease {
    public:
        lease(lease &&) = delete;
        ~lease() {
            std::swap(*lent.held.get(), *place);
            lrc_pool_give(from, place);
        }
        calls *operator->() { return &lent; }
        calls &operator*() { return lent; }

    private:
        friend class pool;
        friend class sharded_store;
        class lent_calls : public calls {};

        lease(lrc_pool *lender, lrc_slot *session_place, int64_t wait_ms, uint32_t shard = 0,
              uint32_t shards = 0)
            : from(lender), place(session_place) {
            std::swap(*lent.held.get(), *place);
            lent.wait_ms = wait_ms;
            lent.shard = shard;
            lent.shards = shards;
        }

        lrc_pool *const from;
        lrc_slot *const place;
        lent_calls lent;
    };

    // The sessions that can be split off this one, and this one. They have its timeout.
    explicit pool(session &&first) : wait_ms(first.wait_ms) {
        detail::check(lrc_pool_open(first.held.get(), &held), "pool");
    }
    pool(pool &&) = delete;
    ~pool() {
        slot all;
        if (held) lrc_pool_close(held, all.get());
    }

    // Lends a session. If all are lent it waits in a line for one, as long as the timeout allows.
    lease take() {
        lrc_slot *place = nullptr;
        detail::check(lrc_pool_take(detail::opened(held, "take"), &place, wait_ms), "take");
        return lease(held, place, wait_ms);
    }

    // Joins all sessions into one. Throws store_error with LRC_STORE_NOT_ALONE if one is lent. Each
    // call afterwards throws it with LRC_STORE_EMPTY.
    session close() {
        session made;
        detail::check(lrc_pool_close(detail::opened(held, "close"), made.held.get()), "close");
        made.wait_ms = this->wait_ms;
        held = nullptr;
        return made;
    }

private:
    lrc_pool *held = nullptr;
    int64_t wait_ms;
};

// A store of several shards, for threads that come and go. Any threads may share it. Each name
// belongs to one shard, which has a critical section of its own, so threads that call different
// names seldom wait for each other.
class sharded_store {
public:
    // Opens a store of 1 to 64 shards without journals. Its fragments have `width` bytes.
    sharded_store(uint32_t width, uint32_t shards) {
        detail::check(open(width, shards, 0), "sharded_store", width, shards);
    }
    // The same with a journal for each shard, of at most `limit` entries.
    sharded_store(uint32_t width, uint32_t shards, uint32_t limit) {
        detail::check(limit ? open(width, shards, limit) : uint32_t{LRC_STORE_BAD_ARGUMENT},
                      "sharded_store", width, shards, limit);
    }
    sharded_store(sharded_store &&) = delete;
    ~sharded_store() {
        uint64_t entries;
        uint32_t lawful;
        if (held) lrc_shards_close(held, &entries, &lawful);
    }

    // How long a call waits at a time, also one of a session that is lent afterwards. Without a
    // timeout, as at first, it waits until it gets in. No other thread may call meanwhile.
    void set_timeout(std::optional<std::chrono::milliseconds> timeout) {
        wait_ms = detail::wait_of(timeout);
    }

    // Lends a session of the shard of a name, for calls of names of this shard.
    pool::lease take(std::string_view name) {
        lrc_pool *pool_of_shard = nullptr;
        lrc_slot *place = nullptr;
        uint32_t shard = 0;
        detail::check(lrc_store_shard(detail::bytes(name), name.size(), count, &shard), "take",
                      name);
        detail::check(lrc_shards_at(detail::opened(held, "take"), shard, &pool_of_shard), "take",
                      name);
        detail::check(lrc_pool_take(pool_of_shard, &place, wait_ms), "take", name);
        return pool::lease(pool_of_shard, place, wait_ms, shard, count);
    }

    // The lost fragments of all blobs, by shard, name, stripe and fragment. They are listed in
    // parts, each as of a moment of its own.
    std::vector<lost_fragment> lost_fragments() {
        std::vector<lost_fragment> all;
        for (uint32_t shard = 0; shard < count; shard++) {
            lrc_pool *pool_of_shard = nullptr;
            lrc_slot *place = nullptr;
            detail::check(
                lrc_shards_at(detail::opened(held, "lost_fragments"), shard, &pool_of_shard),
                "lost_fragments");
            detail::check(lrc_pool_take(pool_of_shard, &place, wait_ms), "lost_fragments");
            pool::lease lent(pool_of_shard, place, wait_ms);
            std::vector<lost_fragment> found = lent->lost_fragments();
            std::move(found.begin(), found.end(), std::back_inserter(all));
        }
        return all;
    }

    // The numbers of all shards together.
    lrc_numbers numbers() {
        lrc_numbers found{};
        detail::check(lrc_shards_numbers(detail::opened(held, "numbers"), &found, wait_ms),
                      "numbers");
        return found;
    }

    // Discards all entries of each shard's journal except the last `keep`.
    uint64_t trim(uint64_t keep) {
        uint64_t discarded = 0;
        detail::check(lrc_shards_trim(detail::opened(held, "trim"), keep, &discarded, wait_ms),
                      "trim", keep);
        return discarded;
    }

    // Repairs all lost fragments that can be rebuilt, and returns their number. Throws mend_error.
    uint64_t mend() {
        uint64_t repaired = 0;
        const uint32_t status = lrc_shards_mend(detail::opened(held, "mend"), &repaired, wait_ms);
        return detail::mended(status, repaired);
    }

    // Throws store_error with LRC_STORE_NOT_ALONE if a session is lent. Otherwise each call
    // afterwards throws it with LRC_STORE_EMPTY.
    closed close() {
        closed report{};
        uint32_t lawful = 0;
        const uint32_t status =
            lrc_shards_close(detail::opened(held, "close"), &report.entries, &lawful);
        if (status != LRC_STORE_NOT_ALONE) held = nullptr;
        detail::check(status, "close");
        report.is_checked = lawful == 1;
        return report;
    }

private:
    uint32_t open(uint32_t width, uint32_t shards, uint32_t limit) {
        const lrc_options options{sizeof(lrc_options), width, shards, limit, 0};
        count = shards;
        return lrc_shards_open(&options, &held);
    }

    lrc_shards *held = nullptr;
    uint32_t count = 0;
    int64_t wait_ms = -1;
};

} // namespace lrc
#endif
