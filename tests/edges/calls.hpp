// The slots of the random calls, what each holds by the model, and how arguments are drawn.
#ifndef EDGES_CALLS_HPP
#define EDGES_CALLS_HPP

#include "memory.hpp"
#include "model.hpp"
#include "random_run.hpp"

#include <algorithm>
#include <optional>

// Whether lrc_slot_buffer gives a buffer. A refused put changes that.
enum class Writable { yes, maybe, no };

enum class Holds { nothing, session, lending, plan, buffer, journal, version };

struct Held {
    lrc_slot slot = LRC_SLOT_EMPTY;
    Holds holds = Holds::nothing;
    std::shared_ptr<model::Store> store;
    uint32_t who = 0, room = 0;           // of a session: its label, and how many passes it has
    model::Bytes bytes;                   // of a lending: the blob
    uint64_t start = 0, len = 0;          // of a lending: the range
    uint64_t pieces = 0;                  // of a lending
    std::vector<model::Item> items;       // of a plan
    size_t next = 0;                      // of a plan
    std::optional<model::Item> last;      // of a plan: the item behind which its next part begins
    std::string content;                  // of a buffer; of a version: its name
    model::Blob blob;                     // of a version
    Writable is_writable = Writable::yes; // of a buffer
    std::deque<model::Entry> entries;     // of a journal

    // Takes note that the slot now holds something else.
    Held &become(Holds what) {
        const lrc_slot same_slot = slot;
        *this = Held();
        slot = same_slot;
        holds = what;
        return *this;
    }
};

inline std::string status_text(uint32_t status) {
    return joined(status, "(" + std::string(lrc_store_text(status)) + ")");
}

// A set of statuses. A call may return any of the refusals for which there is a reason.
class Statuses {
public:
    Statuses() = default;
    Statuses(uint32_t status) : bits(1u << status) {}
    Statuses &add(bool is_so, uint32_t status) {
        if (is_so) bits |= 1u << status;
        return *this;
    }
    bool has(uint32_t status) const { return status < 32 && (bits >> status & 1); }
    bool is_empty() const { return bits == 0; }
    std::string str() const {
        std::string text;
        for (uint32_t status = 0; status < 32; status++)
            if (has(status)) text += (text.empty() ? "" : " or ") + status_text(status);
        return text;
    }

private:
    uint32_t bits = 0;
};

constexpr uint64_t untouched = 0xA5A5A5A5DEADBEEF;

class Drawn {
public:
    static constexpr size_t slot_count = 20;
    Random random;

    explicit Drawn(uint64_t seed) : random(seed) {}

    Held &any() { return held[random.below(slot_count)]; }

    // Mostly a slot that holds this.
    Held &with(Holds what) {
        const size_t from = random.below(slot_count);
        for (size_t i = 0; i < slot_count && !random.one_in(200); i++)
            if (Held &found = held[(from + i) % slot_count]; found.holds == what) return found;
        return any();
    }
    // The same, and another than `slot`.
    Held &other_with(Holds what, const Held &slot) {
        for (;;)
            if (Held &found = with(random.one_in(6) ? Holds(random.below(7)) : what);
                &found != &slot)
                return found;
    }

    std::string name() {
        static const char *const names[] = {"a", "b-b", "c._", "aa"};
        switch (random.below(40)) {
        case 0:
            return std::string(random.below(70), 'q');
        case 1:
            return std::string(32, 'z');
        case 2:
            return std::string(1, char(random.below(256)));
        case 3:
            return std::string("a\0b", 3);
        case 4:
            return random.one_of({"", "A", "a b", "\xC3\xA9"});
        default:
            return random.one_of(names);
        }
    }

    uint32_t code() {
        return random.one_in(20) ? uint32_t(random.below(20)) : random.one_in(2) ? 12 : 6;
    }

    uint32_t width() {
        static const uint32_t edges[] = {1,     2,     16,         31, 32,    33,   64,   255,
                                         65535, 65536, 0xFFFFFFFF, 0,  65537, 4096, 4097, 1000};
        return random.one_in(2) ? random.one_of(edges) : 1 + uint32_t(random.below(100));
    }

    // A limit, or none for a store without a journal.
    std::optional<uint32_t> limit() {
        static const uint32_t edges[] = {0, 1, 2, 3, 10, 1048576, 1048577, 0xFFFFFFFF};
        if (random.one_in(3)) return std::nullopt;
        return random.one_in(12) ? random.one_of(edges) : 100 + uint32_t(random.below(3000));
    }

    uint64_t blob_len(const Held &session) {
        const uint64_t width = session.store ? session.store->width : 4;
        const uint64_t lens[] = {random.below(20),
                                 width * 12 * random.below(4) + random.below(3),
                                 width * 6 * random.below(5) + random.below(3),
                                 random.below(width * 40),
                                 random.below(uint64_t{1} << random.below(19)),
                                 4096 * 12 * width + random.below(3) - 1,
                                 4096 * 6 * width + random.below(3) - 1};
        const uint64_t len = lens[random.one_in(10) ? random.below(7) : random.below(5)];
        return len > 1 << 19 ? random.below(1 << 12) : len;
    }

    // A range of the blob, mostly inside of it.
    std::pair<uint64_t, uint64_t> range(const model::Blob *blob) {
        static const uint64_t edges[] = {0, 1, UINT64_MAX, UINT64_MAX - 1, 1ull << 63, 1ull << 32};
        if (!blob || random.one_in(12)) return {random.one_of(edges), random.below(200)};
        const uint64_t starts[] = {random.below(blob->len + 1), blob->len, 0,
                                   random.below(blob->len / blob->width + 1) * blob->width};
        const uint64_t start = random.one_of(starts);
        const uint64_t rest = blob->len - std::min(start, blob->len);
        const uint64_t lens[] = {rest, random.below(rest + 1), random.below(rest + 3),
                                 random.below(std::min<uint64_t>(rest, 3ull * blob->width) + 1)};
        return {start, random.one_of(lens)};
    }

    // A stripe and a fragment. A repair mostly gets what is lost.
    std::pair<uint64_t, uint64_t> place(const model::Blob *blob, bool is_repair) {
        static const uint64_t edges[] = {16, 17, 256, 1ull << 32, UINT64_MAX};
        const uint64_t stripes = blob ? std::min<uint64_t>(blob->stripes, 1 + random.below(4)) : 3;
        uint64_t stripe = random.below(stripes + random.one_in(10));
        uint64_t fragment = random.below((blob ? blob->data : 12) + 4 + random.one_in(10));
        if (is_repair && blob && !blob->lost.empty() && !random.one_in(6)) {
            const auto lost = std::next(blob->lost.begin(), long(random.below(blob->lost.size())));
            stripe = lost->first;
            do fragment = random.below(16);
            while (!(lost->second >> fragment & 1));
        }
        if (random.one_in(60)) stripe = random.one_of(edges);
        if (random.one_in(60)) fragment = random.one_of(edges);
        return {stripe, fragment};
    }

    // A deadline for a waiting form. None passes where no other thread is in the critical section.
    int64_t timeout() {
        static const int64_t edges[] = {-1, 0, 1, 1000, INT64_MAX, INT64_MIN};
        return random.one_of(edges);
    }

protected:
    std::array<Held, slot_count> held;
};

#endif
