// What each random call shares: its description, the memory that it is refused, and what is
// expected of its status, its outputs and its bytes.
#ifndef EDGES_JUDGE_HPP
#define EDGES_JUDGE_HPP

#include "calls.hpp"

#include <cstring>

inline const uint8_t *at(const std::string &text) {
    return reinterpret_cast<const uint8_t *>(text.data());
}

inline lrc_slice no_slice() { return {reinterpret_cast<const uint8_t *>(""), 0}; }

class Judge : public Drawn {
public:
    long calls = 0;

    explicit Judge(const Run &test) : Drawn(test.seed), run(test) {}

protected:
    const Run &run;
    bool refuses = false;
    std::string call;

    template <class... Values> void begin(const Values &...values) {
        call = joined("call", ++calls, values...);
        refusals = {};
        if (refuses && random.one_in(3)) refusals.ahead = long(random.below(1 + random.below(12)));
    }

    [[noreturn]] void differ(const char *what, const std::string &got, const std::string &want) {
        run.differ(call + (refusals.has_refused ? ", memory refused" : ""), what, got, want);
    }

    void same(uint64_t got, uint64_t want, const char *what) {
        if (got != want) differ(what, std::to_string(got), std::to_string(want));
    }

    void same_bytes(const void *got, const void *want, size_t len, const char *what) {
        if (std::memcmp(got, want, len) == 0) return;
        size_t i = 0;
        const auto *one = static_cast<const uint8_t *>(got);
        const auto *other = static_cast<const uint8_t *>(want);
        while (one[i] == other[i]) i++;
        differ(what, joined(int(one[i]), "at byte", i), std::to_string(other[i]));
    }

    // The call is done if there is no reason to refuse it, and `lack` is allowed if memory was
    // refused.
    void judge(uint32_t got, Statuses reasons, Statuses lack = LRC_STORE_NO_MEMORY) {
        refusals.ahead = -1;
        if (refusals.has_refused && lack.has(got)) return;
        if (reasons.is_empty()) reasons = LRC_STORE_DONE;
        if (!reasons.has(got)) differ("the status", status_text(got), reasons.str());
    }

    Statuses not_a_session(const Held &from) {
        return Statuses().add(from.holds != Holds::session, LRC_STORE_EMPTY);
    }
    Statuses of_named(const Held &from, const std::string &name) {
        return not_a_session(from)
            .add(!model::is_name(name), LRC_STORE_BAD_NAME)
            .add(from.store && from.holds == Holds::session && from.store->is_full(),
                 LRC_STORE_JOURNAL_FULL);
    }
    static const model::Blob *blob_of(const Held &from, const std::string &name) {
        return from.holds == Holds::session ? from.store->find(name) : nullptr;
    }

    // The reply to a call, and its change. It has none if there is a reason to refuse it.
    model::Entry answer(Held &from, uint32_t number, const std::string &name, uint64_t first,
                        uint64_t second, Statuses reasons, uint32_t got, uint64_t third = 0) {
        model::Entry entry{from.who, number, name, first, second, third};
        if (reasons.is_empty() && got != LRC_STORE_NO_MEMORY) from.store->answer(entry);
        return entry;
    }

    // Judges such a call, and notes its entry.
    void judge_entry(Held &from, const model::Entry &entry, Statuses reasons, uint32_t got,
                     uint64_t version, Statuses lack = LRC_STORE_NO_MEMORY) {
        const bool is_called = reasons.is_empty() && got != LRC_STORE_NO_MEMORY;
        judge(got, reasons.is_empty() ? Statuses(entry.status) : reasons, lack);
        if (is_called) from.store->note(entry);
        const bool has_version = got == LRC_STORE_DONE || got == LRC_STORE_UNRECOVERABLE ||
                                 got == LRC_STORE_REPLACED || got == LRC_STORE_NOT_REBUILT;
        same(version, has_version ? entry.version : untouched, "`version`");
    }
};

#endif
