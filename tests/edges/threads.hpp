// What the random calls of threads share: a round's plan, a session with its notes, the calls, and
// the replay of the journal.
#ifndef EDGES_THREADS_HPP
#define EDGES_THREADS_HPP

#include "memory.hpp"
#include "model.hpp"
#include "random_run.hpp"

#include <algorithm>
#include <cstring>
#include <optional>
#include <thread>

inline void expect(const Run &run, uint64_t got, uint64_t want, const char *what) {
    if (got != want) run.differ(what, "the answer", std::to_string(got), std::to_string(want));
}

// What the threads of a round do.
struct Plan {
    static constexpr uint32_t limit = 150000;
    static constexpr unsigned calls = 20000; // that each thread makes
    uint64_t seed;
    uint32_t width;
    unsigned threads, names;
    bool has_journal, is_trimmed;
    unsigned refusals; // of so many calls in a row, one has memory refused; or 0

    Plan(Random &random, bool with_refusals)
        : seed(random.next()), width(random.one_of({1u, 3u, 16u, 33u, 64u, 500u})),
          threads(2 + unsigned(random.below(7))), names(1 + unsigned(random.below(6))),
          has_journal(!random.one_in(3)), is_trimmed(random.one_in(3)),
          refusals(with_refusals ? 2 : 0) {}

    unsigned sessions(bool is_handed) const { return is_handed ? threads + 3 : threads; }
    uint64_t longest() const { return std::min<uint64_t>(width * 40, 8000); }
};

// A call as its session saw it. A read has the sum of its bytes, and a put the seed of its.
struct Note {
    model::Entry entry;
    uint64_t seed = 0, sum = 0;
    bool is_mend = false, has_sum = false;
};

struct Session {
    lrc_slot slot = LRC_SLOT_EMPTY;
    uint32_t who = 0;
    std::vector<Note> notes;
};

// A lent range, with the sum of its bytes.
struct Lent {
    lrc_slot slot = LRC_SLOT_EMPTY;
    uint64_t pieces = 0, sum = 0;
};

inline uint64_t sum_of(const void *bytes, size_t len, uint64_t sum = 0xCBF29CE484222325) {
    const auto *at = static_cast<const uint8_t *>(bytes);
    for (size_t i = 0; i < len; i++) sum = (sum ^ at[i]) * 0x100000001B3;
    return sum;
}

// Makes the calls of one thread.
class Caller {
public:
    Random random;
    bool is_full = false; // the journal is, and is not trimmed

    Caller(const Run &test, const Plan &round, unsigned number)
        : random(round.seed + number), run(test), plan(round) {}
    Caller(const Caller &) = delete;
    ~Caller() { lrc_slot_release(&repairs); }

    // One call, noted if the store has it.
    void call(Session &session) {
        Note note;
        note.entry.who = session.who;
        name = "n" + std::to_string(random.below(plan.names));
        note.entry.name = name;
        slot = &session.slot;
        version = 0;
        refusals = {};
        if (plan.refusals && random.one_in(plan.refusals)) refusals.ahead = long(random.below(6));
        const uint32_t status = drawn(note, random.below(100));
        refusals.ahead = -1;
        note_down(session, note, status);
    }

    // A range that was lent before the last `least` of this thread.
    std::optional<Lent> lent_longer_than(size_t least) {
        if (lent.size() <= least) return std::nullopt;
        const Lent first = lent.front();
        lent.pop_front();
        return first;
    }

    // A lent range still has its bytes. It is released.
    void check(Lent &old) {
        if (sum_of_lent(old) != old.sum) run.differ("slices", "a lent range", "changed", "as lent");
        lrc_slot_release(&old.slot);
    }

private:
    const Run &run;
    const Plan &plan;
    std::string name;
    lrc_slot *slot = nullptr;
    lrc_slot repairs = LRC_SLOT_EMPTY;
    std::deque<Lent> lent;
    uint64_t version = 0;

    const uint8_t *at() const { return reinterpret_cast<const uint8_t *>(name.data()); }
    int64_t timeout() { return random.one_in(3) ? int64_t(random.below(3)) : -1; }

    uint32_t drawn(Note &note, uint64_t kind) {
        if (kind < 12) return put(note, kind < 4);
        if (kind < 50) return read(note, kind < 30);
        if (kind < 82) return change(note, kind < 68);
        if (kind < 90) return of_name(note, kind < 85);
        return kind < 98 ? mend(note) : trim(note);
    }

    // Notes a call if the history has it. On any other status no output was written.
    void note_down(Session &session, Note &note, uint32_t status) {
        static const uint32_t no_entry[] = {LRC_STORE_BUSY, LRC_STORE_NO_MEMORY,
                                            LRC_STORE_JOURNAL_FULL, LRC_STORE_NOTHING_LEFT};
        if (status == LRC_STORE_NO_MEMORY && !refusals.has_refused)
            run.differ("a call", "the status", std::to_string(status), "another");
        if (std::find(std::begin(no_entry), std::end(no_entry), status) != std::end(no_entry)) {
            expect(run, version, 0, "the version after a refusal");
            if (!plan.has_journal && status == LRC_STORE_JOURNAL_FULL)
                run.differ("a call", "the status", std::to_string(status), "another");
            is_full = status == LRC_STORE_JOURNAL_FULL && !plan.is_trimmed;
            if (status == LRC_STORE_JOURNAL_FULL && plan.is_trimmed) make_room();
            return;
        }
        if (status > LRC_STORE_NOT_LOST && status != LRC_STORE_NOT_REBUILT)
            run.differ("a call", "the status", std::to_string(status), "one of a call's");
        note.entry.status = status == LRC_STORE_NOT_REBUILT ? uint32_t{LRC_STORE_DONE} : status;
        note.entry.version = version;
        if (note.entry.who) session.notes.push_back(note);
    }

    void make_room() {
        uint64_t discarded = 0;
        expect(run, lrc_store_trim_wait(slot, 100, &discarded, -1), LRC_STORE_DONE, "trim");
    }

    uint32_t put(Note &note, bool is_filled) {
        const uint32_t code = random.one_in(2) ? 12 : 6;
        note.seed = random.next();
        const std::string blob = bytes_of(note.seed, random.below(plan.longest()));
        note.entry.call = LRC_CALL_PUT;
        note.entry.first = code;
        note.entry.second = blob.size();
        const auto *bytes = reinterpret_cast<const uint8_t *>(blob.data());
        if (!is_filled)
            return lrc_store_put_wait(slot, at(), name.size(), bytes, blob.size(), code, &version,
                                      timeout());
        lrc_slot source = LRC_SLOT_EMPTY;
        lrc_buffer buffer = {nullptr, 0};
        uint32_t status = lrc_slot_reserve(blob.size(), &source);
        if (status != LRC_STORE_DONE) return status;
        expect(run, lrc_slot_buffer(&source, &buffer), LRC_STORE_DONE, "buffer");
        if (!blob.empty()) std::memcpy(buffer.at, blob.data(), blob.size());
        for (unsigned turn = 0; turn < 2; turn++) {
            status = lrc_store_put_from_wait(slot, at(), name.size(), &source, code, &version,
                                             turn ? -1 : timeout());
            if (status != LRC_STORE_BUSY) break;
        }
        expect(run, source.at == nullptr, status == LRC_STORE_DONE, "whether the slot is empty");
        lrc_slot_release(&source);
        return status;
    }

    uint32_t read(Note &note, bool is_copy) {
        const uint64_t start = random.below(plan.longest() / 2), len = random.below(plan.width * 9);
        note.entry.call = LRC_CALL_READ;
        note.entry.first = start;
        note.entry.second = len;
        uint64_t counts[2] = {0, 0};
        Lent made;
        std::string target(len + 1, 'x');
        const uint32_t status =
            is_copy ? lrc_store_read_wait(slot, at(), name.size(), start,
                                          reinterpret_cast<uint8_t *>(target.data()), len, &version,
                                          &counts[0], &counts[1], timeout())
                    : lrc_store_lend_wait(slot, at(), name.size(), start, len, &made.slot, &version,
                                          &made.pieces, timeout());
        if (!is_copy) expect(run, made.slot.at != nullptr, status == 0, "whether a range is lent");
        note.has_sum = status == LRC_STORE_DONE;
        if (!note.has_sum) return status;
        if (is_copy) expect(run, counts[0] + counts[1], len, "the bytes lent and built");
        note.sum = made.sum = is_copy ? sum_of(target.data(), len) : sum_of_lent(made);
        if (!is_copy) lent.push_back(made);
        return status;
    }

    uint64_t sum_of_lent(Lent &held) {
        std::vector<lrc_slice> slices(held.pieces + 1, lrc_slice{at(), 0});
        uint64_t count = 0, sum = sum_of("", 0);
        expect(run, lrc_slot_slices(&held.slot, slices.data(), slices.size(), &count),
               LRC_STORE_DONE, "slices");
        expect(run, count, held.pieces, "the count of slices");
        for (const lrc_slice &slice : slices) sum = sum_of(slice.at, slice.len, sum);
        return sum;
    }

    uint32_t change(Note &note, bool is_loss) {
        note.entry.call = is_loss ? LRC_CALL_LOSE : LRC_CALL_REPAIR;
        note.entry.first = random.below(3);
        note.entry.second = random.below(17);
        return (is_loss ? lrc_store_lose_wait : lrc_store_repair_wait)(
            slot, at(), name.size(), note.entry.first, note.entry.second, &version, timeout());
    }

    uint32_t of_name(Note &note, bool is_delete) {
        note.entry.call = is_delete ? LRC_CALL_DELETE : LRC_CALL_STAT;
        return is_delete ? lrc_store_delete_wait(slot, at(), name.size(), &version, timeout())
                         : lrc_store_stat_wait(slot, at(), name.size(), &version, &note.entry.len,
                                               &note.entry.stripes, &note.entry.lost, timeout());
    }

    // A step of a plan, whose name and place only the journal has; or a new plan.
    uint32_t mend(Note &note) {
        uint64_t items = 0;
        note.entry.call = LRC_CALL_REPAIR;
        note.is_mend = true;
        if (repairs.at) {
            const uint32_t status = lrc_store_mend_step_wait(slot, &repairs, &version, timeout());
            if (status == LRC_STORE_NOTHING_LEFT) lrc_slot_release(&repairs);
            return status;
        }
        return without_entry(note, lrc_store_plan_wait(slot, &repairs, &items, timeout()));
    }

    uint32_t trim(Note &note) {
        uint64_t discarded = 0;
        if (!plan.is_trimmed) return without_entry(note, LRC_STORE_DONE);
        const uint32_t status = lrc_store_trim_wait(slot, random.below(100), &discarded, timeout());
        if (!plan.has_journal) expect(run, discarded, 0, "`discarded` without a journal");
        return without_entry(note, status);
    }

    static uint32_t without_entry(Note &note, uint32_t status) {
        note.entry.who = 0;
        return status;
    }
};

// Compares a journal, and what was read, with the sessions' notes.
class Replay {
public:
    Replay(const Run &test, uint32_t width, const std::vector<Session> &all) : run(test) {
        store.width = width;
        for (const Session &session : all) {
            sessions[session.who] = &session;
            for (const Note &note : session.notes)
                if (note.entry.call == LRC_CALL_PUT && note.entry.status == LRC_STORE_DONE)
                    if (!puts.emplace(note.entry.version, &note).second)
                        run.differ("put", "a version", std::to_string(note.entry.version), "new");
        }
    }

    // Each read has the bytes of the put with its version.
    void check_bytes() const {
        for (const auto &[who, session] : sessions)
            for (const Note &note : session->notes)
                if (note.has_sum) check_read(note);
    }

    // The number of all calls.
    uint64_t calls() const {
        uint64_t count = 0;
        for (const auto &[who, session] : sessions) count += session->notes.size();
        return count;
    }

    void check_journal(lrc_slot *journal, uint64_t count) {
        expect(run, count, calls(), "the number of entries");
        for (uint64_t i = 0; i < count; i++) {
            lrc_entry entry = {
                {reinterpret_cast<const uint8_t *>(""), 0}, 0, 0, 0, 0, 0, 0, 0, 0, 0, 0};
            expect(run, lrc_slot_entry(journal, i, &entry), LRC_STORE_DONE, "entry");
            check_entry(i, entry);
        }
    }

private:
    const Run &run;
    model::Store store;
    std::map<uint32_t, const Session *> sessions;
    std::map<uint32_t, size_t> seen; // of each session, how many entries
    std::map<uint64_t, const Note *> puts;

    void check_read(const Note &note) const {
        const auto found = puts.find(note.entry.version);
        if (found == puts.end() || found->second->entry.name != note.entry.name)
            run.differ("read " + note.entry.name, "the version", std::to_string(note.entry.version),
                       "that of a put");
        const uint64_t len = found->second->entry.second;
        const std::string blob = bytes_of(found->second->seed, len);
        if (note.entry.first + note.entry.second > len ||
            sum_of(blob.data() + note.entry.first, note.entry.second) != note.sum)
            run.differ(joined("read", note.entry.name, note.entry.first, note.entry.second),
                       joined("version", note.entry.version), "other bytes", "those of its put");
    }

    static std::string text(const model::Entry &entry) {
        return joined(entry.who, entry.call, entry.name, entry.first, entry.second, entry.third,
                      entry.status, entry.version, entry.len, entry.stripes, entry.lost);
    }

    void check_entry(uint64_t index, const lrc_entry &got) {
        model::Entry entry{got.who,
                           got.call,
                           std::string(reinterpret_cast<const char *>(got.name.at), got.name.len),
                           got.first,
                           got.second,
                           got.third,
                           got.version,
                           got.len,
                           got.stripes,
                           got.lost,
                           got.status};
        model::Entry answer{got.who, got.call, entry.name, got.first, got.second, got.third};
        store.answer(answer);
        const std::string call = joined("entry", index);
        if (text(entry) != text(answer)) run.differ(call, "it", text(entry), text(answer));
        const auto found = sessions.find(got.who);
        if (found == sessions.end() || seen[got.who] == found->second->notes.size())
            run.differ(call, "the caller", std::to_string(got.who),
                       "a session with a further call");
        const Note &note = found->second->notes[seen[got.who]++];
        if (note.is_mend) {
            entry.name = "";
            entry.first = entry.second = 0;
        }
        model::Entry noted = note.entry;
        if (note.is_mend) noted.name = "";
        if (text(noted) != text(entry))
            run.differ(call, "the note of it", text(noted), text(entry));
    }
};

#endif
