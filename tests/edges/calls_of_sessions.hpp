// Random calls that open, split, join and close, and what a closed store's journal has.
#ifndef EDGES_CALLS_OF_SESSIONS_HPP
#define EDGES_CALLS_OF_SESSIONS_HPP

#include "judge.hpp"

class SessionCalls : public Judge {
protected:
    using Judge::Judge;

    void open() {
        Held &to = with(Holds::nothing);
        const uint32_t width = this->width();
        const std::optional<uint32_t> limit = this->limit();
        begin("open", width, limit ? std::to_string(*limit) : "without a journal");
        const uint32_t got = limit ? lrc_store_open(width, *limit, &to.slot)
                                   : lrc_store_open_unjournaled(width, &to.slot);
        judge(got, Statuses()
                       .add(to.holds != Holds::nothing, LRC_STORE_OCCUPIED)
                       .add(width < 1 || width > 65536, LRC_STORE_BAD_WIDTH)
                       .add(limit && (*limit < 1 || *limit > 1048576), LRC_STORE_BAD_ARGUMENT));
        if (got != LRC_STORE_DONE) return;
        to.become(Holds::session).store = std::make_shared<model::Store>();
        to.store->width = width;
        to.store->limit = limit;
        to.room = 64;
    }

    void split() {
        Held &from = with(Holds::session), &to = other_with(Holds::nothing, from);
        const uint32_t who = uint32_t(random.next() >> random.below(44));
        begin("split", who);
        const uint32_t got = lrc_store_split(&from.slot, who, &to.slot);
        judge(got, not_a_session(from)
                       .add(to.holds != Holds::nothing, LRC_STORE_OCCUPIED)
                       .add(from.holds == Holds::session && from.room == 1, LRC_STORE_NO_PASS));
        if (got != LRC_STORE_DONE) return;
        from.room--;
        to.become(Holds::session).store = from.store;
        to.who = who;
        to.room = 1;
    }

    void join() {
        Held &into = with(Holds::session), &from = other_with(Holds::session, into);
        begin("join");
        const bool are_sessions = into.holds == Holds::session && from.holds == Holds::session;
        const uint32_t got = lrc_store_join(&into.slot, &from.slot);
        judge(got, Statuses()
                       .add(!are_sessions, LRC_STORE_EMPTY)
                       .add(are_sessions && into.store != from.store, LRC_STORE_BAD_ARGUMENT));
        if (got != LRC_STORE_DONE) return;
        into.room += from.room;
        from.become(Holds::nothing);
    }

    // Both forms of a close.
    void close() {
        Held &from = with(Holds::session), &to = other_with(Holds::nothing, from);
        const bool has_journal = random.one_in(2);
        uint64_t entries = untouched, discarded = untouched;
        uint32_t lawful = 77;
        begin(has_journal ? "close_to" : "close");
        const uint32_t got =
            has_journal ? lrc_store_close_to(&from.slot, &to.slot, &discarded, &entries, &lawful)
                        : lrc_store_close(&from.slot, &entries, &lawful);
        judge(got, not_a_session(from)
                       .add(has_journal && to.holds != Holds::nothing, LRC_STORE_OCCUPIED)
                       .add(from.holds == Holds::session && from.room != 64, LRC_STORE_NOT_ALONE));
        const bool is_done = got == LRC_STORE_DONE;
        same(entries, is_done ? from.store->journal.size() : untouched, "`entries`");
        same(discarded, is_done && has_journal ? from.store->discarded : untouched, "`discarded`");
        const bool has_check = is_done && from.store->limit;
        if (!has_check || !refusals.has_refused || lawful != 2)
            same(lawful, has_check ? 1 : is_done ? 2 : 77, "`lawful`");
        if (!is_done) return;
        if (has_journal) to.become(Holds::journal).entries = from.store->journal;
        from.become(Holds::nothing);
    }

    void entry() {
        Held &from = with(Holds::journal);
        const size_t index =
            random.one_in(10) ? size_t(random.next()) : random.below(from.entries.size() + 2);
        const bool is_there = from.holds == Holds::journal && index < from.entries.size();
        lrc_entry got = {no_slice(), 9, 9, 9, 9, 9, 9, 9, 9, 9, 9};
        begin("entry", index);
        judge(lrc_slot_entry(&from.slot, index, &got),
              Statuses()
                  .add(from.holds != Holds::journal, LRC_STORE_EMPTY)
                  .add(from.holds == Holds::journal && !is_there, LRC_STORE_NOTHING_LEFT));
        const model::Entry none{9, 9, "", 9, 9, 9, 9, 9, 9, 9, 9};
        const model::Entry &want = is_there ? from.entries[index] : none;
        const uint64_t numbers[] = {got.who,     got.call, got.first,   got.second, got.third,
                                    got.version, got.len,  got.stripes, got.lost,   got.status};
        const uint64_t wanted[] = {want.who,     want.call, want.first,   want.second, want.third,
                                   want.version, want.len,  want.stripes, want.lost,   want.status};
        for (size_t i = 0; i < std::size(wanted); i++) same(numbers[i], wanted[i], "a number");
        same(got.name.len, want.name.size(), "the name's length");
        same_bytes(got.name.at, want.name.data(), got.name.len, "the name");
    }

    void release(Held &each) {
        begin("release");
        refusals.ahead = -1;
        lrc_slot_release(&each.slot);
        same(each.slot.at != nullptr, 0, "what is left in the slot");
        each.become(Holds::nothing);
    }
};

#endif
