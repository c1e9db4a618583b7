// Threads make random calls on shared names, in rounds. Each session notes its calls and their
// replies. Afterwards the journal is replayed by the model: each entry has the model's reply, and
// each session's entries are its calls, in its order. Each read has the bytes of its version.
//
//     threads LENGTH [handed], as random_run.hpp says; SEED=.. repeats a run as far as the
//     scheduler allows
//
// With `handed`, threads take sessions from a queue, hand them on after some calls, split and join
// them, and read and release what other threads lent. In every other round allocations are refused.
// Link it with -Wl,--wrap=malloc,--wrap=realloc,--wrap=free.
#include "threads.hpp"

namespace {

// What threads hand on. Sessions with notes, and lent ranges.
template <class Thing> class Queue {
public:
    void push(Thing thing) {
        const std::lock_guard<std::mutex> guard(lock);
        things.push_back(std::move(thing));
    }
    // One of them, or none if there are at most `least`.
    std::optional<Thing> take(size_t least = 0) {
        const std::lock_guard<std::mutex> guard(lock);
        if (things.size() <= least) return std::nullopt;
        Thing first = std::move(things.front());
        things.pop_front();
        return first;
    }

private:
    std::mutex lock;
    std::deque<Thing> things;
};

class Round {
public:
    long entries = 0, lendings = 0;

    Round(const Run &test, Random &random, bool with_refusals, bool with_handing)
        : run(test), plan(random, with_refusals), is_handed(with_handing) {}

    void operator()() {
        const uint32_t status = plan.has_journal ? lrc_store_open(plan.width, Plan::limit, &first)
                                                 : lrc_store_open_unjournaled(plan.width, &first);
        expect(run, status, LRC_STORE_DONE, "open");
        for (unsigned i = 0; i < plan.sessions(is_handed); i++) sessions.push(split_off(&first));
        std::vector<std::thread> threads;
        for (unsigned i = 0; i < plan.threads; i++)
            threads.emplace_back([this, i] { is_handed ? hand_on(i) : keep(i); });
        for (std::thread &each : threads) each.join();
        join_all();
        judge();
    }

private:
    const Run &run;
    const Plan plan;
    const bool is_handed;
    lrc_slot first = LRC_SLOT_EMPTY;
    std::atomic<uint32_t> labels{0};
    std::atomic<long> handed_lendings{0};
    Queue<Session> sessions, spent;
    Queue<Lent> lent;
    std::vector<Session> joined;
    std::mutex joining;

    // A new session with a label of its own. It is empty if there is no place for it.
    Session split_off(lrc_slot *from) {
        Session made;
        made.who = ++labels;
        const uint32_t status = lrc_store_split(from, made.who, &made.slot);
        if (status != LRC_STORE_NO_PASS && status != LRC_STORE_NO_MEMORY)
            expect(run, status, LRC_STORE_DONE, "split");
        return made;
    }

    void join_into(lrc_slot *into, Session from) {
        expect(run, lrc_store_join(into, &from.slot), LRC_STORE_DONE, "join");
        const std::lock_guard<std::mutex> guard(joining);
        joined.push_back(std::move(from));
    }

    // A thread with a session of its own.
    void keep(unsigned number) {
        Caller caller(run, plan, number);
        Session session = *sessions.take();
        for (unsigned left = plan.calls; left > 0 && !caller.is_full; left--) {
            caller.call(session);
            while (std::optional<Lent> old = caller.lent_longer_than(20)) caller.check(*old);
        }
        while (std::optional<Lent> old = caller.lent_longer_than(0)) caller.check(*old);
        spent.push(std::move(session));
    }

    // A thread with a session for a few calls at a time.
    void hand_on(unsigned number) {
        Caller caller(run, plan, number);
        Random &random = caller.random;
        for (unsigned count = 0; count < plan.calls && !caller.is_full;) {
            std::optional<Session> session = sessions.take();
            if (!session) session = spent.take();
            if (!session) continue;
            for (uint64_t left = 1 + random.below(40); left > 0; left--, count++)
                caller.call(*session);
            while (std::optional<Lent> made = caller.lent_longer_than(0)) lent.push(*made);
            while (std::optional<Lent> other = lent.take(20)) {
                caller.check(*other);
                handed_lendings++;
            }
            if (std::optional<Session> other; random.one_in(3) && (other = spent.take()))
                join_into(&session->slot, std::move(*other));
            if (random.one_in(4))
                if (Session made = split_off(&session->slot); made.slot.at) sessions.push(made);
            (random.one_in(2) ? sessions : spent).push(std::move(*session));
        }
    }

    // Joins all sessions, in chains, and checks all that is still lent.
    void join_all() {
        uint64_t none = 0;
        uint32_t lawful = 0;
        expect(run, lrc_store_close(&first, &none, &lawful), LRC_STORE_NOT_ALONE, "close");
        for (Queue<Session> *queue : {&sessions, &spent})
            while (std::optional<Session> one = queue->take())
                if (std::optional<Session> other = queue->take()) {
                    join_into(&one->slot, std::move(*other));
                    queue->push(std::move(*one));
                } else
                    join_into(&first, std::move(*one));
        Caller caller(run, plan, 0);
        while (std::optional<Lent> old = lent.take()) caller.check(*old);
        lendings = handed_lendings;
    }

    // Closes the store, and compares its journal with the model and with the sessions' notes.
    void judge() {
        lrc_slot journal = LRC_SLOT_EMPTY;
        uint64_t discarded = 0, count = 0;
        uint32_t lawful = 0;
        expect(run, lrc_store_close_to(&first, &journal, &discarded, &count, &lawful),
               LRC_STORE_DONE, "close_to");
        expect(run, lawful, plan.has_journal ? 1 : 2, "`lawful`");
        Replay replay(run, plan.width, joined);
        replay.check_bytes();
        expect(run, count + discarded, replay.calls(), "the number of calls");
        if (!plan.has_journal) expect(run, count, 0, "`entries` without a journal");
        if (plan.has_journal && !plan.is_trimmed) replay.check_journal(&journal, count);
        lrc_slot_release(&journal);
        expect(run, uint64_t(allocated), 0, "the count of allocations after the journal's release");
        entries = long(count + discarded);
    }
};

} // namespace

int main(int words, char **word) {
    const bool is_handed = words > 2;
    const char *const test = is_handed ? "threads handed" : "threads";
    const Run run(test, words, word);
    Random random(run.seed);
    long rounds = 0, entries = 0, lendings = 0;
    for (; !run.is_over(rounds); rounds++) {
        Round round(run, random, rounds % 2 == 1, is_handed);
        round();
        entries += round.entries;
        lendings += round.lendings;
    }
    std::printf("%s: %ld calls in %ld rounds, %ld lent ranges handed on, 0 wrong\n", test, entries,
                rounds, lendings);
}
