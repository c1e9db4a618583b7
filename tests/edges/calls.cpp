// Random calls of all functions of lrc_store.h by one thread, each compared with the model: its
// status, each output, each byte. In every other round, allocations are refused inside of calls.
// Where a call has a waiting form, either is called. calls LENGTH, as random_run.hpp says. Link it
// with -Wl,--wrap=malloc,--wrap=realloc,--wrap=free.
#include "calls_of_versions.hpp"

namespace {

class World : public VersionCalls {
public:
    using VersionCalls::VersionCalls;

    // A few thousand calls, after which nothing is left allocated.
    void round(bool with_refusals) {
        refuses = with_refusals;
        for (uint64_t left = 200 + random.below(4000); left > 0; left--) step();
        refuses = false;
        for (Held &each : held)
            if (each.holds != Holds::session) release(each);
        for (Held &each : held) release(each);
        same(uint64_t(allocated), 0, "the count of allocations after all were released");
    }

private:
    void lose_or_repair(bool is_repair) {
        Held &from = with(Holds::session);
        const std::string name = this->name();
        const auto [stripe, fragment] = place(blob_of(from, name), is_repair);
        uint64_t version = untouched;
        begin(is_repair ? "repair" : "lose", name, stripe, fragment);
        const bool waits = random.one_in(2);
        const auto function = is_repair ? lrc_store_repair : lrc_store_lose;
        const auto waiting = is_repair ? lrc_store_repair_wait : lrc_store_lose_wait;
        const uint32_t got =
            waits
                ? waiting(&from.slot, at(name), name.size(), stripe, fragment, &version, timeout())
                : function(&from.slot, at(name), name.size(), stripe, fragment, &version);
        const Statuses reasons = of_named(from, name);
        const model::Entry entry = answer(from, is_repair ? LRC_CALL_REPAIR : LRC_CALL_LOSE, name,
                                          stripe, fragment, reasons, got);
        judge_entry(from, entry, reasons, got, version);
    }

    void remove() {
        Held &from = with(Holds::session);
        const std::string name = this->name();
        uint64_t version = untouched;
        begin("delete", name);
        const uint32_t got =
            random.one_in(2)
                ? lrc_store_delete(&from.slot, at(name), name.size(), &version)
                : lrc_store_delete_wait(&from.slot, at(name), name.size(), &version, timeout());
        const Statuses reasons = of_named(from, name);
        const model::Entry entry = answer(from, LRC_CALL_DELETE, name, 0, 0, reasons, got);
        judge_entry(from, entry, reasons, got, version);
    }

    void stat() {
        Held &from = with(Holds::session);
        const std::string name = this->name();
        uint64_t version = untouched, len = untouched, stripes = untouched, lost = untouched;
        begin("stat", name);
        const uint32_t got =
            random.one_in(2)
                ? lrc_store_stat(&from.slot, at(name), name.size(), &version, &len, &stripes, &lost)
                : lrc_store_stat_wait(&from.slot, at(name), name.size(), &version, &len, &stripes,
                                      &lost, timeout());
        const Statuses reasons = of_named(from, name);
        const model::Entry entry = answer(from, LRC_CALL_STAT, name, 0, 0, reasons, got);
        judge_entry(from, entry, reasons, got, version);
        const bool is_done = got == LRC_STORE_DONE;
        same(len, is_done ? entry.len : untouched, "`len`");
        same(stripes, is_done ? entry.stripes : untouched, "`stripes`");
        same(lost, is_done ? entry.lost : untouched, "`lost`");
    }

    void trim() {
        Held &from = with(Holds::session);
        const uint64_t count = from.store ? from.store->journal.size() : 5;
        const uint64_t keep = random.one_in(10) ? random.next() : random.below(count + 2);
        const bool is_part = random.one_in(3), waits = !is_part && random.one_in(2);
        const uint64_t most = is_part ? random.below(count + 2) : count;
        uint64_t discarded = untouched;
        begin(is_part ? "trim_part" : "trim", keep, most);
        const uint32_t got = is_part ? lrc_store_trim_part(&from.slot, keep, most, &discarded)
                             : waits ? lrc_store_trim_wait(&from.slot, keep, &discarded, timeout())
                                     : lrc_store_trim(&from.slot, keep, &discarded);
        judge(got, not_a_session(from));
        const bool is_done = got == LRC_STORE_DONE;
        if (!is_done && !waits) return same(discarded, untouched, "`discarded`");
        const uint64_t all = std::min(count > keep ? count - keep : 0, most);
        const uint64_t part = discarded == untouched ? 0 : std::min(discarded, all) / 512 * 512;
        const uint64_t gone = is_done ? all : part;
        same(discarded, is_done || gone ? gone : untouched, "`discarded`");
        if (!gone) return;
        from.store->discarded += gone;
        auto &journal = from.store->journal;
        journal.erase(journal.begin(), journal.begin() + long(gone));
    }

    void plan() {
        Held &from = with(Holds::session), &to = other_with(Holds::nothing, from);
        uint64_t items = untouched;
        begin("plan");
        const uint32_t got = random.one_in(2)
                                 ? lrc_store_plan(&from.slot, &to.slot, &items)
                                 : lrc_store_plan_wait(&from.slot, &to.slot, &items, timeout());
        judge(got, not_a_session(from).add(to.holds != Holds::nothing, LRC_STORE_OCCUPIED));
        if (got != LRC_STORE_DONE) return same(items, untouched, "`items`");
        to.become(Holds::plan).items = from.store->plan();
        if (!to.items.empty()) to.last = to.items.back();
        same(items, to.items.size(), "`items`");
    }

    void plan_part() {
        Held &from = with(Holds::session),
             &to = other_with(random.one_in(3) ? Holds::nothing : Holds::plan, from);
        const uint64_t most = random.one_in(10) ? random.next() : random.below(4);
        uint64_t items = untouched;
        begin("plan_part", most);
        const uint32_t got =
            random.one_in(2)
                ? lrc_store_plan_part(&from.slot, &to.slot, most, &items)
                : lrc_store_plan_part_wait(&from.slot, &to.slot, most, &items, timeout());
        const bool goes_on = to.holds == Holds::plan && to.next == to.items.size();
        const bool is_free = to.holds == Holds::nothing || goes_on;
        judge(got, not_a_session(from)
                       .add(!is_free, LRC_STORE_OCCUPIED)
                       .add(most == 0, LRC_STORE_BAD_ARGUMENT));
        if (got != LRC_STORE_DONE) return same(items, untouched, "`items`");
        const std::optional<model::Item> after = to.last;
        to.become(Holds::plan).items = from.store->plan_part(after, most);
        to.last = to.items.empty() ? after : to.items.back();
        same(items, to.items.size(), "`items`");
    }

    void mend_step() {
        Held &from = with(Holds::session), &plan = other_with(Holds::plan, from);
        uint64_t version = untouched;
        begin("mend_step");
        const uint32_t got =
            random.one_in(2)
                ? lrc_store_mend_step(&from.slot, &plan.slot, &version)
                : lrc_store_mend_step_wait(&from.slot, &plan.slot, &version, timeout());
        const bool are_both = from.holds == Holds::session && plan.holds == Holds::plan;
        const bool has_next = are_both && plan.next < plan.items.size();
        const Statuses reasons =
            Statuses()
                .add(!are_both, LRC_STORE_EMPTY)
                .add(are_both && !has_next, LRC_STORE_NOTHING_LEFT)
                .add(has_next && from.store->is_full(), LRC_STORE_JOURNAL_FULL);
        const model::Item item = has_next ? plan.items[plan.next] : model::Item{"", 0, 0};
        plan.next += reasons.is_empty() && got != LRC_STORE_NO_MEMORY;
        const model::Entry entry =
            answer(from, LRC_CALL_REPAIR, item.name, item.stripe, item.fragment, reasons, got);
        judge_entry(from, entry, reasons, got, version);
    }

    void step() {
        const uint64_t kind = random.below(1000);
        const auto is_session = [](const Held &each) { return each.holds == Holds::session; };
        if (std::none_of(held.begin(), held.end(), is_session) && !random.one_in(3)) return open();
        if (random.one_in(6)) return call_of_versions();
        if (kind < 3) return open();
        if (kind < 30) return split();
        if (kind < 60) return join();
        if (kind < 70) return close();
        if (kind < 95) return entry();
        if (kind < 150) return put();
        if (kind < 170) return reserve();
        if (kind < 190) return buffer();
        if (kind < 215) return put_from();
        if (kind < 335) return read();
        if (kind < 400) return lend();
        if (kind < 450) return random.one_in(2) ? slices() : runs();
        if (kind < 780) return lose_or_repair(kind >= 720);
        if (kind < 800) return remove();
        if (kind < 850) return stat();
        if (kind < 885) return trim();
        if (kind < 892) return plan();
        if (kind < 915) return plan_part();
        if (kind < 970) return mend_step();
        Held &each = any();
        if (each.holds != Holds::session || random.one_in(6)) release(each);
    }
};

} // namespace

int main(int words, char **word) {
    const Run run("calls", words, word);
    World world(run);
    long rounds = 0;
    for (; !run.is_over(rounds); rounds++) world.round(rounds % 2 == 1);
    std::printf("calls: %ld calls of the store in %ld rounds, 0 wrong\n", world.calls, rounds);
}
