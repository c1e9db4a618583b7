// Random calls of a store of several shards by one thread, each compared with a model for each
// shard: its status, each output, each byte. shards LENGTH, as random_run.hpp says.
#include "model.hpp"
#include "random_run.hpp"

namespace {

using model::Entry;

// The hash of a name, from its definition, and its shard.
uint32_t shard_of(const std::string &name, uint32_t count) {
    uint64_t hash = 0;
    const size_t whole = name.size() / 8 * 8;
    for (size_t i = 0; i < name.size(); i += i < whole ? 8 : 1) {
        uint64_t number = 0;
        for (size_t k = 0; k < (i < whole ? 8 : 1); k++)
            number |= uint64_t{uint8_t(name[i + k])} << 8 * k;
        hash = ((hash << 5 | hash >> 59) ^ number) * 0x517cc1b727220a95u;
    }
    return uint32_t((hash >> 32) * count >> 32);
}

class World {
public:
    World(const Run &running, Random &source) : run(running), random(source) {
        const uint32_t counts[] = {1, 2, 3, 16, 64};
        options = {sizeof options, uint32_t(1 + random.below(40)), random.one_of(counts),
                   random.one_in(2) ? 0 : uint32_t(1 + random.below(60)), 0};
        models.resize(options.shards);
        for (model::Store &each : models) {
            each.width = options.width;
            if (options.limit) each.limit = options.limit;
        }
        same(lrc_shards_open(&options, &shards), LRC_STORE_DONE, "status of the opening");
    }

    void round() {
        for (uint64_t left = 100 + random.below(1000); left > 0; left--) step();
        uint64_t entries = 0, expected = 0;
        uint32_t lawful = 0;
        for (const model::Store &each : models) expected += each.journal.size();
        call = "close";
        same(lrc_shards_close(shards, &entries, &lawful), LRC_STORE_DONE, "status");
        same(entries, expected, "entries");
        same(lawful, options.limit ? 1 : 2, "lawful");
    }

private:
    const Run &run;
    Random &random;
    lrc_options options{};
    lrc_shards *shards = nullptr;
    std::vector<model::Store> models;
    uint32_t mends = 0;
    std::string call, name;

    template <class Number> void same(Number got, uint64_t want, const char *what) {
        if (uint64_t(got) != want)
            run.differ(call, what, std::to_string(got), std::to_string(want));
    }

    const uint8_t *at() const { return reinterpret_cast<const uint8_t *>(name.data()); }
    model::Store &model() { return models[shard_of(name, options.shards)]; }

    // Makes a call on a session of the name's shard, and compares its status and its version.
    template <class Call> Entry made(uint32_t kind, uint64_t first, uint64_t second, Call on) {
        lrc_pool *pool = nullptr;
        lrc_slot *session = nullptr;
        Entry entry;
        entry.call = kind;
        entry.name = name;
        entry.first = first;
        entry.second = second;
        call = joined("call", kind, name, first, second);
        same(lrc_shards_find(shards, at(), name.size(), &pool), LRC_STORE_DONE, "status of find");
        same(lrc_pool_take(pool, &session, 0), LRC_STORE_DONE, "status of take");
        uint64_t version = 0;
        const uint32_t status = on(session, &version);
        lrc_pool_give(pool, session);
        if (model().is_full()) {
            entry.status = LRC_STORE_JOURNAL_FULL;
        } else {
            model().answer(entry);
            model().note(entry);
        }
        same(status, entry.status, "status");
        same(version, entry.version, "version");
        return entry;
    }

    void put() {
        const uint32_t data = random.one_in(2) ? 12 : 6;
        const auto blob =
            std::make_shared<const std::string>(bytes_of(random.next(), random.below(2000)));
        const auto *bytes = reinterpret_cast<const uint8_t *>(blob->data());
        const Entry entry = made(LRC_CALL_PUT, data, blob->size(), [&](auto *session, auto *v) {
            return lrc_store_put_wait(session, at(), name.size(), bytes, blob->size(), data, v, 0);
        });
        if (entry.status == LRC_STORE_DONE) model().blobs[name].bytes = blob;
    }

    void read() {
        const model::Blob *blob = model().find(name);
        const uint64_t len = blob ? blob->len : 9, start = random.below(len + 2);
        const uint64_t count = random.below(len - std::min(start, len) + 2);
        std::string target(count + 1, 'x');
        const Entry entry = made(LRC_CALL_READ, start, count, [&](auto *session, auto *v) {
            uint64_t lent, built;
            return lrc_store_read_wait(session, at(), name.size(), start,
                                       reinterpret_cast<uint8_t *>(&target[0]), count, v, &lent,
                                       &built, 0);
        });
        if (entry.status == LRC_STORE_DONE && target.compare(0, count, *blob->bytes, start, count))
            run.differ(call, "the range", "something else", "the blob's bytes");
    }

    void lose_or_repair(bool is_repair) {
        const model::Blob *blob = model().find(name);
        const uint64_t stripe = random.below((blob ? blob->stripes : 1) + 1);
        const uint64_t fragment = random.below(17);
        const auto function = is_repair ? lrc_store_repair_wait : lrc_store_lose_wait;
        made(is_repair ? LRC_CALL_REPAIR : LRC_CALL_LOSE, stripe, fragment,
             [&](auto *session, auto *v) {
                 return function(session, at(), name.size(), stripe, fragment, v, 0);
             });
    }

    void remove() {
        made(LRC_CALL_DELETE, 0, 0, [&](auto *session, auto *v) {
            return lrc_store_delete_wait(session, at(), name.size(), v, 0);
        });
    }

    void stat() {
        uint64_t len = 0, stripes = 0, lost = 0;
        const Entry entry = made(LRC_CALL_STAT, 0, 0, [&](auto *session, auto *v) {
            return lrc_store_stat_wait(session, at(), name.size(), v, &len, &stripes, &lost, 0);
        });
        same(len, entry.len, "len");
        same(stripes, entry.stripes, "stripes");
        same(lost, entry.lost, "lost");
    }

    void count() {
        lrc_numbers got{}, want{};
        call = "numbers";
        same(lrc_shards_numbers(shards, &got, 0), LRC_STORE_DONE, "status");
        for (const model::Store &each : models) {
            const lrc_numbers of = each.numbers();
            want.blobs += of.blobs;
            want.bytes += of.bytes;
            want.lost += of.lost;
            want.unrecoverable += of.unrecoverable;
            want.calls += of.calls;
            want.entries += of.entries;
        }
        same(got.blobs, want.blobs, "blobs");
        same(got.bytes, want.bytes, "bytes");
        same(got.lost, want.lost, "lost");
        same(got.unrecoverable, want.unrecoverable, "unrecoverable");
        same(got.calls, want.calls, "calls");
        same(got.entries, want.entries, "entries");
    }

    void trim() {
        const uint64_t keep = random.below(20);
        uint64_t got = 0, want = 0;
        call = joined("trim", keep);
        same(lrc_shards_trim(shards, keep, &got, -1), LRC_STORE_DONE, "status");
        for (model::Store &each : models)
            for (; each.journal.size() > keep; each.discarded++, want++) each.journal.pop_front();
        same(got, want, "discarded");
    }

    // Repairs in the model what a mend of this shard repairs, and returns its status.
    uint32_t mend_in(model::Store &store, uint64_t &repaired) {
        for (const model::Item &item : store.plan()) {
            if (store.is_full()) return LRC_STORE_JOURNAL_FULL;
            Entry entry;
            entry.call = LRC_CALL_REPAIR;
            entry.name = item.name;
            entry.first = item.stripe;
            entry.second = item.fragment;
            store.answer(entry);
            store.note(entry);
            repaired += entry.status == LRC_STORE_DONE;
        }
        return LRC_STORE_DONE;
    }

    void mend() {
        const uint32_t begun = mends++ * 0x9E3779B9u;
        const uint32_t first = uint32_t(uint64_t{begun} * options.shards >> 32);
        uint64_t got = 0, want = 0;
        uint32_t status = LRC_STORE_DONE;
        call = "mend";
        for (uint32_t i = 0; status == LRC_STORE_DONE && i < options.shards; i++)
            status = mend_in(models[(first + i) % options.shards], want);
        same(lrc_shards_mend(shards, &got, 0), status, "status");
        same(got, want, "repaired");
    }

    void step() {
        name = "name-" + std::to_string(random.below(60));
        const uint64_t kind = random.below(100);
        if (kind < 30) return put();
        if (kind < 45) return read();
        if (kind < 65) return lose_or_repair(false);
        if (kind < 75) return lose_or_repair(true);
        if (kind < 80) return remove();
        if (kind < 86) return stat();
        if (kind < 90) return count();
        if (kind < 96) return trim();
        mend();
    }
};

} // namespace

int main(int words, char **word) {
    const Run run("shards", words, word);
    Random random(run.seed);
    unsigned rounds = 0;
    for (; !run.is_over(rounds); rounds++) World(run, random).round();
    std::printf("shards: %u rounds, 0 wrong\n", rounds);
}
