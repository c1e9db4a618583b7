/* Threads that share a store, each with a session of its own: threads NUMBER [journal]. Each puts,
 * loses, reads, lends and repairs a blob of its own, reads a shared one that another thread
 * replaces and deletes, and mends. Then the sessions are joined, and the store is closed. With
 * `journal` nothing is trimmed, and the journal is printed as `lrcstore --history` prints one. */
#include "store_test.h"
#include <pthread.h>
#include <stdlib.h>

#define FOREVER (-1)

struct worker {
    lrc_slot slot;
    unsigned who;
    long bad;
};

static int is_trimmed = 1;

static void check(struct worker *worker, int holds) { worker->bad += !holds; }

/* one round on the worker's own blob, with a fragment lost; another thread's mend may repair it
 * first */
static void own_round(struct worker *worker, const char *name, unsigned round) {
    uint8_t blob[97], got[97];
    uint64_t version, lent, built, fragment = round % 6;
    uint32_t status;
    lrc_slot *slot = &worker->slot;
    fill(blob, sizeof blob, round + worker->who);
    check(worker, !lrc_store_put_wait(slot, NAME(name), blob, sizeof blob, round % 2 ? 12 : 6,
                                      &version, FOREVER));
    check(worker, !lrc_store_lose_wait(slot, NAME(name), 0, fragment, &version, FOREVER));
    check(worker, !lrc_store_read_wait(slot, NAME(name), 0, got, sizeof got, &version, &lent,
                                       &built, FOREVER));
    check(worker, !memcmp(got, blob, sizeof blob) && lent + built == sizeof got);
    status = lrc_store_repair_wait(slot, NAME(name), 0, fragment, &version, FOREVER);
    check(worker, status == LRC_STORE_DONE || status == LRC_STORE_NOT_LOST);
}

/* the shared blob is all of one seed, whatever other threads do meanwhile */
static void shared_round(struct worker *worker, unsigned round) {
    uint8_t blob[200], got[200] = {0};
    uint64_t version, pieces;
    lrc_slot lent = LRC_SLOT_EMPTY;
    memset(blob, (int)(worker->who + round), sizeof blob);
    if (round % 4 == 0)
        check(worker, !lrc_store_put_wait(&worker->slot, NAME("shared"), blob, sizeof blob, 12,
                                          &version, FOREVER));
    if (round % 16 == 7) lrc_store_delete_wait(&worker->slot, NAME("shared"), &version, FOREVER);
    if (lrc_store_lend_wait(&worker->slot, NAME("shared"), 0, sizeof got, &lent, &version, &pieces,
                            FOREVER))
        return;
    check(worker, gather(&lent, got) == sizeof got);
    for (size_t i = 1; i < sizeof got; i++) check(worker, got[i] == got[0]);
    lrc_slot_release(&lent);
}

static void mend(struct worker *worker) {
    lrc_slot plan = LRC_SLOT_EMPTY;
    uint64_t version, items, discarded;
    check(worker, !lrc_store_plan_wait(&worker->slot, &plan, &items, FOREVER));
    while (lrc_store_mend_step_wait(&worker->slot, &plan, &version, FOREVER) !=
           LRC_STORE_NOTHING_LEFT)
        ;
    lrc_slot_release(&plan);
    if (is_trimmed) check(worker, !lrc_store_trim_wait(&worker->slot, 10, &discarded, FOREVER));
}

static void *work(void *argument) {
    struct worker *worker = argument;
    char name[16];
    snprintf(name, sizeof name, "own-%u", worker->who);
    for (unsigned round = 0; round < 100; round++) {
        own_round(worker, name, round);
        shared_round(worker, round);
        if (round % 20 == 19) mend(worker);
    }
    return NULL;
}

static void print_reply(const lrc_entry *entry) {
    static const char *const done[] = {"stored", "granted", "lost", "repaired", "deleted", "shape"};
    static const char *const refused[] = {
        "",        "", "no-name", "out-of-range", "unrecoverable", "no-fragment", "already-lost",
        "not-lost"};
    printf(" %s", entry->status ? refused[entry->status] : done[entry->call]);
    if (entry->version) printf(" %" PRIu64, entry->version);
    if (entry->call == LRC_CALL_STAT && !entry->status)
        printf(" %" PRIu64 " %" PRIu64 " %" PRIu64, entry->len, entry->stripes, entry->lost);
    putchar('\n');
}

static void print_journal(lrc_slot *journal, uint64_t entries) {
    static const char *const calls[] = {"put", "read", "lose", "repair", "delete", "stat"};
    for (size_t i = 0; i < entries; i++) {
        lrc_entry entry = {{(const uint8_t *)"", 0}, 0, 0, 0, 0, 0, 0, 0, 0, 0, 0};
        EXPECT(lrc_slot_entry(journal, i, &entry), LRC_STORE_DONE);
        printf("h %zu %" PRIu32 " %s%s %.*s", i + 1, entry.who, calls[entry.call],
               entry.call == LRC_CALL_PUT && entry.first == 6 ? "6" : "", (int)entry.name.len,
               (const char *)entry.name.at);
        if (entry.call == LRC_CALL_PUT)
            printf(" %" PRIu64, entry.second);
        else if (entry.call < LRC_CALL_DELETE)
            printf(" %" PRIu64 " %" PRIu64, entry.first, entry.second);
        print_reply(&entry);
    }
}

int main(int count, char **words) {
    static struct worker workers[63];
    static pthread_t threads[63];
    unsigned number = count > 1 ? (unsigned)atoi(words[1]) : 4;
    lrc_slot slot = LRC_SLOT_EMPTY, journal = LRC_SLOT_EMPTY;
    uint64_t entries = 0, discarded = 0;
    uint32_t lawful = 0;
    is_trimmed = count < 3;
    EXPECT(lrc_store_open(4, 100000, &slot), LRC_STORE_DONE);
    for (unsigned i = 0; i < number; i++) {
        workers[i].who = i + 1;
        EXPECT(lrc_store_split(&slot, i + 1, &workers[i].slot), LRC_STORE_DONE);
    }
    for (unsigned i = 0; i < number; i++) pthread_create(&threads[i], NULL, work, &workers[i]);
    for (unsigned i = 0; i < number; i++) pthread_join(threads[i], NULL);
    for (unsigned i = 0; i < number; i++) {
        EXPECT(workers[i].bad, 0);
        EXPECT(lrc_store_join(&slot, &workers[i].slot), LRC_STORE_DONE);
    }
    EXPECT(lrc_store_close_to(&slot, &journal, &discarded, &entries, &lawful), LRC_STORE_DONE);
    EXPECT(lawful, 1);
    if (!is_trimmed) print_journal(&journal, entries);
    lrc_slot_release(&journal);
    return is_trimmed ? report("threads") : wrong != 0;
}
