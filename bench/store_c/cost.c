/* What a call of the store for C costs, beside the same reads made inside Rattle: a table of
 * nanoseconds, each the median of 31 rounds of 2,000 calls that take turns. `cost THREADS MILLIS`:
 * how many reads of 256 bytes so many threads make of one blob in that time, from C and then inside
 * Rattle. */
#include "../timing.h"
#include <pthread.h>

enum { CALLS = 2000, WIDTH = 4096, MOST_THREADS = 63 };
#define NAME (const uint8_t *)"blob", 4

uint64_t timed_reads(lrc_slot *slot, const uint8_t *name, size_t name_len, uint64_t start,
                     uint8_t *target, size_t len, uint64_t count);

static uint8_t blob[1 << 18], got[1 << 16];

static void trim(lrc_slot *slot) {
    uint64_t discarded;
    if (lrc_store_trim(slot, 0, &discarded)) exit(1);
}

static double read_from_c(lrc_slot *slot, size_t len) {
    uint64_t version, lent, built;
    uint32_t status = 0;
    const double start = now();
    for (int call = 0; call < CALLS; call++)
        status |= lrc_store_read(slot, NAME, 5, got, len, &version, &lent, &built);
    if (status) exit(1);
    return (now() - start) / CALLS;
}

static double read_inside(lrc_slot *slot, size_t len) {
    const double start = now();
    if (timed_reads(slot, NAME, 5, got, len, CALLS) != CALLS) exit(1);
    return (now() - start) / CALLS;
}

static double lend_from_c(lrc_slot *slot, size_t len) {
    uint64_t version, pieces;
    lrc_slot lent = LRC_SLOT_EMPTY;
    const double start = now();
    for (int call = 0; call < CALLS; call++) {
        if (lrc_store_lend(slot, NAME, 5, len, &lent, &version, &pieces)) exit(1);
        lrc_slot_release(&lent);
    }
    return (now() - start) / CALLS;
}

static void row(lrc_slot *slot, size_t len) {
    double from_c[ROUNDS], inside[ROUNDS], lent[ROUNDS];
    for (int round = 0; round < ROUNDS; round++) {
        from_c[round] = read_from_c(slot, len);
        trim(slot);
        inside[round] = read_inside(slot, len);
        trim(slot);
        lent[round] = lend_from_c(slot, len);
        trim(slot);
    }
    const double c = median(from_c), rattle = median(inside), lend = median(lent);
    printf("%6zu bytes: read from C %7.1f ns, inside Rattle %7.1f ns, ratio %.2f; lend and release "
           "%7.1f ns\n",
           len, c, rattle, c / rattle, lend);
}

struct reader {
    pthread_t thread;
    lrc_slot slot;
    double until;
    uint64_t calls;
};

static void *read_from_c_on(void *argument) {
    struct reader *reader = argument;
    uint64_t version, lent, built, discarded;
    uint8_t target[256];
    while (reader->calls % 64 || now() < reader->until)
        if (lrc_store_read_wait(&reader->slot, NAME, 0, target, sizeof target, &version, &lent,
                                &built, -1))
            lrc_store_trim_wait(&reader->slot, 0, &discarded, -1); /* the journal is full */
        else
            reader->calls++;
    return NULL;
}

static void *read_inside_on(void *argument) {
    struct reader *reader = argument;
    uint64_t discarded;
    uint8_t target[256];
    while (now() < reader->until) {
        const uint64_t done = timed_reads(&reader->slot, NAME, 0, target, sizeof target, 64);
        reader->calls += done;
        if (!done)
            lrc_store_trim(&reader->slot, 0,
                           &discarded); /* the journal is full, or others were inside each time */
    }
    return NULL;
}

static int threads(unsigned number, double millis, void *(*work)(void *), const char *what) {
    struct reader readers[MOST_THREADS] = {0};
    lrc_slot slot = LRC_SLOT_EMPTY;
    uint64_t version, calls = 0;
    double start;
    if (number > MOST_THREADS || lrc_store_open(64, 65536, &slot) ||
        lrc_store_put(&slot, NAME, blob, 768, 12, &version) ||
        lrc_store_lose(&slot, NAME, 0, 0, &version))
        return 1;
    for (unsigned i = 0; i < number; i++)
        if (lrc_store_split(&slot, i + 1, &readers[i].slot)) return 1;
    start = now();
    for (unsigned i = 0; i < number; i++) {
        readers[i].until = start + millis * 1e6;
        pthread_create(&readers[i].thread, NULL, work, &readers[i]);
    }
    for (unsigned i = 0; i < number; i++) {
        pthread_join(readers[i].thread, NULL);
        calls += readers[i].calls;
        if (lrc_store_join(&slot, &readers[i].slot)) return 1;
    }
    printf("%s: %.2f million reads a second\n", what, (double)calls * 1e3 / (now() - start));
    lrc_slot_release(&slot);
    return 0;
}

int main(int count, char **words) {
    lrc_slot slot = LRC_SLOT_EMPTY;
    uint64_t version, entries;
    uint32_t lawful;
    for (size_t i = 0; i < sizeof blob; i++) blob[i] = (uint8_t)(i * 31);
    if (count > 2)
        return threads((unsigned)atoi(words[1]), atof(words[2]), read_from_c_on, "from C") ||
               threads((unsigned)atoi(words[1]), atof(words[2]), read_inside_on, "inside Rattle");
    if (lrc_store_open(WIDTH, 1000000, &slot) ||
        lrc_store_put(&slot, NAME, blob, sizeof blob, 12, &version))
        return 1;
    row(&slot, 64);
    row(&slot, 4096);
    row(&slot, 65536);
    return (int)lrc_store_close(&slot, &entries, &lawful);
}
