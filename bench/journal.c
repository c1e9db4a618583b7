/* What a journal costs: puts of 64 bytes over many names, without a journal and with journals that
 * are trimmed to nothing whenever they are full. `journal [NAMES]`, 100,000 if it is left out: four
 * puts a name. A row tells the processor time of a put, the longest call, and the greatest memory
 * of the process by names. Each row is a process of its own. The last four rows tell the longest
 * call that another thread makes meanwhile, if most of a journal of a million puts is trimmed at
 * once and in parts, and if a million lost fragments are planned at once, and in parts, and
 * repaired. */
#include "timing.h"
#include <pthread.h>
#include <stdatomic.h>
#include <string.h>
#include <sys/resource.h>
#include <sys/wait.h>
#include <unistd.h>

enum { WIDTH = 8, BYTES = 64, TURNS = 4, MOST_NAMES = 10000000, NAME_BYTES = 16 };

static const uint32_t LIMITS[] = {0, 4096, 65536, 1048576};

static double used(void) {
    struct timespec time;
    clock_gettime(CLOCK_PROCESS_CPUTIME_ID, &time);
    return (double)time.tv_sec * 1e9 + (double)time.tv_nsec;
}

static double peak_bytes(void) {
    struct rusage usage;
    getrusage(RUSAGE_SELF, &usage);
    return (double)usage.ru_maxrss * 1024;
}

/* Trims a full journal to nothing. */
static void trim(lrc_slot *slot) {
    uint64_t discarded;
    done("lrc_store_trim", lrc_store_trim(slot, 0, &discarded));
}

/* Puts a blob, after a trim if the journal is full. Returns the longest call. */
static double put(lrc_slot *slot, const char *name, const uint8_t *blob) {
    uint64_t version;
    double start = now(), longest = 0;
    uint32_t status =
        lrc_store_put(slot, (const uint8_t *)name, strlen(name), blob, BYTES, 12, &version);
    if (status == LRC_STORE_JOURNAL_FULL) {
        start = now();
        trim(slot);
        longest = now() - start;
        start = now();
        status =
            lrc_store_put(slot, (const uint8_t *)name, strlen(name), blob, BYTES, 12, &version);
    }
    done("lrc_store_put", status);
    const double own = now() - start;
    return own > longest ? own : longest;
}

static void row(uint32_t limit, unsigned long names) {
    static const uint8_t blob[BYTES] = {1, 2, 3};
    lrc_slot slot = LRC_SLOT_EMPTY;
    const double before = peak_bytes(), start = used();
    double longest = 0;
    char name[NAME_BYTES];
    done("lrc_store_open",
         limit ? lrc_store_open(WIDTH, limit, &slot) : lrc_store_open_unjournaled(WIDTH, &slot));
    for (unsigned long i = 0; i < TURNS * names; i++) {
        snprintf(name, sizeof name, "n%lu", i % names * 7919 % names);
        const double one = put(&slot, name, blob);
        if (one > longest) longest = one;
    }
    if (limit) trim(&slot);
    printf("%7u entries: %.0f ns a put, longest call %.2f ms, %.0f bytes a name\n", limit,
           (used() - start) / (TURNS * (double)names), longest / 1e6,
           (peak_bytes() - before) / (double)names);
    lrc_slot_release(&slot);
}

struct other {
    lrc_slot slot;
    atomic_int is_over;
    double longest;
    unsigned long calls;
};

/* Asks for the shape of a blob, again and again. */
static void *ask(void *argument) {
    struct other *other = argument;
    uint64_t version, len, stripes, lost;
    while (!other->is_over) {
        const double start = now();
        done("lrc_store_stat_wait", lrc_store_stat_wait(&other->slot, (const uint8_t *)"n1", 2,
                                                        &version, &len, &stripes, &lost, -1));
        const double own = now() - start;
        if (own > other->longest) other->longest = own;
        other->calls++;
        usleep(100);
    }
    return NULL;
}

enum { LIMIT = 1048576, KEPT = LIMIT / 16, LOST = 4 };

/* A store whose journal is to be trimmed. */
static void fill_journal(lrc_slot *slot, unsigned long names) {
    static const uint8_t blob[BYTES] = {1, 2, 3};
    char name[NAME_BYTES];
    done("lrc_store_open", lrc_store_open(WIDTH, LIMIT, slot));
    for (unsigned long i = 0; i < LIMIT - KEPT; i++) {
        snprintf(name, sizeof name, "n%lu", i % names);
        put(slot, name, blob);
    }
}

/* A store that lacks a million fragments. */
static void lose_many(lrc_slot *slot) {
    static const uint8_t blob[BYTES] = {1, 2, 3};
    char name[NAME_BYTES];
    uint64_t version;
    done("lrc_store_open_unjournaled", lrc_store_open_unjournaled(WIDTH, slot));
    for (unsigned long i = 0; i < LIMIT / LOST; i++) {
        snprintf(name, sizeof name, "n%lu", i);
        put(slot, name, blob);
        for (uint64_t k = 0; k < LOST; k++)
            done("lrc_store_lose",
                 lrc_store_lose(slot, (const uint8_t *)name, strlen(name), 0, 3 * k, &version));
    }
}

static uint64_t trim_most(lrc_slot *slot, int in_parts) {
    uint64_t discarded = 0;
    done("lrc_store_trim", in_parts ? lrc_store_trim_wait(slot, KEPT, &discarded, -1)
                                    : lrc_store_trim(slot, KEPT, &discarded));
    return discarded;
}

static uint64_t mend(lrc_slot *slot, int in_parts) {
    lrc_slot plan = LRC_SLOT_EMPTY;
    uint64_t repaired = 0, items = 0, version = 0;
    if (in_parts) {
        done("lrc_store_mend_wait", lrc_store_mend_wait(slot, &repaired, -1));
        return repaired;
    }
    done("lrc_store_plan_wait", lrc_store_plan_wait(slot, &plan, &items, -1));
    while (lrc_store_mend_step_wait(slot, &plan, &version, -1) == LRC_STORE_DONE) repaired++;
    lrc_slot_release(&plan);
    return repaired;
}

/* The longest call of another thread beside a trim or a mend. */
static void beside(int is_mend, int in_parts, unsigned long names) {
    static struct other other = {LRC_SLOT_EMPTY, 0, 0, 0};
    lrc_slot slot = LRC_SLOT_EMPTY;
    pthread_t thread;
    if (is_mend)
        lose_many(&slot);
    else
        fill_journal(&slot, names);
    done("lrc_store_split", lrc_store_split(&slot, 1, &other.slot));
    if (pthread_create(&thread, NULL, ask, &other)) exit(1);
    const double start = now();
    const uint64_t count = is_mend ? mend(&slot, in_parts) : trim_most(&slot, in_parts);
    const double whole = now() - start;
    other.is_over = 1;
    pthread_join(thread, NULL);
    printf("%s %llu %s %s: %.0f ms, longest call beside it %.2f ms of %lu\n",
           is_mend ? "mend of" : "trim of", (unsigned long long)count,
           is_mend ? "lost fragments, planned" : "entries", in_parts ? "in parts" : "at once",
           whole / 1e6, other.longest / 1e6, other.calls);
}

int main(int argc, char **argv) {
    char *end = "";
    const unsigned long names = argc > 1 ? strtoul(argv[1], &end, 10) : 100000;
    if (argc > 2 || *end || !names || names > MOST_NAMES) {
        fprintf(stderr, "usage: journal [NAMES], from 1 to %d names\n", MOST_NAMES);
        return 2;
    }
    enum { LIMIT_COUNT = sizeof LIMITS / sizeof *LIMITS };
    for (int i = 0; i < LIMIT_COUNT + 4; i++) {
        int status = 0;
        fflush(stdout);
        const pid_t child = fork();
        if (child < 0) return 1;
        if (!child) {
            if (i < LIMIT_COUNT)
                row(LIMITS[i], names);
            else
                beside(i >= LIMIT_COUNT + 2, (i - LIMIT_COUNT) % 2, names);
            fflush(stdout);
            _exit(0);
        }
        if (waitpid(child, &status, 0) != child || status) return 1;
    }
    return 0;
}
