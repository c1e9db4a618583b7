/* Mends one blob of which each stripe has lost a fragment, by 1, 2 and 4 threads: each by a plan of
 * its own, as lrc_store_mend_wait makes it, and all by one plan, as lrc_mending_work shares it.
 * `mending [WIDTH [FRAGMENTS]]`, 4,096 and 4,000 if they are left out. A row tells the milliseconds
 * of wall time, the least of several runs. */
#include "timing.h"
#include <pthread.h>
#include <string.h>

enum { RUNS = 7, MOST_THREADS = 4, MOST_STRIPES = 4096 };

struct worker {
    pthread_t thread;
    pthread_barrier_t *start;
    lrc_mending *mending; /* NULL: by a plan of its own */
    lrc_slot session;
    uint64_t repaired;
};

static void *work(void *argument) {
    struct worker *worker = argument;
    pthread_barrier_wait(worker->start);
    if (worker->mending)
        done("lrc_mending_work",
             lrc_mending_work(worker->mending, &worker->session, &worker->repaired, -1));
    else
        done("lrc_store_mend_wait", lrc_store_mend_wait(&worker->session, &worker->repaired, -1));
    return NULL;
}

/* The nanoseconds of a mend of all that is lost by so many threads. */
static double mend(lrc_slot *slot, unsigned count, lrc_mending *mending, uint64_t lost) {
    struct worker workers[MOST_THREADS] = {{0}};
    pthread_barrier_t start;
    uint64_t all = 0;
    pthread_barrier_init(&start, NULL, count + 1);
    for (unsigned i = 0; i < count; i++) {
        workers[i].start = &start;
        workers[i].mending = mending;
        done("lrc_store_split", lrc_store_split(slot, i + 1, &workers[i].session));
        pthread_create(&workers[i].thread, NULL, work, &workers[i]);
    }
    pthread_barrier_wait(&start);
    const double from = now();
    for (unsigned i = 0; i < count; i++) pthread_join(workers[i].thread, NULL);
    const double took = now() - from;
    for (unsigned i = 0; i < count; i++) {
        all += workers[i].repaired;
        done("lrc_store_join", lrc_store_join(slot, &workers[i].session));
    }
    if (all != lost) fprintf(stderr, "repaired %lu, not %lu\n", all, lost);
    pthread_barrier_destroy(&start);
    return took;
}

static double least(lrc_slot *slot, unsigned count, int is_shared, uint64_t lost) {
    double best = 1e18;
    uint64_t version;
    for (int run = 0; run < RUNS; run++) {
        lrc_mending *mending = NULL;
        for (uint64_t i = 0; i < lost; i++)
            done("lrc_store_lose",
                 lrc_store_lose(slot, (const uint8_t *)"a", 1, i, i % 12, &version));
        if (is_shared) done("lrc_mending_open", lrc_mending_open(&mending));
        const double took = mend(slot, count, mending, lost);
        if (mending) lrc_mending_close(mending);
        if (took < best) best = took;
    }
    return best;
}

int main(int count, char **words) {
    const uint32_t width = count > 1 ? (uint32_t)atoi(words[1]) : 4096;
    const uint64_t lost = count > 2 ? (uint64_t)atoi(words[2]) : 4000;
    lrc_slot slot = LRC_SLOT_EMPTY;
    uint64_t version;
    if (!width || !lost || lost > MOST_STRIPES) return 2;
    uint8_t *blob = calloc(12 * width, lost);
    done("lrc_store_open", lrc_store_open_unjournaled(width, &slot));
    done("lrc_store_put",
         lrc_store_put(&slot, (const uint8_t *)"a", 1, blob, 12 * width * lost, 12, &version));
    free(blob);
    printf("%u bytes, %lu fragments, ms by 1, 2, 4 threads\n", width, lost);
    for (int is_shared = 0; is_shared < 2; is_shared++) {
        printf("%-22s", is_shared ? "one plan for all" : "a plan for each");
        for (unsigned threads = 1; threads <= MOST_THREADS; threads *= 2)
            printf(" %7.1f", least(&slot, threads, is_shared, lost) / 1e6);
        printf("\n");
    }
    return 0;
}
