/* How long a read waits beside busy threads, by lrc_store_read_wait and by lrc_store_read under a
 * mutex: `waits BUSY [SECONDS]`, of 1 to 62 threads that read 64 bytes of one blob without a pause,
 * and 10 seconds for each way if none are given. Another thread reads once a millisecond. It prints
 * the latencies of that thread and of the busy ones in microseconds, and how many reads all made.
 * Link with -lpthread. */
#include "timing.h"
#include <pthread.h>
#include <stdatomic.h>
#include <string.h>

enum { MOST_BUSY = 62, SAMPLES = 1 << 18, EACH = 16, LEN = 64, WIDTH = 64 };
#define NAME (const uint8_t *)"blob", 4

struct caller {
    pthread_t thread;
    lrc_slot slot;
    long calls;
    double *took; /* of each call, or of every EACH-th of a busy thread */
    size_t samples;
    int is_busy, has_mutex;
};

static atomic_int is_over;
static pthread_mutex_t mutex = PTHREAD_MUTEX_INITIALIZER;

/* A read, by a caller whose journal is trimmed when it is full. */
static void read_blob(struct caller *caller) {
    uint8_t got[LEN];
    uint64_t version, lent, built, discarded;
    uint32_t status;
    if (caller->has_mutex) {
        pthread_mutex_lock(&mutex);
        status = lrc_store_read(&caller->slot, NAME, 0, got, LEN, &version, &lent, &built);
        if (status == LRC_STORE_JOURNAL_FULL) status = lrc_store_trim(&caller->slot, 0, &discarded);
        pthread_mutex_unlock(&mutex);
    } else {
        status = lrc_store_read_wait(&caller->slot, NAME, 0, got, LEN, &version, &lent, &built, -1);
        if (status == LRC_STORE_JOURNAL_FULL)
            status = lrc_store_trim_wait(&caller->slot, 0, &discarded, -1);
    }
    done("a read", status);
}

static void *call(void *argument) {
    struct caller *caller = argument;
    const struct timespec pause = {0, 1000000};
    while (!is_over) {
        const double start = now();
        read_blob(caller);
        if (caller->samples < SAMPLES && (!caller->is_busy || caller->calls % EACH == 0))
            caller->took[caller->samples++] = now() - start;
        caller->calls++;
        if (!caller->is_busy) nanosleep(&pause, NULL);
    }
    return NULL;
}

static void print_latency(const char *who, double *took, size_t count) {
    qsort(took, count, sizeof *took, by_size);
    printf(" %s p50 %.1f, p99 %.1f, p99.9 %.1f;", who, took[count / 2] / 1e3,
           took[count * 99 / 100] / 1e3, took[count * 999 / 1000] / 1e3);
}

/* The busy threads are the first ones, and the last one is polite. */
static void run(struct caller *callers, int busy, double seconds, int has_mutex) {
    const struct timespec length = {(time_t)seconds,
                                    (long)(1e9 * (seconds - (double)(long)seconds))};
    static double all[MOST_BUSY * (size_t)SAMPLES];
    const double start = now();
    size_t count = 0;
    long calls = 0;
    is_over = 0;
    for (int i = 0; i <= busy; i++) {
        callers[i].samples = 0;
        callers[i].calls = 0;
        callers[i].has_mutex = has_mutex;
        callers[i].is_busy = i < busy;
        pthread_create(&callers[i].thread, NULL, call, &callers[i]);
    }
    nanosleep(&length, NULL);
    is_over = 1;
    for (int i = 0; i <= busy; i++) {
        pthread_join(callers[i].thread, NULL);
        calls += callers[i].calls;
        if (i == busy) break;
        memcpy(all + count, callers[i].took, callers[i].samples * sizeof *all);
        count += callers[i].samples;
    }
    printf("%d busy, %s:", busy, has_mutex ? "a mutex" : "lrc_store_read_wait");
    print_latency("polite", callers[busy].took, callers[busy].samples);
    if (count) print_latency("busy", all, count);
    printf(" %.2f million reads a second\n", (double)calls / (now() - start) * 1e3);
}

int main(int argc, char **argv) {
    static struct caller callers[MOST_BUSY + 1];
    static uint8_t blob[12 * WIDTH];
    const int busy = argc > 1 ? atoi(argv[1]) : 1;
    const double seconds = argc > 2 ? atof(argv[2]) : 10;
    lrc_slot slot = LRC_SLOT_EMPTY;
    uint64_t version;
    if (argc > 3 || busy < 1 || busy > MOST_BUSY || seconds <= 0) {
        fprintf(stderr, "usage: waits [BUSY [SECONDS]], of 1 to %d busy threads\n", MOST_BUSY);
        return 2;
    }
    done("lrc_store_open", lrc_store_open(WIDTH, 65536, &slot));
    done("lrc_store_put", lrc_store_put(&slot, NAME, blob, sizeof blob, 12, &version));
    for (int i = 0; i <= busy; i++) {
        callers[i].took = calloc(SAMPLES, sizeof(double));
        if (!callers[i].took) return fputs("waits: out of memory\n", stderr), 1;
        done("lrc_store_split", lrc_store_split(&slot, (uint32_t)i + 1, &callers[i].slot));
    }
    run(callers, busy, seconds, 0);
    run(callers, busy, seconds, 1);
    return 0;
}
