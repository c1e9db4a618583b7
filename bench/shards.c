/* Reads and puts by 1, 2 and 4 threads, each of names of its own: on a plain store, and on one of
 * 16 shards, on sessions that a thread keeps or takes for each call. `shards [BYTES [NAMES]]`,
 * values of 64 bytes and one name for each thread if they are left out. A row tells how many times
 * the calls of one thread on the plain store these are in the same time, by the greatest of several
 * short runs. */
#include "timing.h"
#include <pthread.h>
#include <string.h>

enum { SHARDS = 16, MOST_THREADS = 4, MOST_NAMES = 1024, CALLS = 20000, RUNS = 25, NAME = 16 };

enum way { PLAIN, KEPT, TAKEN, WAYS };
enum { TIMES = 3 }; /* 1, 2 and 4 threads */

static const char *const ways[WAYS] = {"a plain store", "16 shards, sessions kept",
                                       "16 shards, sessions taken"};

struct worker {
    pthread_t thread;
    pthread_barrier_t *start;
    enum way way;
    int puts;
    double began, ended;
    size_t len, count;
    lrc_slot *session; /* of the plain store */
    lrc_shards *shards;
    lrc_pool *pools[SHARDS];
    lrc_slot *sessions[SHARDS];
    char names[MOST_NAMES][NAME];
};

static void call(const struct worker *worker, lrc_slot *session, const char *name, uint8_t *bytes) {
    const uint8_t *of = (const uint8_t *)name;
    uint64_t version, lent, built;
    const size_t len = strlen(name);
    if (worker->puts)
        done("lrc_store_put_wait",
             lrc_store_put_wait(session, of, len, bytes, worker->len, 12, &version, -1));
    else
        done("lrc_store_read_wait", lrc_store_read_wait(session, of, len, 0, bytes, worker->len,
                                                        &version, &lent, &built, -1));
}

/* Makes a call on the session that the way has for the name. */
static void call_by_way(const struct worker *worker, const char *name, uint8_t *bytes) {
    lrc_pool *pool;
    lrc_slot *session = worker->session;
    uint32_t shard;
    if (worker->way == KEPT) {
        done("lrc_store_shard",
             lrc_store_shard((const uint8_t *)name, strlen(name), SHARDS, &shard));
        session = worker->sessions[shard];
    } else if (worker->way == TAKEN) {
        done("lrc_shards_find",
             lrc_shards_find(worker->shards, (const uint8_t *)name, strlen(name), &pool));
        done("lrc_pool_take", lrc_pool_take(pool, &session, -1));
    }
    call(worker, session, name, bytes);
    if (worker->way == TAKEN) lrc_pool_give(pool, session);
}

static void *work(void *argument) {
    struct worker *worker = argument;
    uint8_t *bytes = calloc(1, worker->len + 1);
    pthread_barrier_wait(worker->start);
    worker->began = now();
    for (unsigned i = 0; i < CALLS; i++)
        call_by_way(worker, worker->names[i % worker->count], bytes);
    worker->ended = now();
    free(bytes);
    return NULL;
}

/* Calls a second, by so many of the workers. */
static double rate(struct worker *workers, unsigned count) {
    pthread_barrier_t start;
    pthread_barrier_init(&start, NULL, count);
    for (unsigned i = 0; i < count; i++) {
        workers[i].start = &start;
        pthread_create(&workers[i].thread, NULL, work, &workers[i]);
    }
    double began = 1e18, ended = 0;
    for (unsigned i = 0; i < count; i++) {
        pthread_join(workers[i].thread, NULL);
        if (workers[i].began < began) began = workers[i].began;
        if (workers[i].ended > ended) ended = workers[i].ended;
    }
    pthread_barrier_destroy(&start);
    return count * (double)CALLS / (ended - began) * 1e9;
}

/* The rates of each way, by 1, 2 and 4 threads: the greatest of several rounds, each of which tries
 * all in turn, as other guests of the machine come and go. */
static void measure(struct worker *workers, int puts, double rates[WAYS][TIMES]) {
    for (int round = 0; round < RUNS; round++)
        for (int way = 0; way < WAYS; way++)
            for (int time = 0; time < TIMES; time++) {
                for (unsigned i = 0; i < MOST_THREADS; i++) {
                    workers[i].way = (enum way)way;
                    workers[i].puts = puts;
                }
                const double one = rate(workers, 1u << time);
                if (one > rates[way][time]) rates[way][time] = one;
            }
}

/* Gives each worker sessions of both stores, and puts its names into both. */
static void prepare(struct worker *workers, size_t len, size_t count, lrc_slot *plain,
                    lrc_shards *shards) {
    uint8_t *bytes = calloc(1, len + 1);
    for (unsigned i = 0; i < MOST_THREADS; i++) {
        struct worker *worker = &workers[i];
        worker->len = len;
        worker->count = count;
        worker->puts = 1;
        worker->shards = shards;
        worker->session = calloc(1, sizeof *worker->session);
        done("lrc_store_split", lrc_store_split(plain, i + 1, worker->session));
        for (uint32_t shard = 0; shard < SHARDS; shard++) {
            done("lrc_shards_at", lrc_shards_at(shards, shard, &worker->pools[shard]));
            done("lrc_pool_take",
                 lrc_pool_take(worker->pools[shard], &worker->sessions[shard], -1));
        }
        for (unsigned k = 0; k < count; k++) {
            snprintf(worker->names[k], NAME, "w%u-%u", i, k);
            for (worker->way = PLAIN; worker->way < WAYS; worker->way += KEPT)
                call_by_way(worker, worker->names[k], bytes);
        }
    }
    free(bytes);
}

int main(int count, char **words) {
    const size_t len = count > 1 ? (size_t)atoi(words[1]) : 64;
    const size_t names = count > 2 ? (size_t)atoi(words[2]) : 1;
    const uint32_t width = len < 96 ? 8 : (uint32_t)(len + 11) / 12;
    const lrc_options options = {sizeof options, width, SHARDS, 0, 0};
    struct worker *workers = calloc(MOST_THREADS, sizeof *workers);
    lrc_slot plain = LRC_SLOT_EMPTY;
    lrc_shards *shards = NULL;
    done("lrc_store_open", lrc_store_open_unjournaled(width, &plain));
    done("lrc_shards_open", lrc_shards_open(&options, &shards));
    if (!names || names > MOST_NAMES) return 2;
    prepare(workers, len, names, &plain, shards);
    printf("values of %zu bytes, names for each thread: %zu\n", len, names);
    for (int puts = 0; puts < 2; puts++) {
        double rates[WAYS][TIMES] = {{0}};
        measure(workers, puts, rates);
        const double unit = rates[PLAIN][0];
        printf("%s, %.0f ns a call, by 1, 2, 4 threads\n", puts ? "puts" : "reads", 1e9 / unit);
        for (int way = 0; way < WAYS; way++) {
            printf("%-28s", ways[way]);
            for (int time = 0; time < TIMES; time++) printf(" %6.2f", rates[way][time] / unit);
            printf("\n");
        }
    }
    return 0;
}
