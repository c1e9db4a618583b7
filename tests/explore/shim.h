/* What library/ calls of pthread and of the clock, in place of it: each call that can block or hand
 * over is a point at which explore.c decides which thread goes on. The compiler includes this
 * file before a source. */
#ifndef SHIM_H
#define SHIM_H
#define _GNU_SOURCE
#include <pthread.h>
#include <stddef.h>
#include <stdint.h>
#include <time.h>

/* The threads of a scenario at most. */
enum { MOST = 4 };

/* A vector clock: of each thread, up to where its steps are seen. */
struct seen {
    uint32_t of[MOST];
};

/* `owner` is 0, or the number of a thread and 1. */
typedef struct {
    int owner, is_gone;
    struct seen seen;
} model_mutex;

typedef struct {
    int is_gone;
} model_cond;

struct model_cleanup {
    void (*run)(void *);
    void *argument;
    struct model_cleanup *below;
};

int model_mutex_init(model_mutex *mutex);
int model_mutex_destroy(model_mutex *mutex);
int model_lock(model_mutex *mutex);
int model_trylock(model_mutex *mutex);
int model_clocklock(model_mutex *mutex, const struct timespec *end);
int model_unlock(model_mutex *mutex);
int model_cond_init(model_cond *cond);
int model_cond_destroy(model_cond *cond);
int model_clockwait(model_cond *cond, model_mutex *mutex, const struct timespec *end);
int model_signal(model_cond *cond);
int model_broadcast(model_cond *cond);
void model_testcancel(void);
int model_sleep(const struct timespec *length);
int model_clock(struct timespec *now);
void model_push(struct model_cleanup *it, void (*run)(void *), void *argument);
void model_pop(int runs);

#define pthread_mutex_t model_mutex
#define pthread_cond_t model_cond
#undef PTHREAD_COND_INITIALIZER
#define PTHREAD_COND_INITIALIZER                                                                   \
    { 0 }
#define pthread_mutex_init(mutex, attributes) model_mutex_init(mutex)
#define pthread_mutex_destroy model_mutex_destroy
#define pthread_mutex_lock model_lock
#define pthread_mutex_trylock model_trylock
#define pthread_mutex_clocklock(mutex, clock, end) model_clocklock(mutex, end)
#define pthread_mutex_unlock model_unlock
#define pthread_cond_init(cond, attributes) model_cond_init(cond)
#define pthread_cond_destroy model_cond_destroy
#define pthread_cond_clockwait(cond, mutex, clock, end) model_clockwait(cond, mutex, end)
#define pthread_cond_signal model_signal
#define pthread_cond_broadcast model_broadcast
#define pthread_testcancel model_testcancel
#define nanosleep(length, left) model_sleep(length)
#define clock_gettime(clock, now) model_clock(now)

/* Macros as those of pthread: a thread that is cancelled runs its cleanups, and never returns. */
#undef pthread_cleanup_push
#undef pthread_cleanup_pop
#define pthread_cleanup_push(run, argument)                                                        \
    {                                                                                              \
        struct model_cleanup model_frame;                                                          \
        model_push(&model_frame, (void (*)(void *))(run), (argument));
#define pthread_cleanup_pop(runs)                                                                  \
    model_pop(runs);                                                                               \
    }
#endif
