/* Deadlines of the waiting functions, by the monotonic clock. */
#ifndef DEADLINE_H
#define DEADLINE_H
#include <stdint.h>
#include <time.h>

enum { NS_OF_MS = 1000000, NS_OF_S = 1000000000 };

/* Deadlines that are no times: of a call that waits for ever, and of one that does not wait. */
static const int64_t NEVER = INT64_MAX, AT_ONCE = 0;

static inline int64_t now_ns(void) {
    struct timespec now;
    clock_gettime(CLOCK_MONOTONIC, &now);
    return (int64_t)now.tv_sec * NS_OF_S + now.tv_nsec;
}

/* When a call that begins now has waited for long enough. */
static inline int64_t deadline_after(int64_t timeout_ms) {
    if (timeout_ms < 0) return NEVER;
    if (timeout_ms == 0) return AT_ONCE;
    const int64_t now = now_ns();
    return timeout_ms < (NEVER - now) / NS_OF_MS ? now + timeout_ms * NS_OF_MS : NEVER;
}

/* Whether the time of a deadline has come. A call that does not wait has none. */
static inline int is_over(int64_t deadline) {
    return deadline != NEVER && deadline != AT_ONCE && now_ns() >= deadline;
}

/* The timeout that is left of a deadline, in milliseconds, rounded up. */
static inline int64_t left_ms(int64_t deadline) {
    if (deadline == NEVER) return -1;
    if (deadline == AT_ONCE) return 0;
    const int64_t left = deadline - now_ns();
    return left > 0 ? (left - 1) / NS_OF_MS + 1 : 0;
}

#endif
