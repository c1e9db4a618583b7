/* What the programs that time the store from C share: the time, medians, and the end on an error.
 */
#ifndef TIMING_H
#define TIMING_H
#include "lrc_store.h"
#include <stdio.h>
#include <stdlib.h>
#include <time.h>

enum { ROUNDS = 31 };

static inline double now(void) {
    struct timespec time;
    clock_gettime(CLOCK_MONOTONIC, &time);
    return (double)time.tv_sec * 1e9 + (double)time.tv_nsec;
}

static inline int by_size(const void *left, const void *right) {
    const double a = *(const double *)left, b = *(const double *)right;
    return (a > b) - (a < b);
}

static inline double median(double *times) {
    qsort(times, ROUNDS, sizeof *times, by_size);
    return times[ROUNDS / 2];
}

/* Ends the program if a call of the store did not succeed, and says which. */
static inline void done(const char *call, uint32_t status) {
    if (!status) return;
    fprintf(stderr, "%s: status %u: %s\n", call, status, lrc_store_text(status));
    exit(1);
}
#endif
