/* Expectations of the tests in C. With LRC_FIRST_FAILURE a test ends at its first failure. */
#ifndef EXPECT_H
#define EXPECT_H
#include <inttypes.h>
#include <stdio.h>
#include <stdlib.h>

static long wrong;

#define CHECK(fact) EXPECT(!!(fact), 1)
#define EXPECT(got, want) expect(__FILE__, __LINE__, #got, (uint64_t)(got), (uint64_t)(want))

static inline void expect(const char *file, int line, const char *what, uint64_t got,
                          uint64_t want) {
    if (got != want) {
        fprintf(stderr, "%s:%d: %s is %" PRIu64 ", expected %" PRIu64 "\n", file, line, what, got,
                want);
        wrong++;
        if (getenv("LRC_FIRST_FAILURE")) _Exit(1);
    }
}

static inline int report(const char *what) {
    printf("%s: %ld wrong\n", what, wrong);
    return wrong != 0;
}
#endif
