/* Calls of the coder from C, which bench/python_coder.py times in turn with those from Python, and
 * bench/go_coder with those from Go. Each function makes a call some times, on the same buffers. */
#include "lrc_coder.h"

#include <time.h>

enum { FRAGMENTS = 16, TARGETS = 4 };

/* The arguments of a call, which bench/python_coder.py declares too. Fragment 0 is made, if it is
 * lost. */
typedef struct {
    const uint8_t *fragments[FRAGMENTS]; /* NULL for a lost one */
    uint8_t *targets[TARGETS];
    size_t width;
} arguments;

static double now_ns(void) {
    struct timespec time;
    clock_gettime(CLOCK_THREAD_CPUTIME_ID, &time);
    return (double)time.tv_sec * 1e9 + (double)time.tv_nsec;
}

static uint16_t fill(const arguments *of, lrc_slice *slices) {
    static const uint8_t no_bytes = 0;
    unsigned lost = 0;
    for (unsigned i = 0; i < FRAGMENTS; i++) {
        const int is_lost = !of->fragments[i];
        slices[i] = is_lost ? (lrc_slice){&no_bytes, 0} : (lrc_slice){of->fragments[i], of->width};
        lost |= (unsigned)is_lost << i;
    }
    return (uint16_t)lost;
}

double time_encode(const arguments *of, uint32_t times);
double time_rebuild(const arguments *of, uint32_t times);
double time_decode(const arguments *of, uint32_t times);
double time_plan_decode(const arguments *of, uint32_t times);

/* The nanoseconds of a call, or -1 if one fails. */
double time_encode(const arguments *of, uint32_t times) {
    lrc_slice slices[FRAGMENTS];
    const double begin = now_ns();
    for (uint32_t i = 0; i < times; i++) {
        fill(of, slices);
        if (lrc_encode(slices, 12, of->targets[0], of->width, of->targets[1], of->width,
                       of->targets[2], of->width, of->targets[3], of->width))
            return -1;
    }
    return (now_ns() - begin) / times;
}

double time_rebuild(const arguments *of, uint32_t times) {
    lrc_slice slices[FRAGMENTS];
    const double begin = now_ns();
    for (uint32_t i = 0; i < times; i++) {
        const uint16_t lost = fill(of, slices);
        if (lrc_rebuild(12, slices, lost, 0, 0, of->targets[0], of->width)) return -1;
    }
    return (now_ns() - begin) / times;
}

double time_decode(const arguments *of, uint32_t times) {
    lrc_slice slices[FRAGMENTS];
    const uint8_t numbers[TARGETS] = {0, LRC_NONE, LRC_NONE, LRC_NONE};
    const double begin = now_ns();
    for (uint32_t i = 0; i < times; i++) {
        const uint16_t lost = fill(of, slices);
        if (lrc_decode(12, slices, lost, numbers, 0, of->width, of->targets[0], of->width,
                       of->targets[1], 0, of->targets[2], 0, of->targets[3], 0))
            return -1;
    }
    return (now_ns() - begin) / times;
}

double time_plan_decode(const arguments *of, uint32_t times) {
    lrc_slice slices[FRAGMENTS];
    const uint8_t numbers[TARGETS] = {0, LRC_NONE, LRC_NONE, LRC_NONE};
    uint8_t plan[LRC_PLAN_BYTES];
    uint16_t reads;
    if (lrc_plan(12, fill(of, slices), numbers, plan, &reads)) return -1;
    const double begin = now_ns();
    for (uint32_t i = 0; i < times; i++) {
        fill(of, slices);
        if (lrc_plan_decode(plan, slices, 0, of->width, of->targets[0], of->width, of->targets[1],
                            0, of->targets[2], 0, of->targets[3], 0))
            return -1;
    }
    return (now_ns() - begin) / times;
}
