/* shapes plan|decode LOST: decodes the fragments of the set LOST many times, for a program that
 * counts instructions. A set that is put into the order of its groups, or of which some fragments
 * are rebuilt first, takes about as many as the set whose shape is then used. */
#include "lrc_coder.h"

#include <stdlib.h>
#include <string.h>

enum { WIDTH = 4096, WIDE = 12, MOST = 16, TIMES = 200 };

static uint8_t bytes[MOST][WIDTH], targets[4][WIDTH];

static uint32_t decode(unsigned lost, const uint8_t numbers[4], const lrc_slice slices[MOST]) {
    return lrc_decode(WIDE, slices, (uint16_t)lost, numbers, 0, WIDTH, targets[0], WIDTH,
                      targets[1], WIDTH, targets[2], WIDTH, targets[3], WIDTH);
}

static uint32_t decode_by(const uint8_t plan[LRC_PLAN_BYTES], const lrc_slice slices[MOST]) {
    return lrc_plan_decode(plan, slices, 0, WIDTH, targets[0], WIDTH, targets[1], WIDTH, targets[2],
                           WIDTH, targets[3], WIDTH);
}

int main(int argc, char **argv) {
    lrc_slice slices[MOST];
    uint8_t plan[LRC_PLAN_BYTES], numbers[4] = {LRC_NONE, LRC_NONE, LRC_NONE, LRC_NONE};
    uint16_t reads;
    size_t count = 0;
    if (argc != 3) return 2;
    const unsigned lost = (unsigned)strtoul(argv[2], NULL, 16);
    for (uint8_t f = 0; f < MOST; f++) {
        slices[f] = (lrc_slice){bytes[f], WIDTH};
        if (lost >> f & 1 && count < 4) numbers[count++] = f;
    }
    if (lrc_plan(WIDE, (uint16_t)lost, numbers, plan, &reads) != LRC_DONE) return 1;
    for (int i = 0; i < TIMES; i++)
        if ((*argv[1] == 'p' ? decode_by(plan, slices) : decode(lost, numbers, slices)) != LRC_DONE)
            return 1;
    return 0;
}
