/* Plans: every recoverable set of up to four lost fragments of both codes is decoded by a plan from
 * the fragments that it reads alone. A plan reads no lost fragment and none that it can do without;
 * any bytes are safe as a plan. */
#include "expect.h"
#include "lrc_coder.h"

#include <stdio.h>
#include <stdlib.h>
#include <string.h>

enum { WIDTH = 200, FROM = 3, LEN = 190, WIDE = 12, SMALL = 6, MOST = 16, FILL = 0xEE };

typedef struct {
    size_t data_fragments;
    uint8_t bytes[MOST][WIDTH];
} stripe;

static uint32_t drawn = 1;

static uint8_t draw(void) {
    drawn = drawn * 1664525u + 1013904223u;
    return (uint8_t)(drawn >> 24);
}

static void make_stripe(stripe *made, size_t data_fragments) {
    const uint8_t *data[WIDE];
    uint8_t *parities[4];
    made->data_fragments = data_fragments;
    for (size_t i = 0; i < data_fragments; i++) {
        for (size_t k = 0; k < WIDTH; k++) made->bytes[i][k] = draw();
        data[i] = made->bytes[i];
    }
    for (size_t i = 0; i < 4; i++) parities[i] = made->bytes[data_fragments + i];
    CHECK(lrc_encode_arrays(data_fragments, WIDTH, data, parities) == LRC_DONE);
}

/* The lost fragments of a set, and after them none. At most four. */
static void numbers_of(unsigned lost, uint8_t numbers[4]) {
    size_t count = 0;
    memset(numbers, LRC_NONE, 4);
    for (uint8_t f = 0; f < MOST; f++)
        if (lost >> f & 1) numbers[count++] = f;
}

/* Decodes by a plan from the fragments of `given` alone. */
static uint32_t decode(const stripe *made, const uint8_t plan[LRC_PLAN_BYTES], unsigned given,
                       uint8_t targets[4][LEN]) {
    static const uint8_t no_bytes = 0;
    lrc_slice slices[MOST];
    for (size_t i = 0; i < MOST; i++) {
        slices[i].at = given >> i & 1 ? made->bytes[i] : &no_bytes;
        slices[i].len = given >> i & 1 ? WIDTH : 0;
    }
    return lrc_plan_decode(plan, slices, FROM, LEN, targets[0], LEN, targets[1], LEN, targets[2],
                           LEN, targets[3], LEN);
}

static void check_targets(const stripe *made, const uint8_t numbers[4], uint8_t targets[4][LEN]) {
    for (size_t i = 0; i < 4; i++) {
        if (numbers[i] != LRC_NONE) {
            CHECK(memcmp(targets[i], made->bytes[numbers[i]] + FROM, LEN) == 0);
            continue;
        }
        for (size_t k = 0; k < LEN; k++) CHECK(targets[i][k] == FILL);
    }
}

/* Whether one of the chosen fragments is unrecoverable from the fragments of `given`. */
static int is_some_open(const stripe *made, const uint8_t numbers[4], unsigned given) {
    const uint16_t lost = (uint16_t)~given;
    for (size_t i = 0; i < 4; i++)
        if (numbers[i] != LRC_NONE &&
            lrc_is_unrecoverable(made->data_fragments, lost, numbers[i]) != LRC_DONE)
            return 1;
    return 0;
}

/* A plan needs each fragment that it reads. */
static void check_reads(const stripe *made, const uint8_t numbers[4], unsigned lost,
                        unsigned reads) {
    CHECK((reads & lost) == 0 && reads >> (made->data_fragments + 4) == 0);
    CHECK(!is_some_open(made, numbers, reads));
    for (size_t i = 0; i < MOST; i++)
        CHECK(!(reads >> i & 1) || is_some_open(made, numbers, reads & ~(1u << i)));
}

/* The plan of a set for these fragments, and what it decodes. */
static uint32_t plan_and_decode(const stripe *made, unsigned lost, const uint8_t numbers[4],
                                uint16_t *reads) {
    uint8_t plan[LRC_PLAN_BYTES], targets[4][LEN];
    uint32_t status;
    memset(plan, FILL, sizeof plan);
    memset(targets, FILL, sizeof targets);
    *reads = 77;
    status = lrc_plan(made->data_fragments, (uint16_t)lost, numbers, plan, reads);
    if (status != LRC_DONE) {
        CHECK(*reads == 77 && plan[0] == FILL && plan[LRC_PLAN_BYTES - 1] == FILL);
        return status;
    }
    CHECK(decode(made, plan, *reads, targets) == LRC_DONE);
    check_targets(made, numbers, targets);
    return status;
}

static void test_lost_sets(size_t data_fragments, unsigned wanted) {
    stripe made;
    uint16_t reads;
    uint8_t numbers[4];
    unsigned planned = 0;
    make_stripe(&made, data_fragments);
    for (unsigned lost = 0; lost < 1u << (data_fragments + 4); lost++) {
        if (__builtin_popcount(lost) > 4) continue;
        numbers_of(lost, numbers);
        const int is_open = is_some_open(&made, numbers, ~lost);
        CHECK(plan_and_decode(&made, lost, numbers, &reads) == (is_open ? LRC_OPEN : LRC_DONE));
        planned += is_open ? 0 : 1;
        for (uint8_t f = 0; f < MOST; f++) {
            uint8_t one[4] = {LRC_NONE, f, LRC_NONE, LRC_NONE};
            if (!(lost >> f & 1) || is_some_open(&made, one, ~lost)) continue;
            CHECK(plan_and_decode(&made, lost, one, &reads) == LRC_DONE);
            check_reads(&made, one, lost, reads);
        }
    }
    CHECK(planned == wanted);
    printf("%zu data fragments: plans for %u lost sets\n", data_fragments, planned);
}

/* Lengths around a vector's and a block's, for sets that are decoded in different ways. */
static void test_lengths(void) {
    enum { LONGEST = 8201 };
    static const size_t lengths[] = {0,   1,   31,  32,  33,   63,   64,   65,
                                     255, 256, 511, 512, 4095, 4096, 4097, LONGEST};
    static const uint16_t sets[] = {0x0001, 0x0041, 0x0003, 0x0007, 0x00C3, 0x4000,
                                    0xC000, 0x4001, 0x8001, 0xC001, 0xC041, 0x0047,
                                    0x4003, 0x3000, 0x0043, 0x4041, 0x10C1, 0x2007};
    static uint8_t bytes[MOST][LONGEST], targets[4][LONGEST + 1];
    const uint8_t *data[WIDE];
    lrc_slice slices[MOST];
    for (size_t i = 0; i < MOST; i++) {
        for (size_t k = 0; i < WIDE && k < LONGEST; k++) bytes[i][k] = draw();
        if (i < WIDE) data[i] = bytes[i];
    }
    uint8_t *parities[4] = {bytes[12], bytes[13], bytes[14], bytes[15]};
    CHECK(lrc_encode_arrays(WIDE, LONGEST, data, parities) == LRC_DONE);
    for (size_t s = 0; s < sizeof sets / sizeof *sets; s++) {
        uint8_t plan[LRC_PLAN_BYTES], numbers[4];
        uint16_t reads;
        numbers_of(sets[s], numbers);
        CHECK(lrc_plan(WIDE, sets[s], numbers, plan, &reads) == LRC_DONE);
        for (size_t l = 0; l < sizeof lengths / sizeof *lengths; l++) {
            const size_t len = lengths[l], from = LONGEST - len;
            for (size_t i = 0; i < MOST; i++) slices[i] = (lrc_slice){bytes[i], LONGEST};
            memset(targets, FILL, sizeof targets);
            CHECK(lrc_plan_decode(plan, slices, from, len, targets[0], len, targets[1], len,
                                  targets[2], len, targets[3], len) == LRC_DONE);
            for (size_t i = 0; i < 4; i++) {
                const size_t made = numbers[i] == LRC_NONE ? 0 : len;
                if (made) CHECK(memcmp(targets[i], bytes[numbers[i]] + from, len) == 0);
                CHECK(targets[i][made] == FILL);
            }
        }
    }
    puts("plans: lengths from 0 to 8201");
}

/* The fragments of a stripe, and targets, that are long enough for fragments to be put into the
 * order of their groups. */
enum { LONG = 520, FIRST = 5 };
static uint8_t long_bytes[MOST][LONG], long_targets[4][LONG];

static void make_long(lrc_slice slices[MOST]) {
    const uint8_t *data[WIDE];
    uint8_t *parities[4];
    for (size_t i = 0; i < MOST; i++) {
        for (size_t k = 0; i < WIDE && k < LONG; k++) long_bytes[i][k] = draw();
        slices[i] = (lrc_slice){long_bytes[i], LONG};
        if (i < WIDE) data[i] = long_bytes[i];
    }
    for (size_t i = 0; i < 4; i++) parities[i] = long_bytes[WIDE + i];
    CHECK(lrc_encode_arrays(WIDE, LONG, data, parities) == LRC_DONE);
}

/* Whether the targets have these fragments from FIRST on, and no target for none was accessed. */
static int have_long(const uint8_t numbers[4]) {
    for (size_t i = 0; i < 4; i++) {
        if (numbers[i] != LRC_NONE &&
            memcmp(long_targets[i], long_bytes[numbers[i]] + FIRST, LONG - FIRST) != 0)
            return 0;
        if (numbers[i] == LRC_NONE && long_targets[i][0] != FILL) return 0;
    }
    return 1;
}

static uint32_t plan_long(const uint8_t plan[LRC_PLAN_BYTES], const lrc_slice slices[MOST]) {
    const size_t len = LONG - FIRST;
    memset(long_targets, FILL, sizeof long_targets);
    return lrc_plan_decode(plan, slices, FIRST, len, long_targets[0], len, long_targets[1], len,
                           long_targets[2], len, long_targets[3], len);
}

static uint32_t decode_long(unsigned lost, const uint8_t numbers[4], const lrc_slice slices[MOST]) {
    const size_t len = LONG - FIRST;
    memset(long_targets, FILL, sizeof long_targets);
    return lrc_decode(WIDE, slices, (uint16_t)lost, numbers, FIRST, len, long_targets[0], len,
                      long_targets[1], len, long_targets[2], len, long_targets[3], len);
}

/* Every set of three or four, in each order of its numbers, with and without a plan. */
static void test_orders(void) {
    lrc_slice slices[MOST];
    uint8_t plan[LRC_PLAN_BYTES], sorted[4];
    uint16_t reads;
    unsigned decoded = 0;
    make_long(slices);
    for (unsigned lost = 0; lost < 1u << MOST; lost++) {
        if (__builtin_popcount(lost) != 3 && __builtin_popcount(lost) != 4) continue;
        numbers_of(lost, sorted);
        for (unsigned order = 0; order < 256; order++) {
            const unsigned a = order & 3, b = order >> 2 & 3, c = order >> 4 & 3, d = order >> 6;
            const uint8_t numbers[4] = {sorted[a], sorted[b], sorted[c], sorted[d]};
            if ((1u << a | 1u << b | 1u << c | 1u << d) != 15) continue;
            const uint32_t status = lrc_plan(WIDE, (uint16_t)lost, numbers, plan, &reads);
            CHECK(decode_long(lost, numbers, slices) == status);
            if (status != LRC_DONE) {
                for (size_t i = 0; i < 4; i++) CHECK(long_targets[i][0] == FILL);
                continue;
            }
            CHECK(have_long(numbers));
            CHECK(plan_long(plan, slices) == LRC_DONE && have_long(numbers));
            decoded++;
        }
    }
    CHECK(decoded == 24 * 2128);
    printf("plans: %u orders of three and four lost fragments\n", decoded);
}

/* A fragment that is alone lost in its group is its sum, and is put back. So its shares are not
 * read, nor those of its group's syndrome: the plan gives the fragments also if these change. */
static void test_put_back(void) {
    static const struct {
        unsigned lost;
        int alone; /* the bits of the targets that are alone */
        int share; /* the bits of their groups' syndromes */
    } sets[] = {{0x0043, 4, 2}, {0x1081, 2, 2}, {0x4041, 3, 3}, {0x0047, 8, 2}, {0x2007, 8, 2},
                {0x0381, 1, 1}, {0xC001, 1, 1}, {0xC041, 3, 3}, {0x4043, 4, 2}};
    lrc_slice slices[MOST];
    uint8_t plan[LRC_PLAN_BYTES], numbers[4];
    uint16_t reads;
    make_long(slices);
    for (size_t s = 0; s < sizeof sets / sizeof *sets; s++) {
        numbers_of(sets[s].lost, numbers);
        CHECK(lrc_plan(WIDE, (uint16_t)sets[s].lost, numbers, plan, &reads) == LRC_DONE);
        for (int k = 0; k < 16; k++)
            if (sets[s].alone >> k / 4 & 1 || sets[s].share >> k % 4 & 1) plan[8 + k] ^= 0x5A;
        CHECK(plan_long(plan, slices) == LRC_DONE && have_long(numbers));
    }
    puts("plans: what is alone is put back");
}

/* Plans of random bytes, and plans with a byte changed: a status, and no byte outside. */
static void test_any_bytes(void) {
    stripe made;
    uint8_t plan[LRC_PLAN_BYTES], whole[LRC_PLAN_BYTES], targets[4][LEN], numbers[4];
    uint16_t reads;
    unsigned taken = 0;
    make_stripe(&made, WIDE);
    numbers_of(0x00C3, numbers);
    CHECK(lrc_plan(WIDE, 0x00C3, numbers, whole, &reads) == LRC_DONE);
    for (unsigned i = 0; i < 100000; i++) {
        memcpy(plan, whole, sizeof plan);
        if (i & 1)
            for (size_t k = 0; k < sizeof plan; k++) plan[k] = draw();
        plan[0] = i & 2 ? 1 : plan[0];
        plan[1] = i & 4 ? (i & 8 ? WIDE : SMALL) : plan[1];
        plan[draw() % LRC_PLAN_BYTES] = draw();
        const uint32_t status = decode(&made, plan, i & 16 ? 0xFFFF : reads, targets);
        CHECK(status == LRC_DONE || status == LRC_BAD_ARGUMENT);
        taken += status == LRC_DONE ? 1 : 0;
    }
    CHECK(taken > 0 && taken < 100000);
    puts("plans: any bytes are safe");
}

static void test_refusals(void) {
    stripe made;
    uint8_t plan[LRC_PLAN_BYTES], other[LRC_PLAN_BYTES], targets[4][LEN], numbers[4];
    uint16_t reads = 77;
    make_stripe(&made, WIDE);
    memset(targets, FILL, sizeof targets);
    numbers_of(0x0001, numbers);
    CHECK(lrc_plan(8, 0x0001, numbers, plan, &reads) == LRC_BAD_ARGUMENT);
    CHECK(lrc_plan(WIDE, 0x0002, numbers, plan, &reads) == LRC_BAD_ARGUMENT);
    numbers[3] = 16;
    CHECK(lrc_plan(WIDE, 0xFFFF, numbers, plan, &reads) == LRC_BAD_ARGUMENT);
    numbers[3] = 10;
    CHECK(lrc_plan(SMALL, 0xFFFF, numbers, plan, &reads) == LRC_BAD_ARGUMENT);
    numbers_of(0x000F, numbers);
    numbers[3] = LRC_NONE;
    CHECK(lrc_plan(WIDE, 0x001F, numbers, plan, &reads) == LRC_UNRECOVERABLE && reads == 77);

    numbers_of(0x0001, numbers);
    CHECK(lrc_plan(WIDE, 0x0001, numbers, plan, &reads) == LRC_DONE && reads == 0x103E);
    CHECK(decode(&made, plan, reads, targets) == LRC_DONE);
    memset(targets, FILL, sizeof targets);
    CHECK(decode(&made, plan, reads & ~2u, targets) == LRC_BAD_ARGUMENT);
    for (size_t i = 0; i < 4; i++) {
        memcpy(other, plan, sizeof other);
        other[i == 3 ? 4 : i] ^= 4; /* format, code, a fragment read, a number that is read */
        if (i == 2) other[2] = 0;
        CHECK(decode(&made, other, 0xFFFF, targets) == LRC_BAD_ARGUMENT);
    }
    lrc_slice slices[MOST];
    for (size_t i = 0; i < MOST; i++) slices[i] = (lrc_slice){made.bytes[i], WIDTH};
    CHECK(lrc_plan_decode(plan, slices, FROM, LEN, targets[0], LEN - 1, targets[1], 0, targets[2],
                          0, targets[3], 0) == LRC_BAD_ARGUMENT);
    CHECK(lrc_plan_decode(plan, slices, SIZE_MAX, LEN, targets[0], LEN, targets[1], 0, targets[2],
                          0, targets[3], 0) == LRC_BAD_ARGUMENT);
    CHECK(lrc_plan_decode(plan, slices, WIDTH, LEN, targets[0], LEN, targets[1], 0, targets[2], 0,
                          targets[3], 0) == LRC_BAD_ARGUMENT);
    for (size_t k = 0; k < LEN; k++) CHECK(targets[0][k] == FILL);
    puts("plans: refusals");
}

int main(void) {
    test_lost_sets(WIDE, 2265);
    test_lost_sets(SMALL, 356);
    test_lengths();
    test_orders();
    test_put_back();
    test_any_bytes();
    test_refusals();
    return report("plans");
}
