/* The coder as C uses it. Prints one line a test, and ends with status 1 where a check fails. */
#define _DEFAULT_SOURCE
#include "expect.h"
#include "lrc_coder.h"

#include <pthread.h>
#include <stdio.h>
#include <stdlib.h>
#include <string.h>
#include <sys/mman.h>
#include <unistd.h>

enum { WIDTH = 3, WIDE = 12, SMALL = 6, MOST = 16 };

/* A stripe of up to 16 fragments, which stand one after the other. */
typedef struct {
    uint8_t bytes[MOST][WIDTH];
    const uint8_t *fragments[MOST];
    uint8_t *parities[4];
} stripe;

static void fill(uint8_t *bytes, size_t len, uint32_t seed) {
    for (size_t i = 0; i < len; i++) {
        seed = seed * 1664525u + 1013904223u;
        bytes[i] = (uint8_t)(seed >> 24);
    }
}

static void make_stripe(stripe *made, size_t data_fragments) {
    fill(&made->bytes[0][0], sizeof made->bytes, (uint32_t)data_fragments);
    for (size_t i = 0; i < MOST; i++) made->fragments[i] = made->bytes[i];
    for (size_t i = 0; i < 4; i++) made->parities[i] = made->bytes[data_fragments + i];
    CHECK(lrc_encode_arrays(data_fragments, WIDTH, made->fragments, made->parities) == LRC_DONE);
}

static void test_letters(void) {
    static const uint8_t wanted[4] = {0x07, 0x0B, 0x13, 0x9F};
    const char *letters = "ABCDEFGHIJKL";
    const uint8_t *data[WIDE];
    uint8_t parities[4];
    uint8_t *targets[4];
    for (size_t i = 0; i < WIDE; i++) data[i] = (const uint8_t *)&letters[i];
    for (size_t i = 0; i < 4; i++) targets[i] = &parities[i];
    CHECK(lrc_encode_arrays(WIDE, 1, data, targets) == LRC_DONE);
    CHECK(memcmp(parities, wanted, 4) == 0);
    puts("letters: the parities are 07 0B 13 9F");
}

/* A lost fragment by its recipe, one byte of a source a call. Returns what lrc_recipe returned. */
static uint32_t by_recipe(const stripe *left, size_t data_fragments, uint16_t lost,
                          uint8_t fragment, uint8_t *target) {
    uint8_t fragments[MOST], coefficients[MOST];
    uint32_t count = 99;
    uint32_t status = lrc_recipe(data_fragments, lost, fragment, fragments, coefficients, &count);
    if (status != LRC_DONE) {
        CHECK(count == 99);
        return status;
    }
    CHECK(count <= 15);
    memset(target, 0, WIDTH);
    for (uint32_t i = count; i-- > 0;) {
        CHECK(fragments[i] < data_fragments + 4 && !(lost >> fragments[i] & 1) &&
              coefficients[i] != 0);
        for (size_t k = 0; k < WIDTH; k++)
            CHECK(lrc_add(target + k, 1, coefficients[i], &left->bytes[fragments[i]][k], 1) ==
                  LRC_DONE);
    }
    return LRC_DONE;
}

/* The fragments `wanted` of a lost set at once: all of them, or none if one of them is open. */
static void decode_some(const stripe *made, size_t data_fragments, const uint8_t *const *left,
                        uint16_t lost, uint16_t wanted) {
    uint8_t decoded[MOST][WIDTH];
    uint8_t *targets[MOST] = {NULL};
    uint32_t status, wanted_status = LRC_DONE;
    memset(decoded, 0xEE, sizeof decoded);
    for (uint8_t f = 0; f < data_fragments + 4; f++) {
        targets[f] = wanted >> f & 1 ? decoded[f] : NULL;
        if (targets[f] && lrc_is_open(data_fragments, lost, f) == LRC_OPEN)
            wanted_status = LRC_OPEN;
    }
    status = lrc_decode_arrays(data_fragments, WIDTH, left, targets);
    CHECK(status == wanted_status);
    for (uint8_t f = 0; f < data_fragments + 4; f++)
        for (size_t k = 0; k < WIDTH; k++)
            CHECK(decoded[f][k] == (status == LRC_DONE && targets[f] ? made->bytes[f][k] : 0xEE));
}

/* Every subset of up to four of the lost fragments, and all of them. */
static void decode_set(const stripe *made, size_t data_fragments, const uint8_t *const *left,
                       uint16_t lost) {
    lost = (uint16_t)(lost & ((1u << (data_fragments + 4)) - 1));
    decode_some(made, data_fragments, left, lost, lost);
    for (unsigned wanted = lost; wanted != 0; wanted = (wanted - 1) & lost)
        if (__builtin_popcount(wanted) <= 4 && __builtin_popcount(lost) <= 6)
            decode_some(made, data_fragments, left, lost, (uint16_t)wanted);
}

/* Each lost fragment of one set, by lrc_rebuild and by lrc_recipe; whether all of them came back.
 */
static int rebuild_set(const stripe *made, size_t data_fragments, uint16_t lost) {
    const uint8_t *left[MOST];
    int whole = 1;
    for (size_t i = 0; i < MOST; i++) left[i] = lost >> i & 1 ? NULL : made->fragments[i];
    decode_set(made, data_fragments, left, lost);
    for (uint8_t f = 0; f < data_fragments + 4; f++) {
        uint8_t rebuilt[WIDTH] = {0xEE, 0xEE, 0xEE}, summed[WIDTH];
        uint32_t status;
        if (!(lost >> f & 1)) continue;
        status = lrc_rebuild_arrays(data_fragments, WIDTH, left, f, rebuilt);
        CHECK(status == lrc_is_open(data_fragments, lost, f));
        CHECK(status == by_recipe(made, data_fragments, lost, f, summed));
        if (status == LRC_DONE) {
            CHECK(memcmp(rebuilt, made->bytes[f], WIDTH) == 0 &&
                  memcmp(summed, made->bytes[f], WIDTH) == 0);
        } else {
            CHECK(status == LRC_OPEN && rebuilt[0] == 0xEE && rebuilt[1] == 0xEE &&
                  rebuilt[2] == 0xEE);
            whole = 0;
        }
    }
    return whole;
}

static void test_lost_sets(size_t data_fragments, unsigned sets, unsigned wanted,
                           unsigned wanted_of_four) {
    stripe made;
    unsigned whole = 0, whole_of_four = 0;
    make_stripe(&made, data_fragments);
    for (unsigned lost = 0; lost < sets; lost++) {
        int is_whole = rebuild_set(&made, data_fragments, (uint16_t)lost);
        whole += (unsigned)is_whole;
        if (__builtin_popcount(lost) == 4) whole_of_four += (unsigned)is_whole;
    }
    CHECK(whole == wanted && whole_of_four == wanted_of_four);
    printf("%zu data fragments: %u lost sets, %u rebuilt whole, %u of them of four fragments\n",
           data_fragments, sets, whole, whole_of_four);
}

/* Parities of zeros with every data fragment added, and then with one of them written over. */
static void test_encode_add(size_t data_fragments) {
    stripe made;
    uint8_t parities[4][WIDTH] = {{0}}, change[WIDTH];
    uint8_t *targets[4] = {parities[0], parities[1], parities[2], parities[3]};
    make_stripe(&made, data_fragments);
    for (size_t i = 0; i < data_fragments; i++) {
        uint8_t f = (uint8_t)(i * 5 % data_fragments);
        CHECK(lrc_encode_add_arrays(data_fragments, WIDTH, f, made.fragments[f], targets) ==
              LRC_DONE);
    }
    CHECK(memcmp(parities, made.bytes[data_fragments], sizeof parities) == 0);
    for (uint8_t f = 0; f < data_fragments; f++) {
        fill(change, WIDTH, f);
        CHECK(lrc_encode_add_arrays(data_fragments, WIDTH, f, change, made.parities) == LRC_DONE);
        CHECK(lrc_add(made.bytes[f], WIDTH, 1, change, WIDTH) == LRC_DONE);
        CHECK(lrc_encode_arrays(data_fragments, WIDTH, made.fragments, targets) == LRC_DONE);
        CHECK(memcmp(parities, made.bytes[data_fragments], sizeof parities) == 0);
    }
    printf(
        "%zu data fragments: parities by one fragment at a time, and after each was written over\n",
        data_fragments);
}

/* Arguments that lrc_decode refuses: fragments left, numbers and lengths. */
static void bad_decodes(lrc_slice *s, uint8_t (*t)[WIDTH]) {
    const uint8_t numbers[4] = {0, 1, LRC_NONE, 6};
    const uint16_t lost = 1u << 0 | 1u << 1 | 1u << 6;
    for (size_t k = 0; k <= 20; k++)
        if (k != WIDE && k != SMALL)
            CHECK(lrc_decode(k, s, lost, numbers, 0, WIDTH, t[0], WIDTH, t[1], WIDTH, t[2], WIDTH,
                             t[3], WIDTH) == LRC_BAD_ARGUMENT);
    for (size_t i = 0; i < 4; i++) {
        size_t len[4] = {WIDTH, WIDTH, WIDTH, WIDTH};
        uint8_t other[4];
        if (numbers[i] == LRC_NONE) continue;
        memcpy(other, numbers, sizeof other);
        len[i] = WIDTH - 1;
        CHECK(lrc_decode(WIDE, s, lost, numbers, 0, WIDTH, t[0], len[0], t[1], len[1], t[2], len[2],
                         t[3], len[3]) == LRC_BAD_ARGUMENT);
        other[i] = 2;
        CHECK(lrc_decode(WIDE, s, lost, other, 0, WIDTH, t[0], WIDTH, t[1], WIDTH, t[2], WIDTH,
                         t[3], WIDTH) == LRC_BAD_ARGUMENT);
        other[i] = 16;
        CHECK(lrc_decode(WIDE, s, 0xFFFF, other, 0, WIDTH, t[0], WIDTH, t[1], WIDTH, t[2], WIDTH,
                         t[3], WIDTH) == LRC_BAD_ARGUMENT);
        other[i] = 10;
        CHECK(lrc_decode(SMALL, s, 0xFFFF, other, 0, WIDTH, t[0], WIDTH, t[1], WIDTH, t[2], WIDTH,
                         t[3], WIDTH) == LRC_BAD_ARGUMENT);
    }
    CHECK(lrc_decode(WIDE, s, lost, numbers, 1, WIDTH, t[0], WIDTH, t[1], WIDTH, t[2], WIDTH, t[3],
                     WIDTH) == LRC_BAD_ARGUMENT);
    CHECK(lrc_decode(WIDE, s, 0xFFFF, numbers, SIZE_MAX, WIDTH, t[0], WIDTH, t[1], WIDTH, t[2],
                     WIDTH, t[3], WIDTH) == LRC_BAD_ARGUMENT);
    CHECK(lrc_decode(WIDE, s, 0xFFFF, numbers, SIZE_MAX - WIDTH, WIDTH, t[0], WIDTH, t[1], WIDTH,
                     t[2], WIDTH, t[3], WIDTH) == LRC_OPEN);
}

/* Every argument that is none, and the targets afterwards. */
static void test_bad_arguments(void) {
    stripe made;
    uint8_t t[4][WIDTH], old[4][WIDTH], fragments[MOST], coefficients[MOST];
    const uint8_t *left[MOST];
    lrc_slice s[MOST];
    uint32_t count = 99;
    make_stripe(&made, WIDE);
    memset(t, 0xEE, sizeof t);
    memset(old, 0xEE, sizeof old);
    memset(fragments, 0xEE, sizeof fragments);
    memset(coefficients, 0xEE, sizeof coefficients);
    for (size_t i = 0; i < MOST; i++) {
        s[i].at = made.fragments[i];
        s[i].len = WIDTH;
        left[i] = made.fragments[i];
    }
    for (size_t k = 0; k <= 20; k++) {
        if (k == WIDE || k == SMALL) continue;
        CHECK(lrc_encode(s, k < MOST ? k : 0, t[0], WIDTH, t[1], WIDTH, t[2], WIDTH, t[3], WIDTH) ==
              LRC_BAD_ARGUMENT);
        CHECK(lrc_encode_add(k, 0, s[0].at, WIDTH, t[0], WIDTH, t[1], WIDTH, t[2], WIDTH, t[3],
                             WIDTH) == LRC_BAD_ARGUMENT);
        CHECK(lrc_is_open(k, 1, 0) == LRC_BAD_ARGUMENT);
        CHECK(lrc_rebuild(k, s, 1, 0, 0, t[0], WIDTH) == LRC_BAD_ARGUMENT);
        CHECK(lrc_recipe(k, 1, 0, fragments, coefficients, &count) == LRC_BAD_ARGUMENT);
        CHECK(lrc_rebuild_arrays(k, WIDTH, left, 0, t[0]) == LRC_BAD_ARGUMENT);
    }
    for (size_t i = 0; i < WIDE; i++) {
        s[i].len = WIDTH - 1;
        CHECK(lrc_encode(s, WIDE, t[0], WIDTH, t[1], WIDTH, t[2], WIDTH, t[3], WIDTH) ==
              LRC_BAD_ARGUMENT);
        s[i].len = WIDTH;
    }
    for (size_t i = 0; i < 4; i++) {
        size_t len[4] = {WIDTH, WIDTH, WIDTH, WIDTH};
        len[i] = WIDTH - 1;
        CHECK(lrc_encode(s, WIDE, t[0], len[0], t[1], len[1], t[2], len[2], t[3], len[3]) ==
              LRC_BAD_ARGUMENT);
        CHECK(lrc_encode_add(WIDE, 0, s[0].at, WIDTH, t[0], len[0], t[1], len[1], t[2], len[2],
                             t[3], len[3]) == LRC_BAD_ARGUMENT);
    }
    CHECK(lrc_encode_add(WIDE, 0, s[0].at, WIDTH - 1, t[0], WIDTH, t[1], WIDTH, t[2], WIDTH, t[3],
                         WIDTH) == LRC_BAD_ARGUMENT);
    CHECK(lrc_encode_add(WIDE, 12, s[0].at, WIDTH, t[0], WIDTH, t[1], WIDTH, t[2], WIDTH, t[3],
                         WIDTH) == LRC_BAD_ARGUMENT);
    CHECK(lrc_encode_add(SMALL, 6, s[0].at, WIDTH, t[0], WIDTH, t[1], WIDTH, t[2], WIDTH, t[3],
                         WIDTH) == LRC_BAD_ARGUMENT);
    CHECK(lrc_is_open(WIDE, 0xFFFF, 16) == LRC_BAD_ARGUMENT &&
          lrc_is_open(SMALL, 0xFFFF, 10) == LRC_BAD_ARGUMENT);
    CHECK(lrc_is_open(WIDE, 0xFFFF, 255) == LRC_BAD_ARGUMENT &&
          lrc_is_open(WIDE, 0, 15) == LRC_DONE);
    CHECK(lrc_rebuild(WIDE, s, 0xFFFF, 16, 0, t[0], WIDTH) == LRC_BAD_ARGUMENT);
    CHECK(lrc_rebuild(SMALL, s, 0xFFFF, 10, 0, t[0], WIDTH) == LRC_BAD_ARGUMENT);
    CHECK(lrc_rebuild(WIDE, s, 2, 0, 0, t[0], WIDTH) == LRC_BAD_ARGUMENT);
    CHECK(lrc_rebuild(WIDE, s, 1, 0, 1, t[0], WIDTH) == LRC_BAD_ARGUMENT);
    CHECK(lrc_rebuild(WIDE, s, 0xFFFF, 0, SIZE_MAX, t[0], WIDTH) == LRC_BAD_ARGUMENT);
    CHECK(lrc_rebuild(WIDE, s, 0xFFFF, 0, SIZE_MAX - WIDTH, t[0], WIDTH) == LRC_OPEN);
    s[15].len = WIDTH - 1;
    CHECK(lrc_rebuild(WIDE, s, 1, 0, 0, t[0], WIDTH) == LRC_BAD_ARGUMENT);
    s[15].len = WIDTH;
    CHECK(lrc_recipe(WIDE, 2, 0, fragments, coefficients, &count) == LRC_BAD_ARGUMENT);
    CHECK(lrc_recipe(WIDE, 0xFFFF, 16, fragments, coefficients, &count) == LRC_BAD_ARGUMENT);
    CHECK(lrc_recipe(SMALL, 0xFFFF, 10, fragments, coefficients, &count) == LRC_BAD_ARGUMENT);
    CHECK(lrc_recipe(WIDE, 15, 0, fragments, coefficients, &count) == LRC_OPEN);
    CHECK(lrc_add(t[0], WIDTH, 2, s[0].at, WIDTH - 1) == LRC_BAD_ARGUMENT);
    bad_decodes(s, t);
    CHECK(memcmp(t, old, sizeof t) == 0 && count == 99);
    for (size_t i = 0; i < MOST; i++) CHECK(fragments[i] == 0xEE && coefficients[i] == 0xEE);
    {
        uint8_t *targets[4] = {t[0], t[1], NULL, t[3]};
        left[5] = NULL;
        CHECK(lrc_encode_arrays(WIDE, WIDTH, made.fragments, targets) == LRC_BAD_ARGUMENT);
        CHECK(lrc_encode_arrays(WIDE, WIDTH, left, made.parities) == LRC_BAD_ARGUMENT);
        CHECK(lrc_encode_add_arrays(WIDE, WIDTH, 0, left[0], targets) == LRC_BAD_ARGUMENT);
        CHECK(lrc_encode_add_arrays(WIDE, WIDTH, 0, NULL, made.parities) == LRC_BAD_ARGUMENT);
        CHECK(lrc_rebuild_arrays(WIDE, WIDTH, left, 5, NULL) == LRC_BAD_ARGUMENT);
        CHECK(lrc_rebuild_arrays(WIDE, WIDTH, left, 16, t[0]) == LRC_BAD_ARGUMENT);
        CHECK(memcmp(t, old, sizeof t) == 0);
    }
    puts("bad arguments: refused, and the targets unchanged");
}

/* A buffer of `len` bytes that ends where a page without access begins. */
static uint8_t *at_the_end(size_t len) {
    size_t page = (size_t)sysconf(_SC_PAGESIZE), whole = (len / page + 1) * page;
    uint8_t *at =
        mmap(NULL, whole + page, PROT_READ | PROT_WRITE, MAP_PRIVATE | MAP_ANONYMOUS, -1, 0);
    if (at == MAP_FAILED || mprotect(at + whole, page, PROT_NONE) != 0) {
        puts("no memory");
        exit(1);
    }
    return at + whole - len;
}

/* Any length and any alignment, and no byte read or written past an end: all fragments lie before
 * such a page. */
static void test_ends(size_t data_fragments) {
    enum { LONGEST = 200 };
    uint8_t *ends[MOST], *target = at_the_end(LONGEST) + LONGEST;
    for (size_t i = 0; i < data_fragments + 4; i++) ends[i] = at_the_end(LONGEST) + LONGEST;
    for (size_t len = 0; len <= LONGEST; len++) {
        const uint8_t *left[MOST];
        uint8_t *parities[4];
        for (size_t i = 0; i < data_fragments + 4; i++) left[i] = ends[i] - len;
        for (size_t i = 0; i < data_fragments; i++)
            fill(ends[i] - len, len, (uint32_t)(len * MOST + i));
        for (size_t i = 0; i < 4; i++) parities[i] = ends[data_fragments + i] - len;
        CHECK(lrc_encode_arrays(data_fragments, len, left, parities) == LRC_DONE);
        for (uint8_t f = 0; f < data_fragments + 4; f++) {
            const uint8_t *address = left[f];
            uint8_t other = (uint8_t)((f + 1u) % (data_fragments + 4));
            const uint8_t *other_address = left[other];
            left[f] = NULL;
            CHECK(lrc_rebuild_arrays(data_fragments, len, left, f, target - len) == LRC_DONE);
            CHECK(memcmp(target - len, address, len) == 0);
            left[other] = NULL;
            CHECK(lrc_rebuild_arrays(data_fragments, len, left, f, target - len) == LRC_DONE);
            CHECK(memcmp(target - len, address, len) == 0);
            left[f] = address;
            left[other] = other_address;
        }
        for (uint8_t f = 0; f < data_fragments; f++)
            CHECK(lrc_encode_add_arrays(data_fragments, len, f, left[f], parities) == LRC_DONE);
        for (size_t i = 0; i < 4; i++)
            for (size_t k = 0; k < len; k++) CHECK(parities[i][k] == 0);
    }
    printf("%zu data fragments: lengths 0 to %d, each fragment before a page without access\n",
           data_fragments, LONGEST);
}

/* Long fragments of every lost set that can be rebuilt whole, at once: by the syndromes of blocks,
 * and of a part of one. */
static void test_decoded_sets(size_t data_fragments) {
    enum { LONG = 32769 };
    static uint8_t bytes[MOST][LONG], decoded[MOST][LONG];
    const size_t count = data_fragments + 4;
    const uint8_t *fragments[MOST];
    uint8_t *parities[4];
    unsigned whole = 0;
    for (size_t i = 0; i < count; i++) fragments[i] = bytes[i];
    for (size_t i = 0; i < data_fragments; i++) fill(bytes[i], LONG, (uint32_t)i);
    for (size_t i = 0; i < 4; i++) parities[i] = bytes[data_fragments + i];
    CHECK(lrc_encode_arrays(data_fragments, LONG, fragments, parities) == LRC_DONE);
    for (unsigned lost = 0; lost < 1u << count; lost++) {
        const uint8_t *left[MOST];
        uint8_t *targets[MOST];
        if (__builtin_popcount(lost) > 4) continue;
        for (size_t i = 0; i < count; i++) {
            left[i] = lost >> i & 1 ? NULL : bytes[i];
            targets[i] = lost >> i & 1 ? decoded[i] : NULL;
            if (targets[i]) memset(decoded[i], 0xEE, LONG);
        }
        if (lrc_decode_arrays(data_fragments, LONG, left, targets) != LRC_DONE) continue;
        whole++;
        for (size_t i = 0; i < count; i++)
            CHECK(!targets[i] || memcmp(decoded[i], bytes[i], LONG) == 0);
    }
    CHECK(whole == (data_fragments == WIDE ? 2265 : 356));
    printf("%zu data fragments: %u lost sets decoded whole, %d bytes a fragment\n", data_fragments,
           whole, LONG);
}

/* Four fragments at once, of which all and their targets lie before a page without access. */
static void test_decoded_ends(size_t data_fragments) {
    enum { LONGEST = 34816, FOUR = 4 };
    const size_t lengths[] = {0, 1, 31, 32, 33, 200, 511, 513, 2049, 32767, 32768, LONGEST};
    const uint8_t half = (uint8_t)(data_fragments / 2), last = (uint8_t)(data_fragments + 3);
    const uint8_t sets[3][FOUR] = {
        {0, 1, half, (uint8_t)(half + 1)}, {0, 1, 2, half}, {0, half, (uint8_t)(last - 1), last}};
    uint8_t *ends[MOST], *targets_at[FOUR];
    for (size_t i = 0; i < data_fragments + 4; i++) ends[i] = at_the_end(LONGEST) + LONGEST;
    for (size_t i = 0; i < FOUR; i++) targets_at[i] = at_the_end(LONGEST) + LONGEST;
    for (size_t n = 0; n < sizeof lengths / sizeof *lengths; n++) {
        const size_t len = lengths[n];
        const uint8_t *fragments[MOST];
        uint8_t *parities[4];
        for (size_t i = 0; i < data_fragments + 4; i++) fragments[i] = ends[i] - len;
        for (size_t i = 0; i < data_fragments; i++) fill(ends[i] - len, len, (uint32_t)(len + i));
        for (size_t i = 0; i < 4; i++) parities[i] = ends[data_fragments + i] - len;
        CHECK(lrc_encode_arrays(data_fragments, len, fragments, parities) == LRC_DONE);
        for (size_t set = 0; set < 3; set++) {
            const uint8_t *left[MOST];
            uint8_t *targets[MOST] = {NULL};
            for (size_t i = 0; i < data_fragments + 4; i++) left[i] = fragments[i];
            for (size_t i = 0; i < FOUR; i++) {
                left[sets[set][i]] = NULL;
                targets[sets[set][i]] = targets_at[i] - len;
            }
            CHECK(lrc_decode_arrays(data_fragments, len, left, targets) == LRC_DONE);
            for (size_t i = 0; i < FOUR; i++)
                CHECK(memcmp(targets_at[i] - len, fragments[sets[set][i]], len) == 0);
        }
    }
    printf("%zu data fragments: four lost at once, lengths up to %d, each fragment before a page "
           "without access\n",
           data_fragments, LONGEST);
}

/* A part of a fragment is that part of the whole. */
static void test_parts(void) {
    enum { LEN = 100 };
    const uint8_t numbers[4] = {3, LRC_NONE, 4, LRC_NONE};
    uint8_t bytes[MOST][LEN], part[LEN], other[LEN];
    lrc_slice s[MOST];
    const uint8_t *data[WIDE];
    uint8_t *parities[4];
    for (size_t i = 0; i < MOST; i++) {
        fill(bytes[i], LEN, (uint32_t)i);
        s[i].at = bytes[i];
        s[i].len = LEN;
    }
    for (size_t i = 0; i < WIDE; i++) data[i] = bytes[i];
    for (size_t i = 0; i < 4; i++) parities[i] = bytes[WIDE + i];
    CHECK(lrc_encode_arrays(WIDE, LEN, data, parities) == LRC_DONE);
    for (size_t from = 0; from <= LEN; from++)
        for (size_t len = 0; from + len <= LEN; len += 7) {
            CHECK(lrc_rebuild(WIDE, s, 1u << 3, 3, from, part, len) == LRC_DONE &&
                  memcmp(part, bytes[3] + from, len) == 0);
            CHECK(lrc_rebuild(WIDE, s, 1u << 3 | 1u << 4, 3, from, part, len) == LRC_DONE &&
                  memcmp(part, bytes[3] + from, len) == 0);
            CHECK(lrc_decode(WIDE, s, 1u << 3 | 1u << 4, numbers, from, len, part, len, other, 0,
                             other, len, other, 0) == LRC_DONE);
            CHECK(memcmp(part, bytes[3] + from, len) == 0 &&
                  memcmp(other, bytes[4] + from, len) == 0);
        }
    puts("parts: each is the part of the fragment");
}

static void *rebuild_in_thread(void *shared) {
    const stripe *made = shared;
    uintptr_t faults = 0;
    for (unsigned n = 0; n < 20000; n++) {
        const uint8_t *left[MOST];
        uint8_t rebuilt[WIDTH], f = (uint8_t)(n % MOST);
        memcpy(left, made->fragments, sizeof left);
        left[f] = NULL;
        left[n / MOST % MOST] = NULL;
        if (lrc_rebuild_arrays(WIDE, WIDTH, left, f, rebuilt) != LRC_DONE ||
            memcmp(rebuilt, made->bytes[f], WIDTH) != 0)
            faults++;
    }
    return (void *)faults;
}

static void test_threads(void) {
    enum { THREADS = 4 };
    stripe made;
    pthread_t threads[THREADS];
    make_stripe(&made, WIDE);
    for (size_t i = 0; i < THREADS; i++)
        if (pthread_create(&threads[i], NULL, rebuild_in_thread, &made) != 0) {
            puts("no thread");
            exit(1);
        }
    for (size_t i = 0; i < THREADS; i++) {
        void *faults;
        CHECK(pthread_join(threads[i], &faults) == 0 && faults == NULL);
    }
    puts("threads: four rebuilt from one stripe");
}

/* Arrays of addresses that are not const, as a program has of its own buffers. */
static void test_own_buffers(void) {
    uint8_t fragments[16][4] = {"ABCD", "EFGH", "IJKL"}, rebuilt[4], *disk[16], *targets[16] = {0};
    for (int f = 0; f < 16; f++) disk[f] = fragments[f];
    CHECK(lrc_encode_arrays(WIDE, 4, disk, disk + WIDE) == LRC_DONE);
    disk[1] = NULL;
    CHECK(lrc_rebuild_arrays(WIDE, 4, disk, 1, rebuilt) == LRC_DONE);
    CHECK(memcmp(rebuilt, "EFGH", 4) == 0);
    memset(rebuilt, 0, 4);
    targets[1] = rebuilt;
    CHECK(lrc_decode_arrays(WIDE, 4, disk, targets) == LRC_DONE);
    CHECK(memcmp(rebuilt, "EFGH", 4) == 0);
}

int main(void) {
    test_letters();
    test_own_buffers();
    test_lost_sets(WIDE, 65536, 2265, 1568);
    test_lost_sets(SMALL, 1024, 356, 180);
    test_encode_add(WIDE);
    test_encode_add(SMALL);
    test_bad_arguments();
    test_ends(WIDE);
    test_ends(SMALL);
    test_decoded_ends(WIDE);
    test_decoded_ends(SMALL);
    test_decoded_sets(WIDE);
    test_decoded_sets(SMALL);
    test_parts();
    test_threads();
    return report("coder");
}
