/* Calls of the coder with the fragments of a stripe as one argument by value: Go may not pass C the
 * address of memory that has addresses of Go, as slices have. A preamble of cgo includes this file.
 */
#ifndef CODER_CALLS_H
#define CODER_CALLS_H
#include "lrc_coder.h"

#include <string.h>

enum { CODER_FRAGMENTS = 16, CODER_TARGETS = 4 };

/* A status that lrc_coder.h does not have: the parities are not those of the data. */
enum { CODER_INCONSISTENT = 256 };

/* The address of each fragment, or any other except NULL for one that is not used. */
typedef struct {
    uint8_t *at[CODER_FRAGMENTS];
} coder_stripe;

/* The targets of lrc_decode, with the numbers of their fragments. */
typedef struct {
    uint8_t *at[CODER_TARGETS];
    uint8_t numbers[CODER_TARGETS];
} coder_targets;

/* A plan in numbers, which Go passes by value. */
typedef struct {
    uint64_t words[LRC_PLAN_BYTES / 8];
    uint32_t status;
    uint16_t reads;
} coder_plan;

typedef struct {
    uint32_t status, count;
    uint8_t fragments[CODER_FRAGMENTS], coefficients[CODER_FRAGMENTS];
} coder_recipe;

/* The slices from `begin` to `end` of the fragments that are used, and empty ones of the others. */
static inline void coder_slices(const coder_stripe *of, unsigned used, size_t begin, size_t end,
                                lrc_slice *slices) {
    for (unsigned i = 0; i < CODER_FRAGMENTS; i++) {
        const int is_used = used >> i & 1;
        slices[i].at = is_used ? of->at[i] + begin : of->at[i];
        slices[i].len = is_used ? end - begin : 0;
    }
}

/* How many bytes the target with this number gets. */
static inline size_t coder_room(const coder_targets *of, unsigned target, size_t len) {
    return of->numbers[target] == LRC_NONE ? 0 : len;
}

static inline uint32_t coder_encode(size_t data_fragments, coder_stripe of, size_t len) {
    lrc_slice data[CODER_FRAGMENTS];
    uint8_t **parities = of.at + data_fragments;
    coder_slices(&of, (1u << data_fragments) - 1, 0, len, data);
    return lrc_encode(data, data_fragments, parities[0], len, parities[1], len, parities[2], len,
                      parities[3], len);
}

static inline uint32_t coder_encode_add(size_t data_fragments, uint8_t fragment,
                                        const uint8_t *source, coder_targets to, size_t len) {
    return lrc_encode_add(data_fragments, fragment, source, len, to.at[0], len, to.at[1], len,
                          to.at[2], len, to.at[3], len);
}

/* Encodes a part of each fragment at a time, and compares it. */
static inline uint32_t coder_verify(size_t data_fragments, coder_stripe of, size_t len) {
    enum { PART = 4096 };
    uint8_t made[4][PART];
    lrc_slice data[CODER_FRAGMENTS];
    for (size_t begin = 0; begin < len; begin += PART) {
        const size_t end = len - begin < PART ? len : begin + PART, part = end - begin;
        coder_slices(&of, (1u << data_fragments) - 1, begin, end, data);
        const uint32_t status = lrc_encode(data, data_fragments, made[0], part, made[1], part,
                                           made[2], part, made[3], part);
        if (status != LRC_DONE) return status;
        for (unsigned i = 0; i < 4; i++)
            if (memcmp(made[i], of.at[data_fragments + i] + begin, part)) return CODER_INCONSISTENT;
    }
    return LRC_DONE;
}

static inline uint32_t coder_rebuild(size_t data_fragments, coder_stripe of, uint16_t lost,
                                     uint8_t fragment, size_t from, uint8_t *target, size_t len) {
    lrc_slice left[CODER_FRAGMENTS];
    coder_slices(&of, ~(unsigned)lost, 0, from + len, left);
    return lrc_rebuild(data_fragments, left, lost, fragment, from, target, len);
}

static inline uint32_t coder_decode(size_t data_fragments, coder_stripe of, uint16_t lost,
                                    coder_targets to, size_t from, size_t len) {
    lrc_slice left[CODER_FRAGMENTS];
    coder_slices(&of, ~(unsigned)lost, 0, from + len, left);
    return lrc_decode(data_fragments, left, lost, to.numbers, from, len, to.at[0],
                      coder_room(&to, 0, len), to.at[1], coder_room(&to, 1, len), to.at[2],
                      coder_room(&to, 2, len), to.at[3], coder_room(&to, 3, len));
}

static inline coder_plan coder_plan_for(size_t data_fragments, uint16_t lost, coder_targets to) {
    uint8_t bytes[LRC_PLAN_BYTES] = {0};
    coder_plan plan = {{0}, 0, 0};
    plan.status = lrc_plan(data_fragments, lost, to.numbers, bytes, &plan.reads);
    memcpy(plan.words, bytes, sizeof bytes);
    return plan;
}

static inline uint32_t coder_plan_decode(coder_plan plan, coder_stripe of, coder_targets to,
                                         size_t from, size_t len) {
    uint8_t bytes[LRC_PLAN_BYTES];
    lrc_slice read[CODER_FRAGMENTS];
    memcpy(bytes, plan.words, sizeof bytes);
    coder_slices(&of, plan.reads, 0, from + len, read);
    return lrc_plan_decode(bytes, read, from, len, to.at[0], coder_room(&to, 0, len), to.at[1],
                           coder_room(&to, 1, len), to.at[2], coder_room(&to, 2, len), to.at[3],
                           coder_room(&to, 3, len));
}

static inline coder_recipe coder_recipe_for(size_t data_fragments, uint16_t lost,
                                            uint8_t fragment) {
    coder_recipe recipe = {0, 0, {0}, {0}};
    recipe.status = lrc_recipe(data_fragments, lost, fragment, recipe.fragments,
                               recipe.coefficients, &recipe.count);
    return recipe;
}

#endif
