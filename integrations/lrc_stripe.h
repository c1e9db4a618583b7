/* lrc_stripe.h: what the integrations share, over lrc_coder.h: which fragments to read for a set of
 * wanted ones, and how to rebuild that set. A set is a number: bit i stands for fragment i. */
#ifndef LRC_STRIPE_H
#define LRC_STRIPE_H

#include "lrc_coder.h"

#ifdef __cplusplus
extern "C" {
#endif

enum { LRC_PARITIES = 4, LRC_MOST_FRAGMENTS = 16 };

static inline int lrc_has(unsigned set, unsigned fragment) { return (int)(set >> fragment & 1u); }

/* Writes into `read` the fragments that have to be read to rebuild those `wanted` that are `lost`:
 * all that their recipes name. On any status but LRC_DONE, `read` is unchanged. */
static inline uint32_t lrc_read_set(size_t data_fragments, uint16_t lost, uint16_t wanted,
                                    uint16_t *read) {
    unsigned set = 0;
    uint8_t fragment;
    for (fragment = 0; fragment < data_fragments + LRC_PARITIES; fragment++) {
        uint8_t fragments[LRC_MOST_FRAGMENTS], coefficients[LRC_MOST_FRAGMENTS];
        uint32_t count, status;
        if (!lrc_has(wanted & lost, fragment)) continue;
        status = lrc_recipe(data_fragments, lost, fragment, fragments, coefficients, &count);
        if (status != LRC_DONE) return status;
        while (count > 0) set |= 1u << fragments[--count];
    }
    *read = (uint16_t)set;
    return LRC_DONE;
}

#ifdef __cplusplus
#define LRC_THREAD_LOCAL thread_local
#else
#define LRC_THREAD_LOCAL _Thread_local
#endif

/* The numbers of a set of at most four fragments, and after them LRC_NONE. LRC_OPEN if the set has
 * more: no five lost fragments can all be rebuilt. */
static inline uint32_t lrc_numbers(uint16_t wanted, uint8_t numbers[LRC_PARITIES]) {
    unsigned count = 0;
    uint8_t fragment;
    for (fragment = 0; fragment < LRC_PARITIES; fragment++) numbers[fragment] = LRC_NONE;
    for (fragment = 0; fragment < LRC_MOST_FRAGMENTS; fragment++) {
        if (!lrc_has(wanted, fragment)) continue;
        if (count == LRC_PARITIES) return LRC_OPEN;
        numbers[count++] = fragment;
    }
    return LRC_DONE;
}

/* Gives the plan for the fragments of `numbers`, which are those of `wanted`. Each thread keeps the
 * plan that it used last, since one call after another has the same fragments lost. */
static inline uint32_t lrc_kept_plan(size_t data_fragments, uint16_t lost, uint16_t wanted,
                                     const uint8_t numbers[LRC_PARITIES], const uint8_t **plan) {
    static LRC_THREAD_LOCAL struct {
        size_t data_fragments;
        uint16_t lost, wanted;
        uint8_t plan[LRC_PLAN_BYTES];
    } kept;
    uint16_t reads;
    uint32_t status;
    *plan = kept.plan;
    if (kept.data_fragments == data_fragments && kept.lost == lost && kept.wanted == wanted)
        return LRC_DONE;
    status = lrc_plan(data_fragments, lost, numbers, kept.plan, &reads);
    if (status != LRC_DONE) return status;
    kept.data_fragments = data_fragments;
    kept.lost = lost;
    kept.wanted = wanted;
    return LRC_DONE;
}

/* Rebuilds the fragments `wanted`, each of which has to be in `lost`, into `targets`, which has an
 * address of `len` bytes for each of them. LRC_OPEN if and only if one of them is unrecoverable;
 * then no target is written. `fragments` is as for lrc_plan_decode. */
static inline uint32_t lrc_rebuild_set(size_t data_fragments,
                                       const lrc_slice fragments[LRC_MOST_FRAGMENTS], uint16_t lost,
                                       uint16_t wanted, uint8_t *const *targets, size_t len) {
    uint8_t unused = 0, numbers[LRC_PARITIES];
    uint8_t *four[LRC_PARITIES];
    const uint8_t *plan;
    size_t lens[LRC_PARITIES];
    unsigned i;
    uint32_t status = lrc_numbers(wanted, numbers);
    if (status == LRC_DONE) status = lrc_kept_plan(data_fragments, lost, wanted, numbers, &plan);
    if (status != LRC_DONE) return status;
    for (i = 0; i < LRC_PARITIES; i++) {
        four[i] = numbers[i] == LRC_NONE ? &unused : targets[numbers[i]];
        lens[i] = numbers[i] == LRC_NONE ? 0 : len;
    }
    return lrc_plan_decode(plan, fragments, 0, len, four[0], lens[0], four[1], lens[1], four[2],
                           lens[2], four[3], lens[3]);
}

#ifdef __cplusplus
}
#endif
#endif
