/* lrc_coder.h: the Local Reconstruction Codes LRC(12,2,2) and LRC(6,2,2) over GF(2^8) with the
 * polynomial 0x11D. Link liblrc_coder. The functions down to lrc_add are proved; the others are
 * plain C.
 *
 * A code is named by its number of data fragments, and the fragments of a stripe by their numbers:
 *
 *     data_fragments   first group   second group   local parities   global parities
 *     12               0 to 5        6 to 11        12, 13           14, 15
 *     6                0 to 2        3 to 5         6, 7             8, 9
 *
 * All fragments of a stripe have one length, in bytes. A set of lost fragments is a number: bit i
 * is set if and only if fragment i is lost. Bits past the code's fragments are ignored.
 *
 * Functions validate their arguments. The caller ensures what they cannot check: an address is not
 * NULL, also at length 0, and is valid for its length; a target overlaps no other argument.
 * No function allocates, keeps state, or needs an address aligned to more than its C type. So any
 * number of threads may call them at once, also signal handlers and forked children. On any other
 * status than LRC_DONE, every target is unchanged. */
#ifndef LRC_CODER_H
#define LRC_CODER_H

#include <stddef.h>
#include <stdint.h>

/* Attributes. At the end of a declaration stands what a compiler can warn of, if it has the
 * attribute. LRC_NONNULL: an address is NULL. LRC_STATUS: that, or the caller ignores the status.
 * LRC_FILLS(n): the slot of parameter n is not initialised. LRC_READS(n, m), LRC_WRITES(n, m) and
 * LRC_UPDATES(n, m): the address of parameter n is not valid for the length of parameter m. They
 * are empty if LRC_NO_ATTRIBUTES is defined. */
#ifndef LRC_ATTRIBUTES
#define LRC_ATTRIBUTES
#if defined(__has_attribute) && !defined(LRC_NO_ATTRIBUTES)
#if __has_attribute(nonnull) && __has_attribute(warn_unused_result)
#define LRC_NONNULL __attribute__((nonnull))
#define LRC_STATUS __attribute__((nonnull, warn_unused_result))
#endif
#if __has_attribute(access)
#define LRC_ACCESS(of) __attribute__((access of))
#endif
#endif
#ifndef LRC_NONNULL
#define LRC_NONNULL
#define LRC_STATUS
#endif
#ifndef LRC_ACCESS
#define LRC_ACCESS(of)
#endif
#define LRC_FILLS(slot) LRC_ACCESS((read_write, slot))
#define LRC_READS(at, len) LRC_ACCESS((read_only, at, len))
#define LRC_WRITES(at, len) LRC_ACCESS((write_only, at, len))
#define LRC_UPDATES(at, len) LRC_ACCESS((read_write, at, len))
#endif

#ifdef __cplusplus
extern "C" {
#endif

/* What a function returns. */
enum {
    /* done; from lrc_is_open: the fragment is not lost, or can be rebuilt */
    LRC_DONE = 0,
    /* the fragment is unrecoverable: two stripes agree on every remaining fragment and differ in
     * this one */
    LRC_OPEN = 1,
    LRC_UNRECOVERABLE = LRC_OPEN,
    /* an argument is invalid */
    LRC_BAD_ARGUMENT = 2
};

/* In the numbers of lrc_decode: no fragment. */
enum { LRC_NONE = 255 };

/* Bytes that a function reads. */
#ifndef LRC_SLICE
#define LRC_SLICE
typedef struct {
    const uint8_t *at;
    size_t len;
} lrc_slice;
#endif

/* Writes the four parities of the data fragments, which are given in the order of their numbers.
 * LRC_BAD_ARGUMENT if and only if `data_fragments` is neither 12 nor 6, or the lengths of data and
 * parities are not all equal. */
uint32_t lrc_encode(const lrc_slice *data, size_t data_fragments, uint8_t *first, size_t first_len,
                    uint8_t *second, size_t second_len, uint8_t *third, size_t third_len,
                    uint8_t *fourth, size_t fourth_len) LRC_NONNULL LRC_READS(1, 2) LRC_WRITES(3, 4)
    LRC_WRITES(5, 6) LRC_WRITES(7, 8) LRC_WRITES(9, 10);

/* Adds the data fragment with the number `fragment` to the four parities. Calling it once for each
 * data fragment, in any order, on zeroed parities gives the result of lrc_encode. To overwrite a
 * data fragment, add the exclusive or of its old and its new bytes. LRC_BAD_ARGUMENT if and only
 * if `data_fragments` is neither 12 nor 6, `fragment` is not below it, or the five lengths are not
 * all equal. */
uint32_t lrc_encode_add(size_t data_fragments, uint8_t fragment, const uint8_t *source,
                        size_t source_len, uint8_t *first, size_t first_len, uint8_t *second,
                        size_t second_len, uint8_t *third, size_t third_len, uint8_t *fourth,
                        size_t fourth_len) LRC_NONNULL LRC_READS(3, 4) LRC_UPDATES(5, 6)
    LRC_UPDATES(7, 8) LRC_UPDATES(9, 10) LRC_UPDATES(11, 12);

/* LRC_UNRECOVERABLE if and only if `fragment` is. LRC_BAD_ARGUMENT if and only if there is no
 * such code or fragment. */
uint32_t lrc_is_open(size_t data_fragments, uint16_t lost, uint8_t fragment);

/* Writes the bytes from..from+len of the lost `fragment` into `target`: those of every stripe that
 * agrees with the remaining fragments. The slices of lost fragments, and those past the code's, are
 * ignored: give them any address except NULL, and the length 0. LRC_UNRECOVERABLE if and only if
 * the fragment is and all arguments are valid. LRC_BAD_ARGUMENT if and only if one of these holds:
 * there is no such code or fragment; the fragment is not in `lost`; a remaining fragment has fewer
 * than from+len bytes; that sum is more than SIZE_MAX. */
uint32_t lrc_rebuild(size_t data_fragments, const lrc_slice fragments[16], uint16_t lost,
                     uint8_t fragment, size_t from, uint8_t *target, size_t len) LRC_STATUS
    LRC_WRITES(6, 7);

/* Writes the bytes from..from+len of up to four lost fragments at once, which takes less time than
 * one call of lrc_rebuild for each. `numbers` has the number of the fragment for each of the four
 * targets, or LRC_NONE. A target for LRC_NONE is ignored: give it any address except NULL, and the
 * length 0. The sixteen slices are those of lrc_rebuild. LRC_UNRECOVERABLE if and only if all
 * arguments are valid and a numbered fragment is unrecoverable. Of more than four lost fragments,
 * at least one is unrecoverable. LRC_BAD_ARGUMENT if and only if one of these holds: there is no
 * such code; a numbered fragment is not the code's or not in `lost`; its target does not have `len`
 * bytes; a remaining fragment has fewer than from+len bytes; that sum is more than SIZE_MAX. */
uint32_t lrc_decode(size_t data_fragments, const lrc_slice fragments[16], uint16_t lost,
                    const uint8_t numbers[4], size_t from, size_t len, uint8_t *first,
                    size_t first_len, uint8_t *second, size_t second_len, uint8_t *third,
                    size_t third_len, uint8_t *fourth, size_t fourth_len) LRC_STATUS
    LRC_WRITES(7, 8) LRC_WRITES(9, 10) LRC_WRITES(11, 12) LRC_WRITES(13, 14);

/* The bytes of a plan. */
enum { LRC_PLAN_BYTES = 24 };

/* Makes a plan for decoding up to four lost fragments, which are numbered as for lrc_decode. It
 * depends on the code, the lost set and the numbers alone: make it once and use it for any number
 * of stripes, with lrc_plan_decode. It is plain bytes: copy it, send it, keep it in a file. Nothing
 * is to be released. Bit i of `reads` is set if and only if lrc_plan_decode reads fragment i, which
 * is never a lost one. If each numbered fragment is the only loss of its group, it reads others of
 * these groups alone: 6 (or 3) for one fragment. For any one fragment it reads at most
 * `data_fragments`. LRC_UNRECOVERABLE if and only if all arguments are valid and a numbered
 * fragment is unrecoverable. LRC_BAD_ARGUMENT if and only if there is no such code, or a numbered
 * fragment is not the code's or not in `lost`. */
uint32_t lrc_plan(size_t data_fragments, uint16_t lost, const uint8_t numbers[4],
                  uint8_t plan[LRC_PLAN_BYTES], uint16_t *reads) LRC_STATUS;

/* lrc_decode of the fragments that a plan is for. The slices of fragments that it does not read are
 * ignored, and the targets are those of its numbers. Any bytes are safe as a plan; by bytes that
 * lrc_plan did not make, the targets get any bytes. LRC_BAD_ARGUMENT if and only if one of these
 * holds: the plan's bytes have another format, no code, or a number of a fragment that is not the
 * code's or that the plan reads; a target does not have `len` bytes; a fragment that the plan reads
 * has fewer than from+len bytes; that sum is more than SIZE_MAX. */
uint32_t lrc_plan_decode(const uint8_t plan[LRC_PLAN_BYTES], const lrc_slice fragments[16],
                         size_t from, size_t len, uint8_t *first, size_t first_len, uint8_t *second,
                         size_t second_len, uint8_t *third, size_t third_len, uint8_t *fourth,
                         size_t fourth_len) LRC_STATUS LRC_WRITES(5, 6) LRC_WRITES(7, 8)
    LRC_WRITES(9, 10) LRC_WRITES(11, 12);

/* Writes a recipe for the lost `fragment`: the numbers of other fragments, a coefficient for each,
 * and their count, at most 15. The fragment is their sum, each times its coefficient. If it is the
 * only loss of its group, they are the six (or three) others, and no recipe has fewer.
 * LRC_UNRECOVERABLE as from lrc_rebuild. LRC_BAD_ARGUMENT if and only if there is no such code or
 * fragment, or it is not in `lost`. */
uint32_t lrc_recipe(size_t data_fragments, uint16_t lost, uint8_t fragment, uint8_t fragments[16],
                    uint8_t coefficients[16], uint32_t *count) LRC_STATUS;

/* Adds `source` times `coefficient` to `target`, byte by byte, in the field. With lrc_recipe it
 * rebuilds as fragments arrive: call it on a zeroed target, once for each term, in any order and in
 * any parts. LRC_BAD_ARGUMENT if and only if the lengths differ. */
uint32_t lrc_add(uint8_t *target, size_t target_len, uint8_t coefficient, const uint8_t *source,
                 size_t source_len) LRC_NONNULL LRC_UPDATES(1, 2) LRC_READS(4, 5);

/* What a status means, in English and without a full stop. "unknown status" for a number that is
 * none. The text is never freed. */
const char *lrc_coder_text(uint32_t status);

/* The processor level whose code is used: "x86-64-v4", "x86-64-v3" or "x86-64-v2". The library
 * chooses when it is loaded. LRC_CODER_CPU=v3 or LRC_CODER_CPU=v2 in the environment forbids a
 * higher one. */
const char *lrc_coder_cpu(void);

/* lrc_is_open by a plainer name. */
static inline uint32_t lrc_is_unrecoverable(size_t data_fragments, uint16_t lost,
                                            uint8_t fragment) {
    return lrc_is_open(data_fragments, lost, fragment);
}

/* ---- The same with plain arrays of addresses, each of `len` bytes. NULL means a lost fragment in
 * the fragments of lrc_rebuild_arrays and lrc_decode_arrays, and no target in the targets of
 * lrc_decode_arrays. Anywhere else it is LRC_BAD_ARGUMENT. */

/* `data` has `data_fragments` addresses and `parities` four. */
static inline uint32_t lrc_encode_arrays(size_t data_fragments, size_t len,
                                         const uint8_t *const *data, uint8_t *const *parities) {
    lrc_slice slices[12];
    size_t i;
    if (data_fragments != 12 && data_fragments != 6) return LRC_BAD_ARGUMENT;
    for (i = 0; i < data_fragments; i++) {
        if (!data[i]) return LRC_BAD_ARGUMENT;
        slices[i].at = data[i];
        slices[i].len = len;
    }
    for (i = 0; i < 4; i++)
        if (!parities[i]) return LRC_BAD_ARGUMENT;
    return lrc_encode(slices, data_fragments, parities[0], len, parities[1], len, parities[2], len,
                      parities[3], len);
}

/* `parities` has four addresses. */
static inline uint32_t lrc_encode_add_arrays(size_t data_fragments, size_t len, uint8_t fragment,
                                             const uint8_t *source, uint8_t *const *parities) {
    size_t i;
    if (!source) return LRC_BAD_ARGUMENT;
    for (i = 0; i < 4; i++)
        if (!parities[i]) return LRC_BAD_ARGUMENT;
    return lrc_encode_add(data_fragments, fragment, source, len, parities[0], len, parities[1], len,
                          parities[2], len, parities[3], len);
}

/* `fragments` has data_fragments + 4 addresses, NULL for a lost one. `fragment` counts as lost,
 * also if an address is given for it. */
static inline uint32_t lrc_rebuild_arrays(size_t data_fragments, size_t len,
                                          const uint8_t *const *fragments, uint8_t fragment,
                                          uint8_t *target) {
    static const uint8_t no_bytes = 0;
    lrc_slice slices[16];
    unsigned lost = 1u << (fragment & 15u);
    size_t i;
    if ((data_fragments != 12 && data_fragments != 6) || !target) return LRC_BAD_ARGUMENT;
    for (i = 0; i < 16; i++) {
        const uint8_t *at = i < data_fragments + 4 ? fragments[i] : NULL;
        slices[i].at = at ? at : &no_bytes;
        slices[i].len = at ? len : 0;
        if (!at) lost |= 1u << i;
    }
    return lrc_rebuild(data_fragments, slices, (uint16_t)lost, fragment, 0, target, len);
}

/* `fragments` and `targets` have data_fragments + 4 addresses each. A fragment that has a target
 * counts as lost, also if an address is given for it. */
static inline uint32_t lrc_decode_arrays(size_t data_fragments, size_t len,
                                         const uint8_t *const *fragments, uint8_t *const *targets) {
    static const uint8_t no_bytes = 0;
    lrc_slice slices[16];
    uint8_t unused = 0, numbers[4] = {LRC_NONE, LRC_NONE, LRC_NONE, LRC_NONE};
    uint8_t *four[4];
    size_t lens[4] = {0, 0, 0, 0}, i, count = 0;
    unsigned lost = 0;
    if (data_fragments != 12 && data_fragments != 6) return LRC_BAD_ARGUMENT;
    four[0] = four[1] = four[2] = four[3] = &unused;
    for (i = 0; i < 16; i++) {
        uint8_t *target = i < data_fragments + 4 ? targets[i] : NULL;
        const uint8_t *at = i < data_fragments + 4 && !target ? fragments[i] : NULL;
        slices[i].at = at ? at : &no_bytes;
        slices[i].len = at ? len : 0;
        if (!at) lost |= 1u << i;
        if (target && count++ < 4) {
            numbers[count - 1] = (uint8_t)i;
            four[count - 1] = target;
            lens[count - 1] = len;
        }
    }
    if (count > 4) return LRC_UNRECOVERABLE;
    return lrc_decode(data_fragments, slices, (uint16_t)lost, numbers, 0, len, four[0], lens[0],
                      four[1], lens[1], four[2], lens[2], four[3], lens[3]);
}

#ifdef __cplusplus
}
#else
/* The addresses of what is read may be of const uint8_t or of uint8_t: C, unlike C++, converts no
 * uint8_t ** to const uint8_t *const *. */
#define LRC_ADDRESSES(of) ((const uint8_t *const *)(of) + 0 * sizeof((of)[0][0]))
#define lrc_encode_arrays(data_fragments, len, data, parities)                                     \
    lrc_encode_arrays(data_fragments, len, LRC_ADDRESSES(data), parities)
#define lrc_rebuild_arrays(data_fragments, len, fragments, fragment, target)                       \
    lrc_rebuild_arrays(data_fragments, len, LRC_ADDRESSES(fragments), fragment, target)
#define lrc_decode_arrays(data_fragments, len, fragments, targets)                                 \
    lrc_decode_arrays(data_fragments, len, LRC_ADDRESSES(fragments), targets)
#endif
#endif
