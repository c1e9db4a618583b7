/* The coder's functions as a library that refuses each call. They are loaded before
 * liblrc_coder.so, by LD_PRELOAD, and return the status that LRC_REFUSED has. */
#include "lrc_coder.h"

#include <stdlib.h>

static uint32_t status(void) {
    const char *text = getenv("LRC_REFUSED");
    return text ? (uint32_t)atoi(text) : LRC_BAD_ARGUMENT;
}

#define TARGETS uint8_t *, size_t, uint8_t *, size_t, uint8_t *, size_t, uint8_t *, size_t
#define REFUSING(name, ...)                                                                        \
    uint32_t name(__VA_ARGS__) { return status(); }

#pragma GCC diagnostic ignored "-Wpedantic" /* parameters without names, as of C23 */
REFUSING(lrc_encode, const lrc_slice *, size_t, TARGETS)
REFUSING(lrc_encode_add, size_t, uint8_t, const uint8_t *, size_t, TARGETS)
REFUSING(lrc_is_open, size_t, uint16_t, uint8_t)
REFUSING(lrc_rebuild, size_t, const lrc_slice[16], uint16_t, uint8_t, size_t, uint8_t *, size_t)
REFUSING(lrc_decode, size_t, const lrc_slice[16], uint16_t, const uint8_t[4], size_t, size_t,
         TARGETS)
REFUSING(lrc_plan, size_t, uint16_t, const uint8_t[4], uint8_t[LRC_PLAN_BYTES], uint16_t *)
REFUSING(lrc_plan_decode, const uint8_t[LRC_PLAN_BYTES], const lrc_slice[16], size_t, size_t,
         TARGETS)
REFUSING(lrc_recipe, size_t, uint16_t, uint8_t, uint8_t[16], uint8_t[16], uint32_t *)
REFUSING(lrc_add, uint8_t *, size_t, uint8_t, const uint8_t *, size_t)
