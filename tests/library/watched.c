/* The coder's functions as Python's extension module calls them. They are loaded before
 * liblrc_coder.so, by LD_PRELOAD, and call those of the library that LRC_CODER_SO names. */
#define _GNU_SOURCE
#include "lrc_coder.h"

#include <dlfcn.h>
#include <stdlib.h>

/* What a function returns in place of calling the library, unless that is 0. */
extern uint32_t watched_status;
uint32_t watched_status;

/* What is called before each function, unless that is NULL. */
extern void (*watched_hook)(void);
void (*watched_hook)(void);

/* Whether the last call was made with the GIL. */
extern int watched_has_gil;
int watched_has_gil;

static void *found(void *library, const char *name) {
    void *symbol = dlsym(library, name);
    if (!symbol) abort();
    return symbol;
}

static void *real(const char *name) {
    return found(dlopen(getenv("LRC_CODER_SO"), RTLD_NOW), name);
}

static uint32_t watch(void) {
    int (*has_gil)(void);
    *(void **)&has_gil = found(RTLD_DEFAULT, "PyGILState_Check");
    watched_has_gil = has_gil();
    if (watched_hook) watched_hook();
    return watched_status;
}

#define WATCHED(name, parameters, arguments)                                                       \
    uint32_t name parameters {                                                                     \
        uint32_t(*call) parameters;                                                                \
        const uint32_t status = watch();                                                           \
        *(void **)&call = real(#name);                                                             \
        return status ? status : call arguments;                                                   \
    }
#define TARGETS                                                                                    \
    uint8_t *first, size_t first_len, uint8_t *second, size_t second_len, uint8_t *third,          \
        size_t third_len, uint8_t *fourth, size_t fourth_len
#define GIVEN first, first_len, second, second_len, third, third_len, fourth, fourth_len

WATCHED(lrc_encode, (const lrc_slice *data, size_t data_fragments, TARGETS),
        (data, data_fragments, GIVEN))
WATCHED(lrc_encode_add,
        (size_t data_fragments, uint8_t fragment, const uint8_t *source, size_t source_len,
         TARGETS),
        (data_fragments, fragment, source, source_len, GIVEN))
WATCHED(lrc_is_open, (size_t data_fragments, uint16_t lost, uint8_t fragment),
        (data_fragments, lost, fragment))
WATCHED(lrc_rebuild,
        (size_t data_fragments, const lrc_slice fragments[16], uint16_t lost, uint8_t fragment,
         size_t from, uint8_t *target, size_t len),
        (data_fragments, fragments, lost, fragment, from, target, len))
WATCHED(lrc_decode,
        (size_t data_fragments, const lrc_slice fragments[16], uint16_t lost,
         const uint8_t numbers[4], size_t from, size_t len, TARGETS),
        (data_fragments, fragments, lost, numbers, from, len, GIVEN))
WATCHED(lrc_plan,
        (size_t data_fragments, uint16_t lost, const uint8_t numbers[4],
         uint8_t plan[LRC_PLAN_BYTES], uint16_t *reads),
        (data_fragments, lost, numbers, plan, reads))
WATCHED(lrc_plan_decode,
        (const uint8_t plan[LRC_PLAN_BYTES], const lrc_slice fragments[16], size_t from, size_t len,
         TARGETS),
        (plan, fragments, from, len, GIVEN))
WATCHED(lrc_recipe,
        (size_t data_fragments, uint16_t lost, uint8_t fragment, uint8_t fragments[16],
         uint8_t coefficients[16], uint32_t *count),
        (data_fragments, lost, fragment, fragments, coefficients, count))
WATCHED(lrc_add,
        (uint8_t * target, size_t target_len, uint8_t coefficient, const uint8_t *source,
         size_t source_len),
        (target, target_len, coefficient, source, source_len))
