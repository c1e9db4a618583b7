#include "lrc_backend.h"
#include "lrc_stripe.h"

#include <errno.h>
#include <stddef.h>
#include <stdlib.h>
#include <string.h>

/* What an instance keeps. */
struct lrc {
    int k;
};

/* liberasurecode has copied the entry that it has for the library into the instance in which `args`
 * stands. The version there becomes this code's, since the instance writes it into each fragment.
 */
static void mark_instance(struct ec_backend_args *args) {
    ec_backend_t instance =
        (ec_backend_t)(void *)((char *)args - offsetof(struct ec_backend, args));
    instance->common.ec_backend_version = LRC_BACKEND_VERSION(args->uargs.k);
    args->uargs.w = 8;
    args->uargs.hd = LRC_PARITIES;
}

static void *lrc_init(struct ec_backend_args *args, void *library) {
    struct lrc *lrc;
    (void)library;
    if ((args->uargs.k != 12 && args->uargs.k != 6) || args->uargs.m != LRC_PARITIES) return NULL;
    lrc = malloc(sizeof *lrc);
    if (lrc) {
        lrc->k = args->uargs.k;
        mark_instance(args);
    }
    return lrc;
}

static int lrc_exit(void *lrc) {
    free(lrc);
    return 0;
}

static int result_of(uint32_t status) {
    switch (status) {
    case LRC_DONE:
        return 0;
    case LRC_OPEN:
        return -EINSUFFFRAGS;
    default:
        return -EINVALIDPARAMS;
    }
}

static int lrc_encode_blocks(void *desc, char **data, char **parity, int blocksize) {
    const struct lrc *lrc = desc;
    return result_of(lrc_encode_arrays((size_t)lrc->k, (size_t)blocksize,
                                       (const uint8_t *const *)data, (uint8_t *const *)parity));
}

/* The set of a list that ends with -1. */
static uint16_t set_of(const int *fragments) {
    unsigned set = 0;
    for (; *fragments >= 0 && *fragments < LRC_MOST_FRAGMENTS; fragments++) set |= 1u << *fragments;
    return (uint16_t)set;
}

static uint16_t set_below(int count) { return (uint16_t)((1u << count) - 1); }

/* Whether the instance's code wrote the fragment with this payload. The header stands before the
 * payload. PyECLib and Swift do not let liberasurecode compare it, so that another code's fragments
 * would be decoded to wrong bytes. */
static bool is_ours(const struct lrc *lrc, const char *payload) {
    fragment_header_t header;
    memcpy(&header, payload - sizeof header, sizeof header);
    return header.meta.backend_version == LRC_BACKEND_VERSION(lrc->k);
}

/* Rebuilds those `wanted` of the fragments that are missing, from the others. */
static int rebuild(const struct lrc *lrc, char **data, char **parity, const int *missing,
                   uint16_t wanted, int blocksize) {
    static const uint8_t nothing = 0;
    const uint16_t lost = set_of(missing);
    lrc_slice fragments[LRC_MOST_FRAGMENTS];
    uint8_t *targets[LRC_MOST_FRAGMENTS] = {NULL};
    int i;
    for (i = 0; i < LRC_MOST_FRAGMENTS; i++) {
        fragments[i].at = &nothing;
        fragments[i].len = 0;
        if (i >= lrc->k + LRC_PARITIES) continue;
        targets[i] = (uint8_t *)(i < lrc->k ? data[i] : parity[i - lrc->k]);
        if (lrc_has(lost, (unsigned)i)) continue;
        if (!is_ours(lrc, (const char *)targets[i])) return -EBADHEADER;
        fragments[i].at = targets[i];
        fragments[i].len = (size_t)blocksize;
    }
    return result_of(
        lrc_rebuild_set((size_t)lrc->k, fragments, lost, wanted, targets, (size_t)blocksize));
}

/* Makes the data alone: no caller reads what a decode makes of lost parities. */
static int lrc_decode_blocks(void *desc, char **data, char **parity, int *missing, int blocksize) {
    const struct lrc *lrc = desc;
    return rebuild(lrc, data, parity, missing, set_of(missing) & set_below(lrc->k), blocksize);
}

static int lrc_reconstruct(void *desc, char **data, char **parity, int *missing, int fragment,
                           int blocksize) {
    const struct lrc *lrc = desc;
    if (fragment < 0 || fragment >= lrc->k + LRC_PARITIES) return -EINVALIDPARAMS;
    return rebuild(lrc, data, parity, missing, (uint16_t)(1u << fragment), blocksize);
}

/* The fragments to read for the missing ones, none of which is an excluded one. */
static int lrc_fragments_needed(void *desc, int *missing, int *excluded, int *needed) {
    const struct lrc *lrc = desc;
    const uint16_t wanted = set_of(missing);
    uint16_t read;
    const uint32_t status = lrc_read_set((size_t)lrc->k, wanted | set_of(excluded), wanted, &read);
    int i;
    if (status != LRC_DONE) return result_of(status);
    for (i = 0; i < lrc->k + LRC_PARITIES; i++)
        if (lrc_has(read, (unsigned)i)) *needed++ = i;
    *needed = -1;
    return 0;
}

/* In bits: the code works on single bytes. */
static int lrc_element_size(void *desc) {
    (void)desc;
    return 8;
}

static bool lrc_is_compatible_with(uint32_t version) {
    return version == LRC_BACKEND_VERSION(12) || version == LRC_BACKEND_VERSION(6);
}

static size_t lrc_none(void *desc, int size) {
    (void)desc;
    (void)size;
    return 0;
}

struct ec_backend_op_stubs lrc_backend_functions = {
    lrc_init,
    lrc_exit,
    lrc_encode_blocks,
    lrc_decode_blocks,
    lrc_fragments_needed,
    lrc_reconstruct,
    lrc_element_size,
    lrc_is_compatible_with,
    lrc_none,
    lrc_none,
};

int lrc_backend_create(int k, ec_checksum_type_t checksum) {
    int desc;
    ec_backend_t instance = calloc(1, sizeof *instance);
    if (!instance) return -ENOMEM;
    instance->common.id = EC_BACKEND_LIBPHAZR; /* as if loaded by name: see README.md */
    instance->common.soname = "";
    instance->common.ops = &lrc_backend_functions;
    strcpy(instance->common.name, "lrc");
    strcpy(instance->common.soversion, "1.0");
    instance->args.uargs.k = k;
    instance->args.uargs.m = LRC_PARITIES;
    instance->args.uargs.ct = checksum;
    instance->desc.backend_desc = lrc_init(&instance->args, NULL);
    if (!instance->desc.backend_desc) {
        free(instance);
        return -EINVALIDPARAMS;
    }
    desc = liberasurecode_backend_instance_register(instance);
    if (desc <= 0) {
        lrc_exit(instance->desc.backend_desc);
        free(instance);
    }
    return desc;
}
