/* What a lent range of a stripe with lost fragments costs, beside lrc_decode on the same bytes with
 * fresh memory of the same size: `lend [WIDTH [STRIPES]]`, of 4,096 and 64 if they are left out.
 * Each is the median of 31 rounds of one read of the whole blob, which take turns. It prints
 * nanoseconds and their ratio. */
#include "lrc_coder.h"
#include "timing.h"
#include <string.h>

enum { DATA = 12, FRAGMENTS = 16, MOST_WIDTH = 65536, MOST_STRIPES = 4096 };
#define NAME (const uint8_t *)"blob", 4

struct losses {
    const char *name;
    int count;
    uint8_t numbers[4];
};

static const struct losses SETS[] = {
    {"1 lost in each stripe", 1, {0, LRC_NONE, LRC_NONE, LRC_NONE}},
    {"2 lost in each stripe", 2, {0, 1, LRC_NONE, LRC_NONE}},
    {"3 lost in each stripe", 3, {0, 1, 2, LRC_NONE}},
    {"4 lost in each stripe", 4, {0, 1, 6, 7}},
};

static void fail(const char *call) {
    fprintf(stderr, "%s failed\n", call);
    exit(1);
}

/* Lends the whole blob, and releases it. */
static double lend(lrc_slot *slot, size_t len) {
    uint64_t version, pieces;
    lrc_slot lent = LRC_SLOT_EMPTY;
    const double start = now();
    done("lrc_store_lend", lrc_store_lend(slot, NAME, 0, len, &lent, &version, &pieces));
    lrc_slot_release(&lent);
    return now() - start;
}

/* Decodes the same fragments of each stripe into fresh memory, and frees it. */
static double decode(const uint8_t *stripes, size_t count, size_t width, const struct losses *lost,
                     uint8_t **made) {
    static uint8_t none[1];
    uint16_t set = 0;
    const double start = now();
    for (int f = 0; f < lost->count; f++) set |= (uint16_t)(1 << lost->numbers[f]);
    for (size_t stripe = 0; stripe < count; stripe++) {
        lrc_slice fragments[FRAGMENTS];
        uint8_t **own = made + 4 * stripe;
        for (int f = 0; f < FRAGMENTS; f++)
            fragments[f] = (lrc_slice){stripes + (stripe * FRAGMENTS + (size_t)f) * width, width};
        for (int f = 0; f < 4; f++) own[f] = f < lost->count ? calloc(1, width) : none;
        if (lrc_decode(DATA, fragments, set, lost->numbers, 0, width, own[0], width, own[1],
                       lost->count > 1 ? width : 0, own[2], lost->count > 2 ? width : 0, own[3],
                       lost->count > 3 ? width : 0))
            fail("lrc_decode");
    }
    for (size_t stripe = 0; stripe < count; stripe++)
        for (int f = 0; f < lost->count; f++) free(made[4 * stripe + (size_t)f]);
    return now() - start;
}

/* One set of losses in each stripe of a blob: the two in turn. */
static void row(lrc_slot *slot, const uint8_t *blob, uint8_t *stripes, size_t count, size_t width,
                const struct losses *lost, uint8_t **made) {
    double lending[ROUNDS], decoding[ROUNDS];
    uint64_t version, discarded;
    done("lrc_store_put", lrc_store_put(slot, NAME, blob, DATA * width * count, DATA, &version));
    for (size_t stripe = 0; stripe < count; stripe++)
        for (int f = 0; f < lost->count; f++)
            done("lrc_store_lose", lrc_store_lose(slot, NAME, stripe, lost->numbers[f], &version));
    for (int round = 0; round < ROUNDS; round++) {
        lending[round] = lend(slot, DATA * width * count);
        decoding[round] = decode(stripes, count, width, lost, made);
    }
    done("lrc_store_trim", lrc_store_trim(slot, 0, &discarded));
    const double a = median(lending), b = median(decoding);
    printf("%s: lrc_store_lend %.0f ns, lrc_decode %.0f ns, ratio %.2f\n", lost->name, a, b, a / b);
}

/* The stripes of the blob, each as sixteen fragments one behind another. */
static void encode(const uint8_t *blob, uint8_t *stripes, size_t count, size_t width) {
    for (size_t stripe = 0; stripe < count; stripe++) {
        uint8_t *own = stripes + stripe * FRAGMENTS * width, *parity = own + DATA * width;
        lrc_slice data[DATA];
        memcpy(own, blob + stripe * DATA * width, DATA * width);
        for (size_t f = 0; f < DATA; f++) data[f] = (lrc_slice){own + f * width, width};
        if (lrc_encode(data, DATA, parity, width, parity + width, width, parity + 2 * width, width,
                       parity + 3 * width, width))
            fail("lrc_encode");
    }
}

/* An argument from 1 to `most`, or 0. */
static size_t number(const char *word, size_t most) {
    char *end;
    const unsigned long value = strtoul(word, &end, 10);
    return *end || value > most ? 0 : value;
}

int main(int argc, char **argv) {
    const size_t width = argc > 1 ? number(argv[1], MOST_WIDTH) : 4096;
    const size_t count = argc > 2 ? number(argv[2], MOST_STRIPES) : 64;
    if (argc > 3 || !width || !count) {
        fprintf(stderr, "usage: lend [WIDTH [STRIPES]], a width from 1 to %d and 1 to %d stripes\n",
                MOST_WIDTH, MOST_STRIPES);
        return 2;
    }
    lrc_slot slot = LRC_SLOT_EMPTY;
    uint8_t *blob = malloc(DATA * width * count), *stripes = malloc(FRAGMENTS * width * count);
    uint8_t **made = malloc(4 * count * sizeof *made);
    if (!blob || !stripes || !made) {
        fprintf(stderr, "lend: out of memory\n");
        return 1;
    }
    done("lrc_store_open", lrc_store_open((uint32_t)width, 65536, &slot));
    for (size_t i = 0; i < DATA * width * count; i++) blob[i] = (uint8_t)(i * 2654435761u >> 13);
    encode(blob, stripes, count, width);
    for (size_t set = 0; set < sizeof SETS / sizeof *SETS; set++)
        row(&slot, blob, stripes, count, width, &SETS[set], made);
    lrc_slot_release(&slot);
    free(blob);
    free(stripes);
    free(made);
    return 0;
}
