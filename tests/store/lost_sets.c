/* All sets of at most four lost fragments of a stripe, in both codes: the store reads and repairs
 * exactly what the coder says that the remaining fragments determine, by recipes (width 8), several
 * fragments at once (64), and by syndromes (520). Link with both libraries. */
#include "lrc_coder.h"
#include "store_test.h"

#define WIDEST 520u

static const uint32_t WIDTHS[] = {8, 64, WIDEST};

static int lost_in(unsigned set) { return __builtin_popcount(set); }

/* A fragment that is lost is repaired if and only if the coder says so. */
static void repairs(lrc_slot *slot, unsigned data, unsigned set, unsigned fragment) {
    uint64_t version = 0;
    uint32_t open = lrc_is_open(data, (uint16_t)set, (uint8_t)fragment);
    EXPECT(lrc_store_repair(slot, NAME("s"), 0, fragment, &version),
           open == LRC_OPEN ? LRC_STORE_UNRECOVERABLE : LRC_STORE_DONE);
    if (open != LRC_OPEN)
        EXPECT(lrc_store_lose(slot, NAME("s"), 0, fragment, &version), LRC_STORE_DONE);
}

/* A data fragment is read if and only if the coder says so. */
static void reads(lrc_slot *slot, const uint8_t *blob, size_t width, unsigned data, unsigned set,
                  unsigned fragment) {
    uint64_t version = 0, lent = 0, built = 0;
    uint8_t got[WIDEST] = {0};
    uint32_t open = lrc_is_open(data, (uint16_t)set, (uint8_t)fragment);
    uint32_t status =
        lrc_store_read(slot, NAME("s"), fragment * width, got, width, &version, &lent, &built);
    EXPECT(status, open == LRC_OPEN ? LRC_STORE_UNRECOVERABLE : LRC_STORE_DONE);
    if (status == LRC_STORE_DONE) EXPECT(memcmp(got, blob + fragment * width, width), 0);
}

/* All data except some bytes at each end are read if and only if the coder says so of each
 * fragment. Only lost fragments are rebuilt. */
static void reads_all(lrc_slot *slot, const uint8_t *blob, size_t width, unsigned data,
                      unsigned set, size_t cut) {
    const size_t len = data * width - 2 * cut;
    const unsigned gone = set & ((1u << data) - 1);
    uint64_t version = 0, lent = 0, built = 0;
    uint8_t got[12 * WIDEST] = {0};
    uint32_t open = 0;
    for (unsigned fragment = 0; fragment < data; fragment++)
        open |= lrc_is_open(data, (uint16_t)set, (uint8_t)fragment);
    uint32_t status = lrc_store_read(slot, NAME("s"), cut, got, len, &version, &lent, &built);
    EXPECT(status, open == LRC_OPEN ? LRC_STORE_UNRECOVERABLE : LRC_STORE_DONE);
    if (status != LRC_STORE_DONE) return;
    EXPECT(memcmp(got, blob + cut, len), 0);
    EXPECT(lent + built, len);
    if (!cut) EXPECT(built, (uint64_t)lost_in(gone) * width);
}

static void one_set(lrc_slot *slot, size_t width, unsigned data, unsigned set) {
    uint8_t blob[12 * WIDEST];
    uint64_t version = 0, discarded = 0;
    fill(blob, data * width, set);
    EXPECT(lrc_store_put(slot, NAME("s"), blob, data * width, data, &version), LRC_STORE_DONE);
    for (unsigned fragment = 0; fragment < data + 4; fragment++)
        if (set >> fragment & 1)
            EXPECT(lrc_store_lose(slot, NAME("s"), 0, fragment, &version), LRC_STORE_DONE);
    for (unsigned fragment = 0; fragment < data; fragment++)
        reads(slot, blob, width, data, set, fragment);
    reads_all(slot, blob, width, data, set, 0);
    reads_all(slot, blob, width, data, set, 3);
    for (unsigned fragment = 0; fragment < data + 4; fragment++)
        if (set >> fragment & 1) repairs(slot, data, set, fragment);
    EXPECT(lrc_store_trim(slot, 0, &discarded), LRC_STORE_DONE);
}

static void all_sets(uint32_t width) {
    lrc_slot slot = LRC_SLOT_EMPTY;
    long sets = 0;
    EXPECT(lrc_store_open(width, 1000, &slot), LRC_STORE_DONE);
    for (unsigned data = 6; data <= 12; data += 6)
        for (unsigned set = 0; set < 1u << (data + 4); set++)
            if (lost_in(set) <= 4) {
                one_set(&slot, width, data, set);
                sets++;
            }
    lrc_slot_release(&slot);
    EXPECT(sets, 386 + 2517);
}

int main(void) {
    for (size_t i = 0; i < sizeof WIDTHS / sizeof *WIDTHS; i++) all_sets(WIDTHS[i]);
    return report("lost sets");
}
