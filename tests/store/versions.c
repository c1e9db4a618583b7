/* Held versions, restorations, the items of a plan and the numbers of a store, from C. */
#include "store_test.h"

enum { WIDTH = 4, BYTES = 54 };

static const char FOX[] = "the quick brown fox jumps over the lazy dog 0123456789";
static const lrc_slice NOTHING = {(const uint8_t *)"", 0};

/* Puts the text, and loses two data fragments and a parity of the first stripe. */
static void put_with_losses(lrc_slot *slot, const char *name) {
    uint64_t version = 0;
    EXPECT(lrc_store_put(slot, NAME(name), (const uint8_t *)FOX, BYTES, 12, &version),
           LRC_STORE_DONE);
    const uint64_t fragments[] = {1, 7, 14};
    for (size_t i = 0; i < 3; i++)
        EXPECT(lrc_store_lose(slot, NAME(name), 0, fragments[i], &version), LRC_STORE_DONE);
}

static void expect_numbers(lrc_slot *slot, const uint64_t *want) {
    lrc_numbers got = {9, 9, 9, 9, 9, 9};
    EXPECT(lrc_store_numbers(slot, &got), LRC_STORE_DONE);
    const uint64_t all[] = {got.blobs,         got.bytes, got.lost,
                            got.unrecoverable, got.calls, got.entries};
    for (size_t i = 0; i < 6; i++) EXPECT(all[i], want[i]);
}

static void numbers(void) {
    lrc_slot slot = LRC_SLOT_EMPTY, other = LRC_SLOT_EMPTY;
    lrc_numbers got = {9, 9, 9, 9, 9, 9};
    uint64_t version = 0, discarded = 0;
    EXPECT(lrc_store_numbers(&slot, &got), LRC_STORE_EMPTY);
    EXPECT(got.blobs + got.bytes + got.lost + got.unrecoverable + got.calls + got.entries, 54);
    EXPECT(lrc_store_open(WIDTH, 100, &slot), LRC_STORE_DONE);
    EXPECT(lrc_store_split(&slot, 1, &other), LRC_STORE_DONE);
    expect_numbers(&slot, (const uint64_t[]){0, 0, 0, 0, 0, 0});
    put_with_losses(&slot, "fox");
    EXPECT(lrc_store_put(&slot, NAME("dog"), (const uint8_t *)FOX, 10, 6, &version),
           LRC_STORE_DONE);
    expect_numbers(&other, (const uint64_t[]){2, 64, 3, 0, 5, 5});
    for (uint64_t f = 0; f < 5; f++)
        EXPECT(lrc_store_lose(&slot, NAME("dog"), 0, f, &version), LRC_STORE_DONE);
    EXPECT(lrc_store_trim(&slot, 4, &discarded), LRC_STORE_DONE);
    expect_numbers(&other, (const uint64_t[]){2, 64, 8, 1, 10, 4});
    EXPECT(lrc_store_delete(&slot, NAME("dog"), &version), LRC_STORE_DONE);
    EXPECT(lrc_store_numbers_wait(&other, &got, -1), LRC_STORE_DONE);
    EXPECT(got.blobs * 100 + got.lost * 10 + got.unrecoverable, 130);
    lrc_slot_release(&other);
    lrc_slot_release(&slot);
}

static void hold(lrc_slot *slot, lrc_slot *held) {
    uint64_t version = 77, len = 77;
    EXPECT(lrc_store_hold(held, NAME("fox"), slot, &version, &len), LRC_STORE_EMPTY);
    EXPECT(lrc_store_hold(slot, NAME("Fox"), held, &version, &len), LRC_STORE_BAD_NAME);
    EXPECT(lrc_store_hold(slot, NAME("none"), held, &version, &len), LRC_STORE_NO_NAME);
    EXPECT(version + len, 154);
    EXPECT(lrc_store_hold_wait(slot, NAME("fox"), held, &version, &len, -1), LRC_STORE_DONE);
    EXPECT(version * 100 + len, 154);
    version = len = 77;
    EXPECT(lrc_store_hold(slot, NAME("fox"), held, &version, &len), LRC_STORE_OCCUPIED);
    EXPECT(version + len, 154);
}

/* The bytes of a held version from `start` on, up to its end, as they were put. */
static void expect_range(lrc_slot *held, uint64_t start) {
    lrc_slot lent = LRC_SLOT_EMPTY;
    uint64_t pieces = 0;
    uint8_t got[BYTES + 1] = {0};
    EXPECT(lrc_slot_lend(held, start, BYTES - start, &lent, &pieces), LRC_STORE_DONE);
    EXPECT(pieces, start == BYTES ? 0 : (BYTES - 1) / WIDTH + 1 - start / WIDTH);
    EXPECT(gather(&lent, got), BYTES - start);
    EXPECT(memcmp(got, FOX + start, BYTES - start), 0);
    lrc_slot_release(&lent);
    memset(got, 0, sizeof got);
    EXPECT(lrc_slot_copy(held, start, got, BYTES - start), LRC_STORE_DONE);
    EXPECT(memcmp(got, FOX + start, BYTES - start), 0);
    EXPECT(got[BYTES - start], 0);
}

/* What a held version of the text is, with the losses above. */
static void expect_version(lrc_slot *held) {
    lrc_shape shape = {9, 9, 9, 9, 9, 9};
    lrc_slice bytes = NOTHING;
    uint16_t lost = 9;
    EXPECT(lrc_slot_shape(held, &shape), LRC_STORE_DONE);
    EXPECT(shape.version * 10000 + shape.len * 100 + shape.stripes * 10 + shape.lost, 15423);
    EXPECT(shape.width * 100 + shape.data_fragments, 412);
    EXPECT(lrc_slot_lost(held, 0, &lost), LRC_STORE_DONE);
    EXPECT(lost, 1 << 1 | 1 << 7 | 1 << 14);
    EXPECT(lrc_slot_lost(held, 1, &lost), LRC_STORE_DONE);
    EXPECT(lost, 0);
    lost = 9;
    EXPECT(lrc_slot_lost(held, 2, &lost), LRC_STORE_NO_FRAGMENT);
    EXPECT(lost, 9);
    EXPECT(lrc_slot_fragment(held, 0, 7, &bytes), LRC_STORE_ALREADY_LOST);
    EXPECT(lrc_slot_fragment(held, 0, 16, &bytes), LRC_STORE_NO_FRAGMENT);
    EXPECT(lrc_slot_fragment(held, 2, 0, &bytes), LRC_STORE_NO_FRAGMENT);
    EXPECT(bytes.at == NOTHING.at && bytes.len == 0, 1);
    EXPECT(lrc_slot_fragment(held, 0, 9, &bytes), LRC_STORE_DONE);
    EXPECT(bytes.len, WIDTH);
    EXPECT(memcmp(bytes.at, FOX + 9 * WIDTH, WIDTH), 0);
    EXPECT(lrc_slot_fragment(held, 1, 12, &bytes), LRC_STORE_DONE);
    EXPECT(bytes.len, WIDTH);
    /* the parity of the last bytes: those of data fragment 0 and the half of 1 */
    for (size_t i = 0; i < WIDTH; i++) EXPECT(bytes.at[i], FOX[48 + i] ^ (i < 2 ? FOX[52 + i] : 0));
    for (uint64_t start = 0; start <= BYTES; start++) expect_range(held, start);
}

static void refused_ranges(lrc_slot *slot, lrc_slot *held) {
    lrc_slot lent = LRC_SLOT_EMPTY;
    uint64_t pieces = 77;
    uint8_t got[BYTES] = {0};
    EXPECT(lrc_slot_lend(held, 0, BYTES + 1, &lent, &pieces), LRC_STORE_OUT_OF_RANGE);
    EXPECT(lrc_slot_lend(held, UINT64_MAX, 2, &lent, &pieces), LRC_STORE_OUT_OF_RANGE);
    EXPECT(lrc_slot_lend(held, 0, 1, slot, &pieces), LRC_STORE_OCCUPIED);
    EXPECT(lrc_slot_lend(slot, 0, 1, &lent, &pieces), LRC_STORE_EMPTY);
    EXPECT(lrc_slot_lend(&lent, 0, 1, held, &pieces), LRC_STORE_EMPTY);
    EXPECT(pieces, 77);
    EXPECT(lent.at != NULL, 0);
    EXPECT(lrc_slot_copy(held, 1, got, BYTES), LRC_STORE_OUT_OF_RANGE);
    EXPECT(lrc_slot_copy(held, UINT64_MAX, got, 2), LRC_STORE_OUT_OF_RANGE);
    EXPECT(lrc_slot_copy(slot, 0, got, 1), LRC_STORE_EMPTY);
    EXPECT(lrc_slot_copy(&lent, 0, got, 1), LRC_STORE_EMPTY);
    for (size_t i = 0; i < BYTES; i++) EXPECT(got[i], 0);
}

/* A slot without a version: an empty one, and that of a session. */
static void no_version(lrc_slot *slot) {
    lrc_shape shape = {9, 9, 9, 9, 9, 9};
    lrc_slice bytes = NOTHING;
    uint16_t lost = 9;
    EXPECT(lrc_slot_shape(slot, &shape), LRC_STORE_EMPTY);
    EXPECT(lrc_slot_lost(slot, 0, &lost), LRC_STORE_EMPTY);
    EXPECT(lrc_slot_fragment(slot, 0, 0, &bytes), LRC_STORE_EMPTY);
    EXPECT(shape.version + shape.lost + shape.width + lost + bytes.len, 36);
}

/* A version with an unrecoverable fragment. */
static void unrecoverable(lrc_slot *slot) {
    lrc_slot held = LRC_SLOT_EMPTY, lent = LRC_SLOT_EMPTY;
    uint64_t version = 0, len = 0, pieces = 0;
    uint8_t got[4] = {0};
    EXPECT(lrc_store_put(slot, NAME("fox"), (const uint8_t *)FOX, BYTES, 6, &version),
           LRC_STORE_DONE);
    for (uint64_t f = 0; f < 5; f++)
        EXPECT(lrc_store_lose(slot, NAME("fox"), 1, f, &version), LRC_STORE_DONE);
    EXPECT(lrc_store_hold(slot, NAME("fox"), &held, &version, &len), LRC_STORE_DONE);
    EXPECT(lrc_slot_lend(&held, 0, 25, &lent, &pieces), LRC_STORE_UNRECOVERABLE);
    EXPECT(lrc_slot_copy(&held, 24, got, 1), LRC_STORE_UNRECOVERABLE);
    EXPECT(got[0], 0);
    EXPECT(lrc_slot_lend(&held, 20, 4, &lent, &pieces), LRC_STORE_DONE);
    EXPECT(gather(&lent, got), 4);
    EXPECT(memcmp(got, FOX + 20, 4), 0);
    /* one of the five comes back from elsewhere, and so the others can be rebuilt */
    EXPECT(lrc_store_repair(slot, NAME("fox"), 1, 0, &version), LRC_STORE_UNRECOVERABLE);
    EXPECT(lrc_store_restore(slot, &held, 1, 0, (const uint8_t *)FOX + 24, WIDTH, &version),
           LRC_STORE_DONE);
    EXPECT(version, 2);
    EXPECT(lrc_store_repair(slot, NAME("fox"), 1, 1, &version), LRC_STORE_DONE);
    lrc_slot_release(&lent);
    lrc_slot_release(&held);
}

/* Calls of a whole read that lend nothing. `held` is not empty, and "fox" has the text. */
static void refused_gets(lrc_slot *slot, lrc_slot *held) {
    lrc_slot whole = LRC_SLOT_EMPTY;
    uint64_t version = 77, len = 77, pieces = 77;
    EXPECT(lrc_store_get(held, NAME("fox"), &whole, &version, &len, &pieces), LRC_STORE_EMPTY);
    EXPECT(lrc_store_get(slot, NAME("Fox"), &whole, &version, &len, &pieces), LRC_STORE_BAD_NAME);
    EXPECT(lrc_store_get(slot, NAME("none"), &whole, &version, &len, &pieces), LRC_STORE_NO_NAME);
    EXPECT(lrc_store_get(slot, NAME("fox"), held, &version, &len, &pieces), LRC_STORE_OCCUPIED);
    EXPECT(version + len + pieces, 231);
    EXPECT(whole.at != NULL, 0);
}

/* A whole blob, degraded, stays as it was when it was lent. */
static void whole_reads(void) {
    lrc_slot slot = LRC_SLOT_EMPTY, whole = LRC_SLOT_EMPTY, held = LRC_SLOT_EMPTY;
    uint64_t version = 0, len = 77, pieces = 0;
    uint8_t got[BYTES];
    EXPECT(lrc_store_open_unjournaled(WIDTH, &slot), LRC_STORE_DONE);
    put_with_losses(&slot, "fox");
    EXPECT(lrc_store_hold(&slot, NAME("fox"), &held, &version, &len), LRC_STORE_DONE);
    refused_gets(&slot, &held);
    EXPECT(lrc_store_get_wait(&slot, NAME("fox"), &whole, &version, &len, &pieces, -1),
           LRC_STORE_DONE);
    EXPECT(version * 100 + len, 154);
    EXPECT(pieces, 14);
    for (uint64_t f = 2; f < 6; f++)
        EXPECT(lrc_store_lose(&slot, NAME("fox"), 0, f, &version), LRC_STORE_DONE);
    version = len = pieces = 0;
    EXPECT(lrc_store_get(&slot, NAME("fox"), &(lrc_slot)LRC_SLOT_EMPTY, &version, &len, &pieces),
           LRC_STORE_UNRECOVERABLE);
    EXPECT(version * 100 + len + pieces, 154);
    EXPECT(lrc_store_put(&slot, NAME("fox"), (const uint8_t *)"", 0, 12, &version), LRC_STORE_DONE);
    EXPECT(gather(&whole, got), BYTES);
    EXPECT(memcmp(got, FOX, BYTES), 0);
    lrc_slot_release(&whole);
    EXPECT(lrc_store_get_wait(&slot, NAME("fox"), &whole, &version, &len, &pieces, -1),
           LRC_STORE_DONE);
    EXPECT(version * 100 + len + pieces, 200);
    lrc_slot_release(&whole);
    lrc_slot_release(&held);
    lrc_slot_release(&slot);
}

/* A held version stays as it was, whatever becomes of the name and of the store. */
static void versions(void) {
    lrc_slot slot = LRC_SLOT_EMPTY, other = LRC_SLOT_EMPTY, held = LRC_SLOT_EMPTY;
    uint64_t version = 0, entries = 0;
    uint32_t lawful = 0;
    EXPECT(lrc_store_open(WIDTH, 100, &slot), LRC_STORE_DONE);
    EXPECT(lrc_store_split(&slot, 1, &other), LRC_STORE_DONE);
    put_with_losses(&slot, "fox");
    no_version(&slot);
    no_version(&held);
    hold(&other, &held);
    refused_ranges(&slot, &held);
    expect_version(&held);
    EXPECT(lrc_store_repair(&slot, NAME("fox"), 0, 7, &version), LRC_STORE_DONE);
    EXPECT(lrc_store_lose(&slot, NAME("fox"), 0, 9, &version), LRC_STORE_DONE);
    expect_version(&held);
    EXPECT(lrc_store_delete(&slot, NAME("fox"), &version), LRC_STORE_DONE);
    expect_version(&held);
    unrecoverable(&slot);
    EXPECT(lrc_store_join(&slot, &other), LRC_STORE_DONE);
    EXPECT(lrc_store_close(&slot, &entries, &lawful), LRC_STORE_DONE);
    EXPECT(entries, 19);
    EXPECT(lawful, 1);
    expect_version(&held);
    lrc_slot_release(&held);
}

static void refused_restorations(lrc_slot *slot, lrc_slot *held) {
    const uint8_t *bytes = (const uint8_t *)FOX;
    lrc_slot stranger = LRC_SLOT_EMPTY;
    uint64_t version = 77;
    EXPECT(lrc_store_restore(slot, &stranger, 0, 1, bytes, WIDTH, &version), LRC_STORE_EMPTY);
    EXPECT(lrc_store_restore(&stranger, held, 0, 1, bytes, WIDTH, &version), LRC_STORE_EMPTY);
    EXPECT(lrc_store_restore(held, slot, 0, 1, bytes, WIDTH, &version), LRC_STORE_EMPTY);
    EXPECT(lrc_store_open(WIDTH, 9, &stranger), LRC_STORE_DONE);
    EXPECT(lrc_store_restore(&stranger, held, 0, 1, bytes + 4, WIDTH, &version),
           LRC_STORE_BAD_ARGUMENT);
    lrc_slot_release(&stranger);
    EXPECT(lrc_store_restore(slot, held, 0, 1, bytes, WIDTH - 1, &version), LRC_STORE_BAD_ARGUMENT);
    EXPECT(lrc_store_restore(slot, held, 0, 1, bytes, WIDTH + 1, &version), LRC_STORE_BAD_ARGUMENT);
    EXPECT(lrc_store_restore(slot, held, 2, 1, bytes, WIDTH, &version), LRC_STORE_NO_FRAGMENT);
    EXPECT(lrc_store_restore(slot, held, 0, 16, bytes, WIDTH, &version), LRC_STORE_NO_FRAGMENT);
    EXPECT(version, 77);
}

/* A session that never saw the name restores what another one held. */
static void restores(void) {
    lrc_slot slot = LRC_SLOT_EMPTY, other = LRC_SLOT_EMPTY, held = LRC_SLOT_EMPTY;
    const uint8_t *bytes = (const uint8_t *)FOX;
    uint64_t version = 0, len = 0, lent = 0, built = 0;
    uint8_t got[BYTES];
    EXPECT(lrc_store_open_unjournaled(WIDTH, &slot), LRC_STORE_DONE);
    EXPECT(lrc_store_split(&slot, 1, &other), LRC_STORE_DONE);
    put_with_losses(&slot, "fox");
    EXPECT(lrc_store_hold(&slot, NAME("fox"), &held, &version, &len), LRC_STORE_DONE);
    refused_restorations(&slot, &held);
    version = 77;
    EXPECT(lrc_store_restore(&other, &held, 0, 7, bytes + 28, WIDTH, &version), LRC_STORE_DONE);
    EXPECT(version, 1);
    EXPECT(lrc_store_restore(&other, &held, 0, 7, bytes + 28, WIDTH, &version), LRC_STORE_NOT_LOST);
    EXPECT(lrc_store_restore_wait(&slot, &held, 0, 1, bytes + 4, WIDTH, &version, -1),
           LRC_STORE_DONE);
    EXPECT(lrc_store_read(&slot, NAME("fox"), 0, got, BYTES, &version, &lent, &built),
           LRC_STORE_DONE);
    EXPECT(lent * 100 + built, BYTES * 100);
    EXPECT(memcmp(got, FOX, BYTES), 0);
    /* the name has another version, which keeps its loss */
    EXPECT(lrc_store_put(&slot, NAME("fox"), bytes + 1, BYTES - 1, 12, &version), LRC_STORE_DONE);
    EXPECT(lrc_store_lose(&slot, NAME("fox"), 0, 1, &version), LRC_STORE_DONE);
    EXPECT(lrc_store_restore(&other, &held, 0, 1, bytes + 4, WIDTH, &version), LRC_STORE_REPLACED);
    EXPECT(version, 2);
    EXPECT(lrc_store_read(&slot, NAME("fox"), 0, got, BYTES - 1, &version, &lent, &built),
           LRC_STORE_DONE);
    EXPECT(memcmp(got, FOX + 1, BYTES - 1), 0);
    EXPECT(lrc_store_delete(&slot, NAME("fox"), &version), LRC_STORE_DONE);
    EXPECT(lrc_store_restore(&other, &held, 0, 1, bytes + 4, WIDTH, &version), LRC_STORE_NO_NAME);
    lrc_slot_release(&held);
    lrc_slot_release(&other);
    lrc_slot_release(&slot);
}

static void expect_item(const lrc_item *item, const char *name, uint64_t version,
                        uint64_t fragment) {
    EXPECT(item->name.len, strlen(name));
    EXPECT(memcmp(item->name.at, name, strlen(name)), 0);
    EXPECT(item->version * 1000 + item->stripe * 100 + item->fragment, version * 1000 + fragment);
}

static void items(void) {
    lrc_slot slot = LRC_SLOT_EMPTY, plan = LRC_SLOT_EMPTY;
    lrc_item got[8];
    uint64_t count = 77, version = 0;
    for (size_t i = 0; i < 8; i++) got[i] = (lrc_item){NOTHING, 9, 9, 9};
    EXPECT(lrc_store_open(WIDTH, 100, &slot), LRC_STORE_DONE);
    EXPECT(lrc_slot_items(&plan, got, 8, &count), LRC_STORE_EMPTY);
    EXPECT(lrc_slot_items(&slot, got, 8, &count), LRC_STORE_EMPTY);
    EXPECT(count, 77);
    put_with_losses(&slot, "fox");
    put_with_losses(&slot, "dog");
    EXPECT(lrc_store_plan_part(&slot, &plan, 5, &count), LRC_STORE_DONE);
    EXPECT(count, 5);
    EXPECT(lrc_slot_items(&plan, got, 0, &count), LRC_STORE_DONE);
    EXPECT(count, 0);
    EXPECT(lrc_slot_items(&plan, got, 2, &count), LRC_STORE_DONE);
    EXPECT(count, 2);
    expect_item(&got[1], "dog", 2, 7);
    EXPECT(got[2].version * 100 + got[2].stripe * 10 + got[2].fragment, 999);
    EXPECT(lrc_slot_items(&plan, got, 8, &count), LRC_STORE_DONE);
    EXPECT(count, 5);
    const uint64_t fragments[] = {1, 7, 14, 1, 7};
    for (size_t i = 0; i < 5; i++)
        expect_item(&got[i], i < 3 ? "dog" : "fox", i < 3 ? 2 : 1, fragments[i]);
    EXPECT(got[5].version * 100 + got[5].stripe * 10 + got[5].fragment, 999);
    EXPECT(lrc_store_mend_step(&slot, &plan, &version), LRC_STORE_DONE);
    EXPECT(lrc_slot_items(&plan, got, 8, &count), LRC_STORE_DONE);
    EXPECT(count, 4);
    expect_item(&got[0], "dog", 2, 7);
    lrc_slot_release(&plan);
    lrc_slot_release(&slot);
}

int main(void) {
    numbers();
    versions();
    whole_reads();
    restores();
    items();
    return report("versions");
}
