/* Each call of the store from C, with each status but those of refused memory. */
#include "store_test.h"
#include <time.h>

static const char FOX[] = "the quick brown fox jumps over the lazy dog 0123456789";
#define FOX_BYTES (const uint8_t *)FOX, sizeof FOX - 1

static void open_and_close(void) {
    lrc_slot slot = LRC_SLOT_EMPTY, other = LRC_SLOT_EMPTY;
    uint64_t entries = 9, version = 99;
    uint32_t lawful = 9;
    EXPECT(lrc_store_lose(&slot, NAME("a"), 0, 0, &version), LRC_STORE_EMPTY);
    EXPECT(version, 99);
    EXPECT(lrc_store_open(0, 64, &slot), LRC_STORE_BAD_WIDTH);
    EXPECT(lrc_store_open(4, 0, &slot), LRC_STORE_BAD_ARGUMENT);
    EXPECT(lrc_store_open(4, 64, &slot), LRC_STORE_DONE);
    EXPECT(lrc_store_open(4, 64, &slot), LRC_STORE_OCCUPIED);
    EXPECT(lrc_store_split(&other, 1, &slot), LRC_STORE_EMPTY);
    EXPECT(lrc_store_split(&slot, 1, &other), LRC_STORE_DONE);
    EXPECT(lrc_store_split(&slot, 1, &other), LRC_STORE_OCCUPIED);
    EXPECT(lrc_store_close(&slot, &entries, &lawful), LRC_STORE_NOT_ALONE);
    EXPECT(entries, 9);
    EXPECT(lrc_slot_learn(&slot, &other), LRC_STORE_DONE);
    EXPECT(lrc_slot_learn(&other, &slot), LRC_STORE_DONE);
    EXPECT(lrc_store_join(&slot, &other), LRC_STORE_DONE);
    EXPECT(lrc_slot_learn(&slot, &other), LRC_STORE_EMPTY);
    EXPECT(lrc_slot_learn(&other, &slot), LRC_STORE_EMPTY);
    EXPECT(lrc_store_join(&slot, &other), LRC_STORE_EMPTY);
    EXPECT(lrc_store_close(&slot, &entries, &lawful), LRC_STORE_DONE);
    EXPECT(entries, 0);
    EXPECT(lawful, 1);
    EXPECT(lrc_store_close(&slot, &entries, &lawful), LRC_STORE_EMPTY);
}

/* A store without a journal counts its calls, also if they are more than any journal holds. */
static void open_unjournaled(void) {
    const uint64_t calls = 1048577;
    lrc_slot slot = LRC_SLOT_EMPTY, other = LRC_SLOT_EMPTY;
    lrc_entry entry = {{(const uint8_t *)"", 0}, 9, 9, 9, 9, 9, 9, 9, 9, 9, 9};
    uint64_t version = 0, discarded = 9, entries = 9;
    uint32_t lawful = 9;
    EXPECT(lrc_store_open_unjournaled(0, &slot), LRC_STORE_BAD_WIDTH);
    EXPECT(lrc_store_open_unjournaled(65537, &slot), LRC_STORE_BAD_WIDTH);
    EXPECT(lrc_store_open_unjournaled(4, &slot), LRC_STORE_DONE);
    EXPECT(lrc_store_open_unjournaled(4, &slot), LRC_STORE_OCCUPIED);
    EXPECT(lrc_store_split(&slot, 1, &other), LRC_STORE_DONE);
    EXPECT(lrc_store_put(&slot, NAME("fox"), FOX_BYTES, 12, &version), LRC_STORE_DONE);
    for (uint64_t i = 1; i < calls; i++)
        EXPECT(lrc_store_repair(&other, NAME("fox"), 0, 0, &version), LRC_STORE_NOT_LOST);
    EXPECT(lrc_store_trim(&slot, 0, &discarded), LRC_STORE_DONE);
    EXPECT(discarded, 0);
    EXPECT(lrc_store_join(&slot, &other), LRC_STORE_DONE);
    EXPECT(lrc_store_close_to(&slot, &other, &discarded, &entries, &lawful), LRC_STORE_DONE);
    EXPECT(discarded, calls);
    EXPECT(entries, 0);
    EXPECT(lawful, 2);
    EXPECT(lrc_slot_entry(&other, 0, &entry), LRC_STORE_NOTHING_LEFT);
    EXPECT(entry.call + entry.who + entry.first, 27);
    EXPECT(lrc_store_open_unjournaled(4, &other), LRC_STORE_OCCUPIED);
    lrc_slot_release(&other);
}

static void two_stores_are_not_joined(void) {
    lrc_slot first = LRC_SLOT_EMPTY, second = LRC_SLOT_EMPTY;
    uint64_t entries = 0;
    uint32_t lawful = 0;
    EXPECT(lrc_store_open(4, 64, &first), LRC_STORE_DONE);
    EXPECT(lrc_store_open(4, 64, &second), LRC_STORE_DONE);
    EXPECT(lrc_slot_learn(&first, &second), LRC_STORE_BAD_ARGUMENT);
    EXPECT(lrc_store_join(&first, &second), LRC_STORE_BAD_ARGUMENT);
    EXPECT(lrc_store_close(&first, &entries, &lawful), LRC_STORE_DONE);
    EXPECT(lrc_store_close(&second, &entries, &lawful), LRC_STORE_DONE);
}

static void put_and_read(lrc_slot *slot) {
    uint64_t version = 99, lent = 0, built = 0, len = 0, stripes = 0, lost = 0;
    uint8_t got[64] = {0};
    EXPECT(lrc_store_put(slot, NAME("A"), FOX_BYTES, 12, &version), LRC_STORE_BAD_NAME);
    EXPECT(lrc_store_put(slot, NAME("fox"), FOX_BYTES, 7, &version), LRC_STORE_BAD_ARGUMENT);
    EXPECT(version, 99);
    EXPECT(lrc_store_put(slot, NAME("fox"), FOX_BYTES, 12, &version), LRC_STORE_DONE);
    EXPECT(version, 1);
    EXPECT(lrc_store_lose(slot, NAME("fox"), 0, 1, &version), LRC_STORE_DONE);
    EXPECT(lrc_store_lose(slot, NAME("fox"), 0, 1, &version), LRC_STORE_ALREADY_LOST);
    EXPECT(lrc_store_read(slot, NAME("fox"), 2, got, 20, &version, &lent, &built), LRC_STORE_DONE);
    EXPECT(memcmp(got, FOX + 2, 20), 0);
    EXPECT(lent, 16);
    EXPECT(built, 4);
    EXPECT(lrc_store_read(slot, NAME("fox"), 50, got, 20, &version, &lent, &built),
           LRC_STORE_OUT_OF_RANGE);
    EXPECT(lrc_store_read(slot, NAME("none"), 0, got, 1, &version, &lent, &built),
           LRC_STORE_NO_NAME);
    EXPECT(lrc_store_stat(slot, NAME("fox"), &version, &len, &stripes, &lost), LRC_STORE_DONE);
    EXPECT(len, 54);
    EXPECT(stripes, 2);
    EXPECT(lost, 1);
    EXPECT(lrc_store_repair(slot, NAME("fox"), 0, 1, &version), LRC_STORE_DONE);
    EXPECT(lrc_store_repair(slot, NAME("fox"), 0, 1, &version), LRC_STORE_NOT_LOST);
    EXPECT(lrc_store_repair(slot, NAME("fox"), 9, 1, &version), LRC_STORE_NO_FRAGMENT);
}

static void lend_and_change(lrc_slot *slot) {
    lrc_slot lent = LRC_SLOT_EMPTY;
    lrc_slice one = {(const uint8_t *)"", 0};
    uint64_t version = 0, pieces = 0, count = 0;
    uint8_t got[64] = {0};
    EXPECT(lrc_store_lose(slot, NAME("fox"), 1, 0, &version), LRC_STORE_DONE);
    EXPECT(lrc_store_lend(slot, NAME("fox"), 50, 9, &lent, &version, &pieces),
           LRC_STORE_OUT_OF_RANGE);
    EXPECT(lrc_slot_slices(&lent, &one, 1, &count), LRC_STORE_EMPTY);
    EXPECT(lrc_slot_slices(slot, &one, 1, &count), LRC_STORE_EMPTY);
    EXPECT(lrc_store_lend(slot, NAME("fox"), 1, 53, &lent, &version, &pieces), LRC_STORE_DONE);
    EXPECT(pieces, 14);
    EXPECT(lrc_store_lend(slot, NAME("fox"), 1, 53, &lent, &version, &pieces), LRC_STORE_OCCUPIED);
    EXPECT(lrc_slot_slices(&lent, &one, 1, &count), LRC_STORE_DONE);
    EXPECT(count, 1);
    EXPECT(one.len, 3);
    EXPECT(lrc_store_lose(slot, NAME("fox"), 0, 2, &version), LRC_STORE_DONE);
    EXPECT(lrc_store_put(slot, NAME("fox"), (const uint8_t *)"other", 5, 6, &version),
           LRC_STORE_DONE);
    EXPECT(lrc_store_delete(slot, NAME("fox"), &version), LRC_STORE_DONE);
    EXPECT(lrc_store_delete(slot, NAME("fox"), &version), LRC_STORE_NO_NAME);
    EXPECT(gather(&lent, got), 53);
    EXPECT(gather(&lent, got), 53);
    EXPECT(memcmp(got, FOX + 1, 53), 0);
    lrc_slot_release(&lent);
    EXPECT(lrc_slot_slices(&lent, &one, 1, &count), LRC_STORE_EMPTY);
}

/* The number of runs of a blob's bytes from `start` on, whose bytes are the text's. */
static size_t runs_from(lrc_slot *slot, uint64_t start, size_t capacity) {
    lrc_slot lent = LRC_SLOT_EMPTY;
    uint64_t version = 0, pieces = 0;
    uint8_t got[64] = {0};
    EXPECT(lrc_store_lend(slot, NAME("fox"), start, 54 - start, &lent, &version, &pieces),
           LRC_STORE_DONE);
    EXPECT(gather_runs(&lent, 3, capacity, got), gather_runs(&lent, 3, 64, got));
    EXPECT(memcmp(got, FOX + start + 3, 51 - start), 0);
    EXPECT(gather(&lent, got), 54 - start);
    const size_t number = gather_runs(&lent, 0, capacity, got);
    EXPECT(memcmp(got, FOX + start, 54 - start), 0);
    lrc_slot_release(&lent);
    return number;
}

static void lend_runs(void) {
    lrc_slot slot = LRC_SLOT_EMPTY, lent = LRC_SLOT_EMPTY;
    lrc_slice one = {(const uint8_t *)"", 0};
    lrc_buffer buffer = {(uint8_t *)"", 0};
    uint64_t version = 0, pieces = 0, count = 9, entries = 0;
    uint32_t lawful = 0;
    EXPECT(lrc_store_open(4, 100, &slot), LRC_STORE_DONE);
    EXPECT(lrc_slot_runs(&slot, 0, &one, 1, &count), LRC_STORE_EMPTY);
    EXPECT(lrc_slot_runs(&lent, 0, &one, 1, &count), LRC_STORE_EMPTY);
    EXPECT(count, 9);
    EXPECT(lrc_store_put(&slot, NAME("fox"), FOX_BYTES, 12, &version), LRC_STORE_DONE);
    for (uint64_t start = 0; start < 50; start++) EXPECT(runs_from(&slot, start, 2), 1);
    EXPECT(lrc_store_lend(&slot, NAME("fox"), 2, 20, &lent, &version, &pieces), LRC_STORE_DONE);
    EXPECT(lrc_slot_runs(&lent, 19, &one, 1, &count), LRC_STORE_DONE);
    EXPECT(count * 100 + one.len * 10 + (one.at[0] == FOX[21]), 111);
    const uint64_t past[] = {20, 21, UINT64_MAX};
    for (size_t i = 0; i < 3; i++) {
        EXPECT(lrc_slot_runs(&lent, past[i], &one, 1, &count), LRC_STORE_DONE);
        EXPECT(count, 0);
    }
    lrc_slot_release(&lent);
    EXPECT(lrc_store_lose(&slot, NAME("fox"), 0, 2, &version), LRC_STORE_DONE);
    for (size_t capacity = 1; capacity < 15; capacity++)
        EXPECT(runs_from(&slot, 0, capacity), 12 + 1); /* each fragment of one stripe alone */
    EXPECT(runs_from(&slot, 9, 1), 10 + 1);
    EXPECT(lrc_store_lose(&slot, NAME("fox"), 1, 1, &version), LRC_STORE_DONE);
    EXPECT(runs_from(&slot, 0, 3), 12 + 2);
    EXPECT(lrc_slot_reserve(54, &lent), LRC_STORE_DONE);
    EXPECT(lrc_slot_buffer(&lent, &buffer), LRC_STORE_DONE);
    memcpy(buffer.at, FOX_BYTES);
    EXPECT(lrc_store_put_from(&slot, NAME("fox"), &lent, 12, &version), LRC_STORE_DONE);
    EXPECT(runs_from(&slot, 0, 5), 2); /* the last stripe has memory of its own */
    EXPECT(lrc_store_close(&slot, &entries, &lawful), LRC_STORE_DONE);
}

/* Filled, refused, and then put: by the journal's limit of one entry, the second put is refused at
 * first. */
static void reserve_and_put(void) {
    lrc_slot slot = LRC_SLOT_EMPTY, other = LRC_SLOT_EMPTY;
    lrc_buffer buffer = {(uint8_t *)"", 0};
    uint64_t version = 9, lent = 0, built = 0, discarded = 0, entries = 0;
    uint32_t lawful = 0;
    uint8_t got[54];
    EXPECT(lrc_store_open(4, 1, &slot), LRC_STORE_DONE);
    EXPECT(lrc_slot_buffer(&other, &buffer), LRC_STORE_EMPTY);
    EXPECT(lrc_store_put_from(&slot, NAME("fox"), &other, 12, &version), LRC_STORE_EMPTY);
    for (unsigned turn = 0; turn < 2; turn++) {
        EXPECT(lrc_slot_reserve(sizeof FOX - 1, &other), LRC_STORE_DONE);
        EXPECT(lrc_slot_reserve(1, &other), LRC_STORE_OCCUPIED);
        EXPECT(lrc_slot_buffer(&other, &buffer), LRC_STORE_DONE);
        EXPECT(buffer.len, 54);
        EXPECT(buffer.at[0] | buffer.at[53], 0);
        memcpy(buffer.at, FOX_BYTES);
        if (turn == 0)
            EXPECT(lrc_store_put_from(&slot, NAME("fox"), &other, 12, &version), LRC_STORE_DONE);
    }
    EXPECT(version, 1);
    EXPECT(lrc_store_put_from(&slot, NAME("Fox"), &other, 8, &version), LRC_STORE_BAD_NAME);
    EXPECT(lrc_store_put_from(&slot, NAME("fox"), &other, 8, &version), LRC_STORE_BAD_ARGUMENT);
    EXPECT(lrc_slot_buffer(&other, &buffer), LRC_STORE_DONE);
    EXPECT(lrc_store_put_from(&slot, NAME("fox"), &other, 6, &version), LRC_STORE_JOURNAL_FULL);
    EXPECT(lrc_slot_buffer(&other, &buffer), LRC_STORE_EMPTY);
    EXPECT(lrc_store_put_from(&slot, NAME("Fox"), &other, 6, &version), LRC_STORE_BAD_NAME);
    EXPECT(lrc_slot_buffer(&other, &buffer), LRC_STORE_EMPTY);
    EXPECT(version, 1);
    EXPECT(lrc_store_trim(&slot, 0, &discarded), LRC_STORE_DONE);
    EXPECT(lrc_store_put_from(&slot, NAME("fox"), &other, 6, &version), LRC_STORE_DONE);
    EXPECT(version, 2);
    EXPECT(lrc_store_trim(&slot, 0, &discarded), LRC_STORE_DONE);
    EXPECT(lrc_store_read(&slot, NAME("fox"), 0, got, 54, &version, &lent, &built), LRC_STORE_DONE);
    EXPECT(memcmp(got, FOX_BYTES), 0);
    EXPECT(lrc_store_close(&slot, &entries, &lawful), LRC_STORE_DONE);
}

static void close_to_journal(void) {
    lrc_slot slot = LRC_SLOT_EMPTY, other = LRC_SLOT_EMPTY;
    lrc_entry entry = {{(const uint8_t *)"", 0}, 9, 9, 9, 9, 9, 9, 9, 9, 9, 9};
    uint64_t version = 0, len = 0, stripes = 0, lost = 0, discarded = 9, entries = 9;
    uint32_t lawful = 9;
    EXPECT(lrc_store_open(4, 100, &slot), LRC_STORE_DONE);
    EXPECT(lrc_slot_entry(&slot, 0, &entry), LRC_STORE_EMPTY);
    EXPECT(lrc_store_split(&slot, 5, &other), LRC_STORE_DONE);
    EXPECT(lrc_store_close_to(&slot, &other, &discarded, &entries, &lawful), LRC_STORE_OCCUPIED);
    EXPECT(lrc_store_put(&other, NAME("fox"), FOX_BYTES, 6, &version), LRC_STORE_DONE);
    EXPECT(lrc_store_read(&other, NAME("none"), 1, (uint8_t *)&len, 8, &version, &stripes, &lost),
           LRC_STORE_NO_NAME);
    EXPECT(lrc_store_lose(&other, NAME("fox"), 2, 9, &version), LRC_STORE_DONE);
    EXPECT(lrc_store_stat(&other, NAME("fox"), &version, &len, &stripes, &lost), LRC_STORE_DONE);
    EXPECT(lrc_store_trim_part(&slot, 2, 1, &discarded), LRC_STORE_DONE);
    EXPECT(discarded, 1);
    EXPECT(lrc_store_trim_part(&slot, 3, 9, &discarded), LRC_STORE_DONE);
    EXPECT(discarded, 0);
    EXPECT(lrc_store_join(&slot, &other), LRC_STORE_DONE);
    EXPECT(lrc_store_close_to(&slot, &other, &discarded, &entries, &lawful), LRC_STORE_DONE);
    EXPECT(discarded, 1);
    EXPECT(entries, 3);
    EXPECT(lawful, 1);
    EXPECT(lrc_store_close_to(&other, &slot, &discarded, &entries, &lawful), LRC_STORE_EMPTY);
    EXPECT(lrc_slot_entry(&other, 3, &entry), LRC_STORE_NOTHING_LEFT);
    EXPECT(entry.call + entry.who + entry.first, 27);
    EXPECT(lrc_slot_entry(&other, 0, &entry), LRC_STORE_DONE);
    EXPECT(entry.call, LRC_CALL_READ);
    EXPECT(entry.status, LRC_STORE_NO_NAME);
    EXPECT(entry.first * 100 + entry.second, 108);
    EXPECT(lrc_slot_entry(&other, 1, &entry), LRC_STORE_DONE);
    EXPECT(entry.call, LRC_CALL_LOSE);
    EXPECT(entry.first * 100 + entry.second, 209);
    EXPECT(lrc_slot_entry(&other, 2, &entry), LRC_STORE_DONE);
    EXPECT(entry.call, LRC_CALL_STAT);
    EXPECT(entry.who, 5);
    EXPECT(entry.name.len, 3);
    EXPECT(memcmp(entry.name.at, "fox", 3), 0);
    EXPECT(entry.version, 1);
    EXPECT(entry.len * 100 + entry.stripes * 10 + entry.lost, 5431);
    lrc_slot_release(&other);
}

static void plan_and_mend(lrc_slot *slot) {
    lrc_slot plan = LRC_SLOT_EMPTY;
    uint64_t version = 0, items = 0, len = 0, stripes = 0, lost = 0;
    EXPECT(lrc_store_put(slot, NAME("fox"), FOX_BYTES, 12, &version), LRC_STORE_DONE);
    for (uint64_t f = 0; f < 8; f++)
        EXPECT(lrc_store_lose(slot, NAME("fox"), 0, f, &version), LRC_STORE_DONE);
    uint8_t got[4];
    uint64_t lent = 0, built = 0;
    EXPECT(lrc_store_read(slot, NAME("fox"), 0, got, 4, &version, &lent, &built),
           LRC_STORE_UNRECOVERABLE);
    EXPECT(lrc_store_put(slot, NAME("fox"), FOX_BYTES, 12, &version), LRC_STORE_DONE);
    EXPECT(lrc_store_lose(slot, NAME("fox"), 0, 3, &version), LRC_STORE_DONE);
    EXPECT(lrc_store_lose(slot, NAME("fox"), 1, 15, &version), LRC_STORE_DONE);
    EXPECT(lrc_store_mend_step(slot, &plan, &version), LRC_STORE_EMPTY);
    EXPECT(lrc_store_plan(slot, &plan, &items), LRC_STORE_DONE);
    EXPECT(items, 2);
    EXPECT(lrc_store_plan(slot, &plan, &items), LRC_STORE_OCCUPIED);
    EXPECT(lrc_store_repair(slot, NAME("fox"), 0, 3, &version), LRC_STORE_DONE);
    EXPECT(lrc_store_mend_step(slot, &plan, &version), LRC_STORE_NOT_LOST);
    EXPECT(lrc_store_mend_step(slot, &plan, &version), LRC_STORE_DONE);
    EXPECT(lrc_store_mend_step(slot, &plan, &version), LRC_STORE_NOTHING_LEFT);
    lrc_slot_release(&plan);
    EXPECT(lrc_store_stat(slot, NAME("fox"), &version, &len, &stripes, &lost), LRC_STORE_DONE);
    EXPECT(lost, 0);
}

/* Five lost fragments, planned two at a time. */
static void plans_in_parts(lrc_slot *slot) {
    lrc_slot plan = LRC_SLOT_EMPTY, none = LRC_SLOT_EMPTY;
    const uint64_t parts[] = {2, 2, 1, 0, 0};
    uint64_t version = 0, items = 77, repaired = 0;
    for (uint64_t f = 0; f < 5; f++)
        EXPECT(lrc_store_lose(slot, NAME("fox"), f % 2, 15 - f, &version), LRC_STORE_DONE);
    for (int i = 0; i < 5; i++) {
        EXPECT(lrc_store_plan_part(slot, &plan, 2, &items), LRC_STORE_DONE);
        EXPECT(items, parts[i]);
        while (items--) {
            EXPECT(lrc_store_plan_part(slot, &plan, 9, &repaired), LRC_STORE_OCCUPIED);
            EXPECT(lrc_store_plan(slot, &plan, &repaired), LRC_STORE_OCCUPIED);
            EXPECT(lrc_store_mend_step(slot, &plan, &version), LRC_STORE_DONE);
        }
    }
    EXPECT(lrc_store_mend_step(slot, &plan, &version), LRC_STORE_NOTHING_LEFT);
    EXPECT(lrc_store_plan_part(&none, &plan, 2, &items), LRC_STORE_EMPTY);
    lrc_slot_release(&plan);
    items = 77;
    EXPECT(lrc_store_plan_part(slot, &plan, 0, &items), LRC_STORE_BAD_ARGUMENT);
    EXPECT(lrc_store_plan_part_wait(slot, &plan, 0, &items, -1), LRC_STORE_BAD_ARGUMENT);
    EXPECT(items, 77);
    EXPECT(lrc_store_mend_step(slot, &plan, &version), LRC_STORE_EMPTY);
    EXPECT(lrc_store_plan_part(slot, &plan, UINT64_MAX, &items), LRC_STORE_DONE);
    EXPECT(items, 0);
    lrc_slot_release(&plan);
    EXPECT(lrc_store_lose(slot, NAME("fox"), 1, 2, &version), LRC_STORE_DONE);
    EXPECT(lrc_store_mend_wait(slot, &repaired, -1), LRC_STORE_DONE);
    EXPECT(repaired, 1);
}

static void all_sessions_of_a_store(void) {
    static lrc_slot slots[65];
    uint64_t entries = 0;
    uint32_t lawful = 0;
    EXPECT(lrc_store_open(1, 3, &slots[0]), LRC_STORE_DONE);
    for (uint32_t k = 1; k < 64; k++)
        EXPECT(lrc_store_split(&slots[0], k, &slots[k]), LRC_STORE_DONE);
    EXPECT(lrc_store_split(&slots[0], 64, &slots[64]), LRC_STORE_NO_PASS);
    EXPECT(lrc_store_split(&slots[5], 64, &slots[64]), LRC_STORE_NO_PASS);
    for (uint32_t k = 63; k > 0; k--)
        EXPECT(lrc_store_join(&slots[k - 1], &slots[k]), LRC_STORE_DONE);
    EXPECT(lrc_store_close(&slots[0], &entries, &lawful), LRC_STORE_DONE);
    EXPECT(lawful, 1);
}

static void limits_of_a_store(void) {
    static uint8_t big[12 * 4096 + 1];
    lrc_slot slot = LRC_SLOT_EMPTY;
    uint64_t version = 77, entries = 0, discarded = 0, len = 0, stripes = 0, lost = 0;
    uint32_t lawful = 0;
    EXPECT(lrc_store_open(1, 2, &slot), LRC_STORE_DONE);
    EXPECT(lrc_store_put(&slot, NAME("big"), big, sizeof big, 12, &version), LRC_STORE_TOO_LONG);
    EXPECT(lrc_store_put(&slot, NAME("big"), big, sizeof big - 1, 12, &version), LRC_STORE_DONE);
    EXPECT(lrc_store_delete(&slot, NAME("big"), &version), LRC_STORE_DONE);
    version = 77;
    EXPECT(lrc_store_stat(&slot, NAME("big"), &version, &len, &stripes, &lost),
           LRC_STORE_JOURNAL_FULL);
    EXPECT(version, 77);
    EXPECT(lrc_store_trim(&slot, 1, &discarded), LRC_STORE_DONE);
    EXPECT(discarded, 1);
    EXPECT(lrc_store_close(&slot, &entries, &lawful), LRC_STORE_DONE);
    EXPECT(entries, 1);
    EXPECT(lawful, 1);
}

/* A trim takes no time for the entries that it keeps. If it moved them, these trims would take
 * seconds. */
static void trims_move_nothing(void) {
    enum { ENTRIES = 300000, TRIMS = 1000 };
    lrc_slot slot = LRC_SLOT_EMPTY;
    uint64_t version, len, stripes, lost, discarded = 0;
    EXPECT(lrc_store_open(4, ENTRIES, &slot), LRC_STORE_DONE);
    for (unsigned i = 0; i < ENTRIES; i++)
        EXPECT(lrc_store_stat(&slot, NAME("none"), &version, &len, &stripes, &lost),
               LRC_STORE_NO_NAME);
    const clock_t start = clock();
    for (unsigned i = 0; i < TRIMS; i++) {
        EXPECT(lrc_store_trim_part(&slot, 0, 1, &discarded), LRC_STORE_DONE);
        EXPECT(discarded, 1);
    }
    EXPECT(clock() - start < CLOCKS_PER_SEC, 1);
    lrc_slot_release(&slot);
}

int main(void) {
    lrc_slot slot = LRC_SLOT_EMPTY;
    uint64_t entries = 0;
    uint32_t lawful = 0;
    open_and_close();
    reserve_and_put();
    lend_runs();
    close_to_journal();
    open_unjournaled();
    trims_move_nothing();
    two_stores_are_not_joined();
    for (unsigned has_journal = 0; has_journal < 2; has_journal++) {
        EXPECT(has_journal ? lrc_store_open(4, 1000, &slot) : lrc_store_open_unjournaled(4, &slot),
               LRC_STORE_DONE);
        put_and_read(&slot);
        lend_and_change(&slot);
        plan_and_mend(&slot);
        plans_in_parts(&slot);
        EXPECT(lrc_store_close(&slot, &entries, &lawful), LRC_STORE_DONE);
        EXPECT(entries > 0, has_journal);
        EXPECT(lawful, has_journal ? 1 : 2);
    }
    all_sessions_of_a_store();
    limits_of_a_store();
    return report("calls");
}
