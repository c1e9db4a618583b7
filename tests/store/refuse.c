/* Each request for memory is refused in turn. The call that meets the refusal answers NO_MEMORY or
 * NOT_REBUILT, leaves its slots as they were, and does what was asked when it is made again. Link
 * with -Wl,--wrap=malloc -Wl,--wrap=realloc. */
#include "store_test.h"

void *__real_malloc(size_t size);
void *__real_realloc(void *old, size_t size);
void *__wrap_malloc(size_t size);
void *__wrap_realloc(void *old, size_t size);

static long ahead = -1, refused;

/* whether this request is the one to refuse */
static int refuse(void) {
    if (ahead < 0) return 0;
    return ahead-- == 0;
}

void *__wrap_malloc(size_t size) { return refuse() ? NULL : __real_malloc(size); }

void *__wrap_realloc(void *old, size_t size) { return refuse() ? NULL : __real_realloc(old, size); }

/* the call, and again if memory was refused */
#define CALL(call)                                                                                 \
    do {                                                                                           \
        uint32_t status = (call);                                                                  \
        if (status == LRC_STORE_NO_MEMORY || status == LRC_STORE_NOT_REBUILT) {                    \
            refused++;                                                                             \
            status = (call);                                                                       \
        }                                                                                          \
        EXPECT(status, LRC_STORE_DONE);                                                            \
    } while (0)

static const char FOX[] = "the quick brown fox jumps over the lazy dog 0123456789";

static void reads(lrc_slot *slot) {
    lrc_slot lent = LRC_SLOT_EMPTY;
    uint64_t version = 0, copied = 0, built = 0, pieces = 0;
    uint8_t got[54];
    CALL(lrc_store_read(slot, NAME("a"), 0, got, 54, &version, &copied, &built));
    EXPECT(memcmp(got, FOX, 54), 0);
    CALL(lrc_store_lend(slot, NAME("a"), 0, 54, &lent, &version, &pieces));
    memset(got, 0, sizeof got);
    EXPECT(gather(&lent, got), 54);
    EXPECT(memcmp(got, FOX, 54), 0);
    lrc_slot_release(&lent);
}

static void holds(lrc_slot *slot) {
    lrc_slot held = LRC_SLOT_EMPTY, lent = LRC_SLOT_EMPTY;
    uint64_t version = 0, len = 0, pieces = 0;
    uint8_t got[54];
    CALL(lrc_store_hold(slot, NAME("a"), &held, &version, &len));
    EXPECT(len, 54);
    CALL(lrc_slot_lend(&held, 0, 54, &lent, &pieces));
    EXPECT(gather(&lent, got), 54);
    EXPECT(memcmp(got, FOX, 54), 0);
    lrc_slot_release(&lent);
    memset(got, 0, sizeof got);
    CALL(lrc_slot_copy(&held, 0, got, 54));
    EXPECT(memcmp(got, FOX, 54), 0);
    CALL(lrc_store_get(slot, NAME("a"), &lent, &version, &len, &pieces));
    EXPECT(gather(&lent, got), 54);
    CALL(lrc_store_restore(slot, &held, 0, 1, (const uint8_t *)FOX + 4, 4, &version));
    CALL(lrc_store_lose(slot, NAME("a"), 0, 1, &version));
    lrc_slot_release(&lent);
    lrc_slot_release(&held);
}

static void run(int has_journal) {
    lrc_slot slot = LRC_SLOT_EMPTY, other = LRC_SLOT_EMPTY, plan = LRC_SLOT_EMPTY;
    lrc_buffer buffer = {(uint8_t *)"", 0};
    uint64_t version = 0, a = 0, b = 0, c = 0;
    uint32_t lawful = 0;
    CALL(has_journal ? lrc_store_open(4, 100, &slot) : lrc_store_open_unjournaled(4, &slot));
    CALL(lrc_store_put(&slot, NAME("a"), (const uint8_t *)FOX, 54, 12, &version));
    CALL(lrc_store_lose(&slot, NAME("a"), 0, 1, &version));
    CALL(lrc_store_lose(&slot, NAME("a"), 1, 0, &version));
    reads(&slot);
    holds(&slot);
    CALL(lrc_store_split(&slot, 5, &other));
    CALL(lrc_store_put(&other, NAME("b"), (const uint8_t *)"0123456789", 10, 6, &version));
    CALL(lrc_store_repair(&other, NAME("a"), 0, 1, &version));
    CALL(lrc_store_plan(&other, &plan, &a));
    EXPECT(a, 1);
    CALL(lrc_store_mend_step(&other, &plan, &version));
    lrc_slot_release(&plan);
    CALL(lrc_store_plan_part(&other, &plan, 1, &a));
    CALL(lrc_store_plan_part(&other, &plan, 1, &a));
    EXPECT(a, 0);
    lrc_slot_release(&plan);
    CALL(lrc_store_trim(&slot, 2, &c));
    CALL(lrc_store_stat(&other, NAME("a"), &version, &a, &b, &c));
    EXPECT(c, 0);
    CALL(lrc_store_delete(&slot, NAME("b"), &version));
    CALL(lrc_store_join(&slot, &other));
    CALL(lrc_slot_reserve(54, &other));
    EXPECT(lrc_slot_buffer(&other, &buffer), LRC_STORE_DONE);
    memcpy(buffer.at, FOX, 54);
    CALL(lrc_store_put_from(&slot, NAME("c"), &other, 12, &version));
    const long before = ahead, met = refused;
    CALL(lrc_store_close_to(&slot, &other, &a, &c, &lawful));
    /* 2 if and only if the check of the journal itself was refused memory, or there is none */
    const int is_refused = before >= 0 && ahead < 0 && refused == met;
    EXPECT(lawful, is_refused || !has_journal ? 2 : 1);
    lrc_slot_release(&other);
    EXPECT(slot.at || other.at || plan.at, 0);
}

/* A put whose arguments are invalid is refused for that, and does not allocate. */
static void arguments_first(void) {
    lrc_slot slot = LRC_SLOT_EMPTY;
    uint64_t version = 0, entries = 0;
    uint32_t lawful = 0;
    EXPECT(lrc_store_open(4, 100, &slot), LRC_STORE_DONE);
    ahead = 0;
    EXPECT(lrc_store_put(&slot, NAME("A"), (const uint8_t *)FOX, 54, 8, &version),
           LRC_STORE_BAD_NAME);
    EXPECT(lrc_store_put(&slot, NAME("a"), (const uint8_t *)FOX, 54, 8, &version),
           LRC_STORE_BAD_ARGUMENT);
    EXPECT(ahead, 0);
    ahead = -1;
    EXPECT(lrc_store_close(&slot, &entries, &lawful), LRC_STORE_DONE);
}

/* Refuses each request in turn, and gives their number. */
static long refuse_each(int has_journal) {
    const long least = has_journal ? 30 : 20;
    long at = 0;
    refused = 0;
    for (; at < 1000; at++) {
        ahead = at;
        run(has_journal);
        if (ahead >= 0) break;
    }
    EXPECT(at > least && at < 1000, 1);
    EXPECT(refused > least, 1);
    printf("%ld requests for memory, %ld calls met a refusal\n", at, refused);
    return at;
}

int main(void) {
    arguments_first();
    EXPECT(refuse_each(0) < refuse_each(1), 1);
    return report("refuse");
}
