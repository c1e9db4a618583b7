/* Each waiting form beside a thread that stays in the critical section. With a deadline it returns
 * LRC_STORE_BUSY when that has passed, and leaves all as it was. Without one, or with a late one,
 * it returns what its function returns, with arguments and outputs that all differ. Link with
 * -Wl,--wrap=malloc -Wl,--wrap=realloc. */
#include "hold.h"

#include <inttypes.h>

#define UNTOUCHED 0xA5A5A5A5u
#define BLOB "blob-and-more"
#define BLOB_NAME (const uint8_t *)(BLOB), 4

static const uint8_t *bytes(void) {
    static uint8_t all[128];
    fill(all, sizeof all, 9);
    return all;
}

/* A call's slots and outputs. */
struct call {
    lrc_slot slot, other;
    uint64_t outputs[4];
    uint8_t target[64];
};

/* A form: the call, and what it has done if it was made. */
struct form {
    const char *name;
    uint32_t (*make)(struct call *call, int64_t timeout);
    void (*check)(struct call *call);
    int takes_buffer, takes_plan;
};

/* ---- The store: "blob" has version 4, 77 bytes, 2 stripes, and 3 lost fragments. */

static void prepare(struct call *call, const struct form *form) {
    static const uint64_t lost[3][2] = {{0, 5}, {0, 13}, {1, 2}};
    uint64_t version = 0;
    lrc_buffer buffer = {NULL, 0};
    memset(call, 0, sizeof *call);
    for (unsigned i = 0; i < 4; i++) call->outputs[i] = UNTOUCHED;
    EXPECT(lrc_store_open(4, 100, &call->slot), LRC_STORE_DONE);
    for (unsigned i = 0; i < 3; i++)
        EXPECT(lrc_store_put(&call->slot, NAME("other"), bytes(), 9, 6, &version), LRC_STORE_DONE);
    EXPECT(lrc_store_put(&call->slot, BLOB_NAME, bytes(), 77, 12, &version), LRC_STORE_DONE);
    for (unsigned i = 0; i < 3; i++)
        EXPECT(lrc_store_lose(&call->slot, BLOB_NAME, lost[i][0], lost[i][1], &version),
               LRC_STORE_DONE);
    if (form->takes_plan) EXPECT(lrc_store_plan(&call->slot, &call->other, &version), 0);
    if (form->takes_buffer) {
        EXPECT(lrc_slot_reserve(53, &call->other), LRC_STORE_DONE);
        EXPECT(lrc_slot_buffer(&call->other, &buffer), LRC_STORE_DONE);
        memcpy(buffer.at, bytes() + 11, 53);
    }
}

/* ---- The forms. Each one's check is made after the thread has left, and after its put. */

static uint32_t put(struct call *call, int64_t timeout) {
    return lrc_store_put_wait(&call->slot, BLOB_NAME, bytes() + 11, 53, 6, call->outputs, timeout);
}

static uint32_t put_from(struct call *call, int64_t timeout) {
    return lrc_store_put_from_wait(&call->slot, BLOB_NAME, &call->other, 6, call->outputs, timeout);
}

static void check_put(struct call *call) {
    uint64_t version = 0, len = 0, stripes = 0, lost = 0, lent = 0, built = 0;
    uint8_t got[53];
    EXPECT(call->outputs[0], 6);
    EXPECT(call->other.at != NULL, 0);
    EXPECT(lrc_store_stat(&call->slot, BLOB_NAME, &version, &len, &stripes, &lost), 0);
    EXPECT(version * 1000 + len * 10 + stripes, 6533);
    EXPECT(lrc_store_read(&call->slot, BLOB_NAME, 0, got, 53, &version, &lent, &built), 0);
    EXPECT(memcmp(got, bytes() + 11, 53), 0);
}

static uint32_t read_range(struct call *call, int64_t timeout) {
    return lrc_store_read_wait(&call->slot, BLOB_NAME, 17, call->target, 30, &call->outputs[0],
                               &call->outputs[1], &call->outputs[2], timeout);
}

static void check_read(struct call *call) {
    EXPECT(call->outputs[0], 4);
    EXPECT(call->outputs[1], 26);
    EXPECT(call->outputs[2], 4);
    EXPECT(memcmp(call->target, bytes() + 17, 30), 0);
    EXPECT(call->target[30], 0);
}

static uint32_t lend(struct call *call, int64_t timeout) {
    return lrc_store_lend_wait(&call->slot, BLOB_NAME, 17, 30, &call->other, &call->outputs[0],
                               &call->outputs[1], timeout);
}

static void check_lend(struct call *call) {
    uint8_t got[64];
    EXPECT(call->outputs[0], 4);
    EXPECT(call->outputs[1], 8);
    EXPECT(gather(&call->other, got), 30);
    EXPECT(memcmp(got, bytes() + 17, 30), 0);
}

static uint32_t lose(struct call *call, int64_t timeout) {
    return lrc_store_lose_wait(&call->slot, BLOB_NAME, 1, 7, call->outputs, timeout);
}

static void check_lose(struct call *call) {
    uint64_t version = 0;
    EXPECT(call->outputs[0], 4);
    EXPECT(lrc_store_repair(&call->slot, BLOB_NAME, 1, 7, &version), LRC_STORE_DONE);
}

static uint32_t repair(struct call *call, int64_t timeout) {
    return lrc_store_repair_wait(&call->slot, BLOB_NAME, 1, 2, call->outputs, timeout);
}

static void check_repair(struct call *call) {
    uint64_t version = 0;
    EXPECT(call->outputs[0], 4);
    EXPECT(lrc_store_repair(&call->slot, BLOB_NAME, 1, 2, &version), LRC_STORE_NOT_LOST);
}

static uint32_t delete_blob(struct call *call, int64_t timeout) {
    return lrc_store_delete_wait(&call->slot, BLOB_NAME, call->outputs, timeout);
}

static void check_delete(struct call *call) {
    uint64_t version = 0;
    EXPECT(call->outputs[0], 4);
    EXPECT(lrc_store_delete(&call->slot, BLOB_NAME, &version), LRC_STORE_NO_NAME);
}

static uint32_t stat_blob(struct call *call, int64_t timeout) {
    return lrc_store_stat_wait(&call->slot, BLOB_NAME, &call->outputs[0], &call->outputs[1],
                               &call->outputs[2], &call->outputs[3], timeout);
}

static void check_stat(struct call *call) {
    static const uint64_t wanted[] = {4, 77, 2, 3};
    for (unsigned i = 0; i < 4; i++) EXPECT(call->outputs[i], wanted[i]);
}

static uint32_t trim(struct call *call, int64_t timeout) {
    return lrc_store_trim_wait(&call->slot, 2, call->outputs, timeout);
}

/* The journal had 7 entries, and got one more by the other thread's put. */
static void check_trim(struct call *call) { EXPECT(call->outputs[0], 6); }

static uint32_t plan(struct call *call, int64_t timeout) {
    return lrc_store_plan_wait(&call->slot, &call->other, call->outputs, timeout);
}

static void check_plan(struct call *call) {
    uint64_t version = 0;
    EXPECT(call->outputs[0], 3);
    for (unsigned i = 0; i < 3; i++)
        EXPECT(lrc_store_mend_step(&call->slot, &call->other, &version), LRC_STORE_DONE);
    EXPECT(lrc_store_mend_step(&call->slot, &call->other, &version), LRC_STORE_NOTHING_LEFT);
}

static uint32_t mend_step(struct call *call, int64_t timeout) {
    return lrc_store_mend_step_wait(&call->slot, &call->other, call->outputs, timeout);
}

static void check_mend_step(struct call *call) {
    uint64_t version = 0;
    EXPECT(call->outputs[0], 4);
    EXPECT(lrc_store_repair(&call->slot, BLOB_NAME, 0, 5, &version), LRC_STORE_NOT_LOST);
}

static uint32_t get_whole(struct call *call, int64_t timeout) {
    return lrc_store_get_wait(&call->slot, BLOB_NAME, &call->other, &call->outputs[0],
                              &call->outputs[1], &call->outputs[2], timeout);
}

static void check_get(struct call *call) {
    uint8_t got[128];
    EXPECT(call->outputs[0], 4);
    EXPECT(call->outputs[1], 77);
    EXPECT(call->outputs[2], 20);
    EXPECT(gather(&call->other, got), 77);
    EXPECT(memcmp(got, bytes(), 77), 0);
}

static const struct form FORMS[] = {
    {"put", put, check_put, 0, 0},          {"put_from", put_from, check_put, 1, 0},
    {"read", read_range, check_read, 0, 0}, {"lend", lend, check_lend, 0, 0},
    {"get", get_whole, check_get, 0, 0},    {"lose", lose, check_lose, 0, 0},
    {"repair", repair, check_repair, 0, 0}, {"delete", delete_blob, check_delete, 0, 0},
    {"stat", stat_blob, check_stat, 0, 0},  {"trim", trim, check_trim, 0, 0},
    {"plan", plan, check_plan, 0, 0},       {"mend_step", mend_step, check_mend_step, 0, 1}};
enum { FORM_COUNT = sizeof FORMS / sizeof *FORMS, SLACK_MS = 60000, STAY_MS = 30 };

/* Says which form and deadline an earlier message is about. */
static void name_wrong(const struct form *form, int64_t timeout, long before) {
    if (wrong != before) fprintf(stderr, "in %s_wait, timeout %" PRId64 "\n", form->name, timeout);
}

/* The thread stays for longer than the deadline. What was in a slot is still there, unchanged. */
static void gives_up(const struct form *form, int64_t timeout, long passes) {
    const long before = wrong;
    struct call call;
    struct hold hold = {LRC_SLOT_EMPTY, 0, 0, 0};
    int64_t took;
    prepare(&call, form);
    EXPECT(lrc_store_split(&call.slot, 1, &hold.slot), LRC_STORE_DONE);
    hold_start(&hold, passes, -1);
    took = milliseconds();
    EXPECT(form->make(&call, timeout), LRC_STORE_BUSY);
    took = milliseconds() - took;
    EXPECT(took >= timeout && took <= timeout + SLACK_MS, 1);
    hold_end(&hold);
    for (unsigned i = 0; i < 4; i++) EXPECT(call.outputs[i], UNTOUCHED);
    for (unsigned i = 0; i < sizeof call.target; i++) EXPECT(call.target[i], 0);
    EXPECT(call.other.at != NULL, form->takes_buffer || form->takes_plan);
    EXPECT(form->make(&call, timeout), LRC_STORE_DONE);
    form->check(&call);
    lrc_slot_release(&call.other);
    lrc_slot_release(&hold.slot);
    lrc_slot_release(&call.slot);
    name_wrong(form, timeout, before);
}

/* The thread leaves before the deadline. */
static void waits(const struct form *form, int64_t timeout, long passes) {
    const long before = wrong;
    struct call call;
    struct hold hold = {LRC_SLOT_EMPTY, 0, 0, 0};
    prepare(&call, form);
    EXPECT(lrc_store_split(&call.slot, 1, &hold.slot), LRC_STORE_DONE);
    hold_start(&hold, passes, STAY_MS);
    EXPECT(form->make(&call, timeout), LRC_STORE_DONE);
    hold_end(&hold);
    form->check(&call);
    lrc_slot_release(&call.other);
    lrc_slot_release(&hold.slot);
    lrc_slot_release(&call.slot);
    name_wrong(form, timeout, before);
}

int main(void) {
    static const int64_t passing[] = {0, 1, 25};
    static const int64_t late[] = {-1, INT64_MIN, INT64_MAX, 600000};
    const long passes = hold_passes();
    for (unsigned form = 0; form < FORM_COUNT && !wrong; form++) {
        for (unsigned i = 0; i < 3; i++) gives_up(&FORMS[form], passing[i], passes);
        for (unsigned i = 0; i < 4; i++) waits(&FORMS[form], late[i], passes);
    }
    if (!wrong) printf("waits: %d forms, 7 deadlines each\n", FORM_COUNT);
    return report("waits");
}
