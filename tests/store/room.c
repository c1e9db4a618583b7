/* What a blob takes of the heap: its stripes of sixteen (or ten) fragments, and little more. A put
 * leaves no second copy of the last stripe, be it from an array or from a buffer that fills no
 * stripe. A small blob is one allocation with its parities. No blob takes more after a loss and its
 * repair, unless a grant shares its bytes. */
#include "store_test.h"
#include <malloc.h>

enum { WIDTH = 65536, LITTLE = 16384 };

static uint8_t blob[3 * 12 * WIDTH];

static size_t in_use(void) {
    const struct mallinfo2 now = mallinfo2();
    return now.uordblks + now.hblkhd;
}

/* How many bytes the fragments of a blob have. */
static size_t fragments_of(size_t len, uint32_t data) {
    const size_t stripe = (size_t)data * WIDTH;
    return (len + stripe - 1) / stripe * (data + 4) * WIDTH;
}

static void put(lrc_slot *slot, size_t len, uint32_t data) {
    uint64_t version = 0;
    EXPECT(lrc_store_put(slot, NAME("blob"), blob, len, data, &version), LRC_STORE_DONE);
}

static void put_from(lrc_slot *slot, size_t len, uint32_t data) {
    lrc_slot own = LRC_SLOT_EMPTY;
    uint64_t version = 0;
    EXPECT(lrc_slot_reserve(len, &own), LRC_STORE_DONE);
    EXPECT(lrc_store_put_from(slot, NAME("blob"), &own, data, &version), LRC_STORE_DONE);
}

/* The blob takes what its fragments take. When it is deleted, that is given back. */
static void takes(void store(lrc_slot *slot, size_t len, uint32_t data), size_t len,
                  uint32_t data) {
    lrc_slot slot = LRC_SLOT_EMPTY;
    uint64_t version = 0;
    size_t before, held;
    EXPECT(lrc_store_open(WIDTH, 8, &slot), LRC_STORE_DONE);
    before = in_use();
    store(&slot, len, data);
    held = in_use() - before;
    EXPECT(held >= fragments_of(len, data), 1);
    EXPECT(held <= fragments_of(len, data) + LITTLE, 1);
    EXPECT(lrc_store_delete(&slot, NAME("blob"), &version), LRC_STORE_DONE);
    EXPECT(in_use() <= before + LITTLE, 1);
    lrc_slot_release(&slot);
}

typedef struct {
    char text[16];
} name;

static name name_of(int i) {
    name made;
    snprintf(made.text, sizeof made.text, "blob%d", i);
    return made;
}

static void put_all(lrc_slot *slot, int blobs, size_t len) {
    for (int i = 0; i < blobs; i++) {
        uint64_t version = 0;
        EXPECT(lrc_store_put(slot, NAME(name_of(i).text), blob, len, 12, &version), LRC_STORE_DONE);
    }
}

static void put_all_from(lrc_slot *slot, int blobs, size_t len) {
    for (int i = 0; i < blobs; i++) {
        lrc_slot own = LRC_SLOT_EMPTY;
        uint64_t version = 0;
        EXPECT(lrc_slot_reserve(len, &own), LRC_STORE_DONE);
        EXPECT(lrc_store_put_from(slot, NAME(name_of(i).text), &own, 12, &version), LRC_STORE_DONE);
    }
}

/* What each of many blobs of 64 bytes takes, with its name in a tree that is half full, as names in
 * order leave it. A list by stripe would take 32 bytes more, and parities of their own 144. */
static void takes_little(void) {
    enum { BLOBS = 1000, BYTES = 64, NARROW = 6, MOST = 354 };
    lrc_slot slot = LRC_SLOT_EMPTY;
    EXPECT(lrc_store_open_unjournaled(NARROW, &slot), LRC_STORE_DONE);
    const size_t before = in_use();
    put_all(&slot, BLOBS, BYTES);
    EXPECT(in_use() - before <= (size_t)BLOBS * MOST, 1);
    lrc_slot_release(&slot);
}

static void lose(lrc_slot *slot, int i, uint64_t stripe, uint64_t fragment) {
    uint64_t version = 0;
    EXPECT(lrc_store_lose(slot, NAME(name_of(i).text), stripe, fragment, &version), LRC_STORE_DONE);
}

static void repair(lrc_slot *slot, int i, uint64_t stripe, uint64_t fragment) {
    uint64_t version = 0;
    EXPECT(lrc_store_repair(slot, NAME(name_of(i).text), stripe, fragment, &version),
           LRC_STORE_DONE);
}

/* Loses and repairs all fragments of a blob but two, one after the other. */
static void mend_all(lrc_slot *slot, int i, uint64_t stripes) {
    for (uint64_t stripe = 0; stripe < stripes; stripe++) {
        for (uint64_t fragment = 0; fragment < 14; fragment++) {
            lose(slot, i, stripe, fragment);
            repair(slot, i, stripe, fragment);
        }
    }
}

/* The same while a byte of it is lent. */
static void mend_all_lent(lrc_slot *slot, int i, uint64_t stripes) {
    lrc_slot lent = LRC_SLOT_EMPTY;
    uint64_t version = 0, pieces = 0;
    EXPECT(lrc_store_lend(slot, NAME(name_of(i).text), 0, 1, &lent, &version, &pieces),
           LRC_STORE_DONE);
    mend_all(slot, i, stripes);
    lrc_slot_release(&lent);
}

/* Blobs take as much after all was lost and repaired as before. With a fragment of each lost they
 * take a name more in the set of those that lack one. */
static void mended_takes_no_more(uint32_t width, size_t len, int blobs,
                                 void store(lrc_slot *slot, int blobs, size_t len),
                                 void mend(lrc_slot *slot, int i, uint64_t stripes)) {
    enum { LACKING = 128 };
    const uint64_t stripes = (len + 12 * width - 1) / (12 * width);
    lrc_slot slot = LRC_SLOT_EMPTY;
    EXPECT(lrc_store_open_unjournaled(width, &slot), LRC_STORE_DONE);
    const size_t before = in_use();
    store(&slot, blobs, len);
    const size_t held = in_use() - before;
    for (int i = 0; i < blobs; i++) mend(&slot, i, stripes);
    EXPECT(in_use() - before <= held + held / 20 + LITTLE, 1);
    for (int i = 0; i < blobs; i++) lose(&slot, i, 0, 3);
    EXPECT(in_use() - before <= held + held / 20 + (size_t)blobs * LACKING + LITTLE, 1);
    for (int i = 0; i < blobs; i++) repair(&slot, i, 0, 3);
    EXPECT(in_use() - before <= held + held / 20 + LITTLE, 1);
    lrc_slot_release(&slot);
}

int main(void) {
    takes_little();
    mended_takes_no_more(6, 64, 1000, put_all, mend_all);
    mended_takes_no_more(86, 1024, 1000, put_all, mend_all);
    mended_takes_no_more(342, 4096, 1000, put_all, mend_all);
    mended_takes_no_more(6, 64, 1000, put_all, mend_all_lent);
    mended_takes_no_more(64, 1 << 20, 2, put_all, mend_all);
    mended_takes_no_more(4096, 100000, 20, put_all, mend_all);
    mended_takes_no_more(4096, 100000, 20, put_all_from, mend_all);
    mended_takes_no_more(WIDTH, sizeof blob, 2, put_all_from, mend_all);
    for (uint32_t data = 6; data <= 12; data += 6) {
        const size_t stripe = (size_t)data * WIDTH;
        const size_t lens[] = {1,      stripe - WIDTH + 1, stripe - 1,
                               stripe, stripe + 1,         3 * stripe - 1};
        for (size_t i = 0; i < sizeof lens / sizeof *lens; i++) takes(put, lens[i], data);
        takes(put_from, stripe - 1, data);
        takes(put_from, stripe, data);
    }
    return report("room");
}
