/* copies FILE FILE: stores that several copies of the library opened, of this program and of two
 * shared objects, are never joined. Each keeps its blob, and can be closed. */
#include "store_test.h"
#include <dlfcn.h>
#include <stdlib.h>

enum { STORES = 3, WIDTH = 4 };

typedef uint32_t opener(lrc_slot *slot, uint32_t width);

static opener *opener_of(const char *file) {
    void *object = dlopen(file, RTLD_NOW | RTLD_LOCAL);
    opener *found = NULL;
    if (!object) {
        fprintf(stderr, "%s\n", dlerror());
        exit(1);
    }
    *(void **)&found = dlsym(object, "open_store");
    return found;
}

static void still_has_its_blob(lrc_slot *slot) {
    uint64_t version = 0, lent = 0, built = 0;
    uint8_t got[5] = {0};
    EXPECT(lrc_store_read(slot, NAME("kept"), 0, got, 5, &version, &lent, &built), LRC_STORE_DONE);
    EXPECT(memcmp(got, "bytes", 5), 0);
}

int main(int count, char **words) {
    lrc_slot slots[STORES] = {LRC_SLOT_EMPTY, LRC_SLOT_EMPTY, LRC_SLOT_EMPTY};
    uint64_t entries = 0, version = 0;
    uint32_t lawful = 0;
    if (count != STORES) return 2;
    for (int i = 0; i < STORES - 1; i++)
        EXPECT(opener_of(words[i + 1])(&slots[i], WIDTH), LRC_STORE_DONE);
    EXPECT(lrc_store_open(WIDTH, 100, &slots[STORES - 1]), LRC_STORE_DONE);
    EXPECT(
        lrc_store_put(&slots[STORES - 1], NAME("kept"), (const uint8_t *)"bytes", 5, 6, &version),
        LRC_STORE_DONE);
    for (int i = 0; i < STORES; i++)
        for (int j = 0; j < STORES; j++)
            if (i != j) EXPECT(lrc_store_join(&slots[i], &slots[j]), LRC_STORE_BAD_ARGUMENT);
    for (int i = 0; i < STORES; i++) {
        still_has_its_blob(&slots[i]);
        EXPECT(lrc_store_close(&slots[i], &entries, &lawful), LRC_STORE_DONE);
        EXPECT(entries, 2);
        EXPECT(lawful, 1);
    }
    return report("copies");
}
