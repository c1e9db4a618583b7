/* What a repair and a degraded read take of the remaining fragments, counted: the store's large
 * blocks of memory fill pages of their own, and no page can be read before a fault is counted. A
 * fragment that is alone lost in its group is made of the others of the group, and every other one
 * of as many as there are data fragments. */
#define _GNU_SOURCE /* the registers of a fault */
#include "store_test.h"
#include <signal.h>
#include <sys/mman.h>
#include <ucontext.h>

enum { PAGE = 4096, PAGES = 4, WIDTH = PAGES * PAGE, LARGE = 4 * WIDTH, BLOCKS = 64 };
enum { WRITES = 2 }; /* the bit of a fault's code */

typedef struct {
    uint8_t *at;
    size_t len;
} block;

static block blocks[BLOCKS];
static volatile size_t pages_read;
static uint8_t blob[12 * WIDTH], target[12 * WIDTH];

static size_t whole_pages(size_t len) { return (len + PAGE - 1) / PAGE * PAGE; }

static block *block_of(const void *at) {
    for (block *each = blocks; each < blocks + BLOCKS; each++)
        if (each->len && (const uint8_t *)at >= each->at &&
            (const uint8_t *)at < each->at + each->len)
            return each;
    return NULL;
}

static void *large(size_t len) {
    block *each = blocks;
    while (each->len && each < blocks + BLOCKS - 1) each++;
    const size_t bytes = whole_pages(len);
    void *at = mmap(NULL, bytes, PROT_READ | PROT_WRITE, MAP_PRIVATE | MAP_ANONYMOUS, -1, 0);
    if (each->len || at == MAP_FAILED) abort();
    *each = (block){at, bytes};
    return at;
}

void *__real_malloc(size_t len);
void *__wrap_malloc(size_t len);
void *__wrap_malloc(size_t len) { return len < LARGE ? __real_malloc(len) : large(len); }

void __real_free(void *at);
void __wrap_free(void *at);
void __wrap_free(void *at) {
    block *each = at ? block_of(at) : NULL;
    if (!each) {
        __real_free(at);
        return;
    }
    munmap(each->at, each->len);
    each->len = 0;
}

/* A large block that grows or shrinks is copied. */
void *__real_realloc(void *old, size_t len);
void *__wrap_realloc(void *old, size_t len);
void *__wrap_realloc(void *old, size_t len) {
    const block *each = old ? block_of(old) : NULL;
    if (!each && len < LARGE) return __real_realloc(old, len);
    uint8_t *at = __wrap_malloc(len);
    const size_t had = each ? each->len : len;
    if (old) memcpy(at, old, had < len ? had : len);
    __wrap_free(old);
    return at;
}

/* Counts the first read of a page, and lets what caused the fault go on. */
static void on_fault(int number, siginfo_t *info, void *context) {
    const ucontext_t *machine = context;
    const int is_write = (machine->uc_mcontext.gregs[REG_ERR] & WRITES) != 0;
    uint8_t *page = (uint8_t *)((uintptr_t)info->si_addr / PAGE * PAGE);
    (void)number;
    if (!block_of(page) || mprotect(page, PAGE, is_write ? PROT_READ | PROT_WRITE : PROT_READ) != 0)
        _Exit(2);
    pages_read += !is_write;
}

static void protect(int allowed) {
    for (const block *each = blocks; each < blocks + BLOCKS; each++)
        if (each->len && mprotect(each->at, each->len, allowed) != 0) abort();
}

/* From here on every page that is read is counted. */
static void watch(void) {
    pages_read = 0;
    protect(PROT_NONE);
}

/* How many fragments were read since. A part of one counts as one. */
static size_t fragments_read(void) {
    protect(PROT_READ | PROT_WRITE);
    return (pages_read + PAGES - 1) / PAGES;
}

typedef struct {
    uint32_t data;
    uint16_t lost;
    uint8_t fragment; /* the one that is read and repaired */
    uint8_t reads;
} lost_set;

static const lost_set SETS[] = {
    {12, 1 << 0, 0, 6},
    {12, 1 << 5, 5, 6},
    {12, 1 << 11, 11, 6},
    {12, 1 << 12, 12, 6},
    {12, 1 << 13, 13, 6},
    {12, 1 << 14, 14, 12},
    {12, 1 << 15, 15, 12},
    {12, 1 << 0 | 1 << 6, 0, 6},
    {12, 1 << 0 | 1 << 6, 6, 6},
    {12, 1 << 0 | 1 << 14 | 1 << 15, 0, 6},
    {12, 1 << 0 | 1 << 1, 0, 12},
    {12, 1 << 0 | 1 << 1, 1, 12},
    {12, 1 << 0 | 1 << 1 | 1 << 6, 6, 6},
    {12, 1 << 0 | 1 << 1 | 1 << 6 | 1 << 7, 7, 12},
    {6, 1 << 0, 0, 3},
    {6, 1 << 4, 4, 3},
    {6, 1 << 6, 6, 3},
    {6, 1 << 8, 8, 6},
    {6, 1 << 0 | 1 << 1, 1, 6},
};

static void lose_all(lrc_slot *slot, const lost_set *set) {
    uint64_t version = 0;
    for (uint64_t i = 0; i < 16; i++)
        if (set->lost >> i & 1)
            EXPECT(lrc_store_lose(slot, NAME("s"), 0, i, &version), LRC_STORE_DONE);
}

/* A degraded read of the bytes of a lost data fragment. */
static void reads_few(lrc_slot *slot, const lost_set *set) {
    uint64_t version = 0, lent = 0, built = 0;
    const uint64_t from = (uint64_t)set->fragment * WIDTH;
    watch();
    const uint32_t status =
        lrc_store_read(slot, NAME("s"), from, target, WIDTH, &version, &lent, &built);
    EXPECT(fragments_read(), set->reads);
    EXPECT(status, LRC_STORE_DONE);
    EXPECT(built, WIDTH);
    EXPECT(memcmp(target, blob + from, WIDTH), 0);
}

static void repairs_by_few(lrc_slot *slot, const lost_set *set) {
    uint64_t version = 0;
    watch();
    const uint32_t status = lrc_store_repair(slot, NAME("s"), 0, set->fragment, &version);
    EXPECT(fragments_read(), set->reads);
    EXPECT(status, LRC_STORE_DONE);
}

/* A whole blob is read from its data fragments alone. */
static void reads_whole(lrc_slot *slot, uint32_t data) {
    uint64_t version = 0, lent = 0, built = 0;
    watch();
    const uint32_t status =
        lrc_store_read(slot, NAME("s"), 0, target, data * WIDTH, &version, &lent, &built);
    EXPECT(fragments_read(), data);
    EXPECT(status, LRC_STORE_DONE);
}

static void one_set(lrc_slot *slot, const lost_set *set) {
    uint64_t version = 0;
    fill(blob, set->data * WIDTH, set->lost);
    EXPECT(lrc_store_put(slot, NAME("s"), blob, set->data * WIDTH, set->data, &version),
           LRC_STORE_DONE);
    reads_whole(slot, set->data);
    lose_all(slot, set);
    if (set->fragment < set->data) reads_few(slot, set);
    repairs_by_few(slot, set);
}

int main(void) {
    struct sigaction action = {.sa_sigaction = on_fault, .sa_flags = SA_SIGINFO};
    lrc_slot slot = LRC_SLOT_EMPTY;
    sigaction(SIGSEGV, &action, NULL);
    EXPECT(lrc_store_open_unjournaled(WIDTH, &slot), LRC_STORE_DONE);
    for (size_t i = 0; i < sizeof SETS / sizeof *SETS; i++) one_set(&slot, &SETS[i]);
    lrc_slot_release(&slot);
    return report("reads");
}
