/* The target has fewer bytes than its length says, and no memory is behind it. */
#include "misuse.h"
#include <sys/mman.h>
#include <unistd.h>

int main(void) {
    lrc_slot slot = LRC_SLOT_EMPTY;
    uint64_t version = 0, lent = 0, built = 0;
    size_t page = (size_t)sysconf(_SC_PAGESIZE);
    uint8_t *at = mmap(NULL, 2 * page, PROT_READ | PROT_WRITE, MAP_PRIVATE | MAP_ANONYMOUS, -1, 0);
    EXPECT(munmap(at + page, page), 0);
    open_store(&slot);
    put(&slot, "a");
    EXPECT(lrc_store_read(&slot, NAME("a"), 0, at + page - 5, 10, &version, &lent, &built),
           LRC_STORE_DONE);
    lrc_slot_release(&slot);
    return report("misuse");
}
