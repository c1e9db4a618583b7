/* Counts the blocks of memory that the store's library has. tests/store/counted.sh links this file
 * into it, with --wrap of malloc, calloc, realloc and free. The two numbers are in the file that
 * LRC_COUNTED names, so a test in any language reads them, also once the process has ended: how
 * many blocks there are, and how many there were. */
#include <fcntl.h>
#include <stdatomic.h>
#include <stdint.h>
#include <stdlib.h>
#include <sys/mman.h>
#include <unistd.h>

struct numbers {
    _Atomic int64_t blocks, made;
};

static struct numbers of_process, *numbers = &of_process;

/* Runs before all constructors of C++. */
__attribute__((constructor(101))) static void share(void) {
    const char *path = getenv("LRC_COUNTED");
    const int file = path ? open(path, O_RDWR | O_CREAT | O_CLOEXEC, 0600) : -1;
    if (file < 0 || ftruncate(file, sizeof *numbers)) return;
    void *at = mmap(NULL, sizeof *numbers, PROT_READ | PROT_WRITE, MAP_SHARED, file, 0);
    if (at != MAP_FAILED) numbers = at;
    close(file);
}

static void *made(void *block) {
    if (!block) return NULL;
    numbers->blocks++;
    numbers->made++;
    return block;
}

void *__real_malloc(size_t size);
void *__wrap_malloc(size_t size);
void *__wrap_malloc(size_t size) { return made(__real_malloc(size)); }

void *__real_calloc(size_t count, size_t size);
void *__wrap_calloc(size_t count, size_t size);
void *__wrap_calloc(size_t count, size_t size) { return made(__real_calloc(count, size)); }

/* A block that grows or shrinks stays one. None is made by it of no bytes. */
void *__real_realloc(void *old, size_t size);
void *__wrap_realloc(void *old, size_t size);
void *__wrap_realloc(void *old, size_t size) {
    void *block = __real_realloc(old, size);
    return old ? block : made(block);
}

void __real_free(void *block);
void __wrap_free(void *block);
void __wrap_free(void *block) {
    if (block) numbers->blocks--;
    __real_free(block);
}
