// Refused memory: malloc, realloc and free of the library, by -Wl,--wrap=malloc,--wrap=realloc,
// --wrap=free. They count what is allocated, and refuse what `Refusals` says, inside of calls only.
#ifndef EDGES_MEMORY_HPP
#define EDGES_MEMORY_HPP

#include <atomic>
#include <cstddef>

// A thread's refusals: all requests pass, or the one `ahead` requests from now is refused.
struct Refusals {
    long ahead = -1;
    bool has_refused = false;
};

inline thread_local Refusals refusals;
inline std::atomic<long> allocated{0};

inline bool is_refused() {
    if (refusals.ahead < 0 || refusals.ahead-- > 0) return false;
    return refusals.has_refused = true;
}

extern "C" {
void *__real_malloc(size_t size);
void *__real_realloc(void *old, size_t size);
void __real_free(void *old);

void *__wrap_malloc(size_t size) {
    void *const made = is_refused() ? nullptr : __real_malloc(size);
    if (made) allocated++;
    return made;
}

void *__wrap_realloc(void *old, size_t size) {
    void *const made = is_refused() ? nullptr : __real_realloc(old, size);
    if (made && !old) allocated++;
    return made;
}

void __wrap_free(void *old) {
    if (old) allocated--;
    __real_free(old);
}
}
#endif
