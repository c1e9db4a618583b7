// What lrc_store.hpp calls in the tests: the waiting forms of the library, behind a record for each
// thread. It is included before lrc_store.hpp.
#ifndef RECORDER_HPP
#define RECORDER_HPP
#include "lrc_store.h"

#include <cstdint>
#include <deque>
#include <string_view>
#include <tuple>
#include <type_traits>
#include <utility>
#include <vector>

namespace recorder {

// The waiting forms that were called, with their timeouts.
inline thread_local std::vector<std::pair<std::string_view, int64_t>> calls;
// What the next waiting forms return, without a call of the library.
inline thread_local std::deque<uint32_t> statuses;

// How many addresses were NULL, which the library may not get.
inline thread_local unsigned nulls = 0;

template <class Argument> bool is_null(Argument argument) {
    if constexpr (std::is_pointer_v<Argument>) return !argument;
    return false;
}

template <class Form, class... Arguments>
uint32_t recorded(const char *name, Form form, Arguments... arguments) {
    nulls += (0u + ... + (is_null(arguments) ? 1u : 0u));
    calls.emplace_back(name, std::get<sizeof...(arguments) - 1>(std::tie(arguments...)));
    if (statuses.empty()) return form(arguments...);
    const uint32_t status = statuses.front();
    statuses.pop_front();
    return status;
}

// What the next closes say of the journal, if it is not 0.
inline thread_local uint32_t lawful = 0;

template <class Close, class... Arguments> uint32_t closing(Close close, Arguments... arguments) {
    const uint32_t status = close(arguments...);
    if (lawful) *std::get<sizeof...(arguments) - 1>(std::tie(arguments...)) = lawful;
    return status;
}

// How many slots were released that were not empty.
inline thread_local unsigned released = 0;

inline void releasing(lrc_slot *slot) {
    released += slot->at != nullptr;
    lrc_slot_release(slot);
}

} // namespace recorder

#define lrc_slot_release(slot) recorder::releasing(slot)
#define lrc_store_close(...) recorder::closing(lrc_store_close, __VA_ARGS__)
#define lrc_store_close_to(...) recorder::closing(lrc_store_close_to, __VA_ARGS__)
#define RECORDED(name, ...) recorder::recorded(#name, lrc_store_##name##_wait, __VA_ARGS__)
#define lrc_store_put_wait(...) RECORDED(put, __VA_ARGS__)
#define lrc_store_put_from_wait(...) RECORDED(put_from, __VA_ARGS__)
#define lrc_store_read_wait(...) RECORDED(read, __VA_ARGS__)
#define lrc_store_lend_wait(...) RECORDED(lend, __VA_ARGS__)
#define lrc_store_get_wait(...) RECORDED(get, __VA_ARGS__)
#define lrc_store_lose_wait(...) RECORDED(lose, __VA_ARGS__)
#define lrc_store_repair_wait(...) RECORDED(repair, __VA_ARGS__)
#define lrc_store_delete_wait(...) RECORDED(delete, __VA_ARGS__)
#define lrc_store_stat_wait(...) RECORDED(stat, __VA_ARGS__)
#define lrc_store_trim_wait(...) RECORDED(trim, __VA_ARGS__)
#define lrc_store_plan_part_wait(...) RECORDED(plan_part, __VA_ARGS__)
#define lrc_store_mend_wait(...) RECORDED(mend, __VA_ARGS__)
#define lrc_store_hold_wait(...) RECORDED(hold, __VA_ARGS__)
#define lrc_store_restore_wait(...) RECORDED(restore, __VA_ARGS__)
#define lrc_store_numbers_wait(...) RECORDED(numbers, __VA_ARGS__)
#define OF_SHARDS(name, ...) recorder::recorded("shards_" #name, lrc_shards_##name, __VA_ARGS__)
#define lrc_shards_numbers(...) OF_SHARDS(numbers, __VA_ARGS__)
#define lrc_shards_trim(...) OF_SHARDS(trim, __VA_ARGS__)
#define lrc_shards_mend(...) OF_SHARDS(mend, __VA_ARGS__)
#define lrc_shards_close(...) recorder::closing(lrc_shards_close, __VA_ARGS__)
#endif
