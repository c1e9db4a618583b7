// The store from C++: arguments, errors, buffers, grants, whole reads, timeouts, mends, journals.
#include "recorder.hpp"
#include "lrc_store.hpp"

#include <algorithm>
#include <atomic>
#include <chrono>
#include <cstdlib>
#include <fstream>
#include <iostream>
#include <memory>
#include <optional>
#include <set>
#include <string>
#include <functional>
#include <thread>
#include <tuple>
#include <vector>

namespace {

using lrc::session;
using std::chrono::milliseconds;

int wrong = 0;

template <class Got, class Wanted> void expect(int line, const Got &got, const Wanted &wanted) {
    if (got == wanted) return;
    std::cerr << "bindings.cpp:" << line << ": " << got << ", expected " << wanted << '\n';
    wrong++;
    if (std::getenv("LRC_FIRST_FAILURE")) std::_Exit(1);
}
#define EXPECT(got, wanted) expect(__LINE__, got, wanted)

// What a call throws: the status and the text.
template <class Call> void expect_error(int line, Call call, uint32_t status, std::string text) {
    try {
        call();
        expect(line, "no error", text);
    } catch (const lrc::store_error &error) {
        expect(line, error.status, status);
        expect(line, std::string(error.what()), text + ": " + lrc_store_text(status));
    }
}
#define EXPECT_ERROR(call, status, text)                                                           \
    expect_error(                                                                                  \
        __LINE__, [&] { call; }, status, text)

std::string bytes_of(size_t len) {
    std::string blob(len, '\0');
    for (size_t i = 0; i < len; i++) blob[i] = static_cast<char>(i * 7 + i / 251);
    return blob;
}

std::string text_of(lrc_slice bytes) {
    return {reinterpret_cast<const char *>(bytes.at), bytes.len};
}

void errors() {
    EXPECT_ERROR(session::open(0), LRC_STORE_BAD_WIDTH, "open(0)");
    EXPECT_ERROR(session::open(0, 10), LRC_STORE_BAD_WIDTH, "open(0, 10)");
    EXPECT_ERROR(session::open(4, 0), LRC_STORE_BAD_ARGUMENT, "open(4, 0)");
    session s = session::open(1, 100);
    s.put("a", std::string(20, 'x'));
    s.lose("a", 1, 4);
    EXPECT_ERROR(s.put("A", "xyz"), LRC_STORE_BAD_NAME, "put(\"A\", 3, 12)");
    EXPECT_ERROR(s.put("b", "x", 7), LRC_STORE_BAD_ARGUMENT, "put(\"b\", 1, 7)");
    EXPECT_ERROR(s.put("a", std::string(49153, 'x')), LRC_STORE_TOO_LONG, "put(\"a\", 49153, 12)");
    EXPECT_ERROR(s.stat("none"), LRC_STORE_NO_NAME, "stat(\"none\")");
    EXPECT_ERROR(s.stat(std::string_view()), LRC_STORE_BAD_NAME, "stat(\"\")");
    EXPECT_ERROR(s.get("none"), LRC_STORE_NO_NAME, "get(\"none\")");
    EXPECT_ERROR(s.remove("none"), LRC_STORE_NO_NAME, "remove(\"none\")");
    EXPECT_ERROR(s.read("a", 9, 12), LRC_STORE_OUT_OF_RANGE, "read(\"a\", 9, 12)");
    EXPECT_ERROR(s.lose("a", 2, 3), LRC_STORE_NO_FRAGMENT, "lose(\"a\", 2, 3)");
    EXPECT_ERROR(s.lose("a", 1, 4), LRC_STORE_ALREADY_LOST, "lose(\"a\", 1, 4)");
    EXPECT_ERROR(s.repair("a", 0, 5), LRC_STORE_NOT_LOST, "repair(\"a\", 0, 5)");
    std::string target(12, 'T');
    EXPECT_ERROR(s.read_into("a", 9, target.data(), 12), LRC_STORE_OUT_OF_RANGE,
                 "read_into(\"a\", 9, 12)");
    EXPECT(target, std::string(12, 'T'));
    for (uint64_t fragment = 0; fragment < 5; fragment++) s.lose("a", 0, fragment);
    EXPECT_ERROR(s.get("a"), LRC_STORE_UNRECOVERABLE, "get(\"a\")");
    EXPECT_ERROR(lrc::buffer(SIZE_MAX), LRC_STORE_NO_MEMORY,
                 "reserve(" + std::to_string(SIZE_MAX) + ")");
    EXPECT_ERROR(lrc::journal().entry(3), LRC_STORE_EMPTY, "entry(3)");
}

void sessions() {
    session first = session::open(4, 100), other = session::open(4, 100);
    EXPECT_ERROR(first.join(std::move(first)), LRC_STORE_BAD_ARGUMENT, "join()");
    EXPECT_ERROR(first.join(std::move(other)), LRC_STORE_BAD_ARGUMENT, "join()");
    EXPECT_ERROR(first.learn(other), LRC_STORE_BAD_ARGUMENT, "learn()");
    first.learn(first);
    EXPECT(other.put("a", "x"), 1u);
    std::vector<session> parts;
    for (uint32_t who = 0; who < 63; who++) parts.push_back(first.split(who));
    EXPECT_ERROR(first.split(77), LRC_STORE_NO_PASS, "split(77)");
    EXPECT_ERROR(first.close(), LRC_STORE_NOT_ALONE, "close()");
    EXPECT_ERROR(first.close_to_journal(), LRC_STORE_NOT_ALONE, "close_to_journal()");
    for (session &part : parts) {
        first.learn(part);
        first.join(std::move(part));
    }
    EXPECT_ERROR(first.learn(parts[0]), LRC_STORE_EMPTY, "learn()");
    EXPECT_ERROR(first.join(std::move(parts[0])), LRC_STORE_EMPTY, "join()");
    session moved = std::move(first);
    EXPECT_ERROR(first.stat("a"), LRC_STORE_EMPTY, "stat(\"a\")");
    moved.put("a", "x");
    first = std::move(moved);
    EXPECT(first.get("a"), "x");
    const lrc::closed closed = first.close();
    EXPECT(closed.entries, 2u);
    EXPECT(closed.is_checked, true);
}

void buffers() {
    session s = session::open(4, 100);
    lrc::buffer blob(54);
    EXPECT(blob.size(), 54u);
    EXPECT(std::count(blob.data(), blob.data() + 54, 0), 54);
    std::fill_n(blob.data(), blob.size(), uint8_t{'x'});
    for (int i = 0; i < 2; i++) {
        EXPECT_ERROR(s.put("BAD", blob, 6), LRC_STORE_BAD_NAME, "put(\"BAD\", 54, 6)");
        EXPECT(blob.size(), 0u);
    }
    EXPECT(s.put("fox", blob, 6), 1u);
    EXPECT(blob.size(), 0u);
    EXPECT(s.stat("fox").stripes, 3u); // of 6 times 4 bytes
    EXPECT(s.get("fox"), std::string(54, 'x'));
    EXPECT_ERROR(s.put("fox", blob), LRC_STORE_EMPTY, "put(\"fox\", 54, 12)");
    lrc::buffer other(49);
    EXPECT(s.put("dog", other), 2u);
    EXPECT(s.stat("dog").stripes, 2u); // of 12 times 4 bytes
}

// A store with the blobs "old" and "a", which is degraded and has version 2.
session degraded(const std::string &blob) {
    session s = session::open(4, 1000);
    EXPECT(s.put("old", "x", 6), 1u);
    EXPECT(s.put("a", blob), 2u);
    const uint64_t lost[][2] = {{0, 1}, {0, 2}, {2, 11}, {3, 13}};
    for (const auto &place : lost) EXPECT(s.lose("a", place[0], place[1]), 2u);
    return s;
}

void reads() {
    const std::string blob = bytes_of(200);
    session s = degraded(blob);
    const auto [version, len, stripes, lost] = s.stat("a");
    EXPECT(version, 2u);
    EXPECT(len, 200u);
    EXPECT(stripes, 5u);
    EXPECT(lost, 4u);
    std::string target(100, 'T');
    EXPECT(s.read_into("a", 3, target.data() + 10, 80), 2u);
    EXPECT(target, std::string(10, 'T') + blob.substr(3, 80) + std::string(10, 'T'));
    EXPECT(s.read_into("old", 0, target.data(), 1), 1u);
    EXPECT(target[0], 'x');
    EXPECT(s.read_into("a", 200, nullptr, 0), 2u);
    EXPECT(s.get("a"), blob);
    const lrc::grant all = s.read("a", 0, 200);
    EXPECT(all.runs().size(), 12u + 1u + 12u + 12u + 1u); // three stripes have lost fragments
    EXPECT(all.str(), blob);
    lrc::grant grant = s.read("a", 3, 80);
    EXPECT(s.repair("a", 0, 1), 2u);
    EXPECT(s.remove("a"), 2u);
    EXPECT(grant.version(), 2u);
    EXPECT(grant.slices().size() > 1, true);
    EXPECT(grant.str(), blob.substr(3, 80));
    std::string joined;
    for (const lrc_slice &piece : grant.slices()) joined += text_of(piece);
    EXPECT(joined, grant.str());
    EXPECT(grant.slices().back().len > 0, true);
    joined.clear();
    for (const lrc_slice &run : grant.runs()) joined += text_of(run);
    EXPECT(joined, grant.str());
    EXPECT(grant.runs().size(), 12u + 1u); // the first stripe has lost fragments
    EXPECT(s.read("old", 1, 0).runs().size(), 0u);
    EXPECT(s.read("old", 1, 0).slices().size(), 0u);
    EXPECT(grant.str().capacity() < 100, true); // reserved: doubling from 15 gives 120
    EXPECT(s.read("old", 1, 0).str(), "");
    for (size_t each : {0u, 1u, 47u, 48u, 49u, 10000u}) {
        s.put("b", bytes_of(each), 6);
        EXPECT(s.get("b"), bytes_of(each));
        lrc::grant whole = s.read("b", 0, each);
        EXPECT(whole.runs().size(), each > 0 ? 1u : 0u);
        EXPECT(whole.slices().size(), (each + 3) / 4); // of fragments of 4 bytes
        EXPECT(whole.str(), bytes_of(each));
    }
    s.put("c", std::string_view());
    EXPECT(s.stat("c").len, 0u);
}

void versions() {
    const std::string blob = bytes_of(200);
    session s = degraded(blob);
    lrc::version held = s.hold("a");
    EXPECT(held.number(), 2u);
    EXPECT(held.size(), 200u);
    s.put("a", "other");
    s.remove("old");
    const lrc_shape shape = held.shape();
    EXPECT(shape.version, 2u);
    EXPECT(shape.len, 200u);
    EXPECT(shape.stripes, 5u);
    EXPECT(shape.lost, 4u);
    EXPECT(shape.width, 4u);
    EXPECT(shape.data_fragments, 12u);
    EXPECT(held.lost(0), 1u << 1 | 1u << 2);
    EXPECT(held.lost(1), 0u);
    EXPECT(held.lost(2), 1u << 11);
    lrc::grant grant = held.read(3, 80);
    EXPECT(grant.version(), 2u);
    EXPECT(grant.str(), blob.substr(3, 80));
    EXPECT(grant.slices().size() > 1, true);
    EXPECT(held.read(0, 200).str(), blob);
    std::string target(80, 'T');
    held.read_into(3, target.data(), 80);
    EXPECT(target, blob.substr(3, 80));
    held.read_into(200, nullptr, 0);
    EXPECT_ERROR(held.read_into(1, target.data(), 200), LRC_STORE_OUT_OF_RANGE,
                 "read_into(1, 200)");
    EXPECT(text_of(held.fragment(1, 2)), blob.substr(48 + 8, 4));
    EXPECT(held.fragment(0, 15).len, 4u);
    EXPECT_ERROR(held.read(1, 200), LRC_STORE_OUT_OF_RANGE, "read(1, 200)");
    EXPECT_ERROR(held.fragment(0, 1), LRC_STORE_ALREADY_LOST, "fragment(0, 1)");
    EXPECT_ERROR(held.fragment(5, 1), LRC_STORE_NO_FRAGMENT, "fragment(5, 1)");
    EXPECT_ERROR(held.lost(5), LRC_STORE_NO_FRAGMENT, "lost(5)");
    EXPECT_ERROR(s.hold("old"), LRC_STORE_NO_NAME, "hold(\"old\")");
    lrc::version none = std::move(held);
    EXPECT_ERROR(held.shape(), LRC_STORE_EMPTY, "shape()");
    EXPECT(none.read(0, 200).str(), blob);
}

void restores() {
    const std::string blob = bytes_of(96);
    session s = session::open(4, 1000), other = session::open(4, 1000);
    EXPECT(s.put("a", blob), 1u);
    lrc::version whole = s.hold("a");
    s.lose("a", 1, 3);
    const std::string fragment = text_of(whole.fragment(1, 3));
    EXPECT_ERROR(s.restore(whole, 1, 3, "abc"), LRC_STORE_BAD_ARGUMENT, "restore(1, 3, 3)");
    EXPECT_ERROR(s.restore(whole, 0, 3, blob.substr(12, 4)), LRC_STORE_NOT_LOST,
                 "restore(0, 3, 4)");
    EXPECT_ERROR(other.restore(whole, 1, 3, fragment), LRC_STORE_BAD_ARGUMENT, "restore(1, 3, 4)");
    recorder::statuses = {LRC_STORE_BUSY};
    recorder::calls.clear();
    s.set_timeout(milliseconds(7));
    EXPECT_ERROR(s.restore(whole, 1, 3, fragment), LRC_STORE_BUSY, "restore(1, 3, 4)");
    EXPECT(recorder::calls.back().second, 7);
    EXPECT(s.restore(whole, 1, 3, fragment), 1u);
    EXPECT(s.get("a"), blob);
    EXPECT(s.hold("a").lost(1), 0u);
    for (uint64_t f = 0; f < 5; f++) s.lose("a", 1, f);
    EXPECT_ERROR(s.repair("a", 1, 3), LRC_STORE_UNRECOVERABLE, "repair(\"a\", 1, 3)");
    EXPECT(s.restore(whole, 1, 3, fragment), 1u);
    s.put("a", blob);
    EXPECT_ERROR(s.restore(whole, 1, 3, fragment), LRC_STORE_REPLACED, "restore(1, 3, 4)");
}

void numbers() {
    session s = degraded(bytes_of(200));
    lrc_numbers found = s.numbers();
    EXPECT(found.blobs, 2u);
    EXPECT(found.bytes, 201u);
    EXPECT(found.lost, 4u);
    EXPECT(found.unrecoverable, 0u);
    EXPECT(found.calls, 6u);
    EXPECT(found.entries, 6u);
    for (uint64_t fragment = 3; fragment < 6; fragment++) s.lose("a", 0, fragment);
    s.trim(5);
    found = s.numbers();
    EXPECT(found.lost, 7u);
    EXPECT(found.unrecoverable, 1u);
    EXPECT(found.calls, 9u);
    EXPECT(found.entries, 5u);
}

void names() {
    EXPECT(lrc::name_of(""), "................................");
    EXPECT(lrc::name_of(std::string_view()), lrc::name_of(""));
    EXPECT(lrc::name_of("Some Key/1"), lrc::name_of("Some Key/1"));
    EXPECT(lrc::name_of("Some Key/1") != lrc::name_of("Some Key/2"), true);
    session s = session::open(4);
    s.put(lrc::name_of("Some Key/1"), "x");
    EXPECT(s.get(lrc::name_of("Some Key/1")), "x");
}

void get_copies_all() {
    session s = session::open(4, 1000);
    const std::string blob = bytes_of(2000);
    s.put("a", blob);
    EXPECT(s.get("a"), blob);
    for (uint64_t stripe = 0; stripe < 42; stripe++) s.lose("a", stripe, 3);
    EXPECT(s.get("a"), blob);
    s.put("a", "");
    EXPECT(s.get("a"), "");
}

struct waiting_call {
    const char *form;
    std::string text;
    std::function<void()> call;
};

std::vector<waiting_call> waiting_calls(session &s, lrc::buffer &blob, char *target) {
    return {
        {"put", "put(\"a\", 5, 6)", [&] { s.put("a", "HELLO", 6); }},
        {"put_from", "put(\"b\", 7, 12)", [&] { s.put("b", blob); }},
        {"lend", "read(\"a\", 1, 3)", [&] { s.read("a", 1, 3); }},
        {"read", "read_into(\"a\", 1, 3)", [&s, target] { s.read_into("a", 1, target, 3); }},
        {"lose", "lose(\"a\", 0, 9)", [&] { s.lose("a", 0, 9); }},
        {"repair", "repair(\"a\", 0, 9)", [&] { s.repair("a", 0, 9); }},
        {"delete", "remove(\"b\")", [&] { s.remove("b"); }},
        {"stat", "stat(\"a\")", [&] { s.stat("a"); }},
        {"trim", "trim(2)", [&] { s.trim(2); }},
        {"hold", "get(\"a\")", [&] { s.get("a"); }},
        {"mend", "mend() after 0 repaired fragments", [&] { s.mend(); }},
        {"hold", "hold(\"a\")", [&] { s.hold("a"); }},
        {"plan_part", "lost_fragments()", [&] { s.lost_fragments(); }},
        {"numbers", "numbers()", [&] { s.numbers(); }},
    };
}

void each_call_has_the_timeout(session &s, int64_t wanted) {
    lrc::buffer blob(7);
    char target[3];
    for (const waiting_call &each : waiting_calls(s, blob, target)) {
        recorder::calls.clear();
        each.call();
        EXPECT(recorder::calls.front().first, each.form);
        for (const auto &made : recorder::calls) EXPECT(made.second, wanted);
        recorder::statuses = {LRC_STORE_BUSY};
        EXPECT_ERROR(each.call(), LRC_STORE_BUSY, each.text);
        EXPECT(recorder::statuses.size(), 0u);
    }
}

void timeouts() {
    session first = session::open(4, 1000);
    each_call_has_the_timeout(first, -1);
    first.set_timeout(std::chrono::seconds(3));
    each_call_has_the_timeout(first, 3000);
    session s = first.split(1);
    each_call_has_the_timeout(s, 3000);
    for (const auto &[timeout, wanted] : {std::pair{7, 7}, {0, 0}, {-1, 0}, {-5000, 0}}) {
        s.set_timeout(milliseconds(timeout));
        each_call_has_the_timeout(s, wanted);
    }
    s.set_timeout(std::nullopt);
    each_call_has_the_timeout(s, -1);
    each_call_has_the_timeout(first, 3000);
    session moved = std::move(first);
    each_call_has_the_timeout(moved, 3000);
}

// A store with as many lost fragments as a blob can have, so that a plan of all takes long.
session all_lost() {
    session s = session::open(1);
    s.put("a", std::string(12 * 4096, 'x'));
    for (uint64_t stripe = 0; stripe < 4096; stripe++)
        for (uint64_t fragment = 0; fragment < 16; fragment++) s.lose("a", stripe, fragment);
    return s;
}

const std::chrono::seconds longest(60); // that a test takes

// Whether a call found another thread in the critical section, and ended at its deadline.
bool ends_at_deadline(session &s, const std::atomic<bool> &ended) {
    while (!ended) {
        const auto start = std::chrono::steady_clock::now();
        uint32_t status = LRC_STORE_DONE;
        try {
            s.stat("a");
            std::this_thread::sleep_for(std::chrono::microseconds(200));
        } catch (const lrc::store_error &error) {
            status = error.status;
        }
        if (status == LRC_STORE_DONE) continue;
        const auto waited = std::chrono::steady_clock::now() - start;
        EXPECT(status, uint32_t{LRC_STORE_BUSY});
        EXPECT(waited >= milliseconds(1) && waited < longest, true);
        return true;
    }
    return false;
}

void a_call_ends_at_its_deadline() {
    session first = all_lost(), other = first.split(1);
    other.set_timeout(milliseconds(1));
    bool is_found = false;
    const auto end = std::chrono::steady_clock::now() + longest;
    while (!is_found && std::chrono::steady_clock::now() < end) {
        std::atomic<bool> ended{false};
        std::thread planner([&] {
            lrc::slot plan;
            uint64_t items = 0;
            EXPECT(lrc_store_plan_wait(first.native_handle(), plan.get(), &items, -1),
                   uint32_t{LRC_STORE_DONE});
            EXPECT(items, 16u * 4096);
            ended = true;
        });
        is_found = ends_at_deadline(other, ended);
        planner.join();
    }
    EXPECT(is_found, true);
    other.set_timeout(std::nullopt);
    EXPECT(other.stat("a").lost, 16u * 4096);
}

void expect_mend_error(int line, session &s, uint32_t status, uint64_t repaired) {
    const std::string text = "mend() after " + std::to_string(repaired) + " repaired fragments: ";
    try {
        s.mend();
        expect(line, "no error", text);
    } catch (const lrc::mend_error &error) {
        expect(line, error.status, status);
        expect(line, error.repaired, repaired);
        expect(line, std::string(error.what()), text + lrc_store_text(status));
    }
}

void mends() {
    session s = session::open(1, 10);
    s.put("a", std::string(48, 'x'));
    for (uint64_t stripe = 0; stripe < 4; stripe++) s.lose("a", stripe, 11 - stripe);
    s.stat("a");
    s.stat("a");
    expect_mend_error(__LINE__, s, LRC_STORE_JOURNAL_FULL, 3);
    EXPECT(s.trim(2), 8u);
    EXPECT(s.mend(), 1u);
    EXPECT(s.stat("a").lost, 0u);
    for (uint64_t fragment = 0; fragment < 5; fragment++) s.lose("a", 0, fragment);
    s.trim(0);
    EXPECT(s.mend(), 0u);
    const uint32_t stops[] = {LRC_STORE_BUSY, LRC_STORE_NO_MEMORY, LRC_STORE_JOURNAL_FULL,
                              LRC_STORE_EMPTY};
    for (const uint32_t stop : stops) {
        recorder::statuses = {stop};
        expect_mend_error(__LINE__, s, stop, 0);
        EXPECT(recorder::statuses.size(), 0u);
    }
}

// 100 threads by the 63 sessions of a pool.
void threads_by_a_pool() {
    session first = session::open(4, 10000);
    first.set_timeout(longest);
    lrc::pool pool(std::move(first));
    std::vector<std::thread> threads;
    for (unsigned number = 0; number < 100; number++)
        threads.emplace_back([&pool, number] {
            const std::string name = "n" + std::to_string(number);
            for (unsigned turn = 0; turn < 20; turn++) {
                const std::string blob(100, static_cast<char>(number ^ turn));
                pool.take()->put(name, blob);
                EXPECT((*pool.take()).get(name), blob);
            }
        });
    for (std::thread &thread : threads) thread.join();
    session all = pool.close();
    EXPECT(all.stat("n0").len, 100u);
    EXPECT(all.close().entries, 2u * 100 * 20 + 1);
}

void pools() {
    threads_by_a_pool();
    session first = session::open(4);
    first.set_timeout(milliseconds(20));
    lrc::pool pool(std::move(first));
    std::vector<std::unique_ptr<lrc::pool::lease>> leases;
    for (unsigned i = 0; i < 63; i++) leases.emplace_back(new lrc::pool::lease(pool.take()));
    const auto start = std::chrono::steady_clock::now();
    EXPECT_ERROR(pool.take(), LRC_STORE_BUSY, "take()");
    EXPECT(std::chrono::steady_clock::now() - start >= milliseconds(20), true);
    leases.pop_back();
    pool.take()->put("a", "HELLO");
    EXPECT(recorder::calls.back().second, 20);
    EXPECT_ERROR(pool.close(), LRC_STORE_NOT_ALONE, "close()");
    leases.clear();
    EXPECT(pool.close().get("a"), std::string("HELLO"));
    EXPECT(recorder::calls.back().second, 20);
    EXPECT_ERROR(pool.take(), LRC_STORE_EMPTY, "take()");
    EXPECT_ERROR(pool.close(), LRC_STORE_EMPTY, "close()");
    lrc::pool dropped(session::open(4));
}

std::string text_of(const lrc::lost_fragment &it) {
    return it.name + ' ' + std::to_string(it.version) + ' ' + std::to_string(it.stripe) + ' ' +
           std::to_string(it.fragment);
}

// What is lost is listed by shard and name, in parts of 512.
void lost_fragments() {
    lrc::sharded_store store(1, 8);
    std::set<std::string> all, found;
    for (unsigned i = 0; i < 42; i++) {
        const std::string name = "n" + std::to_string(10 + i);
        const uint64_t stripes = i == 7 ? 600 : 1;
        auto lent = store.take(name);
        const uint64_t version = lent->put(name, std::string(stripes * 12, 'x'));
        for (uint64_t stripe = 0; stripe < stripes; stripe++) {
            lent->lose(name, stripe, stripe % 16);
            all.insert(text_of({name, version, stripe, stripe % 16}));
        }
        const std::vector<lrc::lost_fragment> part = lent->lost_fragments();
        EXPECT(part.size() >= stripes, true);
        EXPECT(std::is_sorted(part.begin(), part.end(),
                              [](const auto &a, const auto &b) {
                                  return std::tie(a.name, a.stripe) < std::tie(b.name, b.stripe);
                              }),
               true);
    }
    for (const lrc::lost_fragment &each : store.lost_fragments()) found.insert(text_of(each));
    EXPECT(found == all, true);
    EXPECT(store.lost_fragments().size(), all.size());
    EXPECT(store.mend(), all.size());
    EXPECT(store.lost_fragments().size(), 0u);
    recorder::statuses = {LRC_STORE_DONE, LRC_STORE_DONE, LRC_STORE_NO_MEMORY};
    EXPECT_ERROR(store.lost_fragments(), LRC_STORE_NO_MEMORY, "lost_fragments()");
    store.close();
    EXPECT_ERROR(store.lost_fragments(), LRC_STORE_EMPTY, "lost_fragments()");
}

// 8 threads by a store of 16 shards, of which two mend.
void threads_by_shards() {
    lrc::sharded_store store(4, 16, 1000);
    store.set_timeout(longest);
    std::vector<std::thread> threads;
    for (unsigned number = 0; number < 8; number++)
        threads.emplace_back([&store, number] {
            for (unsigned turn = 0; turn < 20; turn++) {
                const std::string name = "n" + std::to_string(number * 20 + turn);
                auto lent = store.take(name);
                lent->put(name, name);
                lent->lose(name, 0, 0);
                EXPECT((*lent).get(name), name);
            }
        });
    for (std::thread &thread : threads) thread.join();
    EXPECT(store.numbers().blobs, 160u);
    EXPECT(store.numbers().lost, 160u);
    uint64_t there = 0;
    std::thread other([&] { there = store.mend(); });
    const uint64_t here = store.mend();
    other.join();
    EXPECT(here + there, 160u);
    EXPECT(store.numbers().lost, 0u);
    const uint64_t entries = store.numbers().entries, discarded = store.trim(3);
    EXPECT(store.numbers().entries, entries - discarded);
    EXPECT(store.numbers().entries <= 3u * 16, true);
    const lrc::closed report = store.close();
    EXPECT(report.entries, entries - discarded);
    EXPECT(report.is_checked, true);
}

// What a sharded store refuses, and the timeouts of its calls.
void shards() {
    using lrc::sharded_store;
    threads_by_shards();
    EXPECT_ERROR(sharded_store(0, 2), LRC_STORE_BAD_WIDTH, "sharded_store(0, 2)");
    EXPECT_ERROR(sharded_store(4, 65), LRC_STORE_BAD_ARGUMENT, "sharded_store(4, 65)");
    EXPECT_ERROR(sharded_store(4, 2, 0), LRC_STORE_BAD_ARGUMENT, "sharded_store(4, 2, 0)");
    sharded_store store(4, 2);
    EXPECT_ERROR(store.take("A"), LRC_STORE_BAD_NAME, "take(\"A\")");
    store.take("a")->put("a", "HELLO");
    EXPECT(recorder::calls.back().second, -1);
    store.set_timeout(milliseconds(20));
    store.take("a")->lose("a", 0, 3);
    EXPECT(recorder::calls.back().second, 20);
    recorder::statuses = {LRC_STORE_BUSY, LRC_STORE_BUSY};
    EXPECT_ERROR(store.numbers(), LRC_STORE_BUSY, "numbers()");
    EXPECT(recorder::calls.back().second, 20);
    EXPECT_ERROR(store.trim(5), LRC_STORE_BUSY, "trim(5)");
    EXPECT(recorder::calls.back().second, 20);
    recorder::statuses = {LRC_STORE_JOURNAL_FULL};
    try {
        store.mend();
        EXPECT(true, false);
    } catch (const lrc::mend_error &error) {
        EXPECT(error.status, uint32_t{LRC_STORE_JOURNAL_FULL});
        EXPECT(error.repaired, 0u);
    }
    EXPECT(recorder::calls.back().second, 20);
    {
        auto lent = store.take("a");
        EXPECT_ERROR(store.close(), LRC_STORE_NOT_ALONE, "close()");
    }
    EXPECT(store.mend(), 1u);
    EXPECT(store.take("a")->get("a"), std::string("HELLO"));
    EXPECT(store.close().is_checked, false);
    EXPECT_ERROR(store.take("a"), LRC_STORE_EMPTY, "take()");
    EXPECT_ERROR(store.numbers(), LRC_STORE_EMPTY, "numbers()");
    EXPECT_ERROR(store.trim(5), LRC_STORE_EMPTY, "trim()");
    EXPECT_ERROR(store.mend(), LRC_STORE_EMPTY, "mend()");
    EXPECT_ERROR(store.close(), LRC_STORE_EMPTY, "close()");
    sharded_store dropped(4, 2);
}

// A lease gives calls, and no session that could be moved out of it or exchanged.
void leases_give_no_session() {
    using lrc::calls;
    using lent = decltype(*std::declval<lrc::pool::lease &>());
    EXPECT((std::is_convertible_v<lent, session &>), false);
    EXPECT((std::is_constructible_v<session, calls &&>), false);
    EXPECT((std::is_constructible_v<calls, calls &&>), false);
    EXPECT((std::is_assignable_v<calls &, session &&>), false);
    EXPECT((std::is_swappable_v<calls>), false);
    EXPECT((std::is_swappable_v<session>), true);
}

// Each call of a name of another shard than the lease is refused: it would be twice in the store.
void a_lease_is_of_one_shard() {
    lrc::sharded_store store(4, 7);
    const auto is_same = [&](const std::string &name) {
        try {
            store.take("n0")->stat(name);
        } catch (const lrc::store_error &error) {
            return error.status != LRC_STORE_BAD_ARGUMENT;
        }
        return true;
    };
    unsigned same = 0;
    for (unsigned i = 0; i < 50; i++) same += is_same("n" + std::to_string(i));
    EXPECT(same > 1 && same < 20, true);
    std::string other = "n1";
    while (is_same(other)) other += '1';
    const auto refused = [&](auto call) {
        auto lent = store.take("n0");
        try {
            call(*lent);
            EXPECT(true, false);
        } catch (const lrc::store_error &error) {
            EXPECT(error.status, uint32_t{LRC_STORE_BAD_ARGUMENT});
        }
    };
    char target = 0;
    refused([&](lrc::calls &it) { it.put(other, "x"); });
    refused([&](lrc::calls &it) {
        lrc::buffer buffer(1);
        it.put(other, buffer);
    });
    refused([&](lrc::calls &it) { it.read(other, 0, 0); });
    refused([&](lrc::calls &it) { it.read_into(other, 0, &target, 0); });
    refused([&](lrc::calls &it) { it.get(other); });
    refused([&](lrc::calls &it) { it.hold(other); });
    refused([&](lrc::calls &it) { it.lose(other, 0, 0); });
    refused([&](lrc::calls &it) { it.repair(other, 0, 0); });
    refused([&](lrc::calls &it) { it.remove(other); });
    EXPECT(store.numbers().blobs, 0u);
    EXPECT_ERROR(store.take("n0")->stat("A"), LRC_STORE_BAD_NAME, "stat(\"A\")");
    EXPECT_ERROR(store.take("n0")->lose(other, 1, 2), LRC_STORE_BAD_ARGUMENT,
                 "lose(\"" + other + "\", 1, 2)");
    store.take(other)->put(other, "HELLO");
    EXPECT(store.take(other)->get(other), std::string("HELLO"));
}

// What an assignment releases: what was there, at once, and nothing else.
template <class Owner> void expect_released(int line, Owner &full, Owner &other, unsigned wanted) {
    const unsigned before = recorder::released;
    full = std::move(other);
    expect(line, recorder::released - before, wanted);
}
#define EXPECT_RELEASED(full, other, wanted) expect_released(__LINE__, full, other, wanted)

// A session that is assigned to another one of another store, with its timeout.
void sessions_are_assigned() {
    session first = session::open(4, 9), second = session::open(4, 9);
    second.put("a", "HELLO");
    second.set_timeout(milliseconds(3000));
    EXPECT_RELEASED(first, second, 1u);
    EXPECT_ERROR(second.stat("a"), LRC_STORE_EMPTY, "stat(\"a\")");
    EXPECT(first.get("a"), std::string("HELLO"));
    EXPECT(recorder::calls.back().second, 3000);
    EXPECT_RELEASED(second, first, 0u);
    EXPECT_RELEASED(second, second, 0u);
    EXPECT(second.get("a"), std::string("HELLO"));
    EXPECT(second.close().entries, 3u);
    EXPECT_ERROR(second.stat("a"), LRC_STORE_EMPTY, "stat(\"a\")");
}

// Grants, versions and journals that are assigned to full ones.
void full_slots_are_assigned() {
    session s = session::open(4, 100);
    s.put("a", "HELLO");
    s.put("b", "WORLD!");
    s.lose("b", 0, 0);
    lrc::grant grant = s.read("a", 0, 5), other = s.read("b", 0, 6);
    EXPECT_RELEASED(grant, other, 1u);
    EXPECT(grant.str(), std::string("WORLD!"));
    EXPECT(grant.version(), 2u);
    grant = s.read("a", 1, 4);
    EXPECT(grant.str(), std::string("ELLO"));
    lrc::version version = s.hold("a"), held = s.hold("b");
    EXPECT_RELEASED(version, held, 1u);
    EXPECT(version.number(), 2u);
    EXPECT(version.read(0, 6).str(), std::string("WORLD!"));
    EXPECT_ERROR(held.shape(), LRC_STORE_EMPTY, "shape()");
    session t = session::open(4, 100);
    EXPECT_ERROR(t.stat("a"), LRC_STORE_NO_NAME, "stat(\"a\")");
    lrc::journal journal = s.close_to_journal(), second = t.close_to_journal();
    EXPECT_RELEASED(journal, second, 1u);
    EXPECT(journal.size(), 1u);
    EXPECT(journal.entry(0).status, uint32_t{LRC_STORE_NO_NAME});
    EXPECT_ERROR(second.entry(0), LRC_STORE_EMPTY, "entry(0)");
}

// Views without an address are of no byte.
void views_are_null() {
    session s = session::open(4);
    EXPECT(s.put("a", std::string_view()), 1u);
    EXPECT(s.get("a"), std::string());
    EXPECT(s.read_into("a", 0, nullptr, 0), 1u);
    EXPECT(s.read("a", 0, 0).str(), std::string());
    EXPECT(lrc::name_of(std::string_view()), lrc::name_of(""));
    EXPECT_ERROR(s.put(std::string_view(), "x"), LRC_STORE_BAD_NAME, "put(\"\", 1, 12)");
    s.put("b", "HELLO");
    lrc::version held = s.hold("b");
    s.lose("b", 0, 1);
    EXPECT_ERROR(s.restore(held, 0, 1, std::string_view()), LRC_STORE_BAD_ARGUMENT,
                 "restore(0, 1, 0)");
    lrc::sharded_store store(4, 2);
    EXPECT_ERROR(store.take(std::string_view()), LRC_STORE_BAD_NAME, "take(\"\")");
    EXPECT(recorder::nulls, 0u);
}

// A store that is closed as it has a timeout, and a lease that is still there.
void stores_with_a_timeout_are_closed() {
    lrc::sharded_store store(4, 3, 10);
    store.set_timeout(milliseconds(7));
    {
        auto lent = store.take("a");
        lent->put("a", "HELLO");
        EXPECT(recorder::calls.back().second, 7);
        EXPECT_ERROR(store.close(), LRC_STORE_NOT_ALONE, "close()");
        EXPECT(lent->get("a"), std::string("HELLO"));
    }
    EXPECT(store.mend(), 0u);
    EXPECT(recorder::calls.back().second, 7);
    EXPECT(store.trim(1), 1u);
    EXPECT(recorder::calls.back().second, 7);
    store.numbers();
    EXPECT(recorder::calls.back().second, 7);
    EXPECT(store.close().entries, 1u);
}

struct noted {
    uint32_t who, call;
    const char *name;
    uint64_t first, second;
    uint32_t status;
    uint64_t version;
};

void expect_entry(lrc::journal &journal, size_t index, const noted &wanted) {
    const lrc_entry entry = journal.entry(index);
    EXPECT(entry.who, wanted.who);
    EXPECT(entry.call, wanted.call);
    EXPECT(text_of(entry.name), wanted.name);
    EXPECT(entry.first, wanted.first);
    EXPECT(entry.second, wanted.second);
    EXPECT(entry.status, wanted.status);
    EXPECT(entry.version, wanted.version);
}

void journals() {
    session s = session::open(4, 100);
    s.put("a", std::string(10, 'x'), 6);
    s.put("bb", std::string(49, 'y'));
    session other = s.split(3);
    char target[4];
    other.lose("a", 0, 9);
    other.stat("a");
    other.repair("a", 0, 9);
    other.read("bb", 2, 47);
    other.read_into("bb", 3, target, 4);
    EXPECT_ERROR(other.lose("bb", 7, 5), LRC_STORE_NO_FRAGMENT, "lose(\"bb\", 7, 5)");
    s.remove("bb");
    EXPECT(s.trim(8), 1u);
    s.join(std::move(other));
    lrc::journal journal = s.close_to_journal();
    EXPECT(journal.discarded(), 1u);
    EXPECT(journal.is_checked(), true);
    const noted wanted[] = {
        {0, LRC_CALL_PUT, "bb", 12, 49, LRC_STORE_DONE, 2},
        {3, LRC_CALL_LOSE, "a", 0, 9, LRC_STORE_DONE, 1},
        {3, LRC_CALL_STAT, "a", 0, 0, LRC_STORE_DONE, 1},
        {3, LRC_CALL_REPAIR, "a", 0, 9, LRC_STORE_DONE, 1},
        {3, LRC_CALL_READ, "bb", 2, 47, LRC_STORE_DONE, 2},
        {3, LRC_CALL_READ, "bb", 3, 4, LRC_STORE_DONE, 2},
        {3, LRC_CALL_LOSE, "bb", 7, 5, LRC_STORE_NO_FRAGMENT, 0},
        {0, LRC_CALL_DELETE, "bb", 0, 0, LRC_STORE_DONE, 2},
    };
    EXPECT(journal.size(), std::size(wanted));
    for (size_t i = 0; i < std::size(wanted); i++) expect_entry(journal, i, wanted[i]);
    EXPECT(journal.entry(2).lost, 1u);
    EXPECT_ERROR(journal.entry(8), LRC_STORE_NOTHING_LEFT, "entry(8)");
}

void no_journal() {
    session s = session::open(4);
    s.put("a", std::string(49, 'x'));
    for (int i = 0; i < 99; i++) EXPECT(s.stat("a").stripes, 2u); // of 12 times 4 bytes
    EXPECT(s.trim(0), 0u);
    lrc::journal journal = s.close_to_journal();
    EXPECT(journal.discarded(), 100u);
    EXPECT(journal.size(), 0u);
    EXPECT(journal.is_checked(), false);
    EXPECT_ERROR(journal.entry(0), LRC_STORE_NOTHING_LEFT, "entry(0)");
    const lrc::closed closed = session::open(4).close();
    EXPECT(closed.entries, 0u);
    EXPECT(closed.is_checked, false);
}

void unchecked_journals() {
    for (const uint32_t lawful : {1u, 2u}) {
        recorder::lawful = lawful;
        EXPECT(session::open(4, 9).close().is_checked, lawful == 1);
        EXPECT(session::open(4, 9).close_to_journal().is_checked(), lawful == 1);
    }
    recorder::lawful = 0;
}

// The process's memory in use, in mebibytes.
size_t resident() {
    size_t all = 0, pages = 0;
    std::ifstream("/proc/self/statm") >> all >> pages;
    return pages / 256;
}

// AddressSanitizer, which keeps freed memory, looks for leaks by its own means.
void memory() {
#ifdef __SANITIZE_ADDRESS__
    const size_t most = SIZE_MAX;
#else
    const size_t most = resident() + 100;
#endif
    const std::string blob = bytes_of(4 << 20);
    for (int i = 0; i < 40; i++) {
        std::optional<session> s = session::open(4096, 9);
        s->put("a", blob, 6);
        s->lose("a", 0, 0);
        const lrc::grant grant = s->read("a", 0, blob.size());
        s->remove("a");
        s.reset();
        EXPECT(grant.str() == blob, true);
        lrc::buffer unused(blob.size());
        std::fill_n(unused.data(), unused.size(), uint8_t{1});
    }
    EXPECT(resident() < most, true);
}

} // namespace

int main() {
    errors();
    sessions();
    buffers();
    reads();
    versions();
    restores();
    numbers();
    names();
    get_copies_all();
    timeouts();
    a_call_ends_at_its_deadline();
    mends();
    lost_fragments();
    pools();
    shards();
    leases_give_no_session();
    a_lease_is_of_one_shard();
    sessions_are_assigned();
    full_slots_are_assigned();
    views_are_null();
    stores_with_a_timeout_are_closed();
    journals();
    no_journal();
    unchecked_journals();
    memory();
    std::cout << "C++: " << wrong << " wrong\n";
    return wrong ? 1 : 0;
}
