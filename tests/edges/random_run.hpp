// What the random tests share: the seed, which is printed, how long they run, and the report of a
// difference. SEED names a seed, and SEED=fresh draws one. Without it the seed is always the same.
#ifndef EDGES_RANDOM_RUN_HPP
#define EDGES_RANDOM_RUN_HPP

#include <chrono>
#include <cstdint>
#include <cstdio>
#include <cstdlib>
#include <mutex>
#include <random>
#include <sstream>
#include <string>

class Random {
public:
    explicit Random(uint64_t seed) : state(seed * 0x9E3779B97F4A7C15u | 1) {}
    uint64_t next() {
        state ^= state << 13;
        state ^= state >> 7;
        state ^= state << 17;
        return state * 0x2545F4914F6CDD1Du >> 11;
    }
    // A number below `end`, or 0 if that is 0.
    uint64_t below(uint64_t end) { return end ? next() % end : 0; }
    bool one_in(uint64_t count) { return below(count) == 0; }
    template <class Value, size_t count> Value one_of(const Value (&values)[count]) {
        return values[below(count)];
    }

private:
    uint64_t state;
};

// Bytes that a seed determines.
inline std::string bytes_of(uint64_t seed, uint64_t len) {
    Random random(seed);
    std::string bytes(len, 0);
    for (uint64_t i = 0; i < len; i += 5) {
        uint64_t word = random.next();
        for (uint64_t k = i; k < i + 5 && k < len; k++, word >>= 8) bytes[k] = char(word);
    }
    return bytes;
}

// A text of several values with spaces between them.
template <class... Values> std::string joined(const Values &...values) {
    std::ostringstream text;
    ((text << values << ' '), ...);
    return text.str().substr(0, text.str().size() - 1);
}

// One run of a test: its seed, and its length. That is a number of rounds, as `20`, so that each
// run makes the same calls however fast the machine is, or of seconds, as `20s`.
class Run {
public:
    const uint64_t seed;

    Run(const char *test, int words, char **word)
        : seed(drawn_seed()), name(test), started(Clock::now()),
          length(words > 1 ? std::atof(word[1]) : 1),
          has_seconds(words > 1 && std::string(word[1]).back() == 's') {
        std::printf("%s: SEED=%llu, %.0f %s\n", test, static_cast<unsigned long long>(seed), length,
                    has_seconds ? "s" : "rounds");
        std::fflush(stdout);
    }

    double elapsed() const { return std::chrono::duration<double>(Clock::now() - started).count(); }
    // Whether the run is over after so many rounds.
    bool is_over(long rounds) const { return (has_seconds ? elapsed() : double(rounds)) >= length; }

    // Reports a difference and ends the program. After the first one the model is behind.
    [[noreturn]] void differ(const std::string &call, const std::string &what,
                             const std::string &got, const std::string &want) const {
        static std::mutex one;
        const std::lock_guard<std::mutex> guard(one);
        std::fprintf(stderr, "%s: SEED=%llu: %s: %s is %s, expected %s\n", name,
                     static_cast<unsigned long long>(seed), call.c_str(), what.c_str(), got.c_str(),
                     want.c_str());
        std::_Exit(1);
    }

private:
    using Clock = std::chrono::steady_clock;
    const char *const name;
    const Clock::time_point started;
    const double length;
    const bool has_seconds;

    static uint64_t drawn_seed() {
        const char *const given = std::getenv("SEED");
        if (!given) return 1;
        return given == std::string("fresh") ? std::random_device{}()
                                             : std::strtoull(given, nullptr, 0);
    }
};

#endif
