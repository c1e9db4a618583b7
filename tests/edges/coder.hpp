// Random stripes for the calls of the coder: fragments and targets in memory with a page without
// access behind it, lost sets, numbers and lengths that are mostly valid.
#ifndef EDGES_CODER_HPP
#define EDGES_CODER_HPP

#include "lrc_coder.h"
#include "model.hpp"
#include "random_run.hpp"

#include <cstring>
#include <sys/mman.h>

// Memory before a page without access.
class Pages {
public:
    static constexpr size_t size = 8192;
    Pages() {
        void *const mapped = mmap(nullptr, 2 * size, PROT_NONE, MAP_PRIVATE | MAP_ANONYMOUS, -1, 0);
        if (mapped == MAP_FAILED || mprotect(mapped, size, PROT_READ | PROT_WRITE) != 0) {
            std::perror("mmap");
            std::exit(2);
        }
        first = static_cast<uint8_t *>(mapped);
    }
    uint8_t *at(size_t offset) { return first + offset; }
    uint8_t *before_end(size_t len) { return first + size - len; }

private:
    uint8_t *first;
};

class Stripes {
public:
    Random random;

    explicit Stripes(const Run &test) : random(test.seed), run(test) {}

protected:
    const Run &run;
    std::string call;
    size_t number = 12; // as given: 12, 6 or none
    bool is_code = true;
    const model::Code *code = nullptr;
    size_t width = 0;
    uint16_t lost = 0; // with bits past the code's fragments
    uint8_t *fragments[16] = {nullptr};

    // Targets of a length that is mostly `len`, filled with a byte.
    class Targets {
    public:
        static constexpr uint8_t old = 0xE7;
        Targets(Stripes &of, unsigned count, size_t len, bool may_differ = true) {
            for (unsigned i = 0; i < count; i++) {
                lens[i] = may_differ ? of.near(len) : len;
                starts[i] = of.place(16 + i, lens[i]);
                std::memset(starts[i], old, lens[i]);
            }
        }
        uint8_t *at(unsigned i) const { return starts[i]; }
        size_t len(unsigned i) const { return lens[i]; }

    private:
        uint8_t *starts[6];
        size_t lens[6];
    };

    // A new stripe and what is lost of it.
    void draw() {
        static const size_t widths[] = {0, 1, 7, 15, 16, 17, 31, 32, 33, 64, 65, 127, 129, 1000};
        number = random.one_in(12) ? random.below(20) : random.one_in(2) ? 12 : 6;
        if (random.one_in(200)) number = random.next();
        is_code = number == 12 || number == 6;
        code = &model::code_of(is_code ? unsigned(number) : 12);
        width = random.one_in(4) ? random.below(300) : random.one_of(widths);
        lost = uint16_t(random.next());
        while (!random.one_in(4)) lost = uint16_t(lost & random.next());
        for (unsigned i = 0; i < 16; i++) {
            fragments[i] = place(i, width);
            const std::string bytes = bytes_of(random.next(), width);
            std::memcpy(fragments[i], bytes.data(), width);
        }
        for (unsigned i = 0; i < 4; i++)
            for (size_t b = 0; b < width; b++) fragments[code->data + i][b] = parity(i, b);
    }

    // Memory of a length: at the end of its pages, or at an odd address.
    uint8_t *place(unsigned index, size_t len) {
        static Pages pages[24];
        return random.one_in(2) ? pages[index].before_end(len) : pages[index].at(random.below(70));
    }

    size_t near(size_t len) {
        return random.one_in(20) ? (random.one_in(2) ? len + 1 : random.below(len + 1)) : len;
    }

    unsigned lost_of() const { return lost & ((1u << code->all) - 1); }

    uint8_t parity(unsigned row, size_t byte) const {
        unsigned sum = 0;
        for (unsigned f = 0; f < code->data; f++)
            sum ^= model::product(code->column(f)[row], fragments[f][byte]);
        return uint8_t(sum);
    }

    uint8_t drawn_fragment() {
        return random.one_in(12) ? uint8_t(random.next()) : uint8_t(random.below(code->all));
    }
    // Mostly a lost fragment.
    uint8_t drawn_lost() {
        for (unsigned i = 0; i < 200 && lost_of(); i++)
            if (const uint8_t drawn = drawn_fragment(); drawn < 16 && (lost_of() >> drawn & 1))
                return drawn;
            else if (random.one_in(60))
                return drawn;
        return drawn_fragment();
    }

    // The answer about a lost fragment if all else is valid.
    uint32_t of_lost(uint8_t fragment) const {
        if (!is_code || fragment >= code->all || !(lost >> fragment & 1)) return LRC_BAD_ARGUMENT;
        return code->is_unrecoverable(lost_of(), fragment) ? LRC_UNRECOVERABLE : LRC_DONE;
    }

    // Whether it is the only loss of its group.
    bool is_alone(uint8_t fragment) const {
        const unsigned half = code->data / 2;
        if (fragment >= code->data + 2) return false;
        const unsigned group = fragment < code->data ? fragment / half : fragment - code->data;
        const unsigned members = ((1u << half) - 1) << (group * half) | 1u << (code->data + group);
        return (lost & members) == 1u << fragment;
    }

    std::pair<size_t, size_t> drawn_range() {
        if (random.one_in(30)) return {SIZE_MAX - random.below(80), random.below(80)};
        const size_t from = random.below(width + 1);
        return {from, random.one_in(20) ? random.below(width + 2) : width - from};
    }

    // Slices of the fragments, mostly of their length. A lost one points into nothing.
    std::vector<lrc_slice> slices(unsigned without) {
        static Pages none;
        std::vector<lrc_slice> all(16);
        for (unsigned i = 0; i < 16; i++) {
            all[i] = {fragments[i], random.one_in(100) ? random.below(width + 1) : width};
            if ((without >> i & 1) || i >= code->all) all[i] = {none.before_end(0), 0};
        }
        return all;
    }

    // Whether each remaining fragment has the range.
    bool has_range(const std::vector<lrc_slice> &given, size_t from, size_t len) const {
        if (from > SIZE_MAX - len) return false;
        for (unsigned i = 0; i < code->all; i++)
            if (!(lost >> i & 1) && given[i].len < from + len) return false;
        return true;
    }

    void begin(const char *name) { call = joined(name, number, "lost", lost, "width", width); }

    void judge(uint32_t got, uint32_t want) const {
        const auto text = [](uint32_t status) {
            return joined(status, "(" + std::string(lrc_coder_text(status)) + ")");
        };
        if (got != want) run.differ(call, "the status", text(got), text(want));
    }

    void same(uint64_t got, uint64_t want, const char *what) const {
        if (got != want) run.differ(call, what, std::to_string(got), std::to_string(want));
    }

    // A target has the wanted bytes, or is unchanged.
    template <class Wanted>
    void judge_target(const Targets &targets, unsigned i, uint32_t status, Wanted wanted) const {
        for (size_t b = 0; b < targets.len(i); b++) {
            const uint8_t want = status == LRC_DONE ? uint8_t(wanted(b)) : Targets::old;
            if (targets.at(i)[b] != want)
                run.differ(call, joined("byte", b, "of target", i),
                           std::to_string(targets.at(i)[b]), std::to_string(want));
        }
    }
};

#endif
