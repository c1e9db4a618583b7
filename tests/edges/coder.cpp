// Random calls of all functions of lrc_coder.h, each compared with the model: its status by the
// header's conditions, each target, each byte. Fragments and targets end before a page without
// access, or begin at odd addresses. coder LENGTH, as random_run.hpp says.
#include "coder.hpp"

namespace {

class Calls : public Stripes {
public:
    long calls = 0;
    using Stripes::Stripes;

    void step() {
        draw();
        calls++;
        switch (random.below(11)) {
        case 0:
            return encode();
        case 1:
            return encode_add();
        case 2:
            return encode_arrays();
        case 3:
            return is_open();
        case 4:
            return recipe();
        case 5:
            return add();
        case 6:
            return rebuild_arrays();
        case 7:
            return decode_arrays();
        case 8:
            return decode();
        default:
            return rebuild();
        }
    }

private:
    // The parities by lrc_encode or lrc_encode_add.
    void encode() {
        begin("encode");
        Targets four(*this, 4, width);
        const std::vector<lrc_slice> data = slices(0);
        bool are_equal = true;
        for (unsigned i = 0; i < (is_code ? code->data : 0); i++)
            are_equal &= data[i].len == four.len(0);
        for (unsigned i = 1; i < 4; i++) are_equal &= four.len(i) == four.len(0);
        const size_t given = is_code || number <= 16 ? number : 13;
        const uint32_t got =
            lrc_encode(data.data(), given, four.at(0), four.len(0), four.at(1), four.len(1),
                       four.at(2), four.len(2), four.at(3), four.len(3));
        judge(got, is_code && are_equal ? LRC_DONE : LRC_BAD_ARGUMENT);
        for (unsigned i = 0; i < 4; i++)
            judge_target(four, i, got, [&](size_t b) { return parity(i, b); });
    }

    void encode_add() {
        begin("encode_add");
        Targets four(*this, 4, width);
        const uint8_t fragment = drawn_fragment();
        const size_t len = near(width);
        const uint8_t *source = place(20, len);
        bool are_equal = true;
        for (unsigned i = 0; i < 4; i++) are_equal &= four.len(i) == len;
        const bool has_arrays = random.one_in(2) && are_equal;
        uint8_t *const at[4] = {four.at(0), four.at(1), four.at(2), four.at(3)};
        const uint32_t got =
            has_arrays ? lrc_encode_add_arrays(number, len, fragment, source, at)
                       : lrc_encode_add(number, fragment, source, len, at[0], four.len(0), at[1],
                                        four.len(1), at[2], four.len(2), at[3], four.len(3));
        judge(got, is_code && fragment < number && are_equal ? LRC_DONE : LRC_BAD_ARGUMENT);
        for (unsigned i = 0; i < 4; i++)
            judge_target(four, i, got, [&](size_t b) {
                return Targets::old ^ model::product(code->column(fragment)[i], source[b]);
            });
    }

    void encode_arrays() {
        begin("encode_arrays");
        Targets four(*this, 4, width, false);
        const uint8_t *data[16];
        uint8_t *at[4] = {four.at(0), four.at(1), four.at(2), four.at(3)};
        for (unsigned i = 0; i < 16; i++) data[i] = fragments[i];
        const unsigned missing = unsigned(random.below(40));
        if (missing < 16) data[missing] = nullptr;
        if (missing >= 16 && missing < 20) at[missing - 16] = nullptr;
        const bool is_valid = is_code && missing >= code->data && (missing < 16 || missing >= 20);
        const uint32_t got = lrc_encode_arrays(number, width, data, at);
        judge(got, is_valid ? LRC_DONE : LRC_BAD_ARGUMENT);
        for (unsigned i = 0; i < 4; i++)
            judge_target(four, i, got, [&](size_t b) { return parity(i, b); });
        if (missing < 2) {
            at[missing] = nullptr;
            begin("encode_add_arrays with NULL");
            judge(lrc_encode_add_arrays(number, width, 0, data[5], at), LRC_BAD_ARGUMENT);
            at[missing] = four.at(missing);
            judge(lrc_encode_add_arrays(number, width, 0, nullptr, at), LRC_BAD_ARGUMENT);
        }
    }

    void is_open() {
        begin("is_open");
        const uint8_t fragment = drawn_fragment();
        const uint32_t want = !is_code || fragment >= code->all             ? LRC_BAD_ARGUMENT
                              : code->is_unrecoverable(lost_of(), fragment) ? LRC_UNRECOVERABLE
                                                                            : LRC_DONE;
        judge(lrc_is_open(number, lost, fragment), want);
        judge(lrc_is_unrecoverable(number, lost, fragment), want);
        same(lrc_coder_text(want) != lrc_coder_text(3), true, "whether the status has a text");
    }

    // The recipe's terms are remaining fragments, and their sum is the fragment.
    void recipe() {
        begin("recipe");
        const uint8_t fragment = drawn_lost();
        uint8_t sources[16], factors[16];
        uint32_t count = 99;
        std::memset(sources, 0xAB, sizeof sources);
        const uint32_t got = lrc_recipe(number, lost, fragment, sources, factors, &count);
        judge(got, of_lost(fragment));
        if (got != LRC_DONE) {
            same(count, 99, "`count`");
            return same(sources[0], 0xAB, "`fragments`");
        }
        same(count > 15, false, "whether there are too many terms");
        std::string sum(width, 0);
        for (uint32_t i = 0; i < count; i++) {
            same(sources[i] < code->all && !(lost >> sources[i] & 1), true, "whether it remains");
            begin("add of a recipe's term");
            judge(lrc_add(reinterpret_cast<uint8_t *>(sum.data()), width, factors[i],
                          fragments[sources[i]], width),
                  LRC_DONE);
        }
        same(sum == std::string(reinterpret_cast<char *>(fragments[fragment]), width), true,
             "whether the sum is the fragment");
        if (is_alone(fragment)) same(count, code->data / 2, "the count of terms");
    }

    void add() {
        begin("add");
        Targets one(*this, 1, width);
        const size_t len = near(width);
        const uint8_t *source = place(20, len), factor = uint8_t(random.next());
        const uint32_t got = lrc_add(one.at(0), one.len(0), factor, source, len);
        judge(got, len == one.len(0) ? LRC_DONE : LRC_BAD_ARGUMENT);
        judge_target(one, 0, got,
                     [&](size_t b) { return Targets::old ^ model::product(factor, source[b]); });
    }

    void rebuild() {
        begin("rebuild");
        const uint8_t fragment = drawn_lost();
        const auto [from, len] = drawn_range();
        Targets one(*this, 1, len, false);
        const std::vector<lrc_slice> given = slices(lost_of());
        const uint32_t want =
            has_range(given, from, len) ? of_lost(fragment) : uint32_t{LRC_BAD_ARGUMENT};
        const uint32_t got =
            lrc_rebuild(number, given.data(), lost, fragment, from, one.at(0), len);
        judge(got, want);
        judge_target(one, 0, got,
                     [&, from = from](size_t b) { return fragments[fragment][from + b]; });
    }

    void decode() {
        begin("decode");
        const auto [from, len] = drawn_range();
        Targets four(*this, 4, len);
        const std::vector<lrc_slice> given = slices(lost_of());
        uint8_t numbers[4];
        bool is_valid = has_range(given, from, len), has_lost = true;
        for (unsigned i = 0; i < 4; i++) {
            numbers[i] = random.one_in(3) ? uint8_t{LRC_NONE} : drawn_lost();
            if (numbers[i] == LRC_NONE) continue;
            is_valid &= of_lost(numbers[i]) != LRC_BAD_ARGUMENT && four.len(i) == len;
            has_lost &= of_lost(numbers[i]) == LRC_DONE;
        }
        const uint32_t got =
            lrc_decode(number, given.data(), lost, numbers, from, len, four.at(0), four.len(0),
                       four.at(1), four.len(1), four.at(2), four.len(2), four.at(3), four.len(3));
        judge(got, !is_valid || !is_code ? LRC_BAD_ARGUMENT
                   : has_lost            ? LRC_DONE
                                         : LRC_UNRECOVERABLE);
        for (unsigned i = 0; i < 4; i++)
            judge_target(four, i, numbers[i] == LRC_NONE ? uint32_t{LRC_BAD_ARGUMENT} : got,
                         [&, from = from](size_t b) { return fragments[numbers[i]][from + b]; });
    }

    // The fragments with NULL for each lost one.
    std::array<const uint8_t *, 16> remaining() const {
        std::array<const uint8_t *, 16> at;
        for (unsigned i = 0; i < 16; i++) at[i] = lost >> i & 1 ? nullptr : fragments[i];
        return at;
    }

    void rebuild_arrays() {
        begin("rebuild_arrays");
        const uint8_t fragment = drawn_lost();
        Targets one(*this, 1, width, false);
        const bool has_target = !random.one_in(20);
        if (fragment < 16) lost = uint16_t(lost | 1u << fragment); // it counts as lost
        const uint32_t want = has_target ? of_lost(fragment) : uint32_t{LRC_BAD_ARGUMENT};
        auto at = remaining();
        if (fragment < 16 && random.one_in(2)) at[fragment] = fragments[fragment];
        const uint32_t got = lrc_rebuild_arrays(number, width, at.data(), fragment,
                                                has_target ? one.at(0) : nullptr);
        judge(got, want);
        judge_target(one, 0, got, [&](size_t b) { return fragments[fragment][b]; });
    }

    void decode_arrays() {
        begin("decode_arrays");
        Targets six(*this, 6, width, false);
        uint8_t *targets[16] = {nullptr};
        unsigned wanted = 0, count = 0;
        auto at = remaining();
        for (unsigned i = 0; i < (is_code ? code->all : 0); i++)
            if ((lost >> i & 1) && count < 6 && !random.one_in(3)) {
                targets[i] = six.at(count++);
                wanted |= 1u << i;
                if (random.one_in(3)) at[i] = fragments[i];
            }
        bool has_lost = count <= 4;
        for (unsigned i = 0; i < 16; i++)
            if (wanted >> i & 1) has_lost &= of_lost(uint8_t(i)) == LRC_DONE;
        const uint32_t got = lrc_decode_arrays(number, width, at.data(), targets);
        judge(got, !is_code ? LRC_BAD_ARGUMENT : has_lost ? LRC_DONE : LRC_UNRECOVERABLE);
        for (unsigned i = 0, target = 0; i < 16; i++)
            if (wanted >> i & 1)
                judge_target(six, target++, got, [&](size_t b) { return fragments[i][b]; });
    }
};

} // namespace

int main(int words, char **word) {
    const Run run("coder", words, word);
    Calls calls(run);
    for (long rounds = 0; !run.is_over(rounds); rounds++)
        for (int i = 0; i < 1000; i++) calls.step();
    std::printf("coder: %ld calls on %s, 0 wrong\n", calls.calls, lrc_coder_cpu());
}
