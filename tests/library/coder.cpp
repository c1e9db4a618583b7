// The coder as C++ uses it: the header compiles, and each lost set of LRC(6,2,2) is rebuilt as far
// as it can be.
#include "lrc_coder.h"

#include <array>
#include <cstdio>
#include <numeric>
#include <thread>
#include <vector>

namespace {

constexpr std::size_t data_fragments = 6;
constexpr std::size_t width = 40;
using Fragment = std::vector<std::uint8_t>;
using Stripe = std::array<Fragment, data_fragments + 4>;

Stripe make_stripe() {
    Stripe stripe;
    std::array<const std::uint8_t *, data_fragments> data{};
    std::array<std::uint8_t *, 4> parities{};
    for (std::size_t i = 0; i < stripe.size(); i++) {
        stripe[i].resize(width);
        std::iota(stripe[i].begin(), stripe[i].end(), static_cast<std::uint8_t>(31 * i + 1));
        if (i < data_fragments)
            data[i] = stripe[i].data();
        else
            parities[i - data_fragments] = stripe[i].data();
    }
    if (lrc_encode_arrays(data_fragments, width, data.data(), parities.data()) != LRC_DONE)
        std::puts("not encoded");
    return stripe;
}

// How many of the lost sets from..to are rebuilt whole, or -1 where a rebuilt fragment is wrong.
int rebuilt_whole(const Stripe &stripe, unsigned from, unsigned to) {
    int count = 0;
    for (unsigned lost = from; lost < to; lost++) {
        std::array<const std::uint8_t *, data_fragments + 4> left{};
        bool whole = true;
        for (std::size_t i = 0; i < left.size(); i++)
            left[i] = lost >> i & 1u ? nullptr : stripe[i].data();
        for (std::uint8_t f = 0; f < left.size(); f++) {
            Fragment rebuilt(width);
            if (left[f] != nullptr) continue;
            const std::uint32_t status =
                lrc_rebuild_arrays(data_fragments, width, left.data(), f, rebuilt.data());
            if (status == LRC_DONE && rebuilt != stripe[f]) return -1;
            whole = whole && status == LRC_DONE;
        }
        count += whole ? 1 : 0;
    }
    return count;
}

} // namespace

int main() {
    const Stripe stripe = make_stripe();
    std::array<int, 4> counts{};
    std::vector<std::thread> threads;
    for (unsigned i = 0; i < counts.size(); i++)
        threads.emplace_back([&, i] { counts[i] = rebuilt_whole(stripe, 256 * i, 256 * (i + 1)); });
    for (std::thread &thread : threads) thread.join();
    int whole = 0;
    for (const int count : counts) whole += count < 0 ? -10000 : count;
    std::printf("C++: %d of 1024 lost sets rebuilt whole, by four threads\n", whole);
    return whole == 356 ? 0 : 1;
}
