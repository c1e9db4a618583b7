/* Sets libec_azure_lrc.so beside Ceph's own plugins, through one harness: plugin_bench FOLDER
 *
 * FOLDER has all plugins. First it counts the lost sets that each code recovers, then it times
 * encoding and decoding. */
#include "plugin_loader.h"

#include <algorithm>
#include <ctime>
#include <functional>
#include <unistd.h>

struct Peer {
    const char *name, *plugin;
    ErasureCodeProfile profile;
};

static const std::vector<Peer> peers = {
    {"azure_lrc 12+4", "azure_lrc", {{"k", "12"}, {"m", "4"}}},
    {"isa 12+4", "isa", {{"k", "12"}, {"m", "4"}}},
    {"jerasure 12+4", "jerasure", {{"k", "12"}, {"m", "4"}, {"technique", "reed_sol_van"}}},
    {"lrc k=12 m=2 l=7", "lrc", {{"k", "12"}, {"m", "2"}, {"l", "7"}}},
    {"lrc layers 12,2,2",
     "lrc",
     {{"mapping", "DDDDDDDDDDDD____"},
      {"layers", "[[\"DDDDDDDDDDDD__cc\",\"\"],[\"DDDDDD______c___\",\"\"],[\"______DDDDDD_c__"
                 "\",\"\"]]"}}},
    {"clay 12+4 d=15", "clay", {{"k", "12"}, {"m", "4"}, {"d", "15"}}},
};

/* What minimum_to_decode names for lost chunks: of each chunk to read, parts of so many bytes. */
static ceph::ChunkParts parts_to_read(ErasureCodeInterface &code, unsigned lost) {
    ceph::ChunkParts parts;
    if (code.minimum_to_decode(places_of(lost), places_of(all_of(code) & ~lost), &parts))
        parts.clear();
    return parts;
}

/* The parts of the chunks that are read, of each chunk one after the other. */
static Chunks read_parts(ErasureCodeInterface &code, const Chunks &whole,
                         const ceph::ChunkParts &parts) {
    Chunks chunks;
    for (const auto &[place, of] : parts) {
        const unsigned size = whole.at(place).length() / unsigned(code.get_sub_chunk_count());
        for (const auto &[first, count] : of) {
            buffer::list part;
            part.substr_of(whole.at(place), unsigned(first) * size, unsigned(count) * size);
            chunks[place].claim_append(part);
        }
    }
    return chunks;
}

/* The chunks that are read, of which some may be read in part. */
static double sum_of(ErasureCodeInterface &code, const ceph::ChunkParts &parts) {
    double sum = 0;
    for (const auto &chunk : parts)
        for (const auto &part : chunk.second)
            sum += double(part.second) / code.get_sub_chunk_count();
    return sum;
}

/* Whether lost chunks are decoded without an error, and are not what they were. */
static bool is_wrong(ErasureCodeInterface &code, const Chunks &whole, unsigned lost) {
    Chunks made;
    const int len = int(whole.at(0).length());
    if (code.decode(places_of(lost), chunks_at(whole, all_of(code) & ~lost), &made, len))
        return false;
    bool same = true;
    for (int place : places_of(lost))
        same = same && made.count(place) && made.at(place).contents_equal(whole.at(place));
    return !same;
}

/* Of the sets of at most four lost chunks: for how many all chunks are recoverable, which is what
 * Ceph asks of a placement group, for how many the data, which a client reads, and how many are
 * decoded to wrong bytes without an error. */
static void count_sets(const Peer &peer, ErasureCodeInterface &code) {
    const unsigned n = code.get_chunk_count(), all = all_of(code), data = data_of(code);
    unsigned sets = 0, recoverable = 0, readable = 0, wrong = 0, accepted = 0;
    double single = 0;
    Chunks whole;
    code.encode(places_of(all), random_bytes(12 * 4096, 1), &whole);
    for (unsigned lost = 0; lost <= all; lost++) {
        unsigned read;
        if (count_of(lost) > 4) continue;
        sets++;
        readable += !to_read(code, data, all & ~lost, &read);
        const bool is_recoverable = !to_read(code, all, all & ~lost, &read);
        recoverable += is_recoverable;
        if (is_wrong(code, whole, lost)) {
            wrong++;
            accepted += is_recoverable;
        }
        if (count_of(lost) == 1) single += sum_of(code, parts_to_read(code, lost));
    }
    printf(
        "%-18s  of %u sets: all chunks recoverable in %u, data readable in %u, decoded wrong "
        "without an error %u, of which minimum_to_decode accepts %u; one lost chunk reads %.2f\n",
        peer.name, sets, recoverable, readable, wrong, accepted, single / n);
}

/* What the work takes of the processor, so that other work of the machine counts little. */
static double seconds_of(const std::function<void()> &work) {
    timespec start, end;
    clock_gettime(CLOCK_THREAD_CPUTIME_ID, &start);
    work();
    clock_gettime(CLOCK_THREAD_CPUTIME_ID, &end);
    return double(end.tv_sec - start.tv_sec) + double(end.tv_nsec - start.tv_nsec) / 1e9;
}

/* A code with a stripe of its own, and the sets that it is timed with. */
class Contestant {
public:
    Contestant(ErasureCodeInterfaceRef by, const buffer::list &of)
        : code(std::move(by)), in(of), all(all_of(*code)) {
        code->encode(places_of(all), in, &whole);
        for (unsigned lost = 1; lost <= all; lost++) {
            unsigned read;
            if (count_of(lost) <= 4 && !to_read(*code, lost, all & ~lost, &read))
                sets[count_of(lost)].push_back({lost, parts_to_read(*code, lost)});
        }
    }

    bool can(unsigned lost) const { return !lost || !sets[lost].empty(); }

    /* Encodes, or makes the lost chunks from those that minimum_to_decode names. */
    void work(unsigned lost, unsigned round) const {
        Chunks made;
        if (!lost) {
            code->encode(places_of(all), in, &made);
            return;
        }
        const auto &some = sets[lost]; /* sixteen of them, evenly */
        const auto &[set, parts] = some[round % 16 * some.size() / 16];
        if (code->decode(places_of(set), read_parts(*code, whole, parts), &made,
                         int(whole.at(0).length())))
            printf("not decoded: lost places %#x\n", set);
    }

private:
    ErasureCodeInterfaceRef code;
    const buffer::list &in;
    const unsigned all;
    Chunks whole;
    std::vector<std::pair<unsigned, ceph::ChunkParts>>
        sets[5]; /* by the number of lost chunks: lost, and the parts to read */
};

/* The best of nine rounds, which all contestants take in turn. */
static std::vector<double> best_of(const std::vector<Contestant> &contestants, unsigned lost,
                                   unsigned times) {
    std::vector<double> best(contestants.size(), 0);
    for (int round = 0; round < 9; round++)
        for (size_t i = 0; i < contestants.size(); i++) {
            if (!contestants[i].can(lost)) continue;
            const double seconds = seconds_of([&] {
                for (unsigned time = 0; time < times; time++) contestants[i].work(lost, time);
            });
            best[i] = best[i] > 0 ? std::min(best[i], seconds) : seconds;
        }
    return best;
}

/* A peer's code, or null once it was said why there is none. */
static ErasureCodeInterfaceRef code_of(const Peer &peer) {
    std::string error;
    const auto code = make_code(peer.plugin, peer.profile, &error);
    if (!code) fprintf(stderr, "%s: %s\n", peer.name, error.c_str());
    return code;
}

/* GB of object bytes in a second of the processor, and in brackets how many times as fast as isa.
 * The codes are made anew: clay keeps buffers of the length that it has encoded first. */
static void time_stripe(unsigned unit) {
    const buffer::list in = random_bytes(12 * unit, 5);
    std::vector<Contestant> contestants;
    for (const Peer &peer : peers) contestants.emplace_back(code_of(peer), in);
    const unsigned times = std::max(16u, (8u << 20) / (12 * unit));
    for (unsigned lost = 0; lost <= 4; lost++) {
        printf("| 12 x %u KiB | %s%s |", unit >> 10, lost ? std::to_string(lost).c_str() : "encode",
               lost ? " lost" : "");
        const auto best = best_of(contestants, lost, times);
        for (const double seconds : best)
            if (seconds > 0)
                printf(" %.3g (%.3g) |", 12.0 * unit * times / seconds / 1e9, best[1] / seconds);
            else
                printf(" - |");
        printf("\n");
    }
}

int main(int argc, char **argv) {
    if (argc != 2 || !begin(argv[1])) {
        fprintf(stderr, "usage: plugin_bench FOLDER\n");
        return 2;
    }
    for (const Peer &peer : peers) {
        const auto code = code_of(peer);
        if (!code) return 1;
        count_sets(peer, *code);
    }
    printf(
        "\nGB of object bytes in a second of the processor, one thread; in brackets how many times "
        "as fast as isa\n\n| "
        "Stripe | Work |");
    for (const Peer &peer : peers) printf(" %s |", peer.name);
    printf("\n|---|---|---|---|---|---|---|---|\n");
    for (unsigned unit : {4096u, 65536u, 1048576u}) time_stripe(unit);
    fflush(stdout);
    _exit(0); /* a plugin is never unloaded */
}
