/* What plugin_test.cc asks of a plugin for Ceph 20.2 by Ceph's own types of sets and maps. */
#ifndef SHARDS_TEST_H
#define SHARDS_TEST_H

#include "plugin_loader.h"

#include <csignal>
#include <functional>
#include <sys/wait.h>
#include <unistd.h>

class ShardsTest {
public:
    using Check = bool (*)(bool, const std::string &);
    using Set = ceph::ShardSet;
    using Buffers = ceph::ShardBuffers;

    ShardsTest(const std::string &of, ErasureCodeInterface &by, Check to)
        : name(of), code(by), check(to), n(code.get_chunk_count()), all(all_of(by)),
          data(data_of(by)), in(random_bytes(code.get_data_chunk_count() * len, 20)) {
        code.encode(places_of(all), in, &whole);
    }

    /* What each plugin has to do, Ceph's own too. */
    void test() {
        check(test_encode(), name + ": encodes into a map of shards");
        check(test_decode(), name + ": decodes from a map of shards");
        check(test_read(), name + ": the same is read for a set of shards");
        check(test_encode_parts(), name + ": encodes parts");
        check(test_decode_parts(), name + ": decodes parts");
        check(test_delta(), name + ": a delta changes the parities as the write does");
        check(test_concat(), name + ": wanted data one after the other");
        check(code.get_minimum_granularity() == 1, name + ": parts may have any length");
    }

    /* What azure_lrc refuses. */
    void test_refused() {
        check(test_no_place(), name + ": a shard that the code does not have is refused");
        check(test_no_room(), name + ": a map without room for the chunks is refused");
        check(test_lengths(), name + ": parts of two lengths are refused");
        check(test_unrecoverable(),
              name + ": an unrecoverable part is refused, and none is written");
    }

    /* Whether a pool may have allow_ec_optimizations. */
    void test_optimized(bool is_optimized) {
        const std::string words = "partialread,partialwrite,zeroinout";
        check(code.get_supported_optimizations() == (is_optimized ? 0x57 : 0x7) &&
                  code.get_optimizations_flags_string() ==
                      words + (is_optimized ? ",paritydelta,optimizedsupport" : ""),
              name + ": what it supports");
    }

private:
    static constexpr unsigned len = 4096;
    const std::string name;
    ErasureCodeInterface &code;
    const Check check;
    const unsigned n, all, data;
    const int last = int(n) - 1;
    const buffer::list in;
    Chunks whole;

    /* Lost places of both halves: they are recoverable for isa, too. */
    const std::vector<unsigned> lost_sets = {1u << (n - 4),     1u,           1u << 7, 3u,
                                             1u << 6 | 1u << 7, 1u | 1u << 8, 0x106u};

    static void fill(unsigned set, Set *shards) {
        for (int place : places_of(set)) shards->insert(place);
    }

    static unsigned bits_of(const Set &shards) {
        unsigned set = 0;
        for (int place = 0; place < 32; place++)
            if (shards.contains(place)) set |= 1u << place;
        return set;
    }

    /* Copies of the chunks at the places, in buffers of their own. */
    void fill(unsigned set, Buffers *buffers) const {
        for (int place : places_of(set)) {
            buffer::ptr copy(buffer::create_aligned(len, 64));
            whole.at(place).begin().copy(len, copy.c_str());
            buffers->set(place, std::move(copy));
        }
    }

    static void blank(unsigned set, Buffers *buffers, unsigned length = len) {
        for (int place : places_of(set)) {
            buffer::ptr blank(buffer::create_aligned(length, 64));
            memset(blank.c_str(), 'U', length);
            buffers->set(place, std::move(blank));
        }
    }

    bool holds(const Buffers &buffers, int place, const Chunks &of) const {
        buffer::list chunk;
        if (!buffers.contains(place)) return false;
        chunk.append(buffers.at(place));
        return chunk.contents_equal(of.at(place));
    }

    bool test_encode() {
        bool good = true;
        for (unsigned want : {all, data, 1u << 1 | 1u << 7}) {
            Set shards;
            ceph::ShardChunks chunks(n);
            fill(want, &shards);
            good &= !code.encode(shards, in, &chunks);
            for (int place = 0; place < int(n); place++) {
                const bool wanted = want >> place & 1;
                good &= chunks.contains(place) == wanted;
                good = good && (!wanted || chunks.at(place).contents_equal(whole.at(place)));
            }
        }
        return good;
    }

    bool test_decode() {
        bool good = true;
        for (unsigned lost : lost_sets) {
            Set want;
            ceph::ShardChunks chunks(n), decoded(n);
            fill(lost, &want);
            for (int place : places_of(all & ~lost)) chunks.set(place, whole.at(place));
            good &= !code.decode(want, chunks, &decoded, int(len));
            for (int place : places_of(lost))
                good = good && decoded.contains(place) &&
                       decoded.at(place).contents_equal(whole.at(place));
        }
        return good;
    }

    bool test_read() {
        bool good = true;
        for (unsigned lost : lost_sets) {
            Set want, available, read, least, alone;
            ceph::ShardParts parts(n);
            ceph::ShardCosts costs(n);
            unsigned expected = 0;
            fill(lost, &want);
            fill(all & ~lost, &available);
            for (int place : places_of(all & ~lost)) costs.set(place, 1);
            /* where a pool may have allow_ec_optimizations, a parity is made of all data */
            const bool encodes = code.get_supported_optimizations() & 0x40 && lost & ~data;
            good &= !to_read(code, encodes ? lost | data : lost, all & ~lost, &expected) &&
                    !code.minimum_to_decode(want, available, read, &parts) &&
                    !code.minimum_to_decode(want, available, alone, nullptr) &&
                    !code.minimum_to_decode_with_cost(want, costs, &least) &&
                    bits_of(read) == expected && bits_of(alone) == expected &&
                    bits_of(least) == expected;
            for (int place = 0; place < int(n); place++) {
                good &= parts.contains(place) == bool(expected >> place & 1);
                good = good && (!parts.contains(place) ||
                                parts.at(place) == std::vector<std::pair<int, int>>{{0, 1}});
            }
        }
        return good;
    }

    /* Data that is not given is zeros, and a parity that is not given is not wanted. */
    bool test_encode_parts() {
        bool good = true;
        for (unsigned given : {data, data & ~0x3u}) {
            Chunks expected = whole;
            Buffers buffers(n), parities(n), one(n);
            fill(given, &buffers);
            blank(all & ~data, &parities);
            blank(1u << (n - 1), &one);
            for (int place : places_of(data & ~given)) {
                expected[place].clear();
                expected[place].append_zero(len);
            }
            for (int place : places_of(all & ~data)) {
                expected[place].clear();
                expected[place].append(buffer::ptr(buffer::create_aligned(len, 64)));
            }
            good &= !code.encode_chunks(places_of(all), &expected) &&
                    !code.encode_chunks(buffers, parities) && !code.encode_chunks(buffers, one) &&
                    holds(one, last, expected);
            for (int place : places_of(all & ~data)) good &= holds(parities, place, expected);
        }
        return good;
    }

    /* The chunks are decoded from all others, and from those that have to be read. */
    bool test_decode_parts() {
        bool good = true;
        for (unsigned lost : lost_sets) {
            unsigned read = 0;
            good &= !to_read(code, lost, all & ~lost, &read);
            for (unsigned given : {all & ~lost, read}) {
                Set want;
                Buffers buffers(n), decoded(n);
                fill(lost, &want);
                fill(given, &buffers);
                blank(lost, &decoded);
                good &= !code.decode_chunks(want, buffers, decoded);
                for (int place : places_of(lost)) good &= holds(decoded, place, whole);
                for (int place : places_of(given)) good &= holds(buffers, place, whole);
            }
        }
        return good;
    }

    /* Two data chunks are written anew, and one parity is not asked for. */
    bool test_delta() {
        Chunks after = whole;
        Buffers deltas(n), parities(n);
        const Places two = {*places_of(data).begin(), *places_of(data).rbegin()};
        const int left = last;
        fill(all & ~data & ~(1u << left), &parities);
        blank(0, &deltas);
        for (int place : two) {
            Buffers before(n);
            buffer::ptr delta(buffer::create_aligned(len, 64));
            buffer::list fresh = random_bytes(len, unsigned(place) + 1);
            fill(1u << place, &before);
            code.encode_delta(before.at(place), fresh.front(), &delta);
            deltas.set(place, std::move(delta));
            after[place] = fresh;
        }
        for (int place : places_of(all & ~data)) after[place].rebuild();
        Chunks encoded = after;
        for (int place : places_of(all & ~data)) {
            encoded[place].clear();
            encoded[place].append(buffer::ptr(buffer::create_aligned(len, 64)));
        }
        code.encode_chunks(places_of(all), &encoded);
        code.apply_delta(deltas, parities);
        bool good = !parities.contains(left);
        for (int place : places_of(all & ~data & ~(1u << left)))
            good &= holds(parities, place, encoded);
        return good;
    }

    bool test_concat() {
        buffer::list some, expected;
        const auto &mapping = code.get_chunk_mapping();
        Places want;
        for (unsigned fragment : {1u, 2u}) {
            const int place = mapping.empty() ? int(fragment) : int(mapping[fragment]);
            want.insert(place);
            buffer::list chunk = whole.at(place);
            expected.claim_append(chunk);
        }
        return !code.decode_concat(want, chunks_at(whole, all & ~(1u << *want.begin())), &some) &&
               some.contents_equal(expected);
    }

    bool test_no_place() {
        Set far, near, read;
        fill(1u << n, &far);
        fill(1u, &near);
        ceph::ShardChunks chunks(32), decoded(32);
        for (int place : places_of(all)) chunks.set(place, whole.at(place));
        bool good = code.minimum_to_decode(far, near, read, nullptr) == -EINVAL &&
                    code.minimum_to_decode(near, far, read, nullptr) == -EINVAL && !bits_of(read);
        good &= code.decode(far, chunks, &decoded, int(len)) == -EINVAL;
        chunks.set(int(n), whole.at(0));
        return good && code.decode(near, chunks, &decoded, int(len)) == -EINVAL;
    }

    bool test_no_room() {
        Set want, read;
        fill(all, &want);
        ceph::ShardParts few(n - 1);
        ceph::ShardChunks chunks(n), less(n - 1);
        for (int place : places_of(all)) chunks.set(place, whole.at(place));
        return code.minimum_to_decode(want, want, read, &few) == -EINVAL && !few.contains(0) &&
               code.encode(want, in, &less) == -EINVAL &&
               code.decode(want, chunks, &less, int(len)) == -EINVAL && !less.contains(0);
    }

    /* Whether the call ends the process. */
    static bool ends(const std::function<void()> &call) {
        int status = 0;
        fflush(stdout);
        const pid_t child = fork();
        if (!child) {
            call();
            _exit(0);
        }
        return waitpid(child, &status, 0) == child && WIFSIGNALED(status) &&
               WTERMSIG(status) == SIGABRT;
    }

    /* Nothing is to be done for parts of no bytes. A call that returns nothing ends the process. */
    bool test_lengths() {
        const Set want;
        const unsigned parities = all & ~data;
        Buffers less(n), more(n), mixed(n), to(n), none(n);
        blank(data, &less, len - 1);
        blank(data, &more, len + 1);
        blank(data & ~1u, &mixed);
        blank(1u, &mixed, 0);
        blank(parities, &to);
        bool good = code.encode_chunks(none, none) == -EINVAL;
        for (Buffers *wrong : {&less, &more, &mixed})
            good &= code.encode_chunks(*wrong, to) == -EINVAL &&
                    code.decode_chunks(want, *wrong, to) == -EINVAL &&
                    ends([&] { code.apply_delta(*wrong, to); });
        buffer::ptr &right = to.at(last);
        for (Buffers *wrong : {&less, &more})
            good &= ends([&] { code.encode_delta(wrong->at(0), right, &right); }) &&
                    ends([&] { code.encode_delta(right, wrong->at(0), &right); });
        return good && test_empty();
    }

    bool test_empty() {
        const Set want;
        Buffers empty(n), to(n);
        blank(data, &empty, 0);
        blank(all & ~data, &to, 0);
        code.apply_delta(empty, to);
        code.encode_delta(empty.at(0), empty.at(0), &empty.at(1));
        return !code.encode_chunks(empty, to) && !code.decode_chunks(want, empty, to);
    }

    /* A chunk that is to be decoded is lost, also if it is given. */
    bool test_unrecoverable() {
        Set want;
        Buffers buffers(n), decoded(n);
        const auto [group, other] = losses_of(code);
        const unsigned lost = group | 1u << other, given = group & -group;
        fill((all & ~lost) | given, &buffers);
        blank(lost, &decoded);
        Chunks untouched;
        for (int place : places_of(all)) untouched[place].append(std::string(len, 'U'));
        bool good = code.decode_chunks(want, buffers, decoded) == -EIO;
        for (int place : places_of(lost)) good &= holds(decoded, place, untouched);
        return good;
    }
};

#endif
