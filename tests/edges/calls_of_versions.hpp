// Random calls on versions that are held, on the items of a plan, and for the numbers of a store.
#ifndef EDGES_CALLS_OF_VERSIONS_HPP
#define EDGES_CALLS_OF_VERSIONS_HPP

#include "calls_of_blobs.hpp"

class VersionCalls : public BlobCalls {
protected:
    using BlobCalls::BlobCalls;

    void numbers() {
        Held &from = with(Holds::session);
        lrc_numbers got = {untouched, untouched, untouched, untouched, untouched, untouched};
        begin("numbers");
        const uint32_t status = random.one_in(2)
                                    ? lrc_store_numbers(&from.slot, &got)
                                    : lrc_store_numbers_wait(&from.slot, &got, timeout());
        judge(status, not_a_session(from), Statuses());
        lrc_numbers want = {untouched, untouched, untouched, untouched, untouched, untouched};
        if (status == LRC_STORE_DONE) want = from.store->numbers();
        same(got.blobs, want.blobs, "`blobs`");
        same(got.bytes, want.bytes, "`bytes`");
        same(got.lost, want.lost, "`lost`");
        same(got.unrecoverable, want.unrecoverable, "`unrecoverable`");
        same(got.calls, want.calls, "`calls`");
        same(got.entries, want.entries, "`entries`");
    }

    // The journal has a hold as a read of no byte.
    void hold() {
        Held &from = with(Holds::session), &to = other_with(Holds::nothing, from);
        const std::string name = this->name();
        uint64_t version = untouched, len = untouched;
        begin("hold", name);
        const uint32_t got =
            random.one_in(2)
                ? lrc_store_hold(&from.slot, at(name), name.size(), &to.slot, &version, &len)
                : lrc_store_hold_wait(&from.slot, at(name), name.size(), &to.slot, &version, &len,
                                      timeout());
        const Statuses reasons =
            of_named(from, name).add(to.holds != Holds::nothing, LRC_STORE_OCCUPIED);
        const model::Entry entry = answer(from, LRC_CALL_READ, name, 0, 0, reasons, got);
        judge_entry(from, entry, reasons, got, version);
        const bool is_done = got == LRC_STORE_DONE;
        same(len, is_done ? blob_of(from, name)->len : untouched, "`len`");
        if (!is_done) return;
        to.become(Holds::version).blob = *blob_of(from, name);
        to.content = name;
        to.store = from.store;
    }

    // The version is held by a read of no byte, and then read.
    void get() {
        Held &from = with(Holds::session), &to = other_with(Holds::nothing, from);
        const std::string name = this->name();
        uint64_t version = untouched, len = untouched, pieces = untouched;
        begin("get", name);
        const uint32_t got = random.one_in(2)
                                 ? lrc_store_get(&from.slot, at(name), name.size(), &to.slot,
                                                 &version, &len, &pieces)
                                 : lrc_store_get_wait(&from.slot, at(name), name.size(), &to.slot,
                                                      &version, &len, &pieces, timeout());
        const bool is_held = version != untouched;
        const uint32_t called = is_held ? uint32_t{LRC_STORE_DONE} : got;
        const Statuses reasons =
            of_named(from, name).add(to.holds != Holds::nothing, LRC_STORE_OCCUPIED);
        const model::Entry entry = answer(from, LRC_CALL_READ, name, 0, 0, reasons, called);
        judge_entry(from, entry, reasons, called, version);
        const model::Blob *blob = is_held ? blob_of(from, name) : nullptr;
        same(len, blob ? blob->len : untouched, "`len`");
        if (blob) {
            const uint32_t read = blob->status_of_read(0, blob->len);
            judge(got, Statuses().add(read != LRC_STORE_DONE, read), LRC_STORE_NOT_REBUILT);
        }
        if (got != LRC_STORE_DONE) return same(pieces, untouched, "`pieces`");
        to.become(Holds::lending).bytes = blob->bytes;
        to.start = 0;
        to.len = blob->len;
        to.pieces = pieces;
    }

    Statuses not_a_version(const Held &from) {
        return Statuses().add(from.holds != Holds::version, LRC_STORE_EMPTY);
    }

    void shape() {
        Held &from = with(Holds::version);
        lrc_shape got = {untouched, untouched, untouched, untouched, 77, 77};
        begin("shape");
        judge(lrc_slot_shape(&from.slot, &got), not_a_version(from), Statuses());
        const bool is = from.holds == Holds::version;
        same(got.version, is ? from.blob.version : untouched, "`version`");
        same(got.len, is ? from.blob.len : untouched, "`len`");
        same(got.stripes, is ? from.blob.stripes : untouched, "`stripes`");
        same(got.lost, is ? from.blob.lost_count : untouched, "`lost`");
        same(got.width, is ? from.blob.width : 77, "`width`");
        same(got.data_fragments, is ? from.blob.data : 77, "`data_fragments`");
    }

    void lost() {
        Held &from = with(Holds::version);
        const uint64_t stripe = place(&from.blob, random.one_in(2)).first;
        uint16_t got = 0xABCD;
        begin("lost", stripe);
        const bool is_outside = from.holds == Holds::version && stripe >= from.blob.stripes;
        const uint32_t status = lrc_slot_lost(&from.slot, stripe, &got);
        judge(status, not_a_version(from).add(is_outside, LRC_STORE_NO_FRAGMENT), Statuses());
        same(got, status == LRC_STORE_DONE ? from.blob.lost_of(stripe) : 0xABCD, "`lost`");
    }

    // The bytes of a data fragment, with zeros behind the blob's last byte.
    static std::string data_of(const model::Blob &blob, uint64_t stripe, uint64_t fragment) {
        const uint64_t start = (stripe * blob.data + fragment) * blob.width;
        std::string bytes = start < blob.len ? blob.bytes->substr(start, blob.width) : "";
        bytes.resize(blob.width, '\0');
        return bytes;
    }

    static bool has(const model::Blob &blob, uint64_t stripe, uint64_t fragment) {
        return stripe < blob.stripes && fragment < blob.data + 4;
    }

    void fragment() {
        Held &from = with(Holds::version);
        const auto [stripe, fragment] = place(&from.blob, random.one_in(4));
        lrc_slice got = no_slice();
        begin("fragment", stripe, fragment);
        const bool is = from.holds == Holds::version;
        const bool is_there = is && has(from.blob, stripe, fragment);
        const uint32_t status = lrc_slot_fragment(&from.slot, stripe, fragment, &got);
        judge(status,
              not_a_version(from)
                  .add(is && !is_there, LRC_STORE_NO_FRAGMENT)
                  .add(is_there && from.blob.is_lost(stripe, fragment), LRC_STORE_ALREADY_LOST),
              Statuses());
        same(got.len, status == LRC_STORE_DONE ? from.blob.width : 0, "the fragment's length");
        if (status == LRC_STORE_DONE && fragment < from.blob.data)
            same_bytes(got.at, data_of(from.blob, stripe, fragment).data(), got.len, "a fragment");
    }

    void range_of_version() {
        Held &from = with(Holds::version), &to = other_with(Holds::nothing, from);
        const bool is = from.holds == Holds::version;
        const auto [start, len] = range(is ? &from.blob : nullptr);
        uint64_t pieces = untouched;
        begin("range of a version", start, len);
        const uint32_t read = is ? from.blob.status_of_read(start, len) : uint32_t{LRC_STORE_DONE};
        const uint32_t got = lrc_slot_lend(&from.slot, start, len, &to.slot, &pieces);
        judge(got, not_a_version(from)
                       .add(to.holds != Holds::nothing, LRC_STORE_OCCUPIED)
                       .add(read != LRC_STORE_DONE, read));
        if (got != LRC_STORE_DONE) return same(pieces, untouched, "`pieces`");
        to.become(Holds::lending).bytes = from.blob.bytes;
        to.start = start;
        to.len = len;
        to.pieces = pieces;
    }

    void copy_of_version() {
        Held &from = with(Holds::version);
        const bool is = from.holds == Holds::version;
        const auto [start, len] = range(is ? &from.blob : nullptr);
        const size_t offset = 1 + random.below(33);
        std::string target(offset + len + 1, char(0xC7));
        begin("copy of a version", start, len);
        const uint32_t read = is ? from.blob.status_of_read(start, len) : uint32_t{LRC_STORE_DONE};
        auto *to = reinterpret_cast<uint8_t *>(target.data()) + offset;
        const uint32_t got = lrc_slot_copy(&from.slot, start, to, len);
        judge(
            got, not_a_version(from).add(read != LRC_STORE_DONE, read),
            Statuses(LRC_STORE_NO_MEMORY).add(is && read == LRC_STORE_DONE, LRC_STORE_NOT_REBUILT));
        judge_target(target, offset, len, got, &from.blob, start);
    }

    // The bytes are those of the version, as the caller has to ensure, or as few as to be refused.
    void restore() {
        Held &from = with(Holds::session), &known = other_with(Holds::version, from);
        const bool are_both = from.holds == Holds::session && known.holds == Holds::version;
        auto [stripe, fragment] = place(&known.blob, false);
        if (fragment >= known.blob.data) fragment %= known.blob.data;
        std::string bytes = data_of(known.blob, stripe, fragment);
        if (random.one_in(10)) bytes.resize(random.below(bytes.size()));
        uint64_t version = untouched;
        begin("restore", known.content, stripe, fragment, bytes.size());
        const uint32_t got =
            random.one_in(2) ? lrc_store_restore(&from.slot, &known.slot, stripe, fragment,
                                                 at(bytes), bytes.size(), &version)
                             : lrc_store_restore_wait(&from.slot, &known.slot, stripe, fragment,
                                                      at(bytes), bytes.size(), &version, timeout());
        const bool is_other =
            are_both && (from.store != known.store || bytes.size() != known.blob.width);
        const Statuses reasons =
            Statuses()
                .add(!are_both, LRC_STORE_EMPTY)
                .add(is_other, LRC_STORE_BAD_ARGUMENT)
                .add(are_both && !has(known.blob, stripe, fragment), LRC_STORE_NO_FRAGMENT)
                .add(are_both && from.store->is_full(), LRC_STORE_JOURNAL_FULL);
        const model::Entry entry = answer(from, LRC_CALL_RESTORE, known.content, stripe, fragment,
                                          reasons, got, known.blob.version);
        judge_entry(from, entry, reasons, got, version);
    }

    void items() {
        Held &from = with(Holds::plan);
        const bool is_plan = from.holds == Holds::plan;
        const size_t capacity = random.below(5), left = from.items.size() - from.next;
        std::vector<lrc_item> got(capacity + 1, lrc_item{no_slice(), 7, 7, 7});
        uint64_t count = untouched;
        begin("items", capacity);
        judge(lrc_slot_items(&from.slot, got.data(), capacity, &count),
              Statuses().add(!is_plan, LRC_STORE_EMPTY), Statuses());
        const uint64_t want = is_plan ? std::min(capacity, left) : 0;
        same(count, is_plan ? want : untouched, "`count`");
        for (size_t i = 0; i < got.size(); i++) {
            const model::Item item = i < want ? from.items[from.next + i] : model::Item{"", 7, 7};
            same(got[i].name.len, item.name.size(), "the length of a name");
            same_bytes(got[i].name.at, item.name.data(), item.name.size(), "a name");
            same(got[i].stripe, item.stripe, "a stripe");
            same(got[i].fragment, item.fragment, "a fragment");
        }
    }

    void skip() {
        Held &from = with(Holds::plan);
        const bool is_plan = from.holds == Holds::plan;
        const bool has_next = is_plan && from.next < from.items.size();
        begin("skip");
        judge(lrc_slot_skip(&from.slot),
              Statuses()
                  .add(!is_plan, LRC_STORE_EMPTY)
                  .add(is_plan && !has_next, LRC_STORE_NOTHING_LEFT),
              Statuses());
        from.next += has_next;
    }

    void call_of_versions() {
        const uint64_t kind = random.below(100);
        if (kind < 10) return numbers();
        if (kind < 25) return hold();
        if (kind < 35) return get();
        if (kind < 43) return shape();
        if (kind < 50) return lost();
        if (kind < 65) return fragment();
        if (kind < 70) return range_of_version();
        if (kind < 76) return copy_of_version();
        if (kind < 90) return restore();
        if (kind < 97) return items();
        return skip();
    }
};

#endif
