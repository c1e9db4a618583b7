// Random calls that put and read blobs.
#ifndef EDGES_CALLS_OF_BLOBS_HPP
#define EDGES_CALLS_OF_BLOBS_HPP

#include "calls_of_sessions.hpp"

class BlobCalls : public SessionCalls {
protected:
    using SessionCalls::SessionCalls;

    // ---- Puts

    // Takes note of a put by its status and its version.
    void note_put(Held &from, const std::string &name, const std::string &blob, uint32_t code,
                  uint32_t got, uint64_t version) {
        if (got != LRC_STORE_DONE) return same(version, untouched, "`version`");
        model::Entry entry{from.who, LRC_CALL_PUT, name, code, blob.size()};
        from.store->answer(entry, std::make_shared<std::string>(blob));
        from.store->note(entry);
        same(version, entry.version, "`version`");
    }

    Statuses of_put(const Held &from, const std::string &name, uint64_t len, uint32_t code) {
        const bool is_code = code == 12 || code == 6;
        return of_named(from, name)
            .add(!is_code, LRC_STORE_BAD_ARGUMENT)
            .add(from.holds == Holds::session && is_code &&
                     len > uint64_t{4096} * code * from.store->width,
                 LRC_STORE_TOO_LONG);
    }

    void put() {
        Held &from = with(Holds::session);
        const std::string name = this->name(), blob = bytes_of(random.next(), blob_len(from));
        const uint32_t code = this->code();
        std::string given = blob;
        uint64_t version = untouched;
        begin("put", name, blob.size(), code);
        const uint32_t got = random.one_in(2)
                                 ? lrc_store_put(&from.slot, at(name), name.size(), at(given),
                                                 given.size(), code, &version)
                                 : lrc_store_put_wait(&from.slot, at(name), name.size(), at(given),
                                                      given.size(), code, &version, timeout());
        judge(got, of_put(from, name, blob.size(), code));
        same_bytes(given.data(), blob.data(), blob.size(), "the caller's blob");
        given.assign(given.size(), 'X');
        note_put(from, name, blob, code, got, version);
    }

    void reserve() {
        Held &to = with(Holds::nothing);
        const bool is_huge = random.one_in(20);
        const size_t len = is_huge ? SIZE_MAX >> random.below(16) : blob_len(with(Holds::session));
        begin("reserve", len);
        const uint32_t got = lrc_slot_reserve(len, &to.slot);
        judge(got, Statuses()
                       .add(to.holds != Holds::nothing, LRC_STORE_OCCUPIED)
                       .add(is_huge, LRC_STORE_NO_MEMORY));
        if (got == LRC_STORE_DONE) to.become(Holds::buffer).content.assign(len, 0);
    }

    // After a refused put the bytes are the same, and often cannot be written again.
    void buffer() {
        Held &from = with(Holds::buffer);
        lrc_buffer got = {nullptr, 77};
        begin("buffer");
        const uint32_t status = lrc_slot_buffer(&from.slot, &got);
        if (from.is_writable == Writable::maybe)
            from.is_writable = status == LRC_STORE_EMPTY ? Writable::no : Writable::yes;
        const bool is_buffer = from.holds == Holds::buffer && from.is_writable == Writable::yes;
        judge(status, Statuses().add(!is_buffer, LRC_STORE_EMPTY));
        same(got.len, is_buffer ? from.content.size() : 77, "the buffer's length");
        if (!is_buffer || got.len == 0) return;
        same_bytes(got.at, from.content.data(), got.len, "the buffer");
        const size_t first = random.below(got.len), len = random.below(got.len - first) + 1;
        from.content.replace(first, len, bytes_of(random.next(), len));
        std::memcpy(got.at + first, from.content.data() + first, len);
    }

    // Whether a buffer can be written once its put was refused.
    static Writable written_after(uint32_t status) {
        if (status == LRC_STORE_BAD_NAME || status == LRC_STORE_BAD_ARGUMENT) return Writable::yes;
        return status == LRC_STORE_NO_MEMORY ? Writable::maybe : Writable::no;
    }

    void put_from() {
        Held &from = with(Holds::session), &source = other_with(Holds::buffer, from);
        const std::string name = this->name(), blob = source.content;
        const uint32_t code = this->code();
        uint64_t version = untouched;
        begin("put_from", name, blob.size(), code);
        const uint32_t got = random.one_in(2)
                                 ? lrc_store_put_from(&from.slot, at(name), name.size(),
                                                      &source.slot, code, &version)
                                 : lrc_store_put_from_wait(&from.slot, at(name), name.size(),
                                                           &source.slot, code, &version, timeout());
        judge(got, of_put(from, name, blob.size(), code)
                       .add(source.holds != Holds::buffer, LRC_STORE_EMPTY));
        note_put(from, name, blob, code, got, version);
        if (got == LRC_STORE_DONE)
            source.become(Holds::nothing);
        else if (from.holds == Holds::session && source.is_writable == Writable::yes)
            source.is_writable = written_after(got);
    }

    // ---- Reads

    void read() {
        Held &from = with(Holds::session);
        const std::string name = this->name();
        const model::Blob *blob = blob_of(from, name);
        const auto [start, len] = range(blob);
        uint64_t version = untouched, lent = untouched, built = untouched;
        const size_t offset = 1 + random.below(33);
        std::string target(offset + len + 1, char(0xC7));
        begin("read", name, start, len);
        auto *to = reinterpret_cast<uint8_t *>(target.data()) + offset;
        const uint32_t got = random.one_in(2)
                                 ? lrc_store_read(&from.slot, at(name), name.size(), start, to, len,
                                                  &version, &lent, &built)
                                 : lrc_store_read_wait(&from.slot, at(name), name.size(), start, to,
                                                       len, &version, &lent, &built, timeout());
        const Statuses reasons = of_named(from, name);
        const model::Entry entry = answer(from, LRC_CALL_READ, name, start, len, reasons, got);
        judge_entry(from, entry, reasons, got, version,
                    Statuses(LRC_STORE_NO_MEMORY)
                        .add(entry.status == LRC_STORE_DONE, LRC_STORE_NOT_REBUILT));
        judge_target(target, offset, len, got, blob, start);
        uint64_t counts[2] = {0, 0};
        if (got == LRC_STORE_DONE)
            for (const model::Part &part : blob->parts(start, len))
                counts[part.is_lost] += part.len;
        same(lent, got == LRC_STORE_DONE ? counts[0] : untouched, "`lent`");
        same(built, got == LRC_STORE_DONE ? counts[1] : untouched, "`built`");
    }

    // The target has the blob's bytes, or is unchanged. What stands around it is unchanged.
    void judge_target(const std::string &target, size_t offset, size_t len, uint32_t got,
                      const model::Blob *blob, uint64_t start) {
        const std::string old(target.size(), char(0xC7));
        same_bytes(target.data(), old.data(), offset, "what is before the target");
        same_bytes(target.data() + offset + len, old.data(), 1, "what is after the target");
        if (got != LRC_STORE_NOT_REBUILT)
            same_bytes(target.data() + offset,
                       got == LRC_STORE_DONE ? blob->bytes->data() + start : old.data(), len,
                       "the target");
    }

    void lend() {
        Held &from = with(Holds::session), &to = other_with(Holds::nothing, from);
        const std::string name = this->name();
        const model::Blob *blob = blob_of(from, name);
        const model::Bytes bytes = blob ? blob->bytes : nullptr;
        const auto [start, len] = range(blob);
        uint64_t version = untouched, pieces = untouched;
        begin("lend", name, start, len);
        const uint32_t got = random.one_in(2)
                                 ? lrc_store_lend(&from.slot, at(name), name.size(), start, len,
                                                  &to.slot, &version, &pieces)
                                 : lrc_store_lend_wait(&from.slot, at(name), name.size(), start,
                                                       len, &to.slot, &version, &pieces, timeout());
        const Statuses reasons =
            of_named(from, name).add(to.holds != Holds::nothing, LRC_STORE_OCCUPIED);
        const model::Entry entry = answer(from, LRC_CALL_READ, name, start, len, reasons, got);
        judge_entry(from, entry, reasons, got, version,
                    Statuses(LRC_STORE_NO_MEMORY)
                        .add(entry.status == LRC_STORE_DONE, LRC_STORE_NOT_REBUILT));
        if (got != LRC_STORE_DONE) return same(pieces, untouched, "`pieces`");
        to.become(Holds::lending).bytes = bytes;
        to.start = start;
        to.len = len;
        to.pieces = pieces;
    }

    // The pieces, as many as there are and fit, are the range.
    void slices() {
        Held &from = with(Holds::lending);
        const size_t capacity = random.below(from.pieces + 3);
        std::vector<lrc_slice> got(capacity + 1, no_slice());
        uint64_t count = untouched, end = from.start;
        begin("slices", capacity);
        const bool is_lending = from.holds == Holds::lending;
        judge(lrc_slot_slices(&from.slot, got.data(), capacity, &count),
              Statuses().add(!is_lending, LRC_STORE_EMPTY));
        same(count, is_lending ? std::min<uint64_t>(capacity, from.pieces) : untouched, "`count`");
        for (size_t i = 0; i < got.size(); i++) {
            if (!is_lending || i >= count) {
                same(got[i].len, 0, "the length of a slice after the last");
                continue;
            }
            same(got[i].len > from.start + from.len - end, 0, "whether a piece is too long");
            same_bytes(got[i].at, from.bytes->data() + end, got[i].len, "a piece");
            end += got[i].len;
        }
        if (is_lending && capacity >= from.pieces) same(end - from.start, from.len, "their length");
    }

    // The runs, as many as there are and fit, are the range from a byte on.
    void runs() {
        Held &from = with(Holds::lending);
        const size_t capacity = random.below(from.pieces + 3);
        const uint64_t first = random.below(from.len + 3);
        std::vector<lrc_slice> got(capacity + 1, no_slice());
        uint64_t count = untouched, left = from.len - std::min(first, from.len);
        begin("runs", first, capacity);
        const bool is_lending = from.holds == Holds::lending;
        judge(lrc_slot_runs(&from.slot, first, got.data(), capacity, &count),
              Statuses().add(!is_lending, LRC_STORE_EMPTY));
        if (!is_lending) same(count, untouched, "`count`");
        for (size_t i = 0; i < got.size(); i++) {
            if (!is_lending || i >= count) {
                same(got[i].len, 0, "the length of a slice after the last");
                continue;
            }
            same(got[i].len == 0 || got[i].len > left, 0, "whether a run is empty or too long");
            same_bytes(got[i].at, from.bytes->data() + from.start + from.len - left, got[i].len,
                       "a run");
            left -= got[i].len;
        }
        if (!is_lending) return;
        same(count > capacity, 0, "whether there are more runs than fit");
        if (count < capacity) same(left, 0, "the bytes behind the runs");
    }
};

#endif
