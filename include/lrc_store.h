/* lrc_store.h: an in-memory blob store that the threads of a process share. It keeps each blob
 * in a Local Reconstruction Code, so it can read and repair blobs while fragments are lost. Link
 * liblrc_store. The functions down to lrc_slot_release are proved; the others are plain C, and so
 * is the number that lrc_store_open and lrc_store_open_unjournaled give to a store.
 *
 * Slots. An lrc_slot holds one thing or nothing: a session of a store, a lent range, the rest of
 * a plan of repairs, a buffer, a version of a blob, or the journal of a closed store. Initialise
 * it with LRC_SLOT_EMPTY. Pass only its address, and never read, write or copy its content.
 *
 * Threads. Each thread has a session of its own, in a slot of its own, and any number of threads
 * may call at once. All their calls together have the replies of one sequential store: each
 * session's calls are part of one legal history, and that history ends with the session's latest
 * call. Only one thread at a time may use a slot. To hand a slot to another thread, synchronise
 * the two, by a lock or by the start or the join of a thread. A store has at most 64 sessions at
 * a time.
 *
 * Waiting. No function waits, except those with a `timeout_ms`: the waiting forms at the end, such
 * as lrc_store_put_wait, and functions of pools, shards and mendings. The others return
 * LRC_STORE_BUSY if another thread is in the critical section. The only session of a store never
 * gets it.
 *
 * Signals. A signal handler may call lrc_store_text and lrc_store_cpu, and nothing else of this
 * file: what it interrupts may be in the critical section, or in malloc. A thread can be cancelled
 * at a cancellation point. A waiting form is one, at least every 50 milliseconds while it sleeps.
 * The session stays whole. Asynchronous cancellation must not hit a call.
 *
 * Fork. In the child of a process with one thread, each store is a copy of its own. If the process
 * had more threads, the child may call lrc_store_text and lrc_store_cpu only, until it calls an
 * exec function. A thread that was in the critical section does not exist there, so its store would
 * be LRC_STORE_BUSY for ever.
 *
 * Arguments. A name has 1 to 32 bytes of a-z, 0-9, '.', '_' and '-'. Each function validates its
 * arguments. The caller ensures what it cannot check. An address is not NULL, also at length 0,
 * and is valid for its length. An output overlaps no other argument. The two slots of a call are
 * different ones.
 *
 * Outputs. A function writes an output only where this file says so.
 *
 * Memory comes from malloc, realloc and free. */
#ifndef LRC_STORE_H
#define LRC_STORE_H

#include <stddef.h>
#include <stdint.h>

/* Attributes. At the end of a declaration stands what a compiler can warn of, if it has the
 * attribute. LRC_NONNULL: an address is NULL. LRC_STATUS: that, or the caller ignores the status.
 * LRC_FILLS(n): the slot of parameter n is not initialised. LRC_READS(n, m), LRC_WRITES(n, m) and
 * LRC_UPDATES(n, m): the address of parameter n is not valid for the length of parameter m. They
 * are empty if LRC_NO_ATTRIBUTES is defined. */
#ifndef LRC_ATTRIBUTES
#define LRC_ATTRIBUTES
#if defined(__has_attribute) && !defined(LRC_NO_ATTRIBUTES)
#if __has_attribute(nonnull) && __has_attribute(warn_unused_result)
#define LRC_NONNULL __attribute__((nonnull))
#define LRC_STATUS __attribute__((nonnull, warn_unused_result))
#endif
#if __has_attribute(access)
#define LRC_ACCESS(of) __attribute__((access of))
#endif
#endif
#ifndef LRC_NONNULL
#define LRC_NONNULL
#define LRC_STATUS
#endif
#ifndef LRC_ACCESS
#define LRC_ACCESS(of)
#endif
#define LRC_FILLS(slot) LRC_ACCESS((read_write, slot))
#define LRC_READS(at, len) LRC_ACCESS((read_only, at, len))
#define LRC_WRITES(at, len) LRC_ACCESS((write_only, at, len))
#define LRC_UPDATES(at, len) LRC_ACCESS((read_write, at, len))
#endif

#ifdef __cplusplus
extern "C" {
#endif

typedef struct {
    void *at;
} lrc_slot;
#define LRC_SLOT_EMPTY                                                                             \
    { 0 }

/* Lent bytes. The layout is that of POSIX's struct iovec, so an array of them can go to writev. */
#ifndef LRC_SLICE
#define LRC_SLICE
typedef struct {
    const uint8_t *at;
    size_t len;
} lrc_slice;
#endif

/* A buffer that the caller fills. */
typedef struct {
    uint8_t *at;
    size_t len;
} lrc_buffer;

/* The numbers of a store. A total above UINT64_MAX is given as UINT64_MAX. */
typedef struct {
    uint64_t blobs, bytes;  /* the names that have a blob, and the bytes of these blobs */
    uint64_t lost;          /* their lost fragments */
    uint64_t unrecoverable; /* their stripes that have an unrecoverable fragment */
    uint64_t calls;         /* the calls so far, with those whose entries were discarded */
    uint64_t entries;       /* the entries that the journal keeps */
} lrc_numbers;

/* The shape of a version of a blob. */
typedef struct {
    uint64_t version, len;          /* the version's number, and its bytes */
    uint64_t stripes, lost;         /* its stripes, and the lost fragments of all of them */
    uint32_t width, data_fragments; /* the bytes of a fragment; 12 or 6 */
} lrc_shape;

/* A remaining item of a plan: a lost fragment, with the name and the version of its blob. */
typedef struct {
    lrc_slice name;
    uint64_t version, stripe, fragment;
} lrc_item;

/* The call of a journal entry. */
enum {
    LRC_CALL_PUT = 0,
    LRC_CALL_READ = 1,
    LRC_CALL_LOSE = 2,
    LRC_CALL_REPAIR = 3,
    LRC_CALL_DELETE = 4,
    LRC_CALL_STAT = 5,
    LRC_CALL_RESTORE = 6
};

/* An entry of a journal. A number that the call or the reply does not have is 0. */
typedef struct {
    lrc_slice name;
    /* data fragments and length of a put; start and length; stripe and fragment, and for a
     * restoration the version */
    uint64_t first, second, third;
    uint64_t version;            /* of the reply */
    uint64_t len, stripes, lost; /* of the reply to a stat */
    uint32_t who, call, status;  /* the caller's label, LRC_CALL_.., LRC_STORE_.. */
} lrc_entry;

/* What a function returns. On any status other than LRC_STORE_DONE, slots and outputs are
 * unchanged, unless a comment says otherwise. */
enum {
    LRC_STORE_DONE = 0,
    LRC_STORE_BUSY = 1,          /* another thread was in the critical section: call again */
    LRC_STORE_NO_NAME = 2,       /* the name has no blob */
    LRC_STORE_OUT_OF_RANGE = 3,  /* the range does not lie inside the blob */
    LRC_STORE_UNRECOVERABLE = 4, /* the remaining fragments do not determine it; `version` is
                                  * written */
    LRC_STORE_NO_FRAGMENT = 5,   /* the blob lacks this stripe, or the stripe this fragment */
    LRC_STORE_ALREADY_LOST = 6,  /* the fragment was lost already */
    LRC_STORE_NOT_LOST = 7,      /* the fragment is present */
    LRC_STORE_NO_MEMORY = 8,     /* out of memory; no history has the call */
    LRC_STORE_JOURNAL_FULL = 9,  /* the journal has as many entries as its limit: trim it */
    LRC_STORE_TOO_LONG = 10,     /* the blob needs more than 4,096 stripes */
    LRC_STORE_BAD_NAME = 11,     /* the bytes are not a valid name */
    LRC_STORE_BAD_WIDTH = 12,    /* the width is not in 1 to 65,536 */
    LRC_STORE_NO_PASS = 13,      /* the session has no place for a further one */
    LRC_STORE_EMPTY = 14,        /* a slot does not hold what the function needs */
    LRC_STORE_OCCUPIED = 15,     /* the slot that the function fills is not empty */
    LRC_STORE_BAD_ARGUMENT = 16, /* a limit not in 1 to 1,048,576; a number of shards not in 1 to
                                  * 64; a number of data fragments other than 12 and 6; slots of two
                                  * stores; bytes that are not as many as a fragment has; or, in C++
                                  * and Rust, a name of another shard than a lease */
    LRC_STORE_NOT_ALONE = 17,    /* the store has other sessions */
    LRC_STORE_NOT_REBUILT = 18,  /* out of memory for rebuilding lost fragments, or for what
                                  * lrc_store_lend or lrc_store_get lends; the history has the call,
                                  * `version` is written, and any byte of `target` may be */
    LRC_STORE_NOTHING_LEFT = 19, /* the plan has no further item, the journal no such entry, or
                                  * the store no such shard */
    LRC_STORE_REPLACED = 20      /* the name has another version; `version` is written */
};

/* Opens a store whose fragments have `width` bytes and whose journal holds at most `limit`
 * entries. Each blob except an empty one takes at least 16 (or 10) fragments, however few bytes it
 * has. Puts the store's first session into the empty `slot`. The session has its 64 places. */
uint32_t lrc_store_open(uint32_t width, uint32_t limit, lrc_slot *slot) LRC_STATUS LRC_FILLS(3);

/* Does the same for a store without a journal, as a service wants it: no call is refused for a full
 * journal before 2^62 calls, none takes memory for an entry, and there is nothing to trim. The
 * store counts its calls. */
uint32_t lrc_store_open_unjournaled(uint32_t width, lrc_slot *slot) LRC_STATUS LRC_FILLS(2);

/* Splits a session off the one in `slot` and puts it into the empty `other`. Its journal entries
 * have the label `who`. The new session takes one of the places of the old one, which keeps at
 * least one: LRC_STORE_NO_PASS if it has only one. */
uint32_t lrc_store_split(lrc_slot *slot, uint32_t who, lrc_slot *other) LRC_STATUS LRC_FILLS(3);

/* Joins the session in `other` into the one in `slot`, which then counts as the caller of all
 * its calls and has the places of both. `other` is empty afterwards. Any two sessions of a store
 * can be joined. LRC_STORE_BAD_ARGUMENT if they are of two stores, whatever libraries opened
 * them. */
uint32_t lrc_store_join(lrc_slot *slot, lrc_slot *other) LRC_NONNULL;

/* Has the session in `slot` learn all that the one in `other` has seen: whatever it does next
 * stands after all of that in the history of the store. Nothing else changes, and `other` is as it
 * was. It takes no lock, does not wait and does not allocate. LRC_STORE_BAD_ARGUMENT if the two are
 * of two stores. */
uint32_t lrc_slot_learn(lrc_slot *slot, lrc_slot *other) LRC_NONNULL;

/* Closes the store of the last session, and empties `slot`. `entries` gets the number of journal
 * entries. `lawful` gets 1 if a check found them to be a legal history, and 2 if there was no
 * memory for the check, or no journal. The check is proved never to fail. LRC_STORE_NOT_ALONE if
 * the session does not have all 64 places. */
uint32_t lrc_store_close(lrc_slot *slot, uint64_t *entries, uint32_t *lawful) LRC_STATUS;

/* Does the same, and puts the journal into the empty `other`. `discarded` gets the number of calls
 * that have no entry: of those whose entry was trimmed, or without a journal of all. Releasing
 * `other` frees the memory of the store. */
uint32_t lrc_store_close_to(lrc_slot *slot, lrc_slot *other, uint64_t *discarded, uint64_t *entries,
                            uint32_t *lawful) LRC_STATUS LRC_FILLS(2);

/* Writes the entry of a journal at an index, from 0. Before the call `entry->name` is a valid
 * slice, such as { (const uint8_t *)"", 0 }. Afterwards it is valid until the slot is passed to
 * another function. LRC_STORE_NOTHING_LEFT if the journal has no such entry. */
uint32_t lrc_slot_entry(lrc_slot *slot, size_t index, lrc_entry *entry) LRC_STATUS;

/* Stores a copy of the blob under the name, in place of an older one. The code is LRC(12,2,2) or
 * LRC(6,2,2) if `data_fragments` is 12 or 6. `version` gets the number of this put in the
 * store's history. */
uint32_t lrc_store_put(lrc_slot *slot, const uint8_t *name, size_t name_len, const uint8_t *blob,
                       size_t blob_len, uint32_t data_fragments, uint64_t *version) LRC_STATUS
    LRC_READS(2, 3) LRC_READS(4, 5);

/* A put without a copy, in three steps. lrc_slot_reserve puts a buffer of `len` zero bytes into
 * the empty slot. lrc_slot_buffer gives its address, which the caller fills. lrc_store_put_from
 * stores the bytes under the name.
 *
 * Before lrc_slot_buffer, `*buffer` is valid, such as { (uint8_t *)"", 0 }. Afterwards it is
 * valid until the slot is passed to another function.
 *
 * If the put returns LRC_STORE_DONE, `other` is empty. If `slot` holds no session, `other` is
 * unchanged. On any other status it still has the bytes, and they can be put again. They can be
 * written again if and only if lrc_slot_buffer returns LRC_STORE_DONE: so after LRC_STORE_BAD_NAME
 * and LRC_STORE_BAD_ARGUMENT, unless they could not before, and sometimes after
 * LRC_STORE_NO_MEMORY. */
uint32_t lrc_slot_reserve(size_t len, lrc_slot *slot) LRC_STATUS LRC_FILLS(2);
uint32_t lrc_slot_buffer(lrc_slot *slot, lrc_buffer *buffer) LRC_NONNULL;
uint32_t lrc_store_put_from(lrc_slot *slot, const uint8_t *name, size_t name_len, lrc_slot *other,
                            uint32_t data_fragments, uint64_t *version) LRC_STATUS LRC_READS(2, 3);

/* Copies `len` bytes of the blob, from the byte `start` on, into `target`, and rebuilds those of
 * lost fragments. `lent` and `built` get the numbers of bytes copied from fragments and of bytes
 * rebuilt. */
uint32_t lrc_store_read(lrc_slot *slot, const uint8_t *name, size_t name_len, uint64_t start,
                        uint8_t *target, size_t len, uint64_t *version, uint64_t *lent,
                        uint64_t *built) LRC_STATUS LRC_READS(2, 3) LRC_WRITES(5, 6);

/* Lends `len` bytes of the blob, from the byte `start` on, and puts the range into the empty
 * `other`. `pieces` gets the number of pieces for lrc_slot_slices. The call allocates a list of
 * the pieces, and the bytes of lost fragments. Until `other` is released the bytes do not
 * change, even if threads put, lose, repair and delete, or the store is closed. */
uint32_t lrc_store_lend(lrc_slot *slot, const uint8_t *name, size_t name_len, uint64_t start,
                        uint64_t len, lrc_slot *other, uint64_t *version,
                        uint64_t *pieces) LRC_STATUS LRC_READS(2, 3) LRC_FILLS(6);

/* Writes the pieces of a lent range into `slices`, in order, as many as there are and at most
 * `capacity`. Before the call each element of `slices` is a valid slice, such as { (const
 * uint8_t *)"", 0 }. `count` gets the number of written pieces. They are valid until the slot is
 * passed to a function other than this one and lrc_slot_runs. */
uint32_t lrc_slot_slices(lrc_slot *slot, lrc_slice *slices, size_t capacity,
                         uint64_t *count) LRC_NONNULL LRC_UPDATES(2, 3);

/* Writes runs of a lent range into `runs`, from the byte `from` of the range on, in order, as many
 * as there are and at most `capacity`. A run joins pieces that lie one behind another in memory. A
 * blob that never lost a fragment is one run, or two if lrc_store_put_from stored it: tests show
 * that for some blobs, and no clause says where a run ends. Before the call each element of `runs`
 * is a valid slice. `count` gets the number of written runs. If that is `capacity`, there may be
 * further runs, behind the bytes of these. It is 0 if the range ends at `from` or before. The runs
 * are valid as long as the pieces are. */
uint32_t lrc_slot_runs(lrc_slot *slot, uint64_t from, lrc_slice *runs, size_t capacity,
                       uint64_t *count) LRC_NONNULL LRC_UPDATES(3, 4);

/* Lose a fragment of a stripe, as after a disk failure, and repair one from the remaining
 * fragments. Stripes and fragments count from 0. */
uint32_t lrc_store_lose(lrc_slot *slot, const uint8_t *name, size_t name_len, uint64_t stripe,
                        uint64_t fragment, uint64_t *version) LRC_NONNULL LRC_READS(2, 3);
uint32_t lrc_store_repair(lrc_slot *slot, const uint8_t *name, size_t name_len, uint64_t stripe,
                          uint64_t fragment, uint64_t *version) LRC_NONNULL LRC_READS(2, 3);

/* Deletes the blob. `version` gets the version that it had. */
uint32_t lrc_store_delete(lrc_slot *slot, const uint8_t *name, size_t name_len,
                          uint64_t *version) LRC_NONNULL LRC_READS(2, 3);

/* Writes the shape of the blob: its version, its length in bytes, and the numbers of stripes and
 * lost fragments. */
uint32_t lrc_store_stat(lrc_slot *slot, const uint8_t *name, size_t name_len, uint64_t *version,
                        uint64_t *len, uint64_t *stripes, uint64_t *lost) LRC_STATUS
    LRC_READS(2, 3);

/* Discards all journal entries except the last `keep`. `discarded` gets how many it discarded. */
uint32_t lrc_store_trim(lrc_slot *slot, uint64_t keep, uint64_t *discarded) LRC_NONNULL;

/* Discards at most `most` of them, the oldest first. So a long journal can be trimmed in steps,
 * between which other threads call. If it discards fewer than `most`, none are left. */
uint32_t lrc_store_trim_part(lrc_slot *slot, uint64_t keep, uint64_t most,
                             uint64_t *discarded) LRC_NONNULL;

/* Puts a plan to repair all lost fragments of all blobs into the empty `other`. `items` gets
 * their number. */
uint32_t lrc_store_plan(lrc_slot *slot, lrc_slot *other, uint64_t *items) LRC_STATUS LRC_FILLS(2);

/* Puts a part of such a plan into `other`: the first `most` of its items if `other` is empty, or
 * those behind the part that it holds, of which no item may be left. `items` gets their number: if
 * it is below `most`, no other part is behind. So a long plan can be made in steps, between which
 * other threads call. LRC_STORE_BAD_ARGUMENT if `most` is 0. A plan in `other` is of this store,
 * which is not checked. */
uint32_t lrc_store_plan_part(lrc_slot *slot, lrc_slot *other, uint64_t most,
                             uint64_t *items) LRC_STATUS LRC_FILLS(2);

/* Writes the next items of a plan into `items`, in order, as many as remain and at most `capacity`.
 * Before the call the name of each element is a valid slice, such as { (const uint8_t *)"", 0 }.
 * `count` gets the number of written items. Their names are valid until the slot is passed to
 * another function. */
uint32_t lrc_slot_items(lrc_slot *slot, lrc_item *items, size_t capacity,
                        uint64_t *count) LRC_NONNULL LRC_UPDATES(2, 3);

/* Repairs the next fragment of the plan in `other`, and returns the status of lrc_store_repair. The
 * plan is of this store, which is not checked: with another one, names of this store are repaired.
 * After LRC_STORE_BUSY, LRC_STORE_NO_MEMORY and LRC_STORE_JOURNAL_FULL the fragment stays the
 * next one. After any other status the next call takes the next fragment. */
uint32_t lrc_store_mend_step(lrc_slot *slot, lrc_slot *other, uint64_t *version) LRC_NONNULL;

/* Leaves out the next item of a plan. LRC_STORE_NOTHING_LEFT if none remains. */
uint32_t lrc_slot_skip(lrc_slot *slot) LRC_NONNULL;

/* Writes the numbers of the store. It takes the same time for each store, allocates nothing, and
 * makes no journal entry. */
uint32_t lrc_store_numbers(lrc_slot *slot, lrc_numbers *numbers) LRC_STATUS;

/* Holds the version that the name's blob has now, and puts it into the empty `other`. `version`
 * gets its number and `len` its bytes. The journal entry is that of a read of no byte. The version
 * stays as it is until `other` is released, even if the name is put again or deleted, or the store
 * is closed. It shares its fragments with the store and copies none. Until then a loss or a repair
 * of the blob does not change it in place, so that it takes longer. */
uint32_t lrc_store_hold(lrc_slot *slot, const uint8_t *name, size_t name_len, lrc_slot *other,
                        uint64_t *version, uint64_t *len) LRC_STATUS LRC_READS(2, 3) LRC_FILLS(4);

/* Lends all bytes of the version that the name's blob has now, and puts the range into the empty
 * `other`, as lrc_store_hold and lrc_slot_lend do one after the other. `version` gets the version's
 * number, `len` its bytes, and `pieces` the number of pieces. The journal entry is that of a read
 * of no byte. `version` and `len` are written, and the call is in the journal, on
 * LRC_STORE_UNRECOVERABLE, if a byte is in an unrecoverable fragment, and on LRC_STORE_NOT_REBUILT,
 * if the version was held but memory for the range ran out. */
uint32_t lrc_store_get(lrc_slot *slot, const uint8_t *name, size_t name_len, lrc_slot *other,
                       uint64_t *version, uint64_t *len, uint64_t *pieces) LRC_STATUS
    LRC_READS(2, 3) LRC_FILLS(4);

/* The functions from here to lrc_slot_fragment read the version in `slot`. They are no calls of the
 * store: they take no lock, and make no journal entry.
 *
 * Writes its shape. The number of lost fragments is counted through all stripes. */
uint32_t lrc_slot_shape(lrc_slot *slot, lrc_shape *shape) LRC_NONNULL;

/* Writes which fragments of a stripe were lost when the version was held: bit `f` of `lost` is set
 * if and only if fragment `f` was. LRC_STORE_NO_FRAGMENT if there is no such stripe. */
uint32_t lrc_slot_lost(lrc_slot *slot, uint64_t stripe, uint16_t *lost) LRC_STATUS;

/* Lends `len` bytes of the version, from the byte `start` on, and puts the range into the empty
 * `other`, as lrc_store_lend does. `pieces` gets the number of pieces. LRC_STORE_NO_MEMORY if
 * out of memory, also for rebuilding lost fragments. */
uint32_t lrc_slot_lend(lrc_slot *slot, uint64_t start, uint64_t len, lrc_slot *other,
                       uint64_t *pieces) LRC_STATUS LRC_FILLS(4);

/* Copies `len` bytes of the version, from the byte `start` on, into `target`, and rebuilds those of
 * lost fragments. On LRC_STORE_NOT_REBUILT, for which memory ran out, any byte of `target` may be
 * written. It makes no list of pieces. */
uint32_t lrc_slot_copy(lrc_slot *slot, uint64_t start, uint8_t *target, size_t len) LRC_STATUS
    LRC_WRITES(3, 4);

/* Lends a fragment of a stripe, data or parity, which has as many bytes as the store's width.
 * Before the call `*bytes` is a valid slice, such as { (const uint8_t *)"", 0 }. Afterwards it is
 * valid until the slot is passed to another function. LRC_STORE_ALREADY_LOST if the fragment was
 * lost when the version was held. LRC_STORE_NO_FRAGMENT if there is no such fragment. */
uint32_t lrc_slot_fragment(lrc_slot *slot, uint64_t stripe, uint64_t fragment,
                           lrc_slice *bytes) LRC_STATUS;

/* Restores a lost fragment of the version in `other`, which stays there, with a copy of the bytes,
 * whatever else is lost. The caller ensures that the fragment has these bytes in that version. They
 * may come from another device or another machine. LRC_STORE_NO_NAME if the name has no blob,
 * LRC_STORE_REPLACED if it has another version by now, and LRC_STORE_NOT_LOST if the fragment is
 * there. Each of these has an entry, LRC_CALL_RESTORE, as LRC_STORE_DONE has.
 *
 * Nothing is done on LRC_STORE_BAD_ARGUMENT, if the slots are of two stores or `len` is not the
 * store's width, and on LRC_STORE_NO_FRAGMENT, if the version has no such fragment. */
uint32_t lrc_store_restore(lrc_slot *slot, lrc_slot *other, uint64_t stripe, uint64_t fragment,
                           const uint8_t *bytes, size_t len, uint64_t *version) LRC_STATUS
    LRC_READS(5, 6);

/* Writes the shard of a name in a store of `shards` shards, 1 to 64: a number below `shards`, which
 * depends on the two alone. LRC_STORE_BAD_ARGUMENT for another number of shards. */
uint32_t lrc_store_shard(const uint8_t *name, size_t name_len, uint32_t shards,
                         uint32_t *shard) LRC_STATUS LRC_READS(1, 2);

/* Empties the slot, whatever it holds. If a session is released and not joined, its places are
 * gone, and its store can't be closed. Releasing the last session frees the store. */
void lrc_slot_release(lrc_slot *slot) LRC_NONNULL;

/* What a status means, in English and without a full stop. "unknown status" for a number that is
 * none. The text is never freed. */
const char *lrc_store_text(uint32_t status);

/* How many bytes a name has that lrc_store_name makes. */
enum { LRC_STORE_NAME_LEN = 32 };

/* Writes a name for a key of any bytes, so that a service can have keys that are no names. `name`
 * has LRC_STORE_NAME_LEN bytes. A key of at most 19 bytes is written backwards in base32, and
 * filled with dots. Of a longer one it is the BLAKE2s hash of 160 bits, in base32: nobody has found
 * two of them with one name. */
void lrc_store_name(const uint8_t *key, size_t key_len, uint8_t *name) LRC_NONNULL LRC_READS(1, 2);

/* The processor level whose code is used, "x86-64-v3" or "x86-64-v2". The library chooses when it
 * is loaded. LRC_STORE_CPU=v2 in the environment forces the second. */
const char *lrc_store_cpu(void);

/* ---- Waiting forms. Each repeats its function while the status is LRC_STORE_BUSY. Those of a
 * store take turns, as at a mutex: a thread that waits sleeps, and is woken for its turn. No store
 * waits for the turn of another one. A function without `_wait` takes no turn. If `timeout_ms` is 0
 * or more, a form returns LRC_STORE_BUSY once so many milliseconds have passed since the call. With
 * 0 it makes one attempt. It looks at the clock between two attempts, so a put that is being
 * encoded, or a copy, ends first. If `timeout_ms` is negative, it has no deadline. No waiting
 * thread has precedence. */
uint32_t lrc_store_put_wait(lrc_slot *slot, const uint8_t *name, size_t name_len,
                            const uint8_t *blob, size_t blob_len, uint32_t data_fragments,
                            uint64_t *version, int64_t timeout_ms) LRC_STATUS LRC_READS(2, 3)
    LRC_READS(4, 5);
uint32_t lrc_store_put_from_wait(lrc_slot *slot, const uint8_t *name, size_t name_len,
                                 lrc_slot *other, uint32_t data_fragments, uint64_t *version,
                                 int64_t timeout_ms) LRC_STATUS LRC_READS(2, 3);
uint32_t lrc_store_read_wait(lrc_slot *slot, const uint8_t *name, size_t name_len, uint64_t start,
                             uint8_t *target, size_t len, uint64_t *version, uint64_t *lent,
                             uint64_t *built, int64_t timeout_ms) LRC_STATUS LRC_READS(2, 3)
    LRC_WRITES(5, 6);
uint32_t lrc_store_lend_wait(lrc_slot *slot, const uint8_t *name, size_t name_len, uint64_t start,
                             uint64_t len, lrc_slot *other, uint64_t *version, uint64_t *pieces,
                             int64_t timeout_ms) LRC_STATUS LRC_READS(2, 3) LRC_FILLS(6);
uint32_t lrc_store_lose_wait(lrc_slot *slot, const uint8_t *name, size_t name_len, uint64_t stripe,
                             uint64_t fragment, uint64_t *version, int64_t timeout_ms) LRC_NONNULL
    LRC_READS(2, 3);
uint32_t lrc_store_repair_wait(lrc_slot *slot, const uint8_t *name, size_t name_len,
                               uint64_t stripe, uint64_t fragment, uint64_t *version,
                               int64_t timeout_ms) LRC_NONNULL LRC_READS(2, 3);
uint32_t lrc_store_delete_wait(lrc_slot *slot, const uint8_t *name, size_t name_len,
                               uint64_t *version, int64_t timeout_ms) LRC_NONNULL LRC_READS(2, 3);
uint32_t lrc_store_stat_wait(lrc_slot *slot, const uint8_t *name, size_t name_len,
                             uint64_t *version, uint64_t *len, uint64_t *stripes, uint64_t *lost,
                             int64_t timeout_ms) LRC_STATUS LRC_READS(2, 3);
/* It trims in parts of 512 entries, between which other threads call, and at most 1,048,576 in all.
 * If a part is refused after others, or the deadline passes between two, `discarded` gets how many
 * entries these had. */
uint32_t lrc_store_trim_wait(lrc_slot *slot, uint64_t keep, uint64_t *discarded,
                             int64_t timeout_ms) LRC_NONNULL;
uint32_t lrc_store_plan_wait(lrc_slot *slot, lrc_slot *other, uint64_t *items,
                             int64_t timeout_ms) LRC_STATUS LRC_FILLS(2);
uint32_t lrc_store_plan_part_wait(lrc_slot *slot, lrc_slot *other, uint64_t most, uint64_t *items,
                                  int64_t timeout_ms) LRC_STATUS LRC_FILLS(2);
uint32_t lrc_store_mend_step_wait(lrc_slot *slot, lrc_slot *other, uint64_t *version,
                                  int64_t timeout_ms) LRC_NONNULL;
uint32_t lrc_store_numbers_wait(lrc_slot *slot, lrc_numbers *numbers,
                                int64_t timeout_ms) LRC_STATUS;
uint32_t lrc_store_hold_wait(lrc_slot *slot, const uint8_t *name, size_t name_len, lrc_slot *other,
                             uint64_t *version, uint64_t *len, int64_t timeout_ms) LRC_STATUS
    LRC_READS(2, 3) LRC_FILLS(4);
uint32_t lrc_store_get_wait(lrc_slot *slot, const uint8_t *name, size_t name_len, lrc_slot *other,
                            uint64_t *version, uint64_t *len, uint64_t *pieces,
                            int64_t timeout_ms) LRC_STATUS LRC_READS(2, 3) LRC_FILLS(4);
uint32_t lrc_store_restore_wait(lrc_slot *slot, lrc_slot *other, uint64_t stripe, uint64_t fragment,
                                const uint8_t *bytes, size_t len, uint64_t *version,
                                int64_t timeout_ms) LRC_STATUS LRC_READS(5, 6);
/* Repairs all lost fragments that can be rebuilt, by plans of at most 512 items, and returns
 * LRC_STORE_DONE. The deadline is for each of its steps. If one is refused, it stops and returns
 * that status. `repaired` gets how many it repaired, unless that is none and it was refused. */
uint32_t lrc_store_mend_wait(lrc_slot *slot, uint64_t *repaired, int64_t timeout_ms) LRC_NONNULL;

/* ---- A pool of the sessions of a store, for threads that come and go. Any threads may share it.
 * Each takes a session, makes its calls on it, and gives it back. The calls of each use, from the
 * loan to the return, stand after all that the uses have seen which ended before it began: so a
 * thread reads what it wrote. */
typedef struct lrc_pool lrc_pool;

/* Makes a pool of the session in `slot`, which is empty afterwards. LRC_STORE_NO_MEMORY leaves it
 * as it was. */
uint32_t lrc_pool_open(lrc_slot *slot, lrc_pool **pool) LRC_STATUS;

/* Lends a session to the calling thread until lrc_pool_give. There are as many as the session that
 * the pool was made of has places, less one, of which the others learn what was seen: 63, if it was
 * the first of its store. A session with one place is lent itself. If all are lent, the call waits
 * in a line for one: up to `timeout_ms`, and not if that is 0, after which it returns
 * LRC_STORE_BUSY; without a deadline if it is negative. LRC_STORE_NO_MEMORY if a session cannot be
 * made. */
uint32_t lrc_pool_take(lrc_pool *pool, lrc_slot **session, int64_t timeout_ms) LRC_STATUS;

/* Gives a session back. The first thread in the line gets it. */
void lrc_pool_give(lrc_pool *pool, lrc_slot *session) LRC_NONNULL;

/* Joins all sessions into one in the empty `slot`, and frees the pool. LRC_STORE_NOT_ALONE if a
 * session is lent. No thread may use the pool meanwhile or afterwards. */
uint32_t lrc_pool_close(lrc_pool *pool, lrc_slot *slot) LRC_NONNULL LRC_FILLS(2);

/* ---- A store of several shards, for threads that come and go. Any threads may share it. Each
 * shard is a store with a critical section of its own, and holds the names that lrc_store_shard
 * gives it. So calls of names of different shards never wait for each other. The calls of each
 * shard have the replies of one sequential store, in which each use of a session stands after those
 * that ended before it began. For threads that hold the session of one shard at a time, one such
 * order of all uses agrees with every shard. A version is the number of a put at its shard.
 *
 * A thread finds the pool of a name's shard, takes a session, makes calls of names of this shard on
 * it, and gives it back to the pool. */
typedef struct lrc_shards lrc_shards;

typedef struct {
    size_t size;       /* sizeof(lrc_options); later versions may have more options */
    uint32_t width;    /* the bytes of a fragment */
    uint32_t shards;   /* 1 to 64 */
    uint32_t limit;    /* how many entries the journal of each shard may have; 0 for no journals */
    uint32_t reserved; /* 0 */
} lrc_options;

/* Opens a store. LRC_STORE_BAD_WIDTH and LRC_STORE_NO_MEMORY as lrc_store_open.
 * LRC_STORE_BAD_ARGUMENT for a limit or a number of shards that is out of range, and for options
 * that this version does not know: other bytes than 0 behind `limit`, up to `size`. */
uint32_t lrc_shards_open(const lrc_options *options, lrc_shards **shards) LRC_STATUS;

/* Writes the pool of the shard of a name. LRC_STORE_BAD_NAME if it is none. */
uint32_t lrc_shards_find(lrc_shards *shards, const uint8_t *name, size_t name_len,
                         lrc_pool **pool) LRC_STATUS LRC_READS(2, 3);

/* Writes the pool of a shard. LRC_STORE_NOTHING_LEFT if there are not so many. */
uint32_t lrc_shards_at(lrc_shards *shards, uint32_t shard, lrc_pool **pool) LRC_STATUS;

/* Writes the numbers of all shards together. Each shard is counted at a moment of its own, on a
 * session of its pool: LRC_STORE_NO_MEMORY if none can be made. */
uint32_t lrc_shards_numbers(lrc_shards *shards, lrc_numbers *numbers,
                            int64_t timeout_ms) LRC_STATUS;

/* Trims the journal of each shard, as lrc_store_trim_wait does, also with LRC_STORE_NO_MEMORY. If a
 * shard is refused after others, `discarded` gets how many entries these had. */
uint32_t lrc_shards_trim(lrc_shards *shards, uint64_t keep, uint64_t *discarded,
                         int64_t timeout_ms) LRC_NONNULL;

/* Repairs all lost fragments that can be rebuilt, as lrc_store_mend_wait does, also with
 * LRC_STORE_NO_MEMORY. Threads that mend at once begin with different shards. */
uint32_t lrc_shards_mend(lrc_shards *shards, uint64_t *repaired, int64_t timeout_ms) LRC_NONNULL;

/* Closes the store and frees it. `entries` and `lawful` are those of lrc_store_close, of all
 * journals. LRC_STORE_NOT_ALONE if a session is lent: the store is as before. LRC_STORE_EMPTY if a
 * session was released or replaced while it was lent: the store is freed all the same, `entries`
 * are those of the other shards, and `lawful` is 2. No thread may use the store meanwhile or
 * afterwards. */
uint32_t lrc_shards_close(lrc_shards *shards, uint64_t *entries, uint32_t *lawful) LRC_NONNULL;

/* ---- A mending: one plan of repairs that any number of threads work off, each on a session of
 * its own. It is made in parts, so that other threads call between them. */
typedef struct lrc_mending lrc_mending;

/* Begins a mending. LRC_STORE_NO_MEMORY if out of memory. */
uint32_t lrc_mending_open(lrc_mending **mending) LRC_STATUS;

/* Repairs lost fragments that no other thread of the mending repairs, and returns LRC_STORE_DONE
 * once there are no more. The sessions of a mending are of one store. The deadline is for each of
 * its steps. If one is refused, as a repair with LRC_STORE_JOURNAL_FULL, it stops and returns that
 * status; its fragment is left to the next call of any thread. `repaired` gets how many it
 * repaired, unless that is none and it was refused. */
uint32_t lrc_mending_work(lrc_mending *mending, lrc_slot *session, uint64_t *repaired,
                          int64_t timeout_ms) LRC_NONNULL;

/* Frees the mending. No thread may use it meanwhile or afterwards. */
void lrc_mending_close(lrc_mending *mending) LRC_NONNULL;

#ifdef __cplusplus
}
#endif
#endif
