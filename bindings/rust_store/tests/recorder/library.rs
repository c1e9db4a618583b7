//! What the unit tests have in place of `src/library.rs`: the same library, and a record of the
//! waiting forms that were called.

#[path = "../../src/library.rs"]
mod real;

pub use real::{
    lrc_pool_close, lrc_pool_give, lrc_pool_open, lrc_pool_take, lrc_shards_at, lrc_shards_close,
    lrc_shards_mend, lrc_shards_numbers, lrc_shards_open, lrc_shards_trim, lrc_slot_buffer,
    lrc_slot_copy, lrc_slot_entry, lrc_slot_fragment, lrc_slot_items, lrc_slot_learn,
    lrc_slot_lend, lrc_slot_lost, lrc_slot_reserve, lrc_slot_runs, lrc_slot_shape, lrc_slot_skip,
    lrc_slot_slices, lrc_store_join, lrc_store_name, lrc_store_open, lrc_store_open_unjournaled,
    lrc_store_shard, lrc_store_split, lrc_store_text, RawBuffer, RawEntry, RawItem, RawNumbers,
    RawOptions, RawPool, RawShape, RawShards, Slice, Slot,
};
use std::cell::RefCell;
use std::collections::VecDeque;

/// What the calls of a thread did, and what they are to do.
#[derive(Default)]
pub struct Record {
    /// The waiting forms that were called, with their timeouts.
    pub calls: Vec<(&'static str, i64)>,
    /// What the next waiting forms return, without a call of the library.
    pub statuses: VecDeque<u32>,
    /// Whether a close says that there was no memory for the check.
    pub is_unchecked: bool,
}

thread_local! {
    pub static RECORD: RefCell<Record> = RefCell::default();
}

/// Notes a call, and returns the status that it is to return, if any.
fn note(name: &'static str, timeout_ms: i64) -> Option<u32> {
    RECORD.with_borrow_mut(|record| {
        record.calls.push((name, timeout_ms));
        record.statuses.pop_front()
    })
}

/// Says that the journal was not checked, if the record wants so.
unsafe fn uncheck(lawful: *mut u32) {
    if RECORD.with_borrow(|record| record.is_unchecked) {
        *lawful = 2;
    }
}

pub unsafe fn lrc_store_close(slot: *mut Slot, entries: *mut u64, lawful: *mut u32) -> u32 {
    let status = real::lrc_store_close(slot, entries, lawful);
    uncheck(lawful);
    status
}

pub unsafe fn lrc_store_close_to(
    slot: *mut Slot,
    other: *mut Slot,
    discarded: *mut u64,
    entries: *mut u64,
    lawful: *mut u32,
) -> u32 {
    let status = real::lrc_store_close_to(slot, other, discarded, entries, lawful);
    uncheck(lawful);
    status
}

macro_rules! recorded {
    ($($name:ident($($argument:ident: $type:ty),*);)*) => {$(
        #[allow(clippy::too_many_arguments)]
        pub unsafe fn $name($($argument: $type,)* timeout_ms: i64) -> u32 {
            note(stringify!($name), timeout_ms)
                .unwrap_or_else(|| real::$name($($argument,)* timeout_ms))
        }
    )*};
}

#[rustfmt::skip]
recorded! {
    lrc_store_put_from_wait(slot: *mut Slot, name: *const u8, name_len: usize, other: *mut Slot, data_fragments: u32, version: *mut u64);
    lrc_store_put_wait(slot: *mut Slot, name: *const u8, name_len: usize, blob: *const u8, blob_len: usize, data_fragments: u32, version: *mut u64);
    lrc_store_read_wait(slot: *mut Slot, name: *const u8, name_len: usize, start: u64, target: *mut u8, len: usize, version: *mut u64, lent: *mut u64, built: *mut u64);
    lrc_store_lend_wait(slot: *mut Slot, name: *const u8, name_len: usize, start: u64, len: u64, other: *mut Slot, version: *mut u64, pieces: *mut u64);
    lrc_store_lose_wait(slot: *mut Slot, name: *const u8, name_len: usize, stripe: u64, fragment: u64, version: *mut u64);
    lrc_store_repair_wait(slot: *mut Slot, name: *const u8, name_len: usize, stripe: u64, fragment: u64, version: *mut u64);
    lrc_store_delete_wait(slot: *mut Slot, name: *const u8, name_len: usize, version: *mut u64);
    lrc_store_stat_wait(slot: *mut Slot, name: *const u8, name_len: usize, version: *mut u64, len: *mut u64, stripes: *mut u64, lost: *mut u64);
    lrc_store_trim_wait(slot: *mut Slot, keep: u64, discarded: *mut u64);
    lrc_store_plan_part_wait(slot: *mut Slot, other: *mut Slot, most: u64, items: *mut u64);
    lrc_store_mend_wait(slot: *mut Slot, repaired: *mut u64);
    lrc_store_hold_wait(slot: *mut Slot, name: *const u8, name_len: usize, other: *mut Slot, version: *mut u64, len: *mut u64);
    lrc_store_restore_wait(slot: *mut Slot, other: *mut Slot, stripe: u64, fragment: u64, bytes: *const u8, len: usize, version: *mut u64);
    lrc_store_numbers_wait(slot: *mut Slot, numbers: *mut RawNumbers);
}
