//! The declarations of `include/lrc_store.h`, which describes the functions.

use std::os::raw::c_char;

/// The layout of `lrc_slot`. Its content may be moved: one copy counts at a time.
#[repr(C)]
pub struct Slot {
    at: *mut u8,
}

impl Slot {
    pub fn empty() -> Slot {
        Slot {
            at: std::ptr::null_mut(),
        }
    }
}

impl Drop for Slot {
    fn drop(&mut self) {
        // SAFETY: the slot is valid, whatever it holds.
        unsafe { lrc_slot_release(self) }
    }
}

/// The pool of the library, of which only the address is known.
#[repr(C)]
pub struct RawPool {
    _opaque: [u8; 0],
}

/// The sharded store of the library, of which only the address is known.
#[repr(C)]
pub struct RawShards {
    _opaque: [u8; 0],
}

/// The layout of `lrc_options`.
#[repr(C)]
pub struct RawOptions {
    pub size: usize,
    pub width: u32,
    pub shards: u32,
    pub limit: u32,
    pub reserved: u32,
}

/// Lent bytes, with the layout of `lrc_slice`.
#[repr(C)]
#[derive(Clone, Copy)]
pub struct Slice {
    pub at: *const u8,
    pub len: usize,
}

impl Slice {
    pub fn empty() -> Slice {
        let none: &[u8] = &[];
        Slice {
            at: none.as_ptr(),
            len: 0,
        }
    }
}

/// The layout of `lrc_buffer`.
#[repr(C)]
pub struct RawBuffer {
    pub at: *mut u8,
    pub len: usize,
}

/// The layout of `lrc_entry`.
#[repr(C)]
pub struct RawEntry {
    pub name: Slice,
    pub first: u64,
    pub second: u64,
    pub third: u64,
    pub version: u64,
    pub len: u64,
    pub stripes: u64,
    pub lost: u64,
    pub who: u32,
    pub call: u32,
    pub status: u32,
}

/// The layout of `lrc_item`.
#[repr(C)]
pub struct RawItem {
    pub name: Slice,
    pub version: u64,
    pub stripe: u64,
    pub fragment: u64,
}

impl RawItem {
    pub fn empty() -> RawItem {
        RawItem {
            name: Slice::empty(),
            version: 0,
            stripe: 0,
            fragment: 0,
        }
    }
}

/// The layout of `lrc_numbers`.
#[repr(C)]
#[derive(Default)]
pub struct RawNumbers {
    pub blobs: u64,
    pub bytes: u64,
    pub lost: u64,
    pub unrecoverable: u64,
    pub calls: u64,
    pub entries: u64,
}

/// The layout of `lrc_shape`.
#[repr(C)]
#[derive(Default)]
pub struct RawShape {
    pub version: u64,
    pub len: u64,
    pub stripes: u64,
    pub lost: u64,
    pub width: u32,
    pub data_fragments: u32,
}

#[rustfmt::skip]
extern "C" {
    pub fn lrc_store_open(width: u32, limit: u32, slot: *mut Slot) -> u32;
    pub fn lrc_store_open_unjournaled(width: u32, slot: *mut Slot) -> u32;
    pub fn lrc_store_split(slot: *mut Slot, who: u32, other: *mut Slot) -> u32;
    pub fn lrc_store_join(slot: *mut Slot, other: *mut Slot) -> u32;
    pub fn lrc_slot_learn(slot: *mut Slot, other: *mut Slot) -> u32;
    pub fn lrc_store_close(slot: *mut Slot, entries: *mut u64, lawful: *mut u32) -> u32;
    pub fn lrc_store_close_to(slot: *mut Slot, other: *mut Slot, discarded: *mut u64, entries: *mut u64, lawful: *mut u32) -> u32;
    pub fn lrc_slot_entry(slot: *mut Slot, index: usize, entry: *mut RawEntry) -> u32;
    pub fn lrc_slot_reserve(len: usize, slot: *mut Slot) -> u32;
    pub fn lrc_slot_buffer(slot: *mut Slot, buffer: *mut RawBuffer) -> u32;
    pub fn lrc_store_put_from_wait(slot: *mut Slot, name: *const u8, name_len: usize, other: *mut Slot, data_fragments: u32, version: *mut u64, timeout_ms: i64) -> u32;
    pub fn lrc_store_put_wait(slot: *mut Slot, name: *const u8, name_len: usize, blob: *const u8, blob_len: usize, data_fragments: u32, version: *mut u64, timeout_ms: i64) -> u32;
    pub fn lrc_store_read_wait(slot: *mut Slot, name: *const u8, name_len: usize, start: u64, target: *mut u8, len: usize, version: *mut u64, lent: *mut u64, built: *mut u64, timeout_ms: i64) -> u32;
    pub fn lrc_store_lend_wait(slot: *mut Slot, name: *const u8, name_len: usize, start: u64, len: u64, other: *mut Slot, version: *mut u64, pieces: *mut u64, timeout_ms: i64) -> u32;
    pub fn lrc_slot_slices(slot: *mut Slot, slices: *mut Slice, capacity: usize, count: *mut u64) -> u32;
    pub fn lrc_slot_runs(slot: *mut Slot, from: u64, runs: *mut Slice, capacity: usize, count: *mut u64) -> u32;
    pub fn lrc_store_lose_wait(slot: *mut Slot, name: *const u8, name_len: usize, stripe: u64, fragment: u64, version: *mut u64, timeout_ms: i64) -> u32;
    pub fn lrc_store_repair_wait(slot: *mut Slot, name: *const u8, name_len: usize, stripe: u64, fragment: u64, version: *mut u64, timeout_ms: i64) -> u32;
    pub fn lrc_store_delete_wait(slot: *mut Slot, name: *const u8, name_len: usize, version: *mut u64, timeout_ms: i64) -> u32;
    pub fn lrc_store_stat_wait(slot: *mut Slot, name: *const u8, name_len: usize, version: *mut u64, len: *mut u64, stripes: *mut u64, lost: *mut u64, timeout_ms: i64) -> u32;
    pub fn lrc_store_trim_wait(slot: *mut Slot, keep: u64, discarded: *mut u64, timeout_ms: i64) -> u32;
    pub fn lrc_store_plan_part_wait(slot: *mut Slot, other: *mut Slot, most: u64, items: *mut u64, timeout_ms: i64) -> u32;
    pub fn lrc_slot_items(slot: *mut Slot, items: *mut RawItem, capacity: usize, count: *mut u64) -> u32;
    pub fn lrc_slot_skip(slot: *mut Slot) -> u32;
    pub fn lrc_store_mend_wait(slot: *mut Slot, repaired: *mut u64, timeout_ms: i64) -> u32;
    pub fn lrc_store_hold_wait(slot: *mut Slot, name: *const u8, name_len: usize, other: *mut Slot, version: *mut u64, len: *mut u64, timeout_ms: i64) -> u32;
    pub fn lrc_store_restore_wait(slot: *mut Slot, other: *mut Slot, stripe: u64, fragment: u64, bytes: *const u8, len: usize, version: *mut u64, timeout_ms: i64) -> u32;
    pub fn lrc_store_numbers_wait(slot: *mut Slot, numbers: *mut RawNumbers, timeout_ms: i64) -> u32;
    pub fn lrc_slot_shape(slot: *mut Slot, shape: *mut RawShape) -> u32;
    pub fn lrc_slot_lost(slot: *mut Slot, stripe: u64, lost: *mut u16) -> u32;
    pub fn lrc_slot_copy(slot: *mut Slot, start: u64, target: *mut u8, len: usize) -> u32;
    pub fn lrc_slot_lend(slot: *mut Slot, start: u64, len: u64, other: *mut Slot, pieces: *mut u64) -> u32;
    pub fn lrc_slot_fragment(slot: *mut Slot, stripe: u64, fragment: u64, bytes: *mut Slice) -> u32;
    pub fn lrc_pool_open(slot: *mut Slot, pool: *mut *mut RawPool) -> u32;
    pub fn lrc_pool_take(pool: *mut RawPool, session: *mut *mut Slot, timeout_ms: i64) -> u32;
    pub fn lrc_pool_give(pool: *mut RawPool, session: *mut Slot);
    pub fn lrc_pool_close(pool: *mut RawPool, slot: *mut Slot) -> u32;
    pub fn lrc_shards_open(options: *const RawOptions, shards: *mut *mut RawShards) -> u32;
    pub fn lrc_shards_at(shards: *mut RawShards, shard: u32, pool: *mut *mut RawPool) -> u32;
    pub fn lrc_shards_numbers(shards: *mut RawShards, numbers: *mut RawNumbers, timeout_ms: i64) -> u32;
    pub fn lrc_shards_trim(shards: *mut RawShards, keep: u64, discarded: *mut u64, timeout_ms: i64) -> u32;
    pub fn lrc_shards_mend(shards: *mut RawShards, repaired: *mut u64, timeout_ms: i64) -> u32;
    pub fn lrc_shards_close(shards: *mut RawShards, entries: *mut u64, lawful: *mut u32) -> u32;
    pub fn lrc_store_shard(name: *const u8, name_len: usize, shards: u32, shard: *mut u32) -> u32;
    pub fn lrc_store_name(key: *const u8, key_len: usize, name: *mut u8);
    pub fn lrc_slot_release(slot: *mut Slot);
    pub fn lrc_store_text(status: u32) -> *const c_char;
}
