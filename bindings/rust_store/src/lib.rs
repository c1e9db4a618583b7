//! An in-memory blob store that the threads of a process share. It keeps each blob in a Local
//! Reconstruction Code.
//!
//! The calls are safe forms of the functions of `include/lrc_store.h`, which describes each. A call
//! waits while other threads are in the critical section, as long as its session's timeout allows.
//! What `lrc_store.h` says of signals and of fork holds here too.
#![warn(missing_docs)]

mod errors;
mod journal;
#[cfg_attr(test, path = "../tests/recorder/library.rs")]
mod library;
mod lost;
mod pool;
mod sharded;
#[cfg(test)]
#[path = "../tests/recorder/tests.rs"]
mod tests;
mod version;

pub use errors::{Error, MendError, Refused, Status};
pub use journal::{Call, Entry, Journal};
pub use lost::LostFragment;
pub use pool::{Lease, Pool};
pub use sharded::ShardedStore;
pub use version::{Numbers, Version, VersionShape};

use errors::{check, DONE};
use library::*;
use std::ffi::c_void;
use std::time::Duration;

/// A name for a key of any bytes. Nobody has found two keys with one name.
pub fn name_of(key: &[u8]) -> String {
    let mut name = [0; 32];
    // SAFETY: the key is valid for its length, and the name has as many bytes as are written.
    unsafe { lrc_store_name(key.as_ptr(), key.len(), name.as_mut_ptr()) };
    String::from_utf8_lossy(&name).into_owned()
}

/// A code, by its number of data fragments.
#[derive(Clone, Copy, Debug, PartialEq, Eq)]
pub enum Code {
    /// LRC(12,2,2).
    Wide = 12,
    /// LRC(6,2,2).
    Small = 6,
}

/// The version of a blob, its length, and the numbers of its stripes and lost fragments.
#[derive(Clone, Copy, Debug, Default, PartialEq, Eq)]
pub struct Shape {
    /// The number of the put that stored it.
    pub version: u64,
    /// The length in bytes.
    pub len: u64,
    /// The number of stripes.
    pub stripes: u64,
    /// The number of lost fragments.
    pub lost: u64,
}

/// The report on a closed store.
#[derive(Clone, Copy, Debug, PartialEq, Eq)]
pub struct Closed {
    /// The number of entries in the journal.
    pub entries: u64,
    /// Whether a check found them lawful. False if there was no memory for the check, or no
    /// journal.
    pub is_checked: bool,
}

/// Bytes that the caller fills, and that [`Session::put_buffer`] stores without a copy.
pub struct Buffer {
    slot: Slot,
    at: *mut u8,
    len: usize,
    reserved: usize,
}

// A buffer is its own owner of its bytes.
unsafe impl Send for Buffer {}

impl Buffer {
    /// A buffer of `len` zero bytes.
    pub fn new(len: usize) -> Result<Buffer, Error> {
        let mut slot = Slot::empty();
        let check = |status| check(status, format_args!("Buffer::new({len})"));
        // SAFETY: the slot is valid.
        check(unsafe { lrc_slot_reserve(len, &mut slot) })?;
        let none: &mut [u8] = &mut [];
        let mut raw = RawBuffer {
            at: none.as_mut_ptr(),
            len: 0,
        };
        // SAFETY: the slot is valid, and so is the buffer.
        check(unsafe { lrc_slot_buffer(&mut slot, &mut raw) })?;
        Ok(Buffer {
            slot,
            at: raw.at,
            len: raw.len,
            reserved: len,
        })
    }

    /// The bytes, for writing. There are none after a put.
    pub fn as_mut_slice(&mut self) -> &mut [u8] {
        // SAFETY: the slot has the bytes until it is put.
        unsafe { std::slice::from_raw_parts_mut(self.at, self.len) }
    }
}

/// A lent range of a blob. Its bytes do not change while this lives.
pub struct Grant {
    // The runs point into the content of the slot, which stays in place.
    lent: Slot,
    version: u64,
    pieces: u64,
    runs: Vec<Slice>,
}

// A grant is only read, and the bytes that it points to never change.
unsafe impl Send for Grant {}
unsafe impl Sync for Grant {}

impl Grant {
    /// A range that was lent into a slot, with so many pieces.
    fn of(mut lent: Slot, version: u64, pieces: u64) -> Grant {
        let runs = runs_of(&mut lent);
        Grant {
            lent,
            version,
            pieces,
            runs,
        }
    }

    /// The version of the blob.
    pub fn version(&self) -> u64 {
        self.version
    }

    /// The bytes of the range, in order, with those that lie one behind another in memory as one
    /// slice. A blob that never lost a fragment is one run, or two if its last stripe has memory
    /// of its own.
    pub fn runs(&self) -> impl Iterator<Item = &[u8]> {
        // SAFETY: the slot has the bytes as long as it is not released.
        self.runs
            .iter()
            .map(|run| unsafe { std::slice::from_raw_parts(run.at, run.len) })
    }

    /// The same bytes in pieces, each of one fragment. They are listed anew.
    pub fn pieces(&mut self) -> impl Iterator<Item = &[u8]> {
        let mut slices = vec![Slice::empty(); self.pieces as usize];
        let (at, capacity, mut count) = (slices.as_mut_ptr(), slices.len(), 0);
        // SAFETY: the slices are valid, and so many are passed. On an error none is written.
        unsafe { lrc_slot_slices(&mut self.lent, at, capacity, &mut count) };
        slices.truncate(count as usize);
        // SAFETY: the slot has the bytes as long as it is not released.
        slices
            .into_iter()
            .map(|slice| unsafe { std::slice::from_raw_parts(slice.at, slice.len) })
    }

    /// A copy of the bytes of the range.
    pub fn to_vec(&self) -> Vec<u8> {
        let mut bytes = Vec::with_capacity(self.runs.iter().map(|run| run.len).sum());
        self.runs().for_each(|run| bytes.extend_from_slice(run));
        bytes
    }
}

/// All runs of a slot's lent range.
fn runs_of(lent: &mut Slot) -> Vec<Slice> {
    let (mut runs, mut from) = (Vec::new(), 0);
    loop {
        let (mut some, mut count) = ([Slice::empty(); 16], 0);
        // SAFETY: the slices are valid, and so many are passed. On an error none is written.
        unsafe { lrc_slot_runs(lent, from, some.as_mut_ptr(), some.len(), &mut count) };
        let written = &some[..count as usize];
        from += written.iter().map(|run| run.len as u64).sum::<u64>();
        runs.extend_from_slice(written);
        if written.len() < some.len() {
            return runs;
        }
    }
}

/// A timeout as the library has it, rounded up to milliseconds. Without one a call waits for ever.
fn wait_of(timeout: Option<Duration>) -> i64 {
    timeout.map_or(-1, |time| {
        i64::try_from((time.as_nanos() + 999_999) / 1_000_000).unwrap_or(i64::MAX)
    })
}

/// A session of a store, for one thread at a time. It may move to another thread.
pub struct Session {
    slot: Slot,
    wait_ms: i64,
    /// Of a session that a sharded store lends: the only shard whose names it may call.
    shard: Option<Shard>,
}

/// A shard of a store of so many.
#[derive(Clone, Copy)]
pub(crate) struct Shard {
    number: u32,
    of: u32,
}

impl Shard {
    /// The shard of a name in a store of so many.
    fn find(name: &str, of: u32) -> Result<Shard, u32> {
        let mut number = 0;
        // SAFETY: the address is of a slice with its length, and the output a variable of the call.
        let status = unsafe { lrc_store_shard(name.as_ptr(), name.len(), of, &mut number) };
        if status == DONE {
            Ok(Shard { number, of })
        } else {
            Err(status)
        }
    }
}

// A session may move between threads. Its raw address keeps threads from sharing it.
unsafe impl Send for Session {}

// SAFETY of all calls here: slots are valid and different ones, an address of bytes comes from a
// slice or a vector with its length, and outputs are variables of the call.
impl Session {
    /// Opens a store and returns its first session. Its fragments have `width` bytes. Each blob
    /// except an empty one takes at least 16 (or 10) of them, however few bytes it has. With the
    /// limit `None` it has no journal, and with a number a journal of at most so many entries.
    pub fn open(width: u32, limit: impl Into<Option<u32>>) -> Result<Session, Error> {
        let mut slot = Slot::empty();
        match limit.into() {
            None => {
                let status = unsafe { lrc_store_open_unjournaled(width, &mut slot) };
                check(status, format_args!("open({width}, None)"))?;
            }
            Some(limit) => {
                let status = unsafe { lrc_store_open(width, limit, &mut slot) };
                check(status, format_args!("open({width}, {limit})"))?;
            }
        }
        Ok(Session::of(slot, -1, None))
    }

    fn of(slot: Slot, wait_ms: i64, shard: Option<Shard>) -> Session {
        Session {
            slot,
            wait_ms,
            shard,
        }
    }

    /// The status of a call of a name, which is not made if the name is of another shard.
    fn named(&mut self, name: &str, call: impl FnOnce(&mut Slot, i64) -> u32) -> u32 {
        if let Some(shard) = self.shard {
            match Shard::find(name, shard.of) {
                Err(status) => return status,
                Ok(found) if found.number != shard.number => return Status::BadArgument as u32,
                Ok(_) => (),
            }
        }
        call(&mut self.slot, self.wait_ms)
    }

    /// How long a call waits for the critical section at a time, rounded up to milliseconds. It
    /// then fails with [`Status::Busy`]. `None`, as at first: until it gets in.
    pub fn set_timeout(&mut self, timeout: Option<Duration>) {
        self.wait_ms = wait_of(timeout);
    }

    /// Splits off a session, whose calls have the label `who` in the journal. It has this session's
    /// timeout.
    pub fn split(&mut self, who: u32) -> Result<Session, Error> {
        let mut slot = Slot::empty();
        let status = unsafe { lrc_store_split(&mut self.slot, who, &mut slot) };
        check(status, format_args!("split({who})"))?;
        Ok(Session::of(slot, self.wait_ms, None))
    }

    /// Learns all that another session of the store has seen, so that whatever this one does next
    /// stands after all of that. The other session is unchanged.
    pub fn learn(&mut self, other: &mut Session) -> Result<(), Error> {
        let status = unsafe { lrc_slot_learn(&mut self.slot, &mut other.slot) };
        check(status, format_args!("learn()"))
    }

    /// Joins another session of the store into this one. The error returns a session of another
    /// store.
    pub fn join(&mut self, mut other: Session) -> Result<(), Refused> {
        let status = unsafe { lrc_store_join(&mut self.slot, &mut other.slot) };
        check(status, format_args!("join()")).map_err(|error| Refused {
            session: other,
            error,
        })
    }

    /// Closes the store, if all its other sessions are joined into this one. Otherwise the error
    /// returns the session.
    pub fn close(mut self) -> Result<Closed, Refused> {
        let (mut entries, mut lawful) = (0, 0);
        let status = unsafe { lrc_store_close(&mut self.slot, &mut entries, &mut lawful) };
        match check(status, format_args!("close()")) {
            Ok(()) => Ok(Closed {
                entries,
                is_checked: lawful == 1,
            }),
            Err(error) => Err(Refused {
                session: self,
                error,
            }),
        }
    }

    /// Does the same, and returns the entries of the journal.
    pub fn close_to_journal(mut self) -> Result<Journal, Refused> {
        let (mut held, mut discarded, mut entries, mut lawful) = (Slot::empty(), 0, 0, 0);
        let status = unsafe {
            lrc_store_close_to(
                &mut self.slot,
                &mut held,
                &mut discarded,
                &mut entries,
                &mut lawful,
            )
        };
        match check(status, format_args!("close_to_journal()")) {
            Ok(()) => Ok(Journal {
                discarded,
                entries: (0..entries as usize)
                    .map_while(|index| journal::entry(&mut held, index))
                    .collect(),
                is_checked: lawful == 1,
            }),
            Err(error) => Err(Refused {
                session: self,
                error,
            }),
        }
    }

    /// Stores a buffer without a copy, and returns its version. After an error the same bytes can
    /// be put again.
    pub fn put_buffer(
        &mut self,
        name: &str,
        buffer: &mut Buffer,
        code: Code,
    ) -> Result<u64, Error> {
        let mut version = 0;
        buffer.len = 0; // no longer to be filled, whatever the reply
        let status = self.named(name, |slot, wait_ms| unsafe {
            lrc_store_put_from_wait(
                slot,
                name.as_ptr(),
                name.len(),
                &mut buffer.slot,
                code as u32,
                &mut version,
                wait_ms,
            )
        });
        let len = buffer.reserved;
        check(
            status,
            format_args!("put_buffer({name:?}, {len}, {code:?})"),
        )?;
        Ok(version)
    }

    /// Stores a copy of a blob, and returns its version.
    pub fn put(&mut self, name: &str, blob: &[u8], code: Code) -> Result<u64, Error> {
        let mut version = 0;
        let status = self.named(name, |slot, wait_ms| unsafe {
            lrc_store_put_wait(
                slot,
                name.as_ptr(),
                name.len(),
                blob.as_ptr(),
                blob.len(),
                code as u32,
                &mut version,
                wait_ms,
            )
        });
        let len = blob.len();
        check(status, format_args!("put({name:?}, {len}, {code:?})"))?;
        Ok(version)
    }

    /// Lends `len` bytes of a blob, from the byte `start` on.
    pub fn read(&mut self, name: &str, start: u64, len: u64) -> Result<Grant, Error> {
        let (mut lent, mut version, mut pieces) = (Slot::empty(), 0, 0);
        let status = self.named(name, |slot, wait_ms| unsafe {
            lrc_store_lend_wait(
                slot,
                name.as_ptr(),
                name.len(),
                start,
                len,
                &mut lent,
                &mut version,
                &mut pieces,
                wait_ms,
            )
        });
        check(status, format_args!("read({name:?}, {start}, {len})"))?;
        Ok(Grant::of(lent, version, pieces))
    }

    /// Copies as many bytes of a blob as `target` has, from the byte `start` on, and returns the
    /// version. After [`Status::NotRebuilt`], any byte of `target` may have been written.
    pub fn read_into(&mut self, name: &str, start: u64, target: &mut [u8]) -> Result<u64, Error> {
        let (at, len) = (target.as_mut_ptr(), target.len());
        let (mut version, mut lent, mut built) = (0, 0, 0);
        let status = self.named(name, |slot, wait_ms| unsafe {
            lrc_store_read_wait(
                slot,
                name.as_ptr(),
                name.len(),
                start,
                at,
                len,
                &mut version,
                &mut lent,
                &mut built,
                wait_ms,
            )
        });
        check(status, format_args!("read_into({name:?}, {start}, {len})"))?;
        Ok(version)
    }

    /// A copy of the whole blob, all of one version.
    pub fn get(&mut self, name: &str) -> Result<Vec<u8>, Error> {
        let (mut held, mut version, mut len) = (Slot::empty(), 0, 0);
        let (at, name_len) = (name.as_ptr(), name.len());
        let status = self.named(name, |slot, wait_ms| unsafe {
            lrc_store_hold_wait(
                slot,
                at,
                name_len,
                &mut held,
                &mut version,
                &mut len,
                wait_ms,
            )
        });
        check(status, format_args!("get({name:?})"))?;
        let len = len as usize;
        let mut bytes = Vec::with_capacity(len);
        let status = unsafe { lrc_slot_copy(&mut held, 0, bytes.as_mut_ptr(), len) };
        check(status, format_args!("get({name:?})"))?;
        // SAFETY: the copy has written so many bytes.
        unsafe { bytes.set_len(len) };
        Ok(bytes)
    }

    /// Loses a fragment of a stripe, as after a disk failure.
    pub fn lose(&mut self, name: &str, stripe: u64, fragment: u64) -> Result<u64, Error> {
        let mut version = 0;
        let status = self.named(name, |slot, wait_ms| unsafe {
            lrc_store_lose_wait(
                slot,
                name.as_ptr(),
                name.len(),
                stripe,
                fragment,
                &mut version,
                wait_ms,
            )
        });
        check(status, format_args!("lose({name:?}, {stripe}, {fragment})"))?;
        Ok(version)
    }

    /// Repairs a lost fragment of a stripe.
    pub fn repair(&mut self, name: &str, stripe: u64, fragment: u64) -> Result<u64, Error> {
        let mut version = 0;
        let status = self.named(name, |slot, wait_ms| unsafe {
            lrc_store_repair_wait(
                slot,
                name.as_ptr(),
                name.len(),
                stripe,
                fragment,
                &mut version,
                wait_ms,
            )
        });
        check(
            status,
            format_args!("repair({name:?}, {stripe}, {fragment})"),
        )?;
        Ok(version)
    }

    /// Deletes a blob.
    pub fn delete(&mut self, name: &str) -> Result<u64, Error> {
        let mut version = 0;
        let (at, len) = (name.as_ptr(), name.len());
        let status = self.named(name, |slot, wait_ms| unsafe {
            lrc_store_delete_wait(slot, at, len, &mut version, wait_ms)
        });
        check(status, format_args!("delete({name:?})"))?;
        Ok(version)
    }

    /// The shape of a blob.
    pub fn stat(&mut self, name: &str) -> Result<Shape, Error> {
        let mut shape = Shape::default();
        let status = self.named(name, |slot, wait_ms| unsafe {
            lrc_store_stat_wait(
                slot,
                name.as_ptr(),
                name.len(),
                &mut shape.version,
                &mut shape.len,
                &mut shape.stripes,
                &mut shape.lost,
                wait_ms,
            )
        });
        check(status, format_args!("stat({name:?})"))?;
        Ok(shape)
    }

    /// Discards all journal entries except the last `keep`, and returns how many it discarded.
    pub fn trim(&mut self, keep: u64) -> Result<u64, Error> {
        let mut discarded = 0;
        let status =
            unsafe { lrc_store_trim_wait(&mut self.slot, keep, &mut discarded, self.wait_ms) };
        check(status, format_args!("trim({keep})"))?;
        Ok(discarded)
    }

    /// Repairs all lost fragments that can be rebuilt, and returns their number.
    pub fn mend(&mut self) -> Result<u64, MendError> {
        let mut repaired = 0;
        let status = unsafe { lrc_store_mend_wait(&mut self.slot, &mut repaired, self.wait_ms) };
        errors::mended(status, repaired)
    }

    /// The address of its `lrc_slot`, for calls of `lrc_store.h` that have no other form here. The
    /// slot has to keep a session of this store.
    pub fn as_raw(&mut self) -> *mut c_void {
        (&mut self.slot as *mut Slot).cast()
    }
}
