//! A store of several shards.

use crate::errors::{check, mended, Error, MendError};
use crate::library::*;
use crate::pool::Lease;
use crate::{wait_of, Closed, LostFragment, Numbers, Shard, Status};
use std::fmt;
use std::mem;
use std::ptr;
use std::time::Duration;

/// A store of several shards, for threads that come and go. Any threads may share it.
///
/// Each name belongs to one shard, which has a critical section of its own. So threads that call
/// different names seldom wait for each other.
pub struct ShardedStore {
    raw: *mut RawShards,
    shards: u32,
    wait_ms: i64,
}

// SAFETY: the library's store has locks of its own.
unsafe impl Send for ShardedStore {}
unsafe impl Sync for ShardedStore {}

// SAFETY of all calls here: the store is open, an address of bytes comes from a slice with its
// length, and outputs are variables of the call.
impl ShardedStore {
    /// Opens a store of 1 to 64 shards. Its fragments have `width` bytes. With the limit `None` it
    /// has no journals, and with a number one for each shard, of at most so many entries.
    pub fn open(
        width: u32,
        shards: u32,
        limit: impl Into<Option<u32>>,
    ) -> Result<ShardedStore, Error> {
        let limit = limit.into();
        let options = RawOptions {
            size: mem::size_of::<RawOptions>(),
            width,
            shards,
            // 0 is refused as a limit, and stands for no journals.
            limit: limit.map_or(0, |limit| if limit == 0 { u32::MAX } else { limit }),
            reserved: 0,
        };
        let mut raw = ptr::null_mut();
        let status = unsafe { lrc_shards_open(&options, &mut raw) };
        check(status, format_args!("open({width}, {shards}, {limit:?})"))?;
        Ok(ShardedStore {
            raw,
            shards,
            wait_ms: -1,
        })
    }

    /// How long a call waits at a time, rounded up to milliseconds, also one of a session that is
    /// lent afterwards. `None`, as at first: until it gets in.
    pub fn set_timeout(&mut self, timeout: Option<Duration>) {
        self.wait_ms = wait_of(timeout);
    }

    /// Lends a session of the shard of a name, for calls of names of this shard.
    pub fn take(&self, name: &str) -> Result<Lease<'_>, Error> {
        let failed = |status| Error::new(status, format_args!("take({name:?})"));
        let shard = Shard::find(name, self.shards).map_err(failed)?;
        let mut pool = ptr::null_mut();
        let status = unsafe { lrc_shards_at(self.raw, shard.number, &mut pool) };
        check(status, format_args!("take({name:?})"))?;
        Lease::of(
            pool,
            self.wait_ms,
            Some(shard),
            format_args!("take({name:?})"),
        )
    }

    /// The lost fragments of all blobs, by shard, name, stripe and fragment. They are listed in
    /// parts, each as of a moment of its own.
    pub fn lost_fragments(&self) -> Result<Vec<LostFragment>, Error> {
        let (mut all, mut pool) = (Vec::new(), ptr::null_mut());
        for shard in 0..self.shards {
            let status = unsafe { lrc_shards_at(self.raw, shard, &mut pool) };
            check(status, format_args!("lost_fragments()"))?;
            let mut lease = Lease::of(pool, self.wait_ms, None, format_args!("lost_fragments()"))?;
            all.append(&mut lease.lost_fragments()?);
        }
        Ok(all)
    }

    /// The numbers of all shards together.
    pub fn numbers(&self) -> Result<Numbers, Error> {
        let mut found = RawNumbers::default();
        let status = unsafe { lrc_shards_numbers(self.raw, &mut found, self.wait_ms) };
        check(status, format_args!("numbers()"))?;
        Ok(Numbers::from(found))
    }

    /// Discards all entries of each shard's journal except the last `keep`, and returns how many it
    /// discarded.
    pub fn trim(&self, keep: u64) -> Result<u64, Error> {
        let mut discarded = 0;
        let status = unsafe { lrc_shards_trim(self.raw, keep, &mut discarded, self.wait_ms) };
        check(status, format_args!("trim({keep})"))?;
        Ok(discarded)
    }

    /// Repairs all lost fragments that can be rebuilt, and returns their number.
    pub fn mend(&self) -> Result<u64, MendError> {
        let mut repaired = 0;
        let status = unsafe { lrc_shards_mend(self.raw, &mut repaired, self.wait_ms) };
        mended(status, repaired)
    }

    /// Closes the store. The error returns the store, of which a lease was leaked.
    pub fn close(self) -> Result<Closed, (ShardedStore, Error)> {
        let (mut entries, mut lawful) = (0, 0);
        let status = unsafe { lrc_shards_close(self.raw, &mut entries, &mut lawful) };
        // On any other status the library has freed the store. It has none for leases, which lose
        // no session.
        if status == Status::NotAlone as u32 {
            return Err((self, Error::new(status, format_args!("close()"))));
        }
        mem::forget(self);
        Ok(Closed {
            entries,
            is_checked: lawful == 1,
        })
    }
}

impl Drop for ShardedStore {
    fn drop(&mut self) {
        let (mut entries, mut lawful) = (0, 0);
        unsafe { lrc_shards_close(self.raw, &mut entries, &mut lawful) };
    }
}

impl fmt::Debug for ShardedStore {
    fn fmt(&self, f: &mut fmt::Formatter<'_>) -> fmt::Result {
        f.debug_struct("ShardedStore").finish_non_exhaustive()
    }
}
