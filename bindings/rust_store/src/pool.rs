//! A pool of the sessions of a store.

use crate::errors::{check, Error, MendError, Refused};
use crate::library::*;
use crate::{Buffer, Code, Grant, LostFragment, Numbers, Session, Shape, Shard, Version};
use std::fmt;
use std::marker::PhantomData;
use std::mem;
use std::ptr;
use std::time::Duration;

/// The sessions of a store, for threads that come and go. Any threads may share it.
///
/// Each thread takes a session, makes its calls on it, and drops it.
pub struct Pool {
    raw: *mut RawPool,
    wait_ms: i64,
}

// SAFETY: the library's pool has a lock of its own.
unsafe impl Send for Pool {}
unsafe impl Sync for Pool {}

/// A session that is lent by a [`Pool`] or a [`ShardedStore`](crate::ShardedStore), and goes back
/// at the end.
///
/// It has the calls of a [`Session`], and is none: it cannot be joined, closed, or exchanged for
/// another one. If a `ShardedStore` lends it, its calls are of names of the shard for which it was
/// taken, and others fail with [`Status::BadArgument`](crate::Status::BadArgument).
///
/// ```
/// use lrc_store::{Code, Error, Pool, Session};
///
/// let pool = Pool::new(Session::open(4, None)?)?;
/// let (mut a, mut b) = (pool.take()?, pool.take()?);
/// a.put("a", b"HELLO", Code::Wide)?;
/// std::mem::swap(&mut a, &mut b); // each lease whole
/// assert_eq!(a.get("a")?, b"HELLO");
/// # Ok::<_, Error>(())
/// ```
///
/// ```compile_fail,E0614
/// use lrc_store::{Error, Pool, Session};
///
/// let pool = Pool::new(Session::open(4, None)?)?;
/// let (mut a, mut b) = (pool.take()?, pool.take()?);
/// std::mem::swap(&mut *a, &mut *b); // no session is inside
/// # Ok::<_, Error>(())
/// ```
pub struct Lease<'p> {
    pool: *mut RawPool,
    place: *mut Slot,
    session: Session,
    _lender: PhantomData<&'p ()>,
}

// SAFETY: a session may move between threads, and so may the address of its place.
unsafe impl Send for Lease<'_> {}

impl Lease<'_> {
    /// Takes a session from a pool of the library, which lives as long as the lease.
    pub(crate) fn of<'p>(
        pool: *mut RawPool,
        wait_ms: i64,
        shard: Option<Shard>,
        call: fmt::Arguments,
    ) -> Result<Lease<'p>, Error> {
        let mut place = ptr::null_mut();
        // SAFETY: the pool is valid, and the place a variable of the call.
        let status = unsafe { lrc_pool_take(pool, &mut place, wait_ms) };
        check(status, call)?;
        let mut session = Session::of(Slot::empty(), wait_ms, shard);
        // SAFETY: the place is this thread's until it is given back.
        mem::swap(&mut session.slot, unsafe { &mut *place });
        Ok(Lease {
            pool,
            place,
            session,
            _lender: PhantomData,
        })
    }
}

impl Pool {
    /// A pool of the sessions that can be split off this one, and of this one. They have its
    /// timeout. The error returns the session.
    pub fn new(mut session: Session) -> Result<Pool, Refused> {
        let mut raw = ptr::null_mut();
        let status = unsafe { lrc_pool_open(&mut session.slot, &mut raw) };
        match check(status, format_args!("pool()")) {
            Ok(()) => Ok(Pool {
                raw,
                wait_ms: session.wait_ms,
            }),
            Err(error) => Err(Refused { session, error }),
        }
    }

    /// Lends a session. If all are lent it waits in a line for one, as long as the timeout allows.
    pub fn take(&self) -> Result<Lease<'_>, Error> {
        Lease::of(self.raw, self.wait_ms, None, format_args!("take()"))
    }

    /// Joins all sessions into one. The error returns the pool, of which a lease was leaked.
    pub fn close(self) -> Result<Session, (Pool, Error)> {
        let mut slot = Slot::empty();
        let status = unsafe { lrc_pool_close(self.raw, &mut slot) };
        if let Err(error) = check(status, format_args!("close()")) {
            return Err((self, error));
        }
        let wait_ms = self.wait_ms;
        mem::forget(self);
        Ok(Session::of(slot, wait_ms, None))
    }
}

impl Drop for Pool {
    fn drop(&mut self) {
        let mut all = Slot::empty();
        unsafe { lrc_pool_close(self.raw, &mut all) };
    }
}

impl fmt::Debug for Pool {
    fn fmt(&self, f: &mut fmt::Formatter<'_>) -> fmt::Result {
        f.debug_struct("Pool").finish_non_exhaustive()
    }
}

/// Calls of a lease that are those of its session.
macro_rules! calls {
    ($($(#[$doc:meta])* $call:ident($($argument:ident: $of:ty),*) -> $result:ty;)*) => {$(
        $(#[$doc])*
        pub fn $call(&mut self, $($argument: $of),*) -> $result {
            self.session.$call($($argument),*)
        }
    )*};
}

impl Lease<'_> {
    calls! {
        /// How long a call of this lease waits, as [`Session::set_timeout`] says.
        set_timeout(timeout: Option<Duration>) -> ();
        /// [`Session::put`].
        put(name: &str, blob: &[u8], code: Code) -> Result<u64, Error>;
        /// [`Session::put_buffer`].
        put_buffer(name: &str, buffer: &mut Buffer, code: Code) -> Result<u64, Error>;
        /// [`Session::read`].
        read(name: &str, start: u64, len: u64) -> Result<Grant, Error>;
        /// [`Session::read_into`].
        read_into(name: &str, start: u64, target: &mut [u8]) -> Result<u64, Error>;
        /// [`Session::get`].
        get(name: &str) -> Result<Vec<u8>, Error>;
        /// [`Session::hold`].
        hold(name: &str) -> Result<Version, Error>;
        /// [`Session::restore`].
        restore(known: &mut Version, stripe: u64, fragment: u64, bytes: &[u8])
            -> Result<u64, Error>;
        /// [`Session::lose`].
        lose(name: &str, stripe: u64, fragment: u64) -> Result<u64, Error>;
        /// [`Session::repair`].
        repair(name: &str, stripe: u64, fragment: u64) -> Result<u64, Error>;
        /// [`Session::delete`].
        delete(name: &str) -> Result<u64, Error>;
        /// [`Session::stat`].
        stat(name: &str) -> Result<Shape, Error>;
        /// [`Session::lost_fragments`], of its shard alone.
        lost_fragments() -> Result<Vec<LostFragment>, Error>;
        /// [`Session::numbers`], of its shard alone.
        numbers() -> Result<Numbers, Error>;
        /// [`Session::trim`], of its shard alone.
        trim(keep: u64) -> Result<u64, Error>;
        /// [`Session::mend`], of its shard alone.
        mend() -> Result<u64, MendError>;
    }
}

impl Drop for Lease<'_> {
    fn drop(&mut self) {
        // SAFETY: as in `of`.
        mem::swap(&mut self.session.slot, unsafe { &mut *self.place });
        unsafe { lrc_pool_give(self.pool, self.place) };
    }
}
