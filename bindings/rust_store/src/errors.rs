//! Statuses of the library, and the errors that have them.

use crate::library::lrc_store_text;
use crate::Session;
use std::ffi::CStr;
use std::fmt;

/// Why a call failed.
#[derive(Clone, Copy, Debug, PartialEq, Eq)]
#[non_exhaustive]
#[repr(u32)]
pub enum Status {
    /// The timeout has passed, and another thread was in the critical section.
    Busy = 1,
    /// The name has no blob.
    NoName = 2,
    /// The range does not lie inside the blob.
    OutOfRange = 3,
    /// The remaining fragments do not determine what was asked for.
    Unrecoverable = 4,
    /// The blob lacks this stripe, or the stripe this fragment.
    NoFragment = 5,
    /// The fragment was lost already.
    AlreadyLost = 6,
    /// The fragment is present.
    NotLost = 7,
    /// Out of memory.
    NoMemory = 8,
    /// The journal has as many entries as its limit.
    JournalFull = 9,
    /// The blob needs more than 4,096 stripes.
    TooLong = 10,
    /// A name has 1 to 32 bytes of a-z, 0-9, '.', '_' and '-'.
    BadName = 11,
    /// The width is not in 1 to 65,536.
    BadWidth = 12,
    /// No further session can be split off this one.
    NoPass = 13,
    /// A slot does not hold what the function needs.
    Empty = 14,
    /// The slot that the function fills is not empty.
    Occupied = 15,
    /// The limit is not in 1 to 1,048,576, the shards are not 1 to 64, the sessions are of two
    /// stores, or the name is of another shard than the lease.
    BadArgument = 16,
    /// The store has other sessions.
    NotAlone = 17,
    /// Out of memory for rebuilding lost fragments.
    NotRebuilt = 18,
    /// The plan has no further item, or the journal no such entry.
    NothingLeft = 19,
    /// The name has another blob than the version that is meant.
    Replaced = 20,
    /// A status that this version does not know.
    Unknown = u32::MAX,
}

impl Status {
    const KNOWN: [Status; 20] = [
        Status::Busy,
        Status::NoName,
        Status::OutOfRange,
        Status::Unrecoverable,
        Status::NoFragment,
        Status::AlreadyLost,
        Status::NotLost,
        Status::NoMemory,
        Status::JournalFull,
        Status::TooLong,
        Status::BadName,
        Status::BadWidth,
        Status::NoPass,
        Status::Empty,
        Status::Occupied,
        Status::BadArgument,
        Status::NotAlone,
        Status::NotRebuilt,
        Status::NothingLeft,
        Status::Replaced,
    ];

    pub(crate) fn of(number: u32) -> Status {
        let known = Status::KNOWN.into_iter().find(|s| *s as u32 == number);
        known.unwrap_or(Status::Unknown)
    }

    /// What the status means, in English.
    pub fn text(self) -> &'static str {
        // SAFETY: the text of each number is a string that is never freed.
        let text = unsafe { CStr::from_ptr(lrc_store_text(self as u32)) };
        text.to_str().unwrap_or_default()
    }
}

impl fmt::Display for Status {
    fn fmt(&self, f: &mut fmt::Formatter<'_>) -> fmt::Result {
        f.write_str(self.text())
    }
}

/// The error of a call that failed.
#[derive(Clone, Debug, PartialEq, Eq)]
#[non_exhaustive]
pub struct Error {
    /// Why it failed.
    pub status: Status,
    /// The call and its arguments, such as `read("photo", 0, 12)`. A put has the blob's length in
    /// place of the blob.
    pub call: String,
}

impl Error {
    pub(crate) fn new(status: u32, call: fmt::Arguments) -> Error {
        Error {
            status: Status::of(status),
            call: call.to_string(),
        }
    }
}

impl fmt::Display for Error {
    fn fmt(&self, f: &mut fmt::Formatter<'_>) -> fmt::Result {
        write!(f, "{}: {}", self.call, self.status)
    }
}

impl std::error::Error for Error {}

pub(crate) const DONE: u32 = 0;

/// The error of a call with this status, unless it is done.
pub(crate) fn check(status: u32, call: fmt::Arguments) -> Result<(), Error> {
    if status == DONE {
        Ok(())
    } else {
        Err(Error::new(status, call))
    }
}

/// Why a mend stopped, and what it did before.
#[derive(Clone, Debug, PartialEq, Eq)]
#[non_exhaustive]
pub struct MendError {
    /// How many fragments it repaired.
    pub repaired: u64,
    /// The reason.
    pub error: Error,
}

/// What a mend with this status returns.
pub(crate) fn mended(status: u32, repaired: u64) -> Result<u64, MendError> {
    if status == DONE {
        return Ok(repaired);
    }
    let error = Error::new(status, format_args!("mend()"));
    Err(MendError { repaired, error })
}

impl fmt::Display for MendError {
    fn fmt(&self, f: &mut fmt::Formatter<'_>) -> fmt::Result {
        let Error { call, status } = &self.error;
        let count = self.repaired;
        write!(f, "{call} after {count} repaired fragments: {status}")
    }
}

impl std::error::Error for MendError {}

impl From<MendError> for Error {
    fn from(stopped: MendError) -> Error {
        stopped.error
    }
}

/// Why a join or a close failed, with the session that was passed to it.
pub struct Refused {
    /// The unchanged session.
    pub session: Session,
    /// The reason.
    pub error: Error,
}

impl fmt::Debug for Refused {
    fn fmt(&self, f: &mut fmt::Formatter<'_>) -> fmt::Result {
        f.debug_struct("Refused")
            .field("error", &self.error)
            .finish_non_exhaustive()
    }
}

impl fmt::Display for Refused {
    fn fmt(&self, f: &mut fmt::Formatter<'_>) -> fmt::Result {
        self.error.fmt(f)
    }
}

impl std::error::Error for Refused {}

impl From<Refused> for Error {
    fn from(refused: Refused) -> Error {
        refused.error
    }
}
