//! The journal of a closed store.

use crate::errors::{Status, DONE};
use crate::library::{lrc_slot_entry, RawEntry, Slice, Slot};
use crate::{Code, Shape};

/// The call of a journal entry.
#[derive(Clone, Copy, Debug, PartialEq, Eq)]
pub enum Call {
    /// Store a blob.
    Put {
        /// The code of the blob.
        code: Code,
        /// In bytes.
        len: u64,
    },
    /// Read a range.
    Read {
        /// The first byte, from 0.
        start: u64,
        /// In bytes.
        len: u64,
    },
    /// Lose a fragment.
    Lose {
        /// From 0.
        stripe: u64,
        /// From 0.
        fragment: u64,
    },
    /// Repair a lost fragment.
    Repair {
        /// From 0.
        stripe: u64,
        /// From 0.
        fragment: u64,
    },
    /// Restore a lost fragment of a version with its bytes.
    Restore {
        /// The version that is meant.
        version: u64,
        /// From 0.
        stripe: u64,
        /// From 0.
        fragment: u64,
    },
    /// Delete the blob.
    Delete,
    /// Ask for the shape of the blob.
    Stat,
}

impl Call {
    fn of(raw: &RawEntry) -> Call {
        let (first, second) = (raw.first, raw.second);
        match raw.call {
            0 => Call::Put {
                code: if first == 6 { Code::Small } else { Code::Wide },
                len: second,
            },
            1 => Call::Read {
                start: first,
                len: second,
            },
            2 => Call::Lose {
                stripe: first,
                fragment: second,
            },
            3 => Call::Repair {
                stripe: first,
                fragment: second,
            },
            4 => Call::Delete,
            5 => Call::Stat,
            _ => Call::Restore {
                version: raw.third,
                stripe: first,
                fragment: second,
            },
        }
    }
}

/// An entry of a journal.
#[derive(Clone, Debug, PartialEq, Eq)]
pub struct Entry {
    /// The label of the caller.
    pub who: u32,
    /// The name of the blob.
    pub name: String,
    /// The call.
    pub call: Call,
    /// The version in the reply, or why the call did nothing.
    pub reply: Result<u64, Status>,
    /// The reply to a stat.
    pub shape: Option<Shape>,
}

impl Entry {
    fn of(raw: &RawEntry) -> Entry {
        // SAFETY: the slot has the bytes of the name until it is used again.
        let name = unsafe { std::slice::from_raw_parts(raw.name.at, raw.name.len) };
        let (call, is_done) = (Call::of(raw), raw.status == DONE);
        let shape = Shape {
            version: raw.version,
            len: raw.len,
            stripes: raw.stripes,
            lost: raw.lost,
        };
        Entry {
            who: raw.who,
            name: String::from_utf8_lossy(name).into_owned(),
            call,
            reply: if is_done {
                Ok(raw.version)
            } else {
                Err(Status::of(raw.status))
            },
            shape: (call == Call::Stat && is_done).then_some(shape),
        }
    }
}

/// The entry at an index of the journal in a slot, if there is one.
pub(crate) fn entry(held: &mut Slot, index: usize) -> Option<Entry> {
    let mut raw = RawEntry {
        name: Slice::empty(),
        first: 0,
        second: 0,
        third: 0,
        version: 0,
        len: 0,
        stripes: 0,
        lost: 0,
        who: 0,
        call: 0,
        status: 0,
    };
    // SAFETY: the slot is valid, and so is the name of the entry.
    let status = unsafe { lrc_slot_entry(held, index, &mut raw) };
    (status == DONE).then(|| Entry::of(&raw))
}

/// The report on a closed store, with the entries of its journal.
#[derive(Clone, Debug, PartialEq, Eq)]
pub struct Journal {
    /// How many calls have no entry: without a journal, all.
    pub discarded: u64,
    /// The entries of the other calls, in order.
    pub entries: Vec<Entry>,
    /// Whether a check found them lawful. False if there was no memory for the check, or no
    /// journal.
    pub is_checked: bool,
}
