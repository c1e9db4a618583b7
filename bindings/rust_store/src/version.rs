//! Versions of blobs that are held, and the numbers of a store.

use crate::errors::{check, Error};
use crate::library::*;
use crate::{Code, Grant, Session};

/// A version of a blob that is held. It stays as it is while this lives, whatever happens to the
/// blob and to the store. Its calls take no lock and make no journal entry.
pub struct Version {
    slot: Slot,
    number: u64,
    len: u64,
}

// A version may move between threads. Its raw address keeps threads from sharing it.
unsafe impl Send for Version {}

/// The shape of a held version.
#[derive(Clone, Copy, Debug, PartialEq, Eq)]
#[non_exhaustive]
pub struct VersionShape {
    /// The number of the put that stored it.
    pub version: u64,
    /// The length in bytes.
    pub len: u64,
    /// The number of stripes.
    pub stripes: u64,
    /// The number of fragments that were lost when it was held.
    pub lost: u64,
    /// The bytes of a fragment.
    pub width: u32,
    /// The code.
    pub code: Code,
}

/// The numbers of a store.
#[derive(Clone, Copy, Debug, Default, PartialEq, Eq)]
#[non_exhaustive]
pub struct Numbers {
    /// The names that have a blob.
    pub blobs: u64,
    /// The bytes of these blobs.
    pub bytes: u64,
    /// Their lost fragments.
    pub lost: u64,
    /// Their stripes that have an unrecoverable fragment.
    pub unrecoverable: u64,
    /// The calls so far.
    pub calls: u64,
    /// The entries that the journal keeps.
    pub entries: u64,
}

impl From<RawNumbers> for Numbers {
    fn from(raw: RawNumbers) -> Numbers {
        Numbers {
            blobs: raw.blobs,
            bytes: raw.bytes,
            lost: raw.lost,
            unrecoverable: raw.unrecoverable,
            calls: raw.calls,
            entries: raw.entries,
        }
    }
}

// SAFETY of all calls here: slots are valid and different ones, an address of bytes comes from a
// slice with its length, and outputs are variables of the call.
impl Version {
    /// The number of the put that stored it.
    pub fn number(&self) -> u64 {
        self.number
    }

    /// The length in bytes.
    pub fn len(&self) -> u64 {
        self.len
    }

    /// Whether it has no byte.
    pub fn is_empty(&self) -> bool {
        self.len == 0
    }

    /// Its shape. The lost fragments are counted through all stripes.
    pub fn shape(&mut self) -> Result<VersionShape, Error> {
        let mut raw = RawShape::default();
        let status = unsafe { lrc_slot_shape(&mut self.slot, &mut raw) };
        check(status, format_args!("shape()"))?;
        Ok(VersionShape {
            version: raw.version,
            len: raw.len,
            stripes: raw.stripes,
            lost: raw.lost,
            width: raw.width,
            code: if raw.data_fragments == Code::Small as u32 {
                Code::Small
            } else {
                Code::Wide
            },
        })
    }

    /// The fragments of a stripe that were lost when it was held: bit `f` is set if fragment `f`
    /// was.
    pub fn lost(&mut self, stripe: u64) -> Result<u16, Error> {
        let mut lost = 0;
        let status = unsafe { lrc_slot_lost(&mut self.slot, stripe, &mut lost) };
        check(status, format_args!("lost({stripe})"))?;
        Ok(lost)
    }

    /// Lends `len` bytes, from the byte `start` on.
    pub fn read(&mut self, start: u64, len: u64) -> Result<Grant, Error> {
        let (mut lent, mut pieces) = (Slot::empty(), 0);
        let status = unsafe { lrc_slot_lend(&mut self.slot, start, len, &mut lent, &mut pieces) };
        check(status, format_args!("read({start}, {len})"))?;
        Ok(Grant::of(lent, self.number, pieces))
    }

    /// Copies as many bytes as `target` has, from the byte `start` on. After
    /// [`Status::NotRebuilt`], any byte of `target` may have been written.
    pub fn read_into(&mut self, start: u64, target: &mut [u8]) -> Result<(), Error> {
        let (at, len) = (target.as_mut_ptr(), target.len());
        let status = unsafe { lrc_slot_copy(&mut self.slot, start, at, len) };
        check(status, format_args!("read_into({start}, {len})"))
    }

    /// The bytes of a fragment of a stripe, data or parity.
    pub fn fragment(&mut self, stripe: u64, fragment: u64) -> Result<&[u8], Error> {
        let mut found = Slice::empty();
        let status = unsafe { lrc_slot_fragment(&mut self.slot, stripe, fragment, &mut found) };
        check(status, format_args!("fragment({stripe}, {fragment})"))?;
        // SAFETY: the bytes stay in place until the slot is passed to another call.
        Ok(unsafe { std::slice::from_raw_parts(found.at, found.len) })
    }
}

impl Session {
    /// Holds the version that a blob has now.
    pub fn hold(&mut self, name: &str) -> Result<Version, Error> {
        let (mut slot, mut number, mut len) = (Slot::empty(), 0, 0);
        let (at, name_len) = (name.as_ptr(), name.len());
        let status = self.named(name, |from, wait_ms| unsafe {
            lrc_store_hold_wait(
                from,
                at,
                name_len,
                &mut slot,
                &mut number,
                &mut len,
                wait_ms,
            )
        });
        check(status, format_args!("hold({name:?})"))?;
        Ok(Version { slot, number, len })
    }

    /// Restores a lost fragment of a version with its bytes, such as those of another machine,
    /// whatever else is lost. Returns the version. The status is [`Status::Replaced`] if the name
    /// has another one by now.
    ///
    /// The caller ensures that the fragment has these bytes. Others become a part of the blob, as a
    /// disk's silent corruption would.
    pub fn restore(
        &mut self,
        known: &mut Version,
        stripe: u64,
        fragment: u64,
        bytes: &[u8],
    ) -> Result<u64, Error> {
        let mut version = 0;
        let status = unsafe {
            lrc_store_restore_wait(
                &mut self.slot,
                &mut known.slot,
                stripe,
                fragment,
                bytes.as_ptr(),
                bytes.len(),
                &mut version,
                self.wait_ms,
            )
        };
        let len = bytes.len();
        check(status, format_args!("restore({stripe}, {fragment}, {len})"))?;
        Ok(version)
    }

    /// The numbers of the store, such as those of its blobs and of its lost fragments.
    pub fn numbers(&mut self) -> Result<Numbers, Error> {
        let mut raw = RawNumbers::default();
        let status = unsafe { lrc_store_numbers_wait(&mut self.slot, &mut raw, self.wait_ms) };
        check(status, format_args!("numbers()"))?;
        Ok(Numbers::from(raw))
    }
}
