//! What a store has lost.

use crate::errors::{check, Error, DONE};
use crate::library::*;
use crate::Session;

/// How many fragments are listed at once, between which other threads call.
const AT_ONCE: u64 = 512;

/// A lost fragment of a blob.
#[derive(Clone, Debug, PartialEq, Eq)]
pub struct LostFragment {
    /// The name of the blob.
    pub name: String,
    /// The version of the blob.
    pub version: u64,
    /// From 0.
    pub stripe: u64,
    /// From 0.
    pub fragment: u64,
}

impl Session {
    /// The lost fragments of all blobs, by name, stripe and fragment. They are listed in parts,
    /// each as of a moment of its own.
    pub fn lost_fragments(&mut self) -> Result<Vec<LostFragment>, Error> {
        let (mut plan, mut all) = (Slot::empty(), Vec::new());
        loop {
            let mut count = 0;
            // SAFETY: both slots are valid, and the count a variable of the call.
            let status = unsafe {
                lrc_store_plan_part_wait(
                    &mut self.slot,
                    &mut plan,
                    AT_ONCE,
                    &mut count,
                    self.wait_ms,
                )
            };
            check(status, format_args!("lost_fragments()"))?;
            all.extend(std::iter::from_fn(|| next(&mut plan)));
            if count < AT_ONCE {
                return Ok(all);
            }
        }
    }
}

/// Takes the next item out of a plan, if there is one.
fn next(plan: &mut Slot) -> Option<LostFragment> {
    let (mut raw, mut count) = (RawItem::empty(), 0);
    // SAFETY: the slot is valid, and so is the name of the item.
    let status = unsafe { lrc_slot_items(plan, &mut raw, 1, &mut count) };
    if status != DONE || count == 0 {
        return None;
    }
    // SAFETY: the slot has the bytes of the name until it is used again.
    let name = unsafe { std::slice::from_raw_parts(raw.name.at, raw.name.len) };
    let found = LostFragment {
        name: String::from_utf8_lossy(name).into_owned(),
        version: raw.version,
        stripe: raw.stripe,
        fragment: raw.fragment,
    };
    unsafe { lrc_slot_skip(plan) };
    Some(found)
}
