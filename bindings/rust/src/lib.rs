//! The Local Reconstruction Codes LRC(12,2,2) and LRC(6,2,2), from `liblrc_coder`.
//!
//! The calls are safe forms of the functions of `include/lrc_coder.h`, which says which arguments
//! each refuses. After an error every target is unchanged. A set of lost fragments is a number: bit
//! i is set if and only if fragment i is lost.
#![warn(missing_docs)]

use std::ffi::CStr;
use std::fmt;
use std::os::raw::c_char;

/// The layout of `lrc_slice`.
#[repr(C)]
#[derive(Clone, Copy)]
struct Slice {
    at: *const u8,
    len: usize,
}

impl From<&[u8]> for Slice {
    fn from(bytes: &[u8]) -> Slice {
        Slice {
            at: bytes.as_ptr(),
            len: bytes.len(),
        }
    }
}

#[rustfmt::skip]
extern "C" {
    fn lrc_encode(data: *const Slice, data_fragments: usize, first: *mut u8, first_len: usize, second: *mut u8, second_len: usize, third: *mut u8, third_len: usize, fourth: *mut u8, fourth_len: usize) -> u32;
    fn lrc_encode_add(data_fragments: usize, fragment: u8, source: *const u8, source_len: usize, first: *mut u8, first_len: usize, second: *mut u8, second_len: usize, third: *mut u8, third_len: usize, fourth: *mut u8, fourth_len: usize) -> u32;
    fn lrc_is_open(data_fragments: usize, lost: u16, fragment: u8) -> u32;
    fn lrc_rebuild(data_fragments: usize, fragments: *const Slice, lost: u16, fragment: u8, from: usize, target: *mut u8, len: usize) -> u32;
    fn lrc_decode(data_fragments: usize, fragments: *const Slice, lost: u16, numbers: *const u8, from: usize, len: usize, first: *mut u8, first_len: usize, second: *mut u8, second_len: usize, third: *mut u8, third_len: usize, fourth: *mut u8, fourth_len: usize) -> u32;
    fn lrc_plan(data_fragments: usize, lost: u16, numbers: *const u8, plan: *mut u8, reads: *mut u16) -> u32;
    fn lrc_plan_decode(plan: *const u8, fragments: *const Slice, from: usize, len: usize, first: *mut u8, first_len: usize, second: *mut u8, second_len: usize, third: *mut u8, third_len: usize, fourth: *mut u8, fourth_len: usize) -> u32;
    fn lrc_recipe(data_fragments: usize, lost: u16, fragment: u8, fragments: *mut u8, coefficients: *mut u8, count: *mut u32) -> u32;
    fn lrc_add(target: *mut u8, target_len: usize, coefficient: u8, source: *const u8, source_len: usize) -> u32;
    fn lrc_coder_text(status: u32) -> *const c_char;
}

const LRC_DONE: u32 = 0;
const LRC_NONE: u8 = 255;

/// A code, by its number of data fragments. Four parities come after them.
#[derive(Clone, Copy, Debug, PartialEq, Eq)]
pub enum Code {
    /// LRC(12,2,2).
    Wide = 12,
    /// LRC(6,2,2).
    Small = 6,
}

/// Why a call failed.
#[derive(Clone, Copy, Debug, PartialEq, Eq)]
#[non_exhaustive]
#[repr(u32)]
pub enum Status {
    /// The fragment is unrecoverable: the remaining fragments do not determine it.
    Unrecoverable = 1,
    /// An argument is invalid: `lrc_coder.h` says which are valid.
    BadArgument = 2,
}

impl Status {
    /// What the status means, in English.
    pub fn text(self) -> &'static str {
        // SAFETY: the text of each number is a string that is never freed.
        let text = unsafe { CStr::from_ptr(lrc_coder_text(self as u32)) };
        text.to_str().unwrap_or_default()
    }
}

/// The error of a call that failed.
#[derive(Clone, Debug, PartialEq, Eq)]
#[non_exhaustive]
pub struct Error {
    /// Why it failed.
    pub status: Status,
    /// The call, such as `rebuild`.
    pub call: &'static str,
    /// What was wrong, such as `fragment 11 has 3 bytes, fragment 0 has 2`.
    pub reason: String,
}

impl fmt::Display for Error {
    fn fmt(&self, f: &mut fmt::Formatter<'_>) -> fmt::Result {
        write!(f, "{}: {}", self.call, self.reason)
    }
}

impl std::error::Error for Error {}

fn unrecoverable(call: &'static str, fragment: u8) -> Error {
    let status = Status::Unrecoverable;
    Error {
        status,
        call,
        reason: format!("fragment {fragment}: {}", status.text()),
    }
}

/// The error for invalid arguments, with the first reason that is found.
fn invalid(call: &'static str, reasons: &[Option<String>]) -> Error {
    let status = Status::BadArgument;
    let found = reasons.iter().flatten().next();
    Error {
        status,
        call,
        reason: found.cloned().unwrap_or_else(|| status.text().to_string()),
    }
}

/// The result of a call. An invalid argument has its reason from `reasons`.
fn result_of(
    status: u32,
    call: &'static str,
    fragment: u8,
    reasons: impl Fn() -> Vec<Option<String>>,
) -> Result<(), Error> {
    if status == LRC_DONE {
        Ok(())
    } else if status == Status::Unrecoverable as u32 {
        Err(unrecoverable(call, fragment))
    } else {
        Err(invalid(call, &reasons()))
    }
}

fn shown(len: usize) -> String {
    format!("{len} byte{}", if len == 1 { "" } else { "s" })
}

/// The first of these fragments, with their lengths, that has another length than the first one.
fn unequal(fragments: impl IntoIterator<Item = (usize, usize)>) -> Option<String> {
    let mut fragments = fragments.into_iter();
    let (first, wanted) = fragments.next()?;
    let (number, len) = fragments.find(|(_, len)| *len != wanted)?;
    let len = shown(len);
    Some(format!(
        "fragment {number} has {len}, fragment {first} has {wanted}"
    ))
}

/// The fragment, if its code has none of this number.
fn outside(code: Code, fragment: u8) -> Option<String> {
    let last = code as u8 + 3;
    (fragment > last).then(|| format!("fragment {fragment} is not in 0 to {last}"))
}

fn not_lost(lost: u16, fragment: u8) -> Option<String> {
    let is_lost = lost.checked_shr(fragment.into()).unwrap_or(0) & 1 == 1;
    (!is_lost).then(|| format!("fragment {fragment} is not lost"))
}

/// The first remaining fragment of the code that ends before the range does.
fn too_short(code: Code, fragments: &[Option<&[u8]>], from: usize, len: usize) -> Option<String> {
    let end = from.saturating_add(len);
    let remaining = fragments.iter().take(code as usize + 4).enumerate();
    let mut lengths = remaining.filter_map(|(i, bytes)| Some((i, bytes.as_ref()?.len())));
    let (number, len) = lengths.find(|(_, len)| *len < end)?;
    let len = shown(len);
    Some(format!(
        "fragment {number} has {len}, the range ends at {end}"
    ))
}

/// A remaining fragment, and the coefficient of its bytes.
#[derive(Clone, Copy, Debug, PartialEq, Eq)]
pub struct Term {
    /// The number of the fragment.
    pub fragment: u8,
    /// An element of the field, and not 0.
    pub coefficient: u8,
}

/// Writes the four parities of 12 or 6 data fragments. All have one length.
pub fn encode(data: &[&[u8]], parities: [&mut [u8]; 4]) -> Result<(), Error> {
    let count = data.len();
    if count != 12 && count != 6 {
        let reason = format!("{count} data fragments, expected 12 or 6");
        return Err(invalid("encode", &[Some(reason)]));
    }
    let mut slices = [Slice::from(&[][..]); 12];
    for (slice, bytes) in slices.iter_mut().zip(data) {
        *slice = Slice::from(*bytes);
    }
    let [a, b, c, d] = parities;
    // SAFETY: each address is a slice's with its length, and no `&mut` overlaps another reference.
    let status = unsafe {
        lrc_encode(
            slices.as_ptr(),
            count,
            a.as_mut_ptr(),
            a.len(),
            b.as_mut_ptr(),
            b.len(),
            c.as_mut_ptr(),
            c.len(),
            d.as_mut_ptr(),
            d.len(),
        )
    };
    let parities = [a.len(), b.len(), c.len(), d.len()];
    let lengths = data.iter().map(|bytes| bytes.len()).chain(parities);
    result_of(status, "encode", 0, || {
        vec![unequal(lengths.clone().enumerate())]
    })
}

/// Adds a data fragment to the four parities. All have one length.
pub fn encode_add(
    code: Code,
    fragment: u8,
    source: &[u8],
    parities: [&mut [u8]; 4],
) -> Result<(), Error> {
    let [a, b, c, d] = parities;
    // SAFETY: as in `encode`.
    let status = unsafe {
        lrc_encode_add(
            code as usize,
            fragment,
            source.as_ptr(),
            source.len(),
            a.as_mut_ptr(),
            a.len(),
            b.as_mut_ptr(),
            b.len(),
            c.as_mut_ptr(),
            c.len(),
            d.as_mut_ptr(),
            d.len(),
        )
    };
    let (number, first) = (usize::from(fragment), code as usize);
    let parities = [a.len(), b.len(), c.len(), d.len()];
    result_of(status, "encode_add", fragment, || {
        let is_parity = number >= first;
        let data = format!("fragment {number} is not in 0 to {}", first - 1);
        let parities = parities.into_iter().zip(first..);
        let lengths = parities.map(|(len, number)| (number, len));
        vec![
            is_parity.then_some(data),
            unequal([(number, source.len())].into_iter().chain(lengths)),
        ]
    })
}

/// Whether the fragment is unrecoverable.
pub fn is_unrecoverable(code: Code, lost: u16, fragment: u8) -> Result<bool, Error> {
    // SAFETY: only numbers are passed.
    let status = unsafe { lrc_is_open(code as usize, lost, fragment) };
    if status == Status::Unrecoverable as u32 {
        return Ok(true);
    }
    let reasons = || vec![outside(code, fragment)];
    result_of(status, "is_unrecoverable", fragment, reasons).map(|()| false)
}

/// [`is_unrecoverable`] by its older name.
pub fn is_open(code: Code, lost: u16, fragment: u8) -> Result<bool, Error> {
    is_unrecoverable(code, lost, fragment)
}

/// The slices of the remaining fragments, and the set of the others.
fn slices_of(fragments: &[Option<&[u8]>]) -> ([Slice; 16], u16) {
    let mut slices = [Slice::from(&[][..]); 16];
    let mut lost = u16::MAX;
    for (i, bytes) in fragments.iter().enumerate().take(16) {
        if let Some(bytes) = bytes {
            slices[i] = Slice::from(*bytes);
            lost &= !(1 << i);
        }
    }
    (slices, lost)
}

/// Writes the bytes of a lost fragment from `from` on, as many as `target` has. `fragments` has the
/// remaining ones at their numbers, and None elsewhere.
pub fn rebuild(
    code: Code,
    fragments: &[Option<&[u8]>],
    fragment: u8,
    from: usize,
    target: &mut [u8],
) -> Result<(), Error> {
    let (slices, lost) = slices_of(fragments);
    // SAFETY: sixteen slices are passed, and as in `encode`.
    let status = unsafe {
        lrc_rebuild(
            code as usize,
            slices.as_ptr(),
            lost,
            fragment,
            from,
            target.as_mut_ptr(),
            target.len(),
        )
    };
    result_of(status, "rebuild", fragment, || {
        vec![
            outside(code, fragment),
            not_lost(lost, fragment),
            too_short(code, fragments, from, target.len()),
        ]
    })
}

/// A lost fragment by its number, and the bytes to write it to.
pub type Target<'a> = (u8, &'a mut [u8]);

/// The status of `lrc_decode` for at most four targets.
fn decode_four(
    code: Code,
    slices: &[Slice; 16],
    lost: u16,
    from: usize,
    targets: &mut [Target],
) -> u32 {
    let len = targets.first().map_or(0, |(_, target)| target.len());
    let mut numbers = [LRC_NONE; 4];
    let mut four: [&mut [u8]; 4] = [&mut [], &mut [], &mut [], &mut []];
    for (i, (number, target)) in targets.iter_mut().enumerate() {
        numbers[i] = *number;
        four[i] = target;
    }
    let [a, b, c, d] = four;
    // SAFETY: sixteen slices and four numbers are passed, and as in `encode`.
    unsafe {
        lrc_decode(
            code as usize,
            slices.as_ptr(),
            lost,
            numbers.as_ptr(),
            from,
            len,
            a.as_mut_ptr(),
            a.len(),
            b.as_mut_ptr(),
            b.len(),
            c.as_mut_ptr(),
            c.len(),
            d.as_mut_ptr(),
            d.len(),
        )
    }
}

/// Writes the bytes of several lost fragments from `from` on, in less time than a `rebuild` of
/// each. All targets have one length. Of more than four lost fragments, one is unrecoverable.
pub fn decode(
    code: Code,
    fragments: &[Option<&[u8]>],
    from: usize,
    targets: &mut [Target],
) -> Result<(), Error> {
    let (slices, lost) = slices_of(fragments);
    let wanted: Vec<(u8, usize)> = targets.iter().map(|(f, bytes)| (*f, bytes.len())).collect();
    let mut numbers = wanted.iter().map(|(f, _)| *f);
    let wrong = |f| outside(code, f).or_else(|| not_lost(lost, f));
    if let Some(reason) = numbers.clone().find_map(wrong) {
        return Err(invalid("decode", &[Some(reason)]));
    }
    let status = if targets.len() > 4 {
        Status::Unrecoverable as u32
    } else {
        decode_four(code, &slices, lost, from, targets)
    };
    let fragment = numbers.find(|f| is_unrecoverable(code, lost, *f) == Ok(true));
    result_of(status, "decode", fragment.unwrap_or(LRC_NONE), || {
        let lengths = wanted.iter().map(|(f, len)| (usize::from(*f), *len));
        let reason = unequal(lengths).map(|reason| format!("the target of {reason}"));
        let len = wanted.first().map_or(0, |(_, len)| *len);
        vec![reason, too_short(code, fragments, from, len)]
    })
}

const LRC_PLAN_BYTES: usize = 24;

/// How lost fragments are decoded. It depends on the lost set alone, so one plan serves any number
/// of stripes.
#[derive(Clone, Copy, Debug, PartialEq, Eq)]
pub struct Plan {
    bytes: [u8; LRC_PLAN_BYTES],
    numbers: [u8; 4],
    count: usize,
    code: Code,
    reads: u16,
}

impl Plan {
    /// A plan for these lost fragments, at most four. `Unrecoverable` if one of them is.
    pub fn new(code: Code, lost: u16, fragments: &[u8]) -> Result<Plan, Error> {
        let wrong = |f: &u8| outside(code, *f).or_else(|| not_lost(lost, *f));
        if let Some(reason) = fragments.iter().find_map(wrong) {
            return Err(invalid("Plan::new", &[Some(reason)]));
        }
        let mut plan = Plan {
            bytes: [0; LRC_PLAN_BYTES],
            numbers: [LRC_NONE; 4],
            count: fragments.len(),
            code,
            reads: 0,
        };
        let mut status = Status::Unrecoverable as u32;
        if let Some(numbers) = plan.numbers.get_mut(..fragments.len()) {
            numbers.copy_from_slice(fragments);
            // SAFETY: four numbers, the bytes of a plan and a set are passed.
            status = unsafe {
                lrc_plan(
                    code as usize,
                    lost,
                    plan.numbers.as_ptr(),
                    plan.bytes.as_mut_ptr(),
                    &mut plan.reads,
                )
            };
        }
        let is_lost_for_good = |f: &&u8| is_unrecoverable(code, lost, **f) == Ok(true);
        let fragment = fragments.iter().find(is_lost_for_good).copied();
        result_of(status, "Plan::new", fragment.unwrap_or(LRC_NONE), Vec::new).map(|()| plan)
    }

    /// The fragments that [`Plan::decode`] reads: bit i is set if and only if it reads fragment i.
    pub fn reads(&self) -> u16 {
        self.reads
    }

    /// The first fragment that the plan reads and that is not given.
    fn missing(&self, fragments: &[Option<&[u8]>]) -> Option<String> {
        let given = |i: &usize| fragments.get(*i).map_or(false, Option::is_some);
        let reads = (0..16).filter(|i| self.reads >> i & 1 == 1);
        let number = reads.clone().find(|i| !given(i))?;
        Some(format!(
            "fragment {number} is missing, and the plan reads it"
        ))
    }

    /// The fragments that the plan reads, and None for the others.
    fn read<'a>(&self, fragments: &[Option<&'a [u8]>]) -> [Option<&'a [u8]>; 16] {
        let mut read = [None; 16];
        for (i, bytes) in fragments.iter().enumerate().take(16) {
            read[i] = bytes.filter(|_| self.reads >> i & 1 == 1);
        }
        read
    }

    /// Writes the bytes of the plan's fragments from `from` on, in the order in which they were
    /// given. `fragments` has those that it reads at their numbers. Others are ignored.
    pub fn decode(
        &self,
        fragments: &[Option<&[u8]>],
        from: usize,
        targets: &mut [&mut [u8]],
    ) -> Result<(), Error> {
        let len = targets.first().map_or(0, |target| target.len());
        let lengths: Vec<usize> = targets.iter().map(|target| target.len()).collect();
        if lengths.len() != self.count {
            let reason = format!("{} targets, expected {}", lengths.len(), self.count);
            return Err(invalid("Plan::decode", &[Some(reason)]));
        }
        if let Some(reason) = self.missing(fragments) {
            return Err(invalid("Plan::decode", &[Some(reason)]));
        }
        let mut four: [&mut [u8]; 4] = [&mut [], &mut [], &mut [], &mut []];
        for (slot, target) in four.iter_mut().zip(targets) {
            *slot = target;
        }
        let [a, b, c, d] = four;
        let read = self.read(fragments);
        let (slices, _) = slices_of(&read);
        // SAFETY: the bytes of a plan and sixteen slices are passed, and as in `encode`.
        let status = unsafe {
            lrc_plan_decode(
                self.bytes.as_ptr(),
                slices.as_ptr(),
                from,
                len,
                a.as_mut_ptr(),
                a.len(),
                b.as_mut_ptr(),
                b.len(),
                c.as_mut_ptr(),
                c.len(),
                d.as_mut_ptr(),
                d.len(),
            )
        };
        result_of(status, "Plan::decode", LRC_NONE, || {
            let numbers = self.numbers.iter().map(|f| usize::from(*f));
            let reason = unequal(numbers.zip(lengths.iter().copied()));
            let reason = reason.map(|reason| format!("the target of {reason}"));
            vec![reason, too_short(self.code, &read, from, len)]
        })
    }
}

/// A recipe for a lost fragment: it is the sum of these fragments, each times its coefficient.
pub fn recipe(code: Code, lost: u16, fragment: u8) -> Result<Vec<Term>, Error> {
    let (mut fragments, mut coefficients, mut count) = ([0; 16], [0; 16], 0);
    // SAFETY: both arrays have sixteen elements.
    let status = unsafe {
        lrc_recipe(
            code as usize,
            lost,
            fragment,
            fragments.as_mut_ptr(),
            coefficients.as_mut_ptr(),
            &mut count,
        )
    };
    result_of(status, "recipe", fragment, || {
        vec![outside(code, fragment), not_lost(lost, fragment)]
    })?;
    let terms = fragments.into_iter().zip(coefficients).take(count as usize);
    Ok(terms
        .map(|(fragment, coefficient)| Term {
            fragment,
            coefficient,
        })
        .collect())
}

/// Adds a source times a coefficient to the target, byte by byte, in the field. Both have one
/// length.
pub fn add(target: &mut [u8], coefficient: u8, source: &[u8]) -> Result<(), Error> {
    let (at, len) = (target.as_mut_ptr(), target.len());
    // SAFETY: as in `encode`.
    let status = unsafe { lrc_add(at, len, coefficient, source.as_ptr(), source.len()) };
    result_of(status, "add", 0, || {
        let source = shown(source.len());
        vec![Some(format!(
            "the source has {source}, the target has {len}"
        ))]
    })
}
