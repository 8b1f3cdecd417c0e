//! Flat lists of ranges, and the skip tables that are packed from them.
//!
//! ```
//! use becktrestle::tables;
//! let list = [0x41, 0x5A, 0x61, 0x7A]; // A to Z, a to z
//! let mut headers = [0; tables::headers_enough(2)];
//! let mut offsets = [0; tables::offsets_needed(2)];
//! let sizes = tables::pack(&list, &mut headers, &mut offsets)?;
//! let (headers, offsets) = (&headers[..sizes.headers], &offsets[..sizes.offsets]);
//! tables::check(headers, offsets)?;
//! assert!(tables::search(headers, offsets, 'q' as u32)?);
//! assert!(!tables::search(headers, offsets, '_' as u32)?);
//! assert_eq!(tables::search_counted(headers, offsets, 'q' as u32)?.read, 4);
//! # Ok::<(), becktrestle::Refusal>(())
//! ```
use crate::{ffi, Refusal};

/// The most ranges that a list may have.
pub const MAX_RANGES: usize = 1023;

/// How many offsets the packing of so many ranges takes, exactly.
pub const fn offsets_needed(ranges: usize) -> usize {
    2 * ranges + 1
}

/// How many headers are enough for every list of so many ranges.
pub const fn headers_enough(ranges: usize) -> usize {
    2 * ranges + 1
}

/// How many numbers are enough to unpack every table of so many offsets.
pub const fn numbers_enough(offsets: usize) -> usize {
    offsets + 1
}

/// The lengths of a packed table.
#[derive(Clone, Copy, Debug, PartialEq, Eq)]
pub struct Sizes {
    pub headers: usize,
    pub offsets: usize,
}

/// Whether a number is in a table, and how many offsets of its run were read to know it.
#[derive(Clone, Copy, Debug, PartialEq, Eq)]
pub struct Found {
    pub yes: bool,
    pub read: usize,
}

/// How many ranges a list has; refuses 3, 4, 5.
pub fn check_list(list: &[u32]) -> Result<usize, Refusal> {
    // SAFETY: pointer and length are those of one slice, lent for the call alone.
    let r = unsafe { ffi::becktrestle_check_list(list.as_ptr(), list.len()) };
    Refusal::unless(r.refusal, r.carried, r.count)
}

/// Whether some range of the list holds `x`; refuses 3, 4, 5, then 1.
pub fn search_list(list: &[u32], x: u32) -> Result<bool, Refusal> {
    // SAFETY: as in check_list.
    let r = unsafe { ffi::becktrestle_search_list(list.as_ptr(), list.len(), x) };
    Refusal::unless(r.refusal, r.carried, r.yes)
}

/// Whether the table keeps its rules; refuses 8.
pub fn check(headers: &[u32], offsets: &[u8]) -> Result<(), Refusal> {
    // SAFETY: as in check_list, for both slices.
    let r = unsafe { ffi::becktrestle_check_table(headers.as_ptr(), headers.len(), offsets.as_ptr(), offsets.len()) };
    Refusal::unless(r.refusal, r.carried, ())
}

/// Whether the table holds `x`; refuses 8, then 1.
pub fn search(headers: &[u32], offsets: &[u8], x: u32) -> Result<bool, Refusal> {
    // SAFETY: as in check.
    let r = unsafe { ffi::becktrestle_search_table(headers.as_ptr(), headers.len(), offsets.as_ptr(), offsets.len(), x) };
    Refusal::unless(r.refusal, r.carried, r.yes)
}

/// The same answer and refusals, with how many offsets of `x`'s run were read.
pub fn search_counted(headers: &[u32], offsets: &[u8], x: u32) -> Result<Found, Refusal> {
    // SAFETY: as in check.
    let r =
        unsafe { ffi::becktrestle_search_table_counted(headers.as_ptr(), headers.len(), offsets.as_ptr(), offsets.len(), x) };
    Refusal::unless(r.refusal, r.carried, Found { yes: r.yes, read: r.read })
}

/// Packs a list into the fronts of `headers` and `offsets`; refuses 3, 4, 5, 6, 7, and then writes nothing.
pub fn pack(list: &[u32], headers: &mut [u32], offsets: &mut [u8]) -> Result<Sizes, Refusal> {
    // SAFETY: pointers and lengths are those of three slices that do not overlap, lent for the call alone.
    let r = unsafe {
        ffi::becktrestle_pack(
            list.as_ptr(),
            list.len(),
            headers.as_mut_ptr(),
            headers.len(),
            offsets.as_mut_ptr(),
            offsets.len(),
        )
    };
    Refusal::unless(r.refusal, r.carried, Sizes { headers: r.headers, offsets: r.offsets })
}

/// Unpacks a table into the front of `out`, as first and last of each range, and says how many numbers it wrote. Ranges that
/// touch are one, so that [`pack`] never refuses the list with 5. Refuses 8, then 10, and then writes nothing.
pub fn unpack(headers: &[u32], offsets: &[u8], out: &mut [u32]) -> Result<usize, Refusal> {
    // SAFETY: as in pack.
    let r = unsafe {
        ffi::becktrestle_unpack(
            headers.as_ptr(),
            headers.len(),
            offsets.as_ptr(),
            offsets.len(),
            out.as_mut_ptr(),
            out.len(),
        )
    };
    Refusal::unless(r.refusal, r.carried, r.count)
}
