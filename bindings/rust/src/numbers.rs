//! The scalar entries over any `u32`: refusals 1, 2, and of the encoders 10.
//!
//! ```
//! use becktrestle::{numbers, Refusal};
//! assert_eq!(numbers::is_alphabetic(0x41), Ok(true));
//! assert_eq!(numbers::is_alphabetic(0xD800), Err(Refusal::Surrogate));
//! assert_eq!(numbers::is_alphabetic(0x110000), Err(Refusal::AboveMax));
//! ```
use crate::{ffi, Refusal};

macro_rules! over_number {
    ($($name:ident $exported:ident)*) => {$(
        /// As the function of this name in the crate's root, over any number.
        pub fn $name(n: u32) -> Result<bool, Refusal> {
            // SAFETY: the function takes any number, and keeps and lends nothing.
            let r = unsafe { ffi::$exported(n) };
            Refusal::unless(r.refusal, r.carried, r.yes)
        }
    )*};
}

over_number! {
    is_alphabetic becktrestle_is_alphabetic
    is_lowercase becktrestle_is_lowercase
    is_uppercase becktrestle_is_uppercase
    is_titlecase becktrestle_is_titlecase
    is_cased becktrestle_is_cased
    is_numeric becktrestle_is_numeric
    is_alphanumeric becktrestle_is_alphanumeric
    is_whitespace becktrestle_is_whitespace
    is_control becktrestle_is_control
    is_printable becktrestle_is_printable
}

macro_rules! mapped {
    ($($name:ident $exported:ident)*) => {$(
        /// One to three mapped numbers, unused ones 0, and how many they are.
        pub fn $name(n: u32) -> Result<([u32; 3], usize), Refusal> {
            // SAFETY: the function takes any number, and keeps and lends nothing.
            let r = unsafe { ffi::$exported(n) };
            Refusal::unless(r.refusal, 0, (r.to, r.count))
        }
    )*};
}

mapped! {
    to_lowercase becktrestle_to_lowercase
    to_uppercase becktrestle_to_uppercase
    to_titlecase becktrestle_to_titlecase
}

/// Whether the number is a scalar value.
pub fn check_scalar(n: u32) -> Result<(), Refusal> {
    // SAFETY: the function takes any number, and keeps and lends nothing.
    let r = unsafe { ffi::becktrestle_check_scalar(n) };
    Refusal::unless(r.refusal, r.carried, ())
}

/// How many bytes the number takes in UTF-8.
pub fn len_utf8(n: u32) -> Result<usize, Refusal> {
    // SAFETY: the function takes any number, and keeps and lends nothing.
    let r = unsafe { ffi::becktrestle_len_utf8(n) };
    Refusal::unless(r.refusal, r.carried, r.count)
}

/// How many 16-bit units the number takes in UTF-16.
pub fn len_utf16(n: u32) -> Result<usize, Refusal> {
    // SAFETY: the function takes any number, and keeps and lends nothing.
    let r = unsafe { ffi::becktrestle_len_utf16(n) };
    Refusal::unless(r.refusal, r.carried, r.count)
}

/// Writes the number in UTF-8 to the front of `out`, and says how many bytes it wrote; a refusal writes nothing.
///
/// ```
/// let mut out = [0xEE; 4];
/// assert_eq!(becktrestle::numbers::encode_utf8(0xDF, &mut out), Ok(2));
/// assert_eq!(out, [0xC3, 0x9F, 0xEE, 0xEE]);
/// ```
pub fn encode_utf8(n: u32, out: &mut [u8]) -> Result<usize, Refusal> {
    // SAFETY: pointer and length are those of one slice, lent for the call alone.
    let r = unsafe { ffi::becktrestle_encode_utf8(n, out.as_mut_ptr(), out.len()) };
    Refusal::unless(r.refusal, r.carried, r.count)
}

/// Writes the number in UTF-16 to the front of `out`, and says how many units it wrote; a refusal writes nothing.
pub fn encode_utf16(n: u32, out: &mut [u16]) -> Result<usize, Refusal> {
    // SAFETY: pointer and length are those of one slice, lent for the call alone.
    let r = unsafe { ffi::becktrestle_encode_utf16(n, out.as_mut_ptr(), out.len()) };
    Refusal::unless(r.refusal, r.carried, r.count)
}
