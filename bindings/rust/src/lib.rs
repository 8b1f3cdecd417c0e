//! Becktrestle for the record screen: Unicode 17.0.0 properties, the printable check, case mappings and encodings of one
//! character, and skip tables packed from a list of ranges. The answers are those of the proved library; this crate only
//! dresses them in Rust's types.
//!
//! Over [`char`] every answer is plain. Over `u32` and over lent lists and tables it is a [`Result`], since those can be
//! refused: [`Refusal`] is the table of refusals.
//!
//! ```
//! assert!(becktrestle::is_alphabetic('ß'));
//! assert!(!becktrestle::is_printable('\u{200B}'));
//! assert_eq!(becktrestle::to_titlecase('ß').as_slice(), ['S', 's']);
//! ```
pub mod ffi;
pub mod numbers;
mod refusal;
pub mod tables;

pub use refusal::Refusal;

/// One to three characters, as a case mapping gives them.
///
/// ```
/// let upper = becktrestle::to_uppercase('ŉ');
/// assert_eq!(upper.as_slice(), ['ʼ', 'N']);
/// ```
#[derive(Clone, Copy, Debug, PartialEq, Eq)]
pub struct Mapping {
    to: [char; 3],
    count: usize,
}

impl Mapping {
    /// The mapped characters.
    pub fn as_slice(&self) -> &[char] {
        &self.to[..self.count]
    }
}

/// A character is a scalar value, so a yes-or-no entry never refuses it.
macro_rules! over_char {
    ($($(#[$text:meta])* $name:ident $exported:ident)*) => {$(
        $(#[$text])*
        pub fn $name(c: char) -> bool {
            // SAFETY: the function takes any number, and keeps and lends nothing.
            unsafe { ffi::$exported(c as u32) }.yes
        }
    )*};
}

over_char! {
    /// Unicode's Alphabetic. `assert!(becktrestle::is_alphabetic('京'));`
    is_alphabetic becktrestle_is_alphabetic
    /// Unicode's Lowercase.
    is_lowercase becktrestle_is_lowercase
    /// Unicode's Uppercase.
    is_uppercase becktrestle_is_uppercase
    /// Category Lt.
    is_titlecase becktrestle_is_titlecase
    /// Lowercase, uppercase or titlecase.
    is_cased becktrestle_is_cased
    /// Category Nd, Nl or No.
    is_numeric becktrestle_is_numeric
    /// Alphabetic or numeric.
    is_alphanumeric becktrestle_is_alphanumeric
    /// Unicode's White_Space.
    is_whitespace becktrestle_is_whitespace
    /// Category Cc.
    is_control becktrestle_is_control
    /// Whether the character leaves a visible mark, or is the space: no invisible character may reach a label.
    is_printable becktrestle_is_printable
}

/// The lower-case mapping, full and independent of language.
///
/// ```
/// assert_eq!(becktrestle::to_lowercase('İ').as_slice(), ['i', '\u{307}']);
/// ```
pub fn to_lowercase(c: char) -> Mapping {
    // SAFETY: the function takes any number, and keeps and lends nothing.
    mapping(unsafe { ffi::becktrestle_to_lowercase(c as u32) })
}

/// The upper-case mapping.
pub fn to_uppercase(c: char) -> Mapping {
    // SAFETY: as in to_lowercase.
    mapping(unsafe { ffi::becktrestle_to_uppercase(c as u32) })
}

/// The title-case mapping.
pub fn to_titlecase(c: char) -> Mapping {
    // SAFETY: as in to_lowercase.
    mapping(unsafe { ffi::becktrestle_to_titlecase(c as u32) })
}

/// A mapping of a character holds scalar values only; 0 stands in the places past its count.
fn mapping(m: ffi::Mapped) -> Mapping {
    Mapping { to: m.to.map(|n| char::from_u32(n).expect("a mapped number is a scalar value")), count: m.count }
}
