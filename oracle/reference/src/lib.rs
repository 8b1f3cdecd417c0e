//! The reference: unicode_data.rs and printable.rs of the Rust library 1.97.0, built unchanged
//! where they are at hand, and the small tools that both programs of the oracle share.

pub mod compare;
pub mod counts;
pub mod data;
pub mod lists;
pub mod places;
pub mod ranges;

#[cfg(have_sources)]
mod methods;

// What the two files expect of the crate they stand in, which is core there.
#[cfg(have_sources)]
use core::{cmp, ops};
#[cfg(have_sources)]
mod intrinsics {
    /// In core this is a promise to the optimiser. Here it is a test too, wherever assertions are on: a
    /// broken promise stops the run.
    #[inline(always)]
    pub unsafe fn assume(holds: bool) {
        if cfg!(debug_assertions) {
            assert!(holds);
        } else {
            core::hint::assert_unchecked(holds);
        }
    }
}
#[cfg(have_sources)]
include!(concat!(env!("OUT_DIR"), "/sources.rs"));

/// A mapping's answer; unused places hold U+0000.
pub type Mapped = [char; 3];

/// The answers of the reference, by the names of the files in `oracle/data`.
pub struct Reference {
    pub properties: [(&'static str, fn(char) -> bool); 10],
    pub mappings: [(&'static str, fn(char) -> Mapped); 3],
}

impl Reference {
    pub fn property(&self, name: &str) -> fn(char) -> bool {
        self.properties.iter().find(|p| p.0 == name).expect("a property of this name").1
    }

    pub fn mapping(&self, name: &str) -> fn(char) -> Mapped {
        self.mappings.iter().find(|m| m.0 == name).expect("a mapping of this name").1
    }
}

/// The reference, or none where the sources are not at hand.
#[cfg(not(have_sources))]
pub fn reference() -> Option<Reference> {
    None
}

/// The reference, or none where the sources are not at hand.
#[cfg(have_sources)]
pub fn reference() -> Option<Reference> {
    assert_eq!(unicode_data::UNICODE_VERSION, (17, 0, 0));
    Some(Reference {
        properties: [
            ("alphabetic", methods::is_alphabetic),
            ("lowercase", methods::is_lowercase),
            ("uppercase", methods::is_uppercase),
            ("titlecase", methods::is_titlecase),
            ("cased", methods::is_cased),
            ("numeric", methods::is_numeric),
            ("alphanumeric", methods::is_alphanumeric),
            ("whitespace", methods::is_whitespace),
            ("control", methods::is_control),
            ("printable", printable::is_printable),
        ],
        mappings: [
            ("to_lower", unicode_data::conversions::to_lower),
            ("to_upper", unicode_data::conversions::to_upper),
            ("to_title", unicode_data::conversions::to_title),
        ],
    })
}

/// The same answers as functions of their own, for whoever times them: a table of pointers would keep
/// them from being inlined.
#[cfg(have_sources)]
pub mod rust {
    pub const AT_HAND: bool = true;
    pub use crate::methods::*;
    pub use crate::unicode_data::conversions::{to_lower, to_title, to_upper};

    #[inline]
    pub fn is_printable(c: char) -> bool {
        crate::printable::is_printable(c)
    }
}

/// Stand-ins that nobody calls where the sources are not at hand.
#[cfg(not(have_sources))]
pub mod rust {
    pub const AT_HAND: bool = false;

    macro_rules! absent {
        ($result:ty: $($name:ident)*) => {$(
            pub fn $name(_: char) -> $result {
                unreachable!("the sources of the Rust library are not at hand")
            }
        )*};
    }

    absent! { bool: is_alphabetic is_lowercase is_uppercase is_titlecase is_cased is_numeric is_alphanumeric
        is_whitespace is_control is_printable }
    absent! { crate::Mapped: to_lower to_upper to_title }
}

/// Every scalar value, in order: 1,112,064 of them.
pub fn scalars() -> impl Iterator<Item = char> {
    '\0'..=char::MAX
}
