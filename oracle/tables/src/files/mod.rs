//! The generated files: what stands in each, and the tests that what was read is right.

mod accessors;
mod casing;
mod printable;
mod sets;

pub use casing::casing;
pub use printable::printable;
pub use sets::{bitset, marks, skip, small};

use crate::layout::{Form, Lists, POINT};
use reference::ranges::Ranges;
use reference::Reference;
use std::{fs, path::Path};

const UNICODE_DATA: &str = "library/core/src/unicode/unicode_data.rs";
const PRINTABLE: &str = "library/core/src/unicode/printable.rs";
const DECIMAL: Form = Form::Decimal;
const BYTE: Form = Form::Hex(2);

/// Path below the root, and text.
pub type File = (String, String);

pub struct Inputs<'a> {
    pub sources: &'a Path,
    pub unicode: &'a Path,
    pub reference: Reference,
}

impl Inputs<'_> {
    fn source(&self, file: &str) -> String {
        fs::read_to_string(self.sources.join(file)).expect(file)
    }

    fn list(&self, name: &str) -> String {
        fs::read_to_string(self.unicode.join(name)).expect(name)
    }
}

fn of_rust(file: &str) -> String {
    format!("{file} of Rust 1.97.0")
}

fn of_unicode(name: &str) -> String {
    format!("{name} (Unicode 17.0.0, read off ICU 78.2)")
}

/// The antt name of a constant: CHUNK_MAP is chunk_map.
pub fn snake(constant: &str) -> String {
    constant.to_lowercase()
}

fn list_of_ranges(source: &str, says: &str, name: &str, ranges: &Ranges) -> String {
    let mut lists = Lists::new(source);
    lists.add(says, name, POINT, 2, &ranges.flat());
    lists.text()
}
