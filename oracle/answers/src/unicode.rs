//! The third witness, where it is at hand: Unicode's own lists, read off an implementation that
//! shares no code with Rust.

use reference::lists::{self, Rows};
use std::{fs, path::Path};

pub struct Lists<'a>(pub &'a Path);

impl Lists<'_> {
    fn text(&self, name: &str) -> String {
        fs::read_to_string(self.0.join(name).with_extension("txt")).expect(name)
    }

    /// The answer at every number, by the meanings that document 01 gives.
    pub fn property(&self, name: &str) -> Vec<bool> {
        let list = |name: &str| lists::ranges(&self.text(name)).answers();
        let either = |one: Vec<bool>, other: Vec<bool>| one.iter().zip(other).map(|(a, b)| *a || b).collect();
        match name {
            "alphabetic" => list("Alphabetic"),
            "lowercase" => list("Lowercase"),
            "uppercase" => list("Uppercase"),
            "titlecase" => list("Lt"),
            "cased" => either(either(list("Lowercase"), list("Uppercase")), list("Lt")),
            "numeric" => list("N"),
            "alphanumeric" => either(list("Alphabetic"), list("N")),
            "whitespace" => list("White_Space"),
            "control" => list("Cc"),
            "printable" => list("Unprintable").into_iter().map(|answer| !answer).collect(),
            _ => unreachable!("no list for {name}"),
        }
    }

    pub fn mapping(&self, name: &str) -> Rows {
        let name = match name {
            "to_lower" => "Lower",
            "to_upper" => "Upper",
            "to_title" => "Title",
            _ => unreachable!("no list for {name}"),
        };
        lists::rows(&self.text(name))
    }
}
