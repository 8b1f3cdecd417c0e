//! The counts in the opening comment of unicode_data.rs come out of the data.
//!
//! They leave ASCII out. A property counts its members and maximal ranges, and its span ends one
//! above the last. Lower and upper count the numbers that they change, title those that it maps
//! otherwise than upper, and their span ends with the last. What is called ranges of a mapping are its
//! rows: these are counted where the rows are read, in `tables`.

use reference::compare::verdict;
use reference::counts::{counts, Counts};
use reference::data::Data;
use reference::lists;
use reference::ranges::Ranges;

const NAMED: [(&str, &str); 6] = [
    ("alphabetic", "Alphabetic"),
    ("lowercase", "Lowercase"),
    ("uppercase", "Uppercase"),
    ("titlecase", "Lt"),
    ("numeric", "N"),
    ("whitespace", "White_Space"),
];

const COMMENT: &str = "opening comment of unicode_data.rs";

fn property(name: &str, ranges: Ranges, said: Counts) -> bool {
    let (first, last) = (ranges.0[0].0, ranges.0.last().unwrap().1);
    let found = Counts { points: ranges.points(), ranges: ranges.0.len(), first, end: last + 1 };
    let says = format!("{} points in {} ranges, {first:x} to {last:x}", found.points, found.ranges);
    verdict(found == said, &format!("{name}, {COMMENT}: {says}"))
}

fn mapping(name: &str, changed: Ranges, said: Counts) -> bool {
    let (points, first, last) = (changed.points(), changed.0[0].0, changed.0.last().unwrap().1);
    let equal = (points, first, last) == (said.points, said.first, said.end);
    verdict(equal, &format!("{name}, {COMMENT}: {points} points, {first:x} to {last:x}"))
}

/// `text` is that of unicode_data.rs.
pub fn check(data: &Data, text: &str) -> bool {
    let mut pass = true;
    for (name, comment) in NAMED {
        let ranges = data.property(name).without_ascii();
        pass &= property(name, ranges, counts(text, comment));
    }
    let mapped = |name: &str, c: char| lists::mapped(data.mapping(name), c as u32);
    for name in ["to_lower", "to_upper"] {
        let changed = Ranges::of_scalars(|c| mapped(name, c) != [c as u32, 0, 0]).without_ascii();
        pass &= mapping(name, changed, counts(text, name));
    }
    let otherwise = Ranges::of_scalars(|c| mapped("to_title", c) != mapped("to_upper", c));
    pass & mapping("to_title", otherwise, counts(text, "to_title"))
}
