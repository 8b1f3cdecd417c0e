//! Readers of the two list formats, which Unicode's lists and `oracle/data` share: `first..last`
//! and `from;to[ to[ to]]`, hex, one a line; lines that start with # are comments.

use crate::ranges::{Ranges, END};
use std::collections::BTreeMap;

/// What each number maps to; unused places are 0.
pub type Rows = BTreeMap<u32, [u32; 3]>;

fn hex(text: &str) -> u32 {
    u32::from_str_radix(text.trim(), 16).unwrap_or_else(|_| panic!("not a hex number: {text:?}"))
}

fn lines(text: &str) -> impl Iterator<Item = &str> {
    text.lines().filter(|line| !line.starts_with('#') && !line.is_empty())
}

/// Refuses (by a panic) what is not sorted and maximal.
pub fn ranges(text: &str) -> Ranges {
    let mut ranges: Vec<(u32, u32)> = Vec::new();
    for line in lines(text) {
        let (first, last) = line.split_once("..").unwrap_or_else(|| panic!("no range: {line:?}"));
        let range = (hex(first), hex(last));
        assert!(range.0 <= range.1 && range.1 < END, "{line:?} is no range");
        assert!(ranges.last().is_none_or(|before| before.1 + 1 < range.0), "{line:?} out of order");
        ranges.push(range);
    }
    Ranges(ranges)
}

/// Refuses (by a panic) what is not sorted.
pub fn rows(text: &str) -> Rows {
    let mut rows = Rows::new();
    for line in lines(text) {
        let (from, to) = line.split_once(';').unwrap_or_else(|| panic!("no row: {line:?}"));
        let mut mapped = [0; 3];
        for (place, number) in to.split(' ').enumerate() {
            mapped[place] = hex(number);
        }
        let from = hex(from);
        assert!(rows.last_key_value().is_none_or(|before| *before.0 < from), "{line:?} out of order");
        rows.insert(from, mapped);
    }
    rows
}

/// What the number maps to: itself where no row says otherwise.
pub fn mapped(rows: &Rows, number: u32) -> [u32; 3] {
    rows.get(&number).copied().unwrap_or([number, 0, 0])
}
