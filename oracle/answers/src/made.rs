//! The texts of the data files, made from the reference.

use reference::lists::Rows;
use reference::ranges::Ranges;
use reference::{scalars, Reference};
use std::fmt::Write;

const COMMAND: &str = "Made by `cargo run --release --offline -p answers` in oracle/; do not edit.";

/// The file names and texts, made anew.
pub fn files(reference: &Reference) -> Vec<(String, String)> {
    let mut files = Vec::new();
    for (name, holds) in reference.properties {
        files.push((format!("{name}.txt"), of_property(name, &Ranges::of_scalars(holds))));
    }
    for (name, map) in reference.mappings {
        let changed = scalars().filter(|&c| map(c) != [c, '\0', '\0']);
        let rows: Rows = changed.map(|c| (c as u32, map(c).map(u32::from))).collect();
        files.push((format!("{name}.txt"), of_mapping(name, &rows)));
    }
    files
}

fn of_property(name: &str, ranges: &Ranges) -> String {
    let says = "the scalar values for which the Rust library 1.97.0 answers yes";
    let mut text = format!("# {name}: {says}\n# {COMMAND}\n");
    writeln!(text, "# {} points in {} ranges, first..last in hex", ranges.points(), ranges.0.len()).unwrap();
    for (first, last) in &ranges.0 {
        writeln!(text, "{first:x}..{last:x}").unwrap();
    }
    text
}

fn of_mapping(name: &str, rows: &Rows) -> String {
    let says = "the scalar values that the Rust library 1.97.0 changes; the others map to themselves";
    let mut text = format!("# {name}: {says}\n# {COMMAND}\n");
    writeln!(text, "# {} points in as many rows, from;to[ to[ to]] in hex", rows.len()).unwrap();
    for (from, to) in rows {
        // The first number is always there; the others are unused where they are 0.
        let more = to[1..].iter().filter(|&&number| number != 0).map(|number| format!(" {number:x}"));
        writeln!(text, "{from:x};{:x}{}", to[0], more.collect::<String>()).unwrap();
    }
    text
}
