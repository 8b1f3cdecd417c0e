//! The counts in the opening comment of unicode_data.rs.

/// Points, ranges or rows, and the span. For a property the span ends one above the last member, for
/// a mapping with the last number itself; neither counts ASCII.
#[derive(Clone, Copy, Debug, PartialEq)]
pub struct Counts {
    pub points: u32,
    pub ranges: usize,
    pub first: u32,
    pub end: u32,
}

/// What the comment says of `name`. `text` is that of unicode_data.rs.
pub fn counts(text: &str, name: &str) -> Counts {
    let says = |line: &&str| line.split(':').next().unwrap().trim_start_matches("//").trim() == name;
    let line = text.lines().find(says).unwrap_or_else(|| panic!("no counts of {name}"));
    let words: Vec<&str> = line.split_whitespace().collect();
    let before =
        |word: &str| words[words.iter().position(|w| *w == word).unwrap() - 1].parse::<u32>().unwrap();
    let (_, span) = line.split_once("(U+").expect("the span");
    let hex = |text: &str| u32::from_str_radix(&text[..6], 16).unwrap();
    let (first, end) = span.split_once(" - U+").expect("the span");
    Counts {
        points: before("codepoints"),
        ranges: before("ranges") as usize,
        first: hex(first),
        end: hex(end),
    }
}
