//! Comparing answers, at every scalar value or along a list, with controls in the same run.

use crate::lists::{self, Rows};
use crate::ranges::Ranges;
use crate::Mapped;
use std::ops::RangeInclusive;

/// The scalar values compared.
pub type Scalars = RangeInclusive<char>;

pub const ALL: Scalars = '\0'..=char::MAX;
pub const NON_ASCII: Scalars = '\u{80}'..=char::MAX;

/// Prints the verdict on a comparison, as every check of the oracle does.
pub fn verdict(pass: bool, says: &str) -> bool {
    println!("{} {says}", if pass { "pass" } else { "FAIL" });
    pass
}

fn differences<T: PartialEq>(one: &[T], other: &[T]) -> Vec<usize> {
    (0..one.len()).filter(|&place| one[place] != other[place]).collect()
}

/// Passes where there is no difference and each control, a copy with one answer flipped, reports
/// that one and no other.
fn compare<T: PartialEq>(
    what: &str,
    mut one: Vec<T>,
    other: &[T],
    controls: &[usize],
    flip: impl Fn(&T) -> T,
) -> bool {
    if one.len() != other.len() {
        return verdict(false, &format!("{what}: {} cases against {}", one.len(), other.len()));
    }
    let found = differences(&one, other);
    let mut reported = 0;
    for &place in controls {
        let flipped = flip(&one[place]);
        let kept = std::mem::replace(&mut one[place], flipped);
        reported += (differences(&one, other) == [place]) as usize;
        one[place] = kept;
    }
    let (cases, differ, of) = (one.len(), found.len(), controls.len());
    let says = format!(
        "{what}: {cases} cases, {differ} differences; controls: {reported} of {of} report exactly their one"
    );
    let first = found.first().map_or(String::new(), |place| format!("; the first at case {place}"));
    verdict(found.is_empty() && reported == of, &(says + &first))
}

/// Where the controls flip an answer: both ends, both sides of the surrogates, a member of most sets.
fn controls(scalars: &Scalars) -> [usize; 5] {
    let place = |control: char| scalars.clone().position(|c| c == control).expect("the control among them");
    [*scalars.start(), '\u{1C5}', '\u{D7FF}', '\u{E000}', *scalars.end()].map(place)
}

pub fn property(what: &str, scalars: Scalars, data: &Ranges, holds: impl Fn(char) -> bool) -> bool {
    let answers = data.answers();
    let one = scalars.clone().map(|c| answers[c as usize]).collect();
    let other: Vec<bool> = scalars.clone().map(holds).collect();
    compare(what, one, &other, &controls(&scalars), |answer| !answer)
}

pub fn mapping(what: &str, scalars: Scalars, data: &Rows, map: impl Fn(char) -> Mapped) -> bool {
    let one = scalars.clone().map(|c| lists::mapped(data, c as u32)).collect();
    let other: Vec<[u32; 3]> = scalars.clone().map(|c| map(c).map(u32::from)).collect();
    compare(what, one, &other, &controls(&scalars), |&[first, second, third]| [first ^ 1, second, third])
}

pub fn list(what: &str, one: Vec<u64>, other: &[u64]) -> bool {
    let controls = [0, one.len() / 2, one.len() - 1];
    compare(what, one, other, &controls, |number| number ^ 1)
}
