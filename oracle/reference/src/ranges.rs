//! Sets of numbers as maximal ranges, first and last, in order.

/// One above the highest number.
pub const END: u32 = 0x110000;

#[derive(Clone, Debug, PartialEq, Eq, Default)]
pub struct Ranges(pub Vec<(u32, u32)>);

impl Ranges {
    /// The numbers below END that satisfy `holds`.
    pub fn of(holds: impl Fn(u32) -> bool) -> Ranges {
        let mut ranges: Vec<(u32, u32)> = Vec::new();
        for number in (0..END).filter(|&number| holds(number)) {
            match ranges.last_mut() {
                Some(range) if range.1 + 1 == number => range.1 = number,
                _ => ranges.push((number, number)),
            }
        }
        Ranges(ranges)
    }

    /// The scalar values that satisfy `holds`; no surrogate is a member.
    pub fn of_scalars(holds: impl Fn(char) -> bool) -> Ranges {
        Ranges::of(|number| char::from_u32(number).is_some_and(&holds))
    }

    /// The members from 0x80 on, as the big tables have them.
    pub fn without_ascii(&self) -> Ranges {
        let kept = self.0.iter().filter(|range| range.1 >= 0x80);
        Ranges(kept.map(|range| (range.0.max(0x80), range.1)).collect())
    }

    pub fn points(&self) -> u32 {
        self.0.iter().map(|range| range.1 - range.0 + 1).sum()
    }

    /// One answer for each number below END.
    pub fn answers(&self) -> Vec<bool> {
        let mut answers = vec![false; END as usize];
        for &(first, last) in &self.0 {
            answers[first as usize..=last as usize].fill(true);
        }
        answers
    }

    /// first, last, first, last, ..
    pub fn flat(&self) -> Vec<u64> {
        self.0.iter().flat_map(|&(first, last)| [first as u64, last as u64]).collect()
    }
}
