use std::fmt;

/// Why an entry refused, with what the refusal carries. [`Refusal::number`] is its number in the specification.
#[derive(Clone, Copy, Debug, PartialEq, Eq)]
pub enum Refusal {
    /// 1: a number is above 0x10FFFF.
    AboveMax,
    /// 2: a scalar entry got a surrogate.
    Surrogate,
    /// 3: a list of number pairs has odd length.
    OddList,
    /// 4: a list has more than 1,023 ranges.
    TooManyRanges,
    /// 5: the index of the first range that is out of order or out of bounds.
    BadRange(usize),
    /// 6: how many offsets the buffer must hold.
    ShortOffsets(usize),
    /// 7: how many headers the buffer must hold.
    ShortHeaders(usize),
    /// 8: the lowest rule, 1 to 5, that the table breaks.
    BrokenRule(usize),
    /// 10: how many elements the buffer must hold.
    ShortBuffer(usize),
}

impl Refusal {
    /// The number in the specification's table.
    pub fn number(self) -> u32 {
        match self {
            Refusal::AboveMax => 1,
            Refusal::Surrogate => 2,
            Refusal::OddList => 3,
            Refusal::TooManyRanges => 4,
            Refusal::BadRange(_) => 5,
            Refusal::ShortOffsets(_) => 6,
            Refusal::ShortHeaders(_) => 7,
            Refusal::BrokenRule(_) => 8,
            Refusal::ShortBuffer(_) => 10,
        }
    }

    /// `answer` where the library refused nothing (number 0), else the refusal.
    pub(crate) fn unless<T>(number: u32, carried: usize, answer: T) -> Result<T, Refusal> {
        Err(match number {
            0 => return Ok(answer),
            1 => Refusal::AboveMax,
            2 => Refusal::Surrogate,
            3 => Refusal::OddList,
            4 => Refusal::TooManyRanges,
            5 => Refusal::BadRange(carried),
            6 => Refusal::ShortOffsets(carried),
            7 => Refusal::ShortHeaders(carried),
            8 => Refusal::BrokenRule(carried),
            10 => Refusal::ShortBuffer(carried),
            other => unreachable!("the library has no refusal {other}"),
        })
    }
}

impl fmt::Display for Refusal {
    fn fmt(&self, f: &mut fmt::Formatter<'_>) -> fmt::Result {
        match self {
            Refusal::AboveMax => write!(f, "the number is above 0x10FFFF"),
            Refusal::Surrogate => write!(f, "the number is a surrogate"),
            Refusal::OddList => write!(f, "the list of number pairs has odd length"),
            Refusal::TooManyRanges => write!(f, "the list has more than 1,023 ranges"),
            Refusal::BadRange(index) => write!(f, "range {index} is out of order or out of bounds"),
            Refusal::ShortOffsets(need) => write!(f, "the offset buffer must hold {need}"),
            Refusal::ShortHeaders(need) => write!(f, "the header buffer must hold {need}"),
            Refusal::BrokenRule(rule) => write!(f, "the table breaks rule W{rule}"),
            Refusal::ShortBuffer(need) => write!(f, "the buffer must hold {need}"),
        }
    }
}

impl std::error::Error for Refusal {}
