//! Mapping rows: reading, and the answer at a number as document 01 says it.

use crate::source::{self, Token};

#[derive(Default)]
pub struct Plane {
    pub starts: Vec<u16>,
    pub ends: Vec<u16>,
    pub steps: Vec<u8>,
    /// i16 as the u16 of the same bits
    pub deltas: Vec<u16>,
    pub multi: Vec<u16>,
    pub to: [Vec<u16>; 3],
}

pub type Planes = [Plane; 2];

/// The rows of LOWERCASE_LUT, UPPERCASE_LUT or TITLECASE_LUT, and how many a comment there announces.
pub fn read(module: &str, lut: &str) -> Planes {
    let text = module.split_once(&format!("static {lut}: L1Lut = ")).expect("the rows").1;
    let text = &text[..text.find("\n    };").expect("the end of the rows")];
    let mut parts = text.split("L2Lut {").skip(1);
    let planes = [plane(parts.next().unwrap()), plane(parts.next().unwrap())];
    assert!(parts.next().is_none());
    planes
}

fn plane(text: &str) -> Plane {
    let (singles, multis) = text.split_once("multis:").expect("singles, then multis");
    let mut plane = Plane::default();
    let mut numbers = Vec::new();
    let mut step = 0;
    for token in source::tokens(singles) {
        match token {
            Token::Word(word) if word == "step_by_1" || word == "singleton" => step = 1,
            Token::Word(word) if word == "step_by_2" => step = 2,
            Token::Number(number) => numbers.push(number),
            // A row ends with its closing bracket; the inner one closes the range.
            Token::Sign(')') if step > 0 && numbers.len() == 1 => numbers.push(numbers[0]),
            Token::Sign(')') if numbers.len() == 3 => {
                plane.starts.push(u16::try_from(numbers[0]).unwrap());
                plane.ends.push(u16::try_from(numbers[1]).unwrap());
                plane.steps.push(step);
                plane.deltas.push(i16::try_from(numbers[2]).unwrap() as u16);
                numbers.clear();
                step = 0;
            }
            _ => {}
        }
    }
    assert!(numbers.is_empty());
    for row in source::numbers(multis).chunks_exact(4) {
        plane.multi.push(u16::try_from(row[0]).unwrap());
        for place in 0..3 {
            plane.to[place].push(u16::try_from(row[place + 1]).unwrap());
        }
    }
    assert_eq!(plane.starts.len(), announced(singles), "single rows");
    assert_eq!(plane.multi.len(), announced(multis), "multi rows");
    plane
}

/// The number in `// 172 entries, 1032 bytes`.
fn announced(text: &str) -> usize {
    let (before, _) = text.split_once(" entries").expect("a number of entries");
    before.rsplit(' ').next().unwrap().parse().unwrap()
}

impl Plane {
    /// Each row in a word, 16 bits each, from the lowest up: first number, last number, step, delta.
    pub fn words(&self) -> Vec<u64> {
        let word = |row: usize| {
            let fields = [self.starts[row], self.ends[row], self.steps[row].into(), self.deltas[row]];
            fields.iter().rev().fold(0, |word, &field| word << 16 | u64::from(field))
        };
        (0..self.starts.len()).map(word).collect()
    }

    /// Each page of 256 numbers that has rows of either kind: the page, and the single rows that reach
    /// into it, from the first to before the second.
    pub fn pages(&self) -> Vec<[usize; 3]> {
        let page = |page: usize| {
            let first = self.ends.iter().filter(|&&end| usize::from(end) / 256 < page).count();
            let last = self.starts.iter().filter(|&&start| usize::from(start) / 256 <= page).count();
            let multi = self.multi.iter().any(|&from| usize::from(from) / 256 == page);
            (first < last || multi).then_some([page, first, last])
        };
        (0..256).filter_map(page).collect()
    }

    fn lookup(&self, low: u16) -> Option<[u16; 3]> {
        for row in 0..self.starts.len() {
            let (start, end) = (self.starts[row], self.ends[row]);
            if start <= low && low <= end && (low - start) % self.steps[row] as u16 == 0 {
                return Some([low.wrapping_add(self.deltas[row]), 0, 0]);
            }
        }
        let row = self.multi.iter().position(|&from| from == low)?;
        Some([self.to[0][row], self.to[1][row], self.to[2][row]])
    }
}

/// What the rows say of the number, if anything. A multi row of plane 0 has its three numbers there.
pub fn lookup(planes: &Planes, number: u32) -> Option<[u32; 3]> {
    let plane = planes.get(number as usize >> 16)?;
    let [one, two, three] = plane.lookup(number as u16)?;
    let high = number & 0xFFFF0000;
    Some([high | one as u32, two as u32, three as u32])
}
