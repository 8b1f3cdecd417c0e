//! The printable tables: reading, and the answer at a number as document 01 says it.

use crate::source;

pub struct Plane {
    pub high: Vec<u8>,
    pub count: Vec<u8>,
    pub low: Vec<u8>,
    pub normal: Vec<u8>,
}

impl Plane {
    pub fn read(text: &str, plane: usize) -> Plane {
        let bytes = |name: String| source::bytes(source::item(text, &name));
        let (high, count) = source::split(bytes(format!("SINGLETONS{plane}U")));
        let plane = Plane {
            high,
            count,
            low: bytes(format!("SINGLETONS{plane}L")),
            normal: bytes(format!("NORMAL{plane}")),
        };
        assert_eq!(plane.count.iter().map(|&n| n as usize).sum::<usize>(), plane.low.len());
        plane
    }

    fn singletons(&self) -> Vec<usize> {
        let mut low = self.low.iter();
        let pairs = self.high.iter().zip(&self.count);
        pairs
            .flat_map(|(&high, &count)| {
                low.by_ref()
                    .take(count as usize)
                    .map(move |&l| high as usize * 256 + l as usize)
                    .collect::<Vec<_>>()
            })
            .collect()
    }

    /// The answers of the plane: length runs that start with yes, then the singletons cut out.
    pub fn answers(&self) -> Vec<bool> {
        let mut answers = Vec::new();
        let mut yes = true;
        let mut bytes = self.normal.iter().map(|&byte| byte as usize);
        while let Some(byte) = bytes.next() {
            let length =
                if byte < 0x80 { byte } else { byte % 0x80 * 256 + bytes.next().expect("a next byte") };
            answers.extend(std::iter::repeat(yes).take(length));
            yes = !yes;
        }
        answers.resize(0x10000, yes);
        for singleton in self.singletons() {
            answers[singleton] = false;
        }
        answers
    }
}

/// The half-open spans from 0x20000 on, read off the comparisons in `is_printable`.
pub fn spans(text: &str) -> Vec<(u32, u32)> {
    let lines = text.lines().filter(|line| line.contains("<= x && x <"));
    let span = |line| {
        let n = source::numbers(line);
        (n[0] as u32, n[1] as u32)
    };
    lines.map(span).collect()
}

/// The answer at every number.
pub fn answers(text: &str) -> Vec<bool> {
    let mut answers = Plane::read(text, 0).answers();
    answers[..32].fill(false);
    answers[32..127].fill(true);
    answers.extend(Plane::read(text, 1).answers());
    answers.resize(0x110000, true);
    for (first, end) in spans(text) {
        answers[first as usize..end as usize].fill(false);
    }
    answers
}
