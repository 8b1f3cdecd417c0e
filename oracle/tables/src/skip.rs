//! Skip tables: reading, decoding by boundaries, and packing by the house rule.

use crate::source;
use reference::ranges::{Ranges, END};

/// The closing sum of the built-in tables (document 01, Packing).
pub const HOUSE_SUM: u32 = 0x1FFFFF;

pub struct Skip {
    /// start index, prefix sum
    pub headers: Vec<(u32, u32)>,
    pub offsets: Vec<u8>,
}

impl Skip {
    pub fn read(module: &str) -> Skip {
        let numbers = source::numbers(source::item(module, "SHORT_OFFSET_RUNS"));
        let headers = numbers.chunks_exact(2).map(|pair| (pair[0] as u32, pair[1] as u32)).collect();
        Skip { headers, offsets: source::bytes(source::item(module, "OFFSETS")) }
    }

    /// The same from header words.
    pub fn of_words(words: &[u64], offsets: &[u64]) -> Skip {
        let headers = words.iter().map(|word| ((word >> 21) as u32, (word & 0x1FFFFF) as u32)).collect();
        Skip { headers, offsets: offsets.iter().map(|&offset| offset as u8).collect() }
    }

    pub fn words(&self) -> Vec<u32> {
        self.headers.iter().map(|&(start, sum)| start << 21 | sum).collect()
    }

    /// The same table, closed by the house rule.
    pub fn house(&self) -> Skip {
        let mut headers = self.headers.clone();
        headers.last_mut().unwrap().1 = HOUSE_SUM;
        Skip { headers, offsets: self.offsets.clone() }
    }

    /// One boundary for each offset: the sum so far in the run, or, for its last, the run's prefix sum.
    pub fn boundaries(&self) -> Vec<u32> {
        let mut boundaries = Vec::new();
        let mut sum = 0;
        for (run, &(start, prefix_sum)) in self.headers.iter().enumerate() {
            let end = self.headers.get(run + 1).map_or(self.offsets.len(), |next| next.0 as usize);
            for &offset in &self.offsets[start as usize..end - 1] {
                sum += offset as u32;
                boundaries.push(sum);
            }
            sum = prefix_sum;
            boundaries.push(sum);
        }
        boundaries
    }

    /// All boundaries but the closing one, in pairs: first and last + 1.
    pub fn flat(&self) -> Ranges {
        let boundaries = self.boundaries();
        let (closing, pairs) = boundaries.split_last().unwrap();
        assert!(*closing >= END && pairs.len() % 2 == 0);
        Ranges(pairs.chunks_exact(2).map(|pair| (pair[0], pair[1] - 1)).collect())
    }

    /// Packing, as document 01 says it.
    pub fn pack(list: &Ranges) -> Skip {
        let mut packed = Skip { headers: Vec::new(), offsets: Vec::new() };
        let (mut start, mut before) = (0, 0);
        for boundary in list.0.iter().flat_map(|range| [range.0, range.1 + 1]) {
            match u8::try_from(boundary - before) {
                Ok(offset) => packed.offsets.push(offset),
                Err(_) => {
                    packed.offsets.push(0);
                    packed.headers.push((start, boundary));
                    start = packed.offsets.len() as u32;
                }
            }
            before = boundary;
        }
        packed.offsets.push(0);
        packed.headers.push((start, HOUSE_SUM));
        packed
    }
}
