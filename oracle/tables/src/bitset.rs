//! Bitsets: reading, and the answer at a number as document 01 says it.

use crate::source;
use reference::ranges::Ranges;

pub struct Bitset {
    pub chunk_map: Vec<u8>,
    /// 16 index bytes to a chunk
    pub chunks: Vec<u8>,
    pub canonical: Vec<u64>,
    pub mapped_word: Vec<u8>,
    pub mapping: Vec<u8>,
}

/// A bit for each bucket of 64 numbers, set where a range reaches into it; 64 buckets to a word.
pub fn marks(ranges: &Ranges) -> Vec<u64> {
    let last = ranges.0.last().expect("a range").1;
    let mut words = vec![0; last as usize / 4096 + 1];
    for bucket in ranges.0.iter().flat_map(|&(first, last)| first as usize / 64..=last as usize / 64) {
        words[bucket / 64] |= 1 << (bucket % 64);
    }
    words
}

/// What a pair's mapping makes of its canonical word.
pub fn mapped(mapping: u8, word: u64) -> u64 {
    let word = if mapping / 64 % 2 == 1 { !word } else { word };
    let by = (mapping % 64) as u32;
    if mapping >= 128 {
        word >> by
    } else {
        word.rotate_left(by)
    }
}

impl Bitset {
    pub fn read(module: &str) -> Bitset {
        let (mapped_word, mapping) = source::split(source::bytes(source::item(module, "BITSET_MAPPING")));
        let canonical = source::numbers(source::item(module, "BITSET_CANONICAL"));
        Bitset {
            chunk_map: source::bytes(source::item(module, "BITSET_CHUNKS_MAP")),
            chunks: source::bytes(source::item(module, "BITSET_INDEX_CHUNKS")),
            canonical: canonical.into_iter().map(|word| word as u64).collect(),
            mapped_word,
            mapping,
        }
    }

    fn word(&self, index: usize) -> u64 {
        if let Some(&word) = self.canonical.get(index) {
            return word;
        }
        let pair = index - self.canonical.len();
        mapped(self.mapping[pair], self.canonical[self.mapped_word[pair] as usize])
    }

    pub fn contains(&self, number: u32) -> bool {
        let bucket = number as usize / 64;
        let Some(&chunk) = self.chunk_map.get(bucket / 16) else {
            return false;
        };
        let index = self.chunks[16 * chunk as usize + bucket % 16];
        self.word(index as usize) >> (number % 64) & 1 == 1
    }
}
