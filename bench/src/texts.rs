//! What is looked up: every scalar value in order, random assigned characters, and names in a dozen scripts.
use reference::data::Data;

const NAMES: [&str; 14] = [
    "Åsa Lindqvist-Öberg", "Zoë Müller", "Łukasz Żółć", "Ştefan Țepeș", "İpek Yıldız", "Ελένη Παπαδοπούλου", "Сергей Иванович",
    "Հայկ Սարգսյան", "დავით გელაშვილი", "יעל כהן", "محمد الأمين", "अनिता शर्मा", "สมชาย ใจดี", "山田太郎 김민준 Nguyễn Thị Hồng",
];

/// Numbers from a fixed seed (xorshift64*).
fn random(state: &mut u64) -> u64 {
    *state ^= *state >> 12;
    *state ^= *state << 25;
    *state ^= *state >> 27;
    state.wrapping_mul(0x2545_F491_4F6C_DD1D)
}

pub fn sets() -> Vec<(&'static str, Vec<u32>)> {
    let all = ('\0'..=char::MAX).map(u32::from).collect();
    let assigned: Vec<u32> =
        Data::read().property("printable").0.iter().flat_map(|&(first, last)| first..=last).collect();
    let mut state = 17;
    let drawn = (0..100_000).map(|_| assigned[(random(&mut state) % assigned.len() as u64) as usize]).collect();
    let names = NAMES.iter().flat_map(|name| name.chars()).map(u32::from).collect();
    vec![("in order", all), ("random", drawn), ("names", names)]
}
