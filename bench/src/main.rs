//! Times every entry against the Rust of 1.97.0 and the `char` of the rustc at hand, each behind the same kind of extern "C"
//! call, in one run: the candidates take turns, and the best of several rounds counts, so that a busy machine harms none of
//! them more than another.
mod entries;
mod tables;
mod texts;

use std::{hint::black_box, time::Instant};

const ROUNDS: usize = 9;

/// The best time of one call, in ns, of each candidate over all numbers; candidates take turns. `call` makes the one call.
fn best<C: Copy>(numbers: &[u32], candidates: &[C], call: impl Fn(C, u32)) -> Vec<f64> {
    let mut best = vec![f64::INFINITY; candidates.len()];
    // Short texts are repeated, so that the clock's own cost does not count.
    let turns = (1 << 20) / numbers.len().max(1) + 1;
    for _ in 0..ROUNDS {
        for (k, candidate) in candidates.iter().enumerate() {
            let begin = Instant::now();
            for _ in 0..turns {
                for &n in numbers {
                    call(*black_box(candidate), n);
                }
            }
            let ns = begin.elapsed().as_nanos() as f64 / (turns * numbers.len()) as f64;
            best[k] = best[k].min(ns);
        }
    }
    best
}

fn main() {
    println!("ns for a call, best of {ROUNDS} rounds; ratio = ours / Rust 1.97.0, or / rustc's char where that source is not at hand");
    println!("{:18} {:10} {:>8} {:>8} {:>8} {:>7}", "entry", "numbers", "ours", "1.97.0", "rustc", "ratio");
    for (what, numbers) in texts::sets() {
        entries::properties(what, &numbers);
        entries::mappings(what, &numbers);
        entries::scalars(what, &numbers);
        entries::encodings(what, &numbers);
    }
    tables::all();
}

fn row(entry: &str, what: &str, ours: f64, rust: Option<f64>, rustc: Option<f64>) {
    let shown = |ns: Option<f64>| ns.map_or("-".to_string(), |ns| format!("{ns:.2}"));
    let ratio = rust.or(rustc).map(|against| ours / against);
    println!("{entry:18} {what:10} {ours:8.2} {:>8} {:>8} {:>7}", shown(rust), shown(rustc), shown(ratio));
}
