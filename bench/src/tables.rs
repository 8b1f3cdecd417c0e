//! Lists and tables of 10, 145, 759 and 1,023 ranges: the packer, the checker, and the search in a lent table, which checks
//! the table each time. No Rust counterpart takes a table from outside.
use becktrestle::tables;
use reference::data::Data;
use std::{hint::black_box, time::Instant};

const ROUNDS: usize = 9;

pub fn all() {
    println!("\nns for a call on a list or table of so many ranges, best of {ROUNDS} rounds");
    let columns = ["ranges", "pack", "check", "search", "counted", "check_list", "search_list", "unpack"];
    println!("{}", columns.map(|column| format!("{column:>12}")).concat());
    let data = Data::read();
    let flat = |name: &str| -> Vec<u32> { data.property(name).without_ascii().flat().iter().map(|&n| n as u32).collect() };
    let full: Vec<u32> = (0..1023).flat_map(|k| [k * 300, k * 300 + 20]).collect();
    for list in [flat("titlecase"), flat("numeric"), flat("alphabetic"), full] {
        one(&list);
    }
    checker();
}

/// The checker over tables of one run: its time grows with the number of offsets.
fn checker() {
    println!("\nns for a check of a table of so many offsets, best of {ROUNDS} rounds");
    for offsets in [256, 1024, 2048] {
        let table = (vec![0x1F_FFFF], vec![1; offsets]);
        let check = best(|| {
            let _ = black_box(tables::check(black_box(&table.0), &table.1));
        });
        println!("{offsets:8} {check:10.0}");
    }
}

fn one(list: &[u32]) {
    let ranges = list.len() / 2;
    let mut headers = vec![0; tables::headers_enough(ranges)];
    let mut offsets = vec![0; tables::offsets_needed(ranges)];
    let pack = best(|| {
        let _ = black_box(tables::pack(black_box(list), &mut headers, &mut offsets));
    });
    let sizes = tables::pack(list, &mut headers, &mut offsets).expect("a good list");
    let (headers, offsets) = (&headers[..sizes.headers], &offsets[..sizes.offsets]);
    let mut out = vec![0; list.len()];
    let x = list[ranges];
    let check = best(|| {
        let _ = black_box(tables::check(black_box(headers), offsets));
    });
    let search = best(|| {
        let _ = black_box(tables::search(black_box(headers), offsets, x));
    });
    let counted = best(|| {
        let _ = black_box(tables::search_counted(black_box(headers), offsets, x));
    });
    let check_list = best(|| {
        let _ = black_box(tables::check_list(black_box(list)));
    });
    let search_list = best(|| {
        let _ = black_box(tables::search_list(black_box(list), x));
    });
    let unpack = best(|| {
        let _ = black_box(tables::unpack(black_box(headers), offsets, &mut out));
    });
    let times = [pack, check, search, counted, check_list, search_list, unpack];
    println!("{ranges:12}{}", times.map(|ns| format!("{ns:12.0}")).concat());
}

fn best(mut call: impl FnMut()) -> f64 {
    const CALLS: usize = 300;
    let mut best = f64::INFINITY;
    for _ in 0..ROUNDS {
        let begin = Instant::now();
        for _ in 0..CALLS {
            call();
        }
        best = best.min(begin.elapsed().as_nanos() as f64 / CALLS as f64);
    }
    best
}
