//! Lists, packer, checker, search and unpacker through the C boundary, against the model: the numbers that the
//! specification names, random and damaged lists and tables, every buffer length around each need, memory included.
use becktrestle::ffi::{self, Count, Sizes, Sought, Verdict, YesNo};
use host::{
    guard::Guarded,
    model,
    random::Random,
    report::{Report, Tally},
};
use reference::data::Data;

const LAST: u32 = 0x10FFFF;
const LISTS: usize = 100_000;
const TABLES: usize = 100_000;
const PAIRS: usize = 20_000;

fn main() {
    let mut report = Report::default();
    named(&mut report);
    touching(&mut report);
    built_in(&mut report);
    random_lists(&mut report);
    random_tables(&mut report);
    one_packing(&mut report);
    report.close()
}

// The entries, as the model has them: a value, or a refusal's number and what it carries.

fn told<T>(refusal: u32, carried: usize, value: T) -> Result<T, model::Refused> {
    if refusal == 0 {
        Ok(value)
    } else {
        Err((refusal, carried))
    }
}

fn check_list(list: &[u32]) -> Result<usize, model::Refused> {
    // SAFETY: here and below, pointers and lengths are those of slices that do not overlap.
    let Count { refusal, carried, count } = unsafe { ffi::becktrestle_check_list(list.as_ptr(), list.len()) };
    told(refusal, carried, count)
}

fn search_list(list: &[u32], x: u32) -> Result<bool, model::Refused> {
    let YesNo { refusal, carried, yes } = unsafe { ffi::becktrestle_search_list(list.as_ptr(), list.len(), x) };
    told(refusal, carried, yes)
}

fn check_table(headers: &[u32], offsets: &[u8]) -> Result<(), model::Refused> {
    let Verdict { refusal, carried } =
        unsafe { ffi::becktrestle_check_table(headers.as_ptr(), headers.len(), offsets.as_ptr(), offsets.len()) };
    told(refusal, carried, ())
}

fn search_table(headers: &[u32], offsets: &[u8], x: u32) -> Result<bool, model::Refused> {
    let YesNo { refusal, carried, yes } =
        unsafe { ffi::becktrestle_search_table(headers.as_ptr(), headers.len(), offsets.as_ptr(), offsets.len(), x) };
    told(refusal, carried, yes)
}

fn search_counted(headers: &[u32], offsets: &[u8], x: u32) -> Result<(bool, usize), model::Refused> {
    let Sought { refusal, carried, read, yes } = unsafe {
        ffi::becktrestle_search_table_counted(headers.as_ptr(), headers.len(), offsets.as_ptr(), offsets.len(), x)
    };
    told(refusal, carried, (yes, read))
}

/// The model's answer without its count.
fn plain(answer: Result<(bool, usize), model::Refused>) -> Result<bool, model::Refused> {
    answer.map(|(yes, _)| yes)
}

/// An expected answer, or for the control another one.
fn or_flipped<T>(expected: Result<T, model::Refused>, flip: bool) -> Result<T, model::Refused> {
    if flip {
        Err((u32::MAX, 0))
    } else {
        expected
    }
}

/// Packs into guarded buffers of these lengths: whether answer and memory are the model's.
fn packs_right(list: &[u32], headers: usize, offsets: usize, flip: bool) -> bool {
    let mut h = Guarded::new(headers, 0xEEEE_EEEE);
    let mut o = Guarded::new(offsets, 0xEE);
    let Sizes { refusal, carried, headers: some, offsets: others } = {
        let (h, o) = (h.lent(), o.lent());
        unsafe { ffi::becktrestle_pack(list.as_ptr(), list.len(), h.as_mut_ptr(), h.len(), o.as_mut_ptr(), o.len()) }
    };
    let expected = or_flipped(model::pack(list, headers, offsets), flip);
    let (wrote_h, wrote_o) = expected.clone().unwrap_or_default();
    told(refusal, carried, (some, others)) == expected.map(|(h, o)| (h.len(), o.len())) && h.holds(&wrote_h) && o.holds(&wrote_o)
}

/// Unpacks into a guarded buffer of this length: whether answer and memory are the model's.
fn unpacks_right(headers: &[u32], offsets: &[u8], room: usize, flip: bool) -> bool {
    let mut out = Guarded::new(room, 0xEEEE_EEEE);
    let Count { refusal, carried, count } = {
        let out = out.lent();
        unsafe {
            ffi::becktrestle_unpack(
                headers.as_ptr(),
                headers.len(),
                offsets.as_ptr(),
                offsets.len(),
                out.as_mut_ptr(),
                out.len(),
            )
        }
    };
    let expected = or_flipped(model::unpack(headers, offsets, room), flip);
    let wrote = expected.clone().unwrap_or_default();
    told(refusal, carried, count) == expected.map(|list| list.len()) && out.holds(&wrote)
}

/// The numbers that the specification names.
fn named(report: &mut Report) {
    let titlecase = [
        0x1C5, 0x1C5, 0x1C8, 0x1C8, 0x1CB, 0x1CB, 0x1F2, 0x1F2, 0x1F88, 0x1F8F, 0x1F98, 0x1F9F, 0x1FA8, 0x1FAF, 0x1FBC,
        0x1FBC, 0x1FCC, 0x1FCC, 0x1FFC, 0x1FFC,
    ];
    let offsets = [0, 1, 2, 1, 2, 1, 38, 1, 0, 8, 8, 8, 8, 8, 12, 1, 15, 1, 47, 1, 0];
    let mut table = |what: &str, list: &[u32], headers: &[u32], offsets: &[u8]| {
        let mut h = vec![0; headers.len()];
        let mut o = vec![0; offsets.len()];
        let packed = becktrestle::tables::pack(list, &mut h, &mut o);
        report.check(packed.is_ok() && h == headers && o == offsets, &format!("{what} packs to its headers and offsets"));
    };
    table("titlecase", &titlecase, &[0x0000_01C5, 0x0020_1F88, 0x013F_FFFF], &offsets);
    table("the empty list", &[], &[0x001F_FFFF], &[0]);
    table("0 to 10FFFF", &[0, LAST], &[0x0011_0000, 0x005F_FFFF], &[0, 0, 0]);
    let ranges = |n: u32| (0..n).flat_map(|k| [3 * k, 3 * k + 1]).collect::<Vec<u32>>();
    report.check(packs_right(&ranges(1023), 2047, 2047, false) && check_list(&ranges(1023)) == Ok(1023), "1,023 ranges pack");
    report.check(packs_right(&ranges(1024), 4096, 4096, false) && check_list(&ranges(1024)) == Err((4, 0)), "1,024 ranges get 4");
    let (headers, offsets) = model::packing(&titlecase);
    let cases = [(0x1C4, false, 0), (0x1C5, true, 1), (0x1F87, false, 7), (0x1F88, true, 1), (0x1FFC, true, 11), (0x1FFD, false, 11)];
    for (x, yes, read) in cases {
        report.check(search_counted(&headers, &offsets, x) == Ok((yes, read)), &format!("titlecase {x:x}: {yes}, {read} read"));
    }
}

/// Tables with an offset 0 inside a run, where one range ends and the next begins: they unpack to joined ranges, which pack.
fn touching(report: &mut Report) {
    let cases: [(&str, &[u32], &[u8], &[u32]); 6] = [
        ("10 to 14 and 15 to 21", &[0x1F_FFFF], &[10, 5, 0, 7, 0], &[10, 21]),
        ("an equal pair between them", &[0x1F_FFFF], &[10, 5, 0, 0, 0, 7, 0], &[10, 21]),
        ("three that touch", &[0x1F_FFFF], &[10, 5, 0, 7, 0, 1, 9, 3, 0], &[10, 22, 32, 34]),
        ("an equal pair behind a range", &[0x1F_FFFF], &[10, 5, 0, 0, 7, 1, 0], &[10, 14, 22, 22]),
        ("an end that is a run's sum", &[0x12C, 2 << 21 | 0x1F_FFFF], &[10, 99, 0, 7, 0], &[10, 306]),
        ("an open last range", &[0x1F_FFFF], &[10, 5, 0, 0], &[10, LAST]),
    ];
    for (what, headers, offsets, list) in cases {
        let unpacked = model::unpack(headers, offsets, list.len()).as_deref() == Ok(list);
        let same = around(list.len()).all(|room| unpacks_right(headers, offsets, room, false));
        let packs = check_list(list) == Ok(list.len() / 2) && packs_right(list, 9, 9, false);
        report.check(unpacked && same && packs, &format!("touching ranges, {what}: joined, and they pack"));
    }
}

/// The three skip tables of the Rust with its own closing sums: accepted, right at every number, and unpacked to their lists.
fn built_in(report: &mut Report) {
    let data = Data::read();
    for name in ["alphabetic", "titlecase", "numeric"] {
        let path = format!("{}/../../crates/table_{name}/specs/Table.antt", env!("CARGO_MANIFEST_DIR"));
        let text = std::fs::read_to_string(path).expect("the table file");
        let headers: Vec<u32> = antt_list(&text, "rust_headers");
        let offsets: Vec<u8> = antt_list(&text, "offsets").into_iter().map(|n| n as u8).collect();
        let flat: Vec<u32> = data.property(name).without_ascii().flat().into_iter().map(|n| n as u32).collect();
        report.check(check_table(&headers, &offsets) == Ok(()), &format!("the Rust table {name} is accepted"));
        let unpacked = model::unpack(&headers, &offsets, 4096).as_deref() == Ok(&flat[..]);
        let same = unpacks_right(&headers, &offsets, flat.len(), false);
        report.check(unpacked && same, &format!("the Rust table {name} unpacks to its {} ranges", flat.len() / 2));
        let answers = data.property(name).without_ascii().answers();
        let got: Vec<bool> = (0..=LAST).map(|x| search_table(&headers, &offsets, x) == Ok(true)).collect();
        report.compare(&format!("search in the Rust table {name}"), &got, answers, |a| !a);
    }
}

/// The numbers of a definition `name` in an antt file.
fn antt_list(text: &str, name: &str) -> Vec<u32> {
    let body = text.split(&format!("\n{name} =")).nth(1).expect("the definition");
    let list = body.split("[]").next().expect("its end");
    let number = |word: &str| match word.strip_prefix("0x") {
        Some(hex) => u32::from_str_radix(hex, 16),
        None => word.parse(),
    };
    list.split('∷').map(str::trim).filter(|word| !word.is_empty()).map(|word| number(word).expect("a number")).collect()
}

/// A list that may be accepted: gaps and lengths from 1 to far, most of them short.
fn a_list(random: &mut Random) -> Vec<u32> {
    let most = if random.once_in(400) { 1024 } else { 24 };
    let ranges = random.below(most + 1);
    let mut list = Vec::new();
    let mut at = random.below(300) as u32;
    for _ in 0..ranges {
        let last = at + stretch(random);
        list.extend([at, last]);
        at = last + 2 + stretch(random);
    }
    list.retain(|&n| n <= LAST);
    list.truncate(list.len() / 2 * 2);
    list
}

fn stretch(random: &mut Random) -> u32 {
    let most = [1, 3, 200, 256, 257, 300, 5000, 90_000][random.below(8)];
    random.below(most) as u32
}

/// Breaks a list now and then: an odd length, an exchange, a touching neighbour, a number that is too large.
fn damaged(random: &mut Random, list: &mut Vec<u32>) {
    if list.is_empty() || !random.once_in(3) {
        return;
    }
    let k = random.below(list.len());
    match random.below(5) {
        0 => drop(list.pop()),
        1 => {
            let other = random.below(list.len());
            list.swap(k, other);
        }
        2 => list[k] = list[k.saturating_sub(1)] + random.below(3) as u32,
        3 => list[k] = LAST + random.below(3) as u32,
        _ => list[k] = random.next() as u32,
    }
}

fn random_lists(report: &mut Report) {
    let mut random = Random::new(17);
    let [mut checks, mut searches, mut packs, mut tables, mut found, mut counts] = [(); 6].map(|()| Tally::default());
    for _ in 0..LISTS {
        let mut list = a_list(&mut random);
        damaged(&mut random, &mut list);
        let expected = model::check_list(&list);
        checks.case(|flip| check_list(&list) == or_flipped(expected, flip));
        for x in places(&mut random, &list) {
            let answer = expected.and_then(|_| held(&list, x));
            searches.case(|flip| search_list(&list, x) == or_flipped(answer, flip));
        }
        let (headers, offsets) = expected.map_or_else(|_| (vec![0; 3], vec![0; 3]), |_| model::packing(&list));
        for h in around(headers.len()) {
            for o in around(offsets.len()) {
                packs.case(|flip| packs_right(&list, h, o, flip));
            }
        }
        if expected.is_ok() {
            tables.case(|flip| check_table(&headers, &offsets) == or_flipped(Ok(()), flip));
            for x in places(&mut random, &list) {
                let counted = model::search(&headers, &offsets, x);
                found.case(|flip| search_table(&headers, &offsets, x) == or_flipped(held(&list, x), flip));
                counts.case(|flip| search_counted(&headers, &offsets, x) == or_flipped(counted, flip));
            }
        }
    }
    report.tallied(&format!("check_list of {LISTS} random lists"), checks);
    report.tallied("search_list in them", searches);
    report.tallied("pack, every length around each need", packs);
    report.tallied("check_table of the packed", tables);
    report.tallied("search_table of the packed", found);
    report.tallied("search_table_counted of the packed", counts);
}

/// What a search in an accepted list answers.
fn held(list: &[u32], x: u32) -> Result<bool, model::Refused> {
    if x > LAST {
        Err((1, 0))
    } else {
        Ok(model::holds(list, x))
    }
}

/// Lengths around a need, 0 included.
fn around(need: usize) -> impl Iterator<Item = usize> {
    [0, need.saturating_sub(2), need.saturating_sub(1), need, need + 1].into_iter()
}

/// Numbers at, below and above some boundaries, and some beyond all.
fn places(random: &mut Random, list: &[u32]) -> Vec<u32> {
    let mut places = vec![0, LAST, LAST + 1, 0xD800, random.next() as u32, random.below(LAST as usize) as u32];
    for _ in 0..list.len().min(6) {
        let boundary = list[random.below(list.len())];
        places.extend([boundary.saturating_sub(1), boundary, boundary.saturating_add(1)]);
    }
    places
}

/// A foreign table: runs with offsets of 0 inside, closing sums of its own; kept by the rules or nearly.
fn a_table(random: &mut Random) -> (Vec<u32>, Vec<u8>) {
    let most = if random.once_in(200) { 300 } else { 6 };
    let runs = 1 + random.below(most);
    let mut headers = Vec::new();
    let mut offsets: Vec<u8> = Vec::new();
    let mut sum: u32 = 0;
    for run in 0..runs {
        let start = offsets.len() as u32;
        let mut at = sum;
        for _ in 0..random.below(8) {
            let offset = [0, 0, 1, 2, 40, 255][random.below(6)];
            offsets.push(offset);
            at += u32::from(offset);
        }
        offsets.push(random.next() as u8);
        let more = [0, 1, 2, 300, 4000][random.below(5)];
        sum = at.max(sum + 1) + more;
        if run + 1 == runs {
            sum = sum.max([LAST + 1, LAST + 2, 0x1FFFFF, 0x150000][random.below(4)]);
        }
        headers.push((start & 0x7FF) << 21 | sum.min(0x1FFFFF));
    }
    (headers, offsets)
}

/// Breaks one rule or several, or none.
fn damaged_table(random: &mut Random, headers: &mut Vec<u32>, offsets: &mut Vec<u8>) {
    for _ in 0..random.below(3) {
        let k = if headers.is_empty() { 0 } else { random.below(headers.len()) };
        match random.below(10) {
            0 => offsets.resize([0, 1, 2047, 2048, 2049][random.below(5)], 0),
            1 => headers.resize([0, 1, 2047, 2048, 2049][random.below(5)], 0x1FFFFF),
            2 if !headers.is_empty() => headers[0] += 1 << 21,
            3 if !headers.is_empty() => headers[k] ^= 1 << (21 + random.below(11)),
            4 if !headers.is_empty() => headers[k] ^= 1 << random.below(21),
            5 if !headers.is_empty() => headers[k] = random.next() as u32,
            6 if !offsets.is_empty() => {
                let k = random.below(offsets.len());
                offsets[k] = 255;
            }
            7 => drop(offsets.pop()),
            8 => drop(headers.pop()),
            9 if headers.len() > 1 => headers.swap(k, 0),
            _ => (),
        }
    }
}

fn random_tables(report: &mut Report) {
    let mut random = Random::new(2026);
    let [mut checks, mut searches, mut counts, mut unpacks, mut listed] = [(); 5].map(|()| Tally::default());
    let mut by_rule = [0; 6];
    let mut with_joins = 0;
    for _ in 0..TABLES {
        let (mut headers, mut offsets) = a_table(&mut random);
        damaged_table(&mut random, &mut headers, &mut offsets);
        let rule = model::lowest_broken(&headers, &offsets);
        by_rule[rule] += 1;
        let kept = if rule == 0 { Ok(()) } else { Err((8, rule)) };
        checks.case(|flip| check_table(&headers, &offsets) == or_flipped(kept, flip));
        let sums: Vec<u32> = headers.iter().take(6).map(|h| h & 0x1FFFFF).collect();
        for x in places(&mut random, &sums) {
            let answer = model::search(&headers, &offsets, x);
            searches.case(|flip| search_table(&headers, &offsets, x) == or_flipped(plain(answer), flip));
            counts.case(|flip| search_counted(&headers, &offsets, x) == or_flipped(answer, flip));
        }
        let list = model::unpack(&headers, &offsets, usize::MAX);
        if let Ok(list) = &list {
            with_joins += usize::from(model::joins(&headers, &offsets) > 0);
            let ranges = list.len() / 2;
            let passes = if ranges > 1023 { Err((4, 0)) } else { Ok(ranges) };
            listed.case(|flip| check_list(list) == or_flipped(passes, flip));
        }
        let need = list.map_or(2, |list| list.len());
        for room in around(need) {
            unpacks.case(|flip| unpacks_right(&headers, &offsets, room, flip));
        }
    }
    report.check(by_rule.iter().all(|&n| n > 100), &format!("tables by the lowest broken rule, 0 for none: {by_rule:?}"));
    report.tallied(&format!("check_table of {TABLES} random and damaged tables"), checks);
    report.tallied("search_table in them", searches);
    report.tallied("search_table_counted in them", counts);
    report.check(with_joins > 1000, &format!("tables with ranges that touch: {with_joins}"));
    report.tallied("unpack, every length around each need", unpacks);
    report.tallied("check_list of the unpacked: 4 or nothing", listed);
}

/// A table of one run with few small offsets, so that two of them often have the same set.
fn a_small_table(random: &mut Random) -> (Vec<u32>, Vec<u8>) {
    let offsets = (0..=random.below(7)).map(|_| random.below(3) as u8).collect();
    (vec![0x1F_FFFF], offsets)
}

/// The table unpacked and packed again.
fn repacked(headers: &[u32], offsets: &[u8]) -> (Vec<u32>, Vec<u8>) {
    let mut list = vec![0; becktrestle::tables::numbers_enough(offsets.len())];
    let numbers = becktrestle::tables::unpack(headers, offsets, &mut list).expect("an accepted table, with room");
    let ranges = numbers / 2;
    let mut h = vec![0; becktrestle::tables::headers_enough(ranges)];
    let mut o = vec![0; becktrestle::tables::offsets_needed(ranges)];
    let sizes = becktrestle::tables::pack(&list[..numbers], &mut h, &mut o).expect("a list without touching ranges, with room");
    (h[..sizes.headers].to_vec(), o[..sizes.offsets].to_vec())
}

/// Two tables repacked are the same bytes exactly if they agree at every number; past the small ones only the last can differ.
fn one_packing(report: &mut Report) {
    let mut random = Random::new(13);
    let mut tally = Tally::default();
    let mut agreeing = 0;
    for _ in 0..PAIRS {
        let [one, other] = [(); 2].map(|()| a_small_table(&mut random));
        let yes = |table: &(Vec<u32>, Vec<u8>), x: u32| model::search(&table.0, &table.1, x).expect("an accepted table").0;
        let agree = (0..32).chain([LAST]).all(|x| yes(&one, x) == yes(&other, x));
        agreeing += usize::from(agree);
        tally.case(|flip| (repacked(&one.0, &one.1) == repacked(&other.0, &other.1)) == (agree != flip));
    }
    report.check(agreeing > 500 && PAIRS - agreeing > 500, &format!("pairs of small tables with the same set: {agreeing}"));
    report.tallied(&format!("the same bytes after repacking exactly if the same set, {PAIRS} pairs"), tally);
}
