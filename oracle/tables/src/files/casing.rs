//! The mappings: rows and multi rows of two planes.

use super::{accessors, of_rust, of_unicode, File, Inputs, DECIMAL, UNICODE_DATA};
use crate::layout::{wide, Consts, Form, Lists, POINT};
use crate::{rows, source};
use reference::counts::{counts, Counts};
use reference::lists::{self, Rows};
use reference::{ranges::Ranges, scalars};

/// What the opening comment of unicode_data.rs counts for a mapping: the numbers that its rows cover
/// (rows of delta 0 included), the rows, single and multi, and the first and last number covered.
fn assert_row_counts(planes: &rows::Planes, counts: Counts) {
    let covered = Ranges::of(|number| rows::lookup(planes, number).is_some());
    let all = planes.iter().map(|plane| plane.starts.len() + plane.multi.len()).sum::<usize>();
    assert_eq!(covered.points(), counts.points);
    assert_eq!(all, counts.ranges);
    assert_eq!((covered.0[0].0, covered.0.last().unwrap().1), (counts.first, counts.end));
}

/// The rows answer as the compiled Rust and as Unicode's list. `then` are the rows asked where the
/// own ones have none; below `floor` only ASCII letters change.
fn assert_mapping(
    planes: &rows::Planes,
    then: Option<&rows::Planes>,
    unicode: &Rows,
    floor: u32,
    rust: fn(char) -> [char; 3],
) {
    for c in scalars() {
        let number = c as u32;
        let said = rust(c).map(u32::from);
        assert_eq!(said, lists::mapped(unicode, number), "Unicode's list differs at {number:x}");
        if number >= floor {
            let own = rows::lookup(planes, number).or_else(|| rows::lookup(then?, number));
            assert_eq!(said, own.unwrap_or([number, 0, 0]), "the rows differ at {number:x}");
        }
    }
}

/// Comment, name with # for the plane, form and numbers of each list.
type Field = (&'static str, &'static str, Form, Vec<u64>);

fn fields(plane: &rows::Plane) -> [Field; 8] {
    let list = |says, name, numbers: &[u16]| (says, name, Form::Hex(4), wide(numbers));
    let parity = "rows: 2 where only numbers of the start's parity are covered, else 1";
    [
        list("rows: the first number of each", "starts#", &plane.starts),
        list("rows: the last number of each", "ends#", &plane.ends),
        (parity, "steps#", DECIMAL, wide(&plane.steps)),
        list("rows: what is added to the low 16 bits, wrapping", "deltas#", &plane.deltas),
        list("multi rows: the number mapped", "multi#", &plane.multi),
        list("multi rows: the first number of the answer", "multi#_first", &plane.to[0]),
        list("multi rows: the second number of the answer", "multi#_second", &plane.to[1]),
        list("multi rows: the third number of the answer, or 0", "multi#_third", &plane.to[2]),
    ]
}

/// `name` is lower, upper or title.
pub fn casing(inputs: &Inputs, name: &str, lut: &str, list: &str) -> Vec<File> {
    let text = inputs.source(UNICODE_DATA);
    let module = source::module(&text, "conversions");
    let planes = rows::read(module, lut);
    let upper = rows::read(module, "UPPERCASE_LUT");
    let unicode = lists::rows(&inputs.list(list));
    let mapping = format!("to_{name}");
    assert_row_counts(&planes, counts(&text, &mapping));
    let then = (name == "title").then_some(&upper);
    let floor = if name == "lower" { 0xC0 } else { 0xB5 };
    assert_mapping(&planes, then, &unicode, floor, inputs.reference.mapping(&mapping));

    let krate = format!("casing_{name}");
    let mut consts = Consts::new(&of_rust(UNICODE_DATA));
    accessors::uses(&mut consts, &krate);
    let mut proofs = Vec::new();
    let mut specs = Lists::new(&of_rust(UNICODE_DATA));
    for (p, plane) in planes.iter().enumerate() {
        for (says, name, form, numbers) in fields(plane) {
            specs.add(&format!("plane {p}, {says}"), &name.replace('#', &p.to_string()), form, 1, &numbers);
        }
        let says =
            format!("plane {p}: each page that has rows, with its single rows from the first index to before the second");
        let pages: Vec<u64> = plane.pages().concat().iter().map(|&number| number as u64).collect();
        specs.add(&says, &format!("pages{p}"), DECIMAL, 3, &pages);
        accessors::plane(&mut consts, p, plane);
        proofs.extend(accessors::no_multi(&krate, p, plane));
    }
    let numbers: Vec<u64> =
        unicode.iter().flat_map(|(&from, to)| [from, to[0], to[1], to[2]].map(u64::from)).collect();
    let mut listed = Lists::new(&of_unicode(list));
    let of_title =
        if name == "title" { "; a number that upper changes and title leaves is listed too" } else { "" };
    let says =
        format!("{} rows of four: a number and its {name} mapping, unused places 0{of_title}", unicode.len());
    listed.add(&says, "rows", POINT, 4, &numbers);
    let mut files = vec![
        (format!("crates/{krate}/src/table.rt"), consts.text()),
        (format!("crates/{krate}/specs/Table.antt"), specs.text()),
        (format!("crates/{krate}/specs/Unicode.antt"), listed.text()),
    ];
    files.extend(proofs);
    files
}
