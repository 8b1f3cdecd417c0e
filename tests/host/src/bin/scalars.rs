//! Every scalar entry at every number to 0x10FFFF, surrogates included, and at numbers beyond, through the C boundary:
//! against the committed answers of the Rust 1.97.0, the `char` of the rustc at hand and, where its source is at hand, the
//! Rust itself.
use becktrestle::ffi::{self, Count, Mapped, Verdict, YesNo};
use host::{
    guard::Guarded,
    report::{Report, Tally},
};
use reference::{data::Data, lists};

const LAST: u32 = 0x10FFFF;

/// Every number to the last, and some beyond it.
fn numbers() -> Vec<u32> {
    let beyond = [0x110000, 0x110001, 0x1FFFFF, 0x200000, 0xD800_0000, 0x8000_0000, u32::MAX - 1, u32::MAX];
    (0..=LAST).chain(beyond).collect()
}

fn refusal(n: u32) -> u32 {
    match n {
        0x110000.. => 1,
        0xD800..=0xDFFF => 2,
        _ => 0,
    }
}

type YesNoEntry = unsafe extern "C" fn(u32) -> YesNo;
type MappedEntry = unsafe extern "C" fn(u32) -> Mapped;

const PROPERTIES: [(&str, YesNoEntry); 10] = [
    ("alphabetic", ffi::becktrestle_is_alphabetic),
    ("lowercase", ffi::becktrestle_is_lowercase),
    ("uppercase", ffi::becktrestle_is_uppercase),
    ("titlecase", ffi::becktrestle_is_titlecase),
    ("cased", ffi::becktrestle_is_cased),
    ("numeric", ffi::becktrestle_is_numeric),
    ("alphanumeric", ffi::becktrestle_is_alphanumeric),
    ("whitespace", ffi::becktrestle_is_whitespace),
    ("control", ffi::becktrestle_is_control),
    ("printable", ffi::becktrestle_is_printable),
];

const MAPPINGS: [(&str, MappedEntry); 3] = [
    ("to_lower", ffi::becktrestle_to_lowercase),
    ("to_upper", ffi::becktrestle_to_uppercase),
    ("to_title", ffi::becktrestle_to_titlecase),
];

fn main() {
    let mut report = Report::default();
    let numbers = numbers();
    let data = Data::read();
    scalar_checks(&mut report, &numbers);
    for (name, entry) in PROPERTIES {
        // SAFETY: the entry takes any number.
        let got: Vec<YesNo> = numbers.iter().map(|&n| unsafe { entry(n) }).collect();
        let answers = data.property(name).answers();
        property(&mut report, &format!("{name} against the committed answers"), &numbers, &got, |c| answers[c as usize]);
        if let Some(holds) = of_rustc(name) {
            property(&mut report, &format!("{name} against the char of rustc"), &numbers, &got, holds);
        }
        if let Some(rust) = reference::reference() {
            property(&mut report, &format!("{name} against the Rust 1.97.0"), &numbers, &got, rust.property(name));
        }
    }
    for (name, entry) in MAPPINGS {
        // SAFETY: the entry takes any number.
        let got: Vec<Mapped> = numbers.iter().map(|&n| unsafe { entry(n) }).collect();
        let rows = data.mapping(name);
        mapping(&mut report, &format!("{name} against the committed answers"), &numbers, &got, |c| lists::mapped(rows, c as u32));
        if let Some(map) = mapped_by_rustc(name) {
            mapping(&mut report, &format!("{name} against the char of rustc"), &numbers, &got, map);
        }
        if let Some(rust) = reference::reference() {
            let map = rust.mapping(name);
            mapping(&mut report, &format!("{name} against the Rust 1.97.0"), &numbers, &got, |c| map(c).map(u32::from));
        }
    }
    encodings(&mut report, &numbers);
    report.close()
}

fn property(report: &mut Report, what: &str, numbers: &[u32], got: &[YesNo], holds: impl Fn(char) -> bool) {
    let expected = numbers.iter().map(|&n| YesNo {
        refusal: refusal(n),
        carried: 0,
        yes: char::from_u32(n).is_some_and(&holds),
    });
    report.compare(what, got, expected.collect(), |a| YesNo { yes: !a.yes, ..*a });
}

fn mapping(report: &mut Report, what: &str, numbers: &[u32], got: &[Mapped], map: impl Fn(char) -> [u32; 3]) {
    let expected = numbers.iter().map(|&n| match char::from_u32(n) {
        None => Mapped { refusal: refusal(n), count: 0, to: [0; 3] },
        Some(c) => {
            let to = map(c);
            // A number after the first is there exactly where it is not 0: nothing maps to U+0000 but itself.
            Mapped { refusal: 0, count: 1 + to[1..].iter().filter(|&&n| n != 0).count(), to }
        }
    });
    report.compare(what, got, expected.collect(), |a| Mapped { to: [a.to[0] ^ 1, a.to[1], a.to[2]], ..*a });
}

fn scalar_checks(report: &mut Report, numbers: &[u32]) {
    // SAFETY: the entries take any number.
    let got: Vec<Verdict> = numbers.iter().map(|&n| unsafe { ffi::becktrestle_check_scalar(n) }).collect();
    let expected = numbers.iter().map(|&n| Verdict { refusal: refusal(n), carried: 0 }).collect();
    report.compare("check_scalar", &got, expected, |a| Verdict { refusal: a.refusal ^ 1, ..*a });
    type Test = (&'static str, unsafe extern "C" fn(u32) -> bool, fn(&u8) -> bool);
    let tests: [Test; 3] = [
        ("is_ascii_digit", ffi::becktrestle_is_ascii_digit, u8::is_ascii_digit),
        ("is_ascii_uppercase", ffi::becktrestle_is_ascii_uppercase, u8::is_ascii_uppercase),
        ("is_ascii_lowercase", ffi::becktrestle_is_ascii_lowercase, u8::is_ascii_lowercase),
    ];
    for (name, ours, rust) in tests {
        // SAFETY: as above.
        let got: Vec<bool> = numbers.iter().map(|&n| unsafe { ours(n) }).collect();
        let expected = numbers.iter().map(|&n| u8::try_from(n).is_ok_and(|b| rust(&b))).collect();
        report.compare(name, &got, expected, |a| !a);
    }
}

/// The units that Rust writes for a number, none for a number that it has no `char` for.
fn utf8(n: u32) -> Vec<u8> {
    char::from_u32(n).map_or(Vec::new(), |c| c.encode_utf8(&mut [0; 4]).as_bytes().to_vec())
}

fn utf16(n: u32) -> Vec<u16> {
    char::from_u32(n).map_or(Vec::new(), |c| c.encode_utf16(&mut [0; 2]).to_vec())
}

fn encodings(report: &mut Report, numbers: &[u32]) {
    // SAFETY: the entries take any number; pointers and lengths are those of a lent slice.
    lengths(report, "len_utf8", numbers, |n| unsafe { ffi::becktrestle_len_utf8(n) }, |n| utf8(n).len());
    lengths(report, "len_utf16", numbers, |n| unsafe { ffi::becktrestle_len_utf16(n) }, |n| utf16(n).len());
    encoder(report, "encode_utf8", numbers, 0xEE, utf8, |n, out| unsafe {
        ffi::becktrestle_encode_utf8(n, out.as_mut_ptr(), out.len())
    });
    encoder(report, "encode_utf16", numbers, 0xEEEE, utf16, |n, out| unsafe {
        ffi::becktrestle_encode_utf16(n, out.as_mut_ptr(), out.len())
    });
}

fn lengths(report: &mut Report, name: &str, numbers: &[u32], ours: impl Fn(u32) -> Count, rust: impl Fn(u32) -> usize) {
    let got: Vec<Count> = numbers.iter().map(|&n| ours(n)).collect();
    let expected = numbers.iter().map(|&n| Count { refusal: refusal(n), carried: 0, count: rust(n) }).collect();
    report.compare(name, &got, expected, |a| Count { count: a.count + 1, ..*a });
}

/// Every buffer length from 0 to 5: the answer, what was written, and what was left alone, guards included.
fn encoder<T: Copy + PartialEq>(
    report: &mut Report,
    name: &str,
    numbers: &[u32],
    fill: T,
    rust: impl Fn(u32) -> Vec<T>,
    ours: impl Fn(u32, &mut [T]) -> Count,
) {
    let mut tally = Tally::default();
    for &n in numbers {
        let units = rust(n);
        for room in 0..=5 {
            tally.case(|flip| {
                let mut buffer = Guarded::new(room, fill);
                let got = ours(n, buffer.lent());
                let (expected, written) = match refusal(n) {
                    0 if room < units.len() => (Count { refusal: 10, carried: units.len(), count: 0 }, &units[..0]),
                    0 => (Count { refusal: 0, carried: 0, count: units.len() }, &units[..]),
                    refused => (Count { refusal: refused, carried: 0, count: 0 }, &units[..0]),
                };
                got == Count { count: expected.count + flip as usize, ..expected } && buffer.holds(written)
            });
        }
    }
    report.tallied(name, tally);
}

/// What the `char` of rustc has, where its tables are those of Unicode 17.0.0.
fn of_rustc(name: &str) -> Option<fn(char) -> bool> {
    assert_eq!(char::UNICODE_VERSION, (17, 0, 0), "the rustc at hand has another Unicode");
    Some(match name {
        "alphabetic" => char::is_alphabetic,
        "lowercase" => char::is_lowercase,
        "uppercase" => char::is_uppercase,
        "numeric" => char::is_numeric,
        "alphanumeric" => char::is_alphanumeric,
        "whitespace" => char::is_whitespace,
        "control" => char::is_control,
        _ => return None,
    })
}

fn mapped_by_rustc(name: &str) -> Option<fn(char) -> [u32; 3]> {
    fn three(mut mapped: impl Iterator<Item = char>) -> [u32; 3] {
        [(); 3].map(|()| mapped.next().map_or(0, u32::from))
    }
    Some(match name {
        "to_lower" => |c| three(c.to_lowercase()),
        "to_upper" => |c| three(c.to_uppercase()),
        _ => return None,
    })
}
