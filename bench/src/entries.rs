//! The scalar entries: ours, and the same answers of the Rust behind an extern "C" call that returns the same struct.
use crate::{best, row};
use becktrestle::ffi::{self, Count, Mapped, Verdict, YesNo};
use std::{hint::black_box, slice};

type Property = unsafe extern "C" fn(u32) -> YesNo;
type Mapping = unsafe extern "C" fn(u32) -> Mapped;

/// The refusal of a number that no `char` holds.
fn refused(n: u32) -> u32 {
    if n > 0x10FFFF {
        1
    } else {
        2
    }
}

fn plain(n: u32, holds: impl Fn(char) -> bool) -> YesNo {
    match char::from_u32(n) {
        Some(c) => YesNo { refusal: 0, carried: 0, yes: holds(c) },
        None => YesNo { refusal: refused(n), carried: 0, yes: false },
    }
}

fn counted(n: u32, count: impl FnOnce(char) -> usize) -> Count {
    match char::from_u32(n) {
        Some(c) => Count { refusal: 0, carried: 0, count: count(c) },
        None => Count { refusal: refused(n), carried: 0, count: 0 },
    }
}

fn three(n: u32, map: impl Fn(char) -> [char; 3]) -> Mapped {
    match char::from_u32(n) {
        Some(c) => {
            let to = map(c).map(u32::from);
            Mapped { refusal: 0, count: 1 + (to[1] != 0) as usize + (to[2] != 0) as usize, to }
        }
        None => Mapped { refusal: refused(n), count: 0, to: [0; 3] },
    }
}

/// The Rust of 1.97.0, called directly and not through a table of pointers, so that it can be inlined as in Rust.
macro_rules! behind_c {
    ($($rust:ident $rustc:ident $name:ident)*) => {$(
        extern "C" fn $rust(n: u32) -> YesNo {
            plain(n, reference::rust::$name)
        }
        #[allow(dead_code)]
        extern "C" fn $rustc(n: u32) -> YesNo {
            plain(n, |c| c.$name())
        }
    )*};
}

behind_c! {
    rust_alphabetic rustc_alphabetic is_alphabetic
    rust_lowercase rustc_lowercase is_lowercase
    rust_uppercase rustc_uppercase is_uppercase
    rust_numeric rustc_numeric is_numeric
    rust_alphanumeric rustc_alphanumeric is_alphanumeric
    rust_whitespace rustc_whitespace is_whitespace
    rust_control rustc_control is_control
}

extern "C" fn rust_titlecase(n: u32) -> YesNo {
    plain(n, reference::rust::is_titlecase)
}

extern "C" fn rust_cased(n: u32) -> YesNo {
    plain(n, reference::rust::is_cased)
}

extern "C" fn rust_printable(n: u32) -> YesNo {
    plain(n, reference::rust::is_printable)
}

pub fn properties(what: &str, numbers: &[u32]) {
    let entries: [(&str, Property, Property, Option<Property>); 10] = [
        ("is_alphabetic", ffi::becktrestle_is_alphabetic, rust_alphabetic, Some(rustc_alphabetic)),
        ("is_lowercase", ffi::becktrestle_is_lowercase, rust_lowercase, Some(rustc_lowercase)),
        ("is_uppercase", ffi::becktrestle_is_uppercase, rust_uppercase, Some(rustc_uppercase)),
        ("is_titlecase", ffi::becktrestle_is_titlecase, rust_titlecase, None),
        ("is_cased", ffi::becktrestle_is_cased, rust_cased, None),
        ("is_numeric", ffi::becktrestle_is_numeric, rust_numeric, Some(rustc_numeric)),
        ("is_alphanumeric", ffi::becktrestle_is_alphanumeric, rust_alphanumeric, Some(rustc_alphanumeric)),
        ("is_whitespace", ffi::becktrestle_is_whitespace, rust_whitespace, Some(rustc_whitespace)),
        ("is_control", ffi::becktrestle_is_control, rust_control, Some(rustc_control)),
        ("is_printable", ffi::becktrestle_is_printable, rust_printable, None),
    ];
    for (name, ours, rust, rustc) in entries {
        timed(name, what, numbers, ours, Some(rust), rustc);
    }
}

extern "C" fn rust_lower(n: u32) -> Mapped {
    three(n, reference::rust::to_lower)
}

extern "C" fn rust_upper(n: u32) -> Mapped {
    three(n, reference::rust::to_upper)
}

extern "C" fn rust_title(n: u32) -> Mapped {
    three(n, reference::rust::to_title)
}

fn collected(mut mapped: impl Iterator<Item = char>) -> [char; 3] {
    [(); 3].map(|()| mapped.next().unwrap_or('\0'))
}

extern "C" fn rustc_lower(n: u32) -> Mapped {
    three(n, |c| collected(c.to_lowercase()))
}

extern "C" fn rustc_upper(n: u32) -> Mapped {
    three(n, |c| collected(c.to_uppercase()))
}

pub fn mappings(what: &str, numbers: &[u32]) {
    let entries: [(&str, Mapping, Mapping, Option<Mapping>); 3] = [
        ("to_lowercase", ffi::becktrestle_to_lowercase, rust_lower, Some(rustc_lower)),
        ("to_uppercase", ffi::becktrestle_to_uppercase, rust_upper, Some(rustc_upper)),
        ("to_titlecase", ffi::becktrestle_to_titlecase, rust_title, None),
    ];
    for (name, ours, rust, rustc) in entries {
        timed(name, what, numbers, ours, Some(rust), rustc);
    }
}

fn timed<T>(
    name: &str,
    what: &str,
    numbers: &[u32],
    ours: unsafe extern "C" fn(u32) -> T,
    rust: Option<unsafe extern "C" fn(u32) -> T>,
    rustc: Option<unsafe extern "C" fn(u32) -> T>,
) {
    // SAFETY: every candidate takes any number.
    timed_by(name, what, numbers, ours, rust, rustc, |candidate, n| _ = black_box(unsafe { candidate(n) }));
}

fn timed_by<C: Copy>(
    name: &str,
    what: &str,
    numbers: &[u32],
    ours: C,
    rust: Option<C>,
    rustc: Option<C>,
    call: impl Fn(C, u32),
) {
    let rust = rust.filter(|_| reference::rust::AT_HAND);
    let candidates: Vec<_> = [Some(ours), rust, rustc].into_iter().flatten().collect();
    let mut times = best(numbers, &candidates, call).into_iter();
    let ours = times.next().expect("our time");
    let rust = rust.and_then(|_| times.next());
    row(name, what, ours, rust, times.next());
}

extern "C" fn rustc_check(n: u32) -> Verdict {
    Verdict { refusal: if char::from_u32(n).is_some() { 0 } else { refused(n) }, carried: 0 }
}

extern "C" fn rustc_digit(n: u32) -> bool {
    u8::try_from(n).is_ok_and(|b| b.is_ascii_digit())
}

extern "C" fn rustc_ascii_upper(n: u32) -> bool {
    u8::try_from(n).is_ok_and(|b| b.is_ascii_uppercase())
}

extern "C" fn rustc_ascii_lower(n: u32) -> bool {
    u8::try_from(n).is_ok_and(|b| b.is_ascii_lowercase())
}

/// Scalar values and the ASCII tests; the Rust of 1.97.0 has the same code as rustc's `char`.
pub fn scalars(what: &str, numbers: &[u32]) {
    timed("check_scalar", what, numbers, ffi::becktrestle_check_scalar, None, Some(rustc_check));
    timed("is_ascii_digit", what, numbers, ffi::becktrestle_is_ascii_digit, None, Some(rustc_digit));
    timed("is_ascii_uppercase", what, numbers, ffi::becktrestle_is_ascii_uppercase, None, Some(rustc_ascii_upper));
    timed("is_ascii_lowercase", what, numbers, ffi::becktrestle_is_ascii_lowercase, None, Some(rustc_ascii_lower));
}

extern "C" fn rustc_len_utf8(n: u32) -> Count {
    counted(n, char::len_utf8)
}

extern "C" fn rustc_len_utf16(n: u32) -> Count {
    counted(n, char::len_utf16)
}

/// The Rust's encoders behind the same kind of call; where the buffer is too short they panic, which aborts here.
unsafe extern "C" fn rustc_encode_utf8(n: u32, out: *mut u8, length: usize) -> Count {
    // SAFETY: the caller lends so many bytes.
    let out = unsafe { slice::from_raw_parts_mut(out, length) };
    counted(n, |c| c.encode_utf8(out).len())
}

unsafe extern "C" fn rustc_encode_utf16(n: u32, out: *mut u16, length: usize) -> Count {
    // SAFETY: the caller lends so many units.
    let out = unsafe { slice::from_raw_parts_mut(out, length) };
    counted(n, |c| c.encode_utf16(out).len())
}

/// One call of an encoder, into a buffer that is long enough.
fn encode<U: Copy + Default, const N: usize>(encoder: unsafe extern "C" fn(u32, *mut U, usize) -> Count, n: u32) {
    let mut out = [U::default(); N];
    // SAFETY: the pointer and the length are those of the buffer.
    black_box(unsafe { encoder(n, out.as_mut_ptr(), N) });
    black_box(out);
}

/// Lengths and encoders.
pub fn encodings(what: &str, numbers: &[u32]) {
    type Utf8 = unsafe extern "C" fn(u32, *mut u8, usize) -> Count;
    type Utf16 = unsafe extern "C" fn(u32, *mut u16, usize) -> Count;
    timed("len_utf8", what, numbers, ffi::becktrestle_len_utf8, None, Some(rustc_len_utf8));
    timed("len_utf16", what, numbers, ffi::becktrestle_len_utf16, None, Some(rustc_len_utf16));
    let (ours, rustc): (Utf8, Utf8) = (ffi::becktrestle_encode_utf8, rustc_encode_utf8);
    timed_by("encode_utf8", what, numbers, ours, None, Some(rustc), encode::<u8, 4>);
    let (ours, rustc): (Utf16, Utf16) = (ffi::becktrestle_encode_utf16, rustc_encode_utf16);
    timed_by("encode_utf16", what, numbers, ours, None, Some(rustc), encode::<u16, 2>);
}
