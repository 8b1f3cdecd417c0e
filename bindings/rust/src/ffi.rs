//! The exported functions as they are, struct for struct with include/becktrestle.h. Everything safe is in the crate's root.

/// Accepted where `refusal` is 0; else the refusal's number and what it carries.
#[repr(C)]
#[derive(Clone, Copy, Debug, PartialEq, Eq)]
pub struct Verdict {
    pub refusal: u32,
    pub carried: usize,
}

/// Yes or no; where `refusal` is not 0, its number, what it carries, and no.
#[repr(C)]
#[derive(Clone, Copy, Debug, PartialEq, Eq)]
pub struct YesNo {
    pub refusal: u32,
    pub carried: usize,
    pub yes: bool,
}

/// How many; where `refusal` is not 0, its number, what it carries, and 0.
#[repr(C)]
#[derive(Clone, Copy, Debug, PartialEq, Eq)]
pub struct Count {
    pub refusal: u32,
    pub carried: usize,
    pub count: usize,
}

/// The answer of a counted search; where `refusal` is not 0, its number, what it carries, no, and 0.
#[repr(C)]
#[derive(Clone, Copy, Debug, PartialEq, Eq)]
pub struct Sought {
    pub refusal: u32,
    pub carried: usize,
    pub read: usize,
    pub yes: bool,
}

/// The lengths of a packed table; where `refusal` is not 0, its number, what it carries, and zeros.
#[repr(C)]
#[derive(Clone, Copy, Debug, PartialEq, Eq)]
pub struct Sizes {
    pub refusal: u32,
    pub carried: usize,
    pub headers: usize,
    pub offsets: usize,
}

/// One to three mapped numbers, unused ones 0; where `refusal` is not 0, its number, zeros and count 0.
#[repr(C)]
#[derive(Clone, Copy, Debug, PartialEq, Eq)]
pub struct Mapped {
    pub refusal: u32,
    pub count: usize,
    pub to: [u32; 3],
}

extern "C" {
    pub fn becktrestle_check_scalar(n: u32) -> Verdict;
    pub fn becktrestle_is_ascii_digit(n: u32) -> bool;
    pub fn becktrestle_is_ascii_uppercase(n: u32) -> bool;
    pub fn becktrestle_is_ascii_lowercase(n: u32) -> bool;

    pub fn becktrestle_len_utf8(n: u32) -> Count;
    pub fn becktrestle_len_utf16(n: u32) -> Count;
    pub fn becktrestle_encode_utf8(n: u32, out: *mut u8, out_len: usize) -> Count;
    pub fn becktrestle_encode_utf16(n: u32, out: *mut u16, out_len: usize) -> Count;

    pub fn becktrestle_check_list(list: *const u32, list_len: usize) -> Count;
    pub fn becktrestle_search_list(list: *const u32, list_len: usize, x: u32) -> YesNo;

    pub fn becktrestle_check_table(headers: *const u32, headers_len: usize, offsets: *const u8, offsets_len: usize) -> Verdict;
    pub fn becktrestle_search_table(headers: *const u32, headers_len: usize, offsets: *const u8, offsets_len: usize, x: u32) -> YesNo;
    pub fn becktrestle_search_table_counted(headers: *const u32, headers_len: usize, offsets: *const u8, offsets_len: usize, x: u32) -> Sought;
    pub fn becktrestle_pack(list: *const u32, list_len: usize, headers: *mut u32, headers_len: usize, offsets: *mut u8, offsets_len: usize) -> Sizes;
    pub fn becktrestle_unpack(headers: *const u32, headers_len: usize, offsets: *const u8, offsets_len: usize, out: *mut u32, out_len: usize) -> Count;

    pub fn becktrestle_is_alphabetic(n: u32) -> YesNo;
    pub fn becktrestle_is_lowercase(n: u32) -> YesNo;
    pub fn becktrestle_is_uppercase(n: u32) -> YesNo;
    pub fn becktrestle_is_titlecase(n: u32) -> YesNo;
    pub fn becktrestle_is_cased(n: u32) -> YesNo;
    pub fn becktrestle_is_numeric(n: u32) -> YesNo;
    pub fn becktrestle_is_alphanumeric(n: u32) -> YesNo;
    pub fn becktrestle_is_whitespace(n: u32) -> YesNo;
    pub fn becktrestle_is_control(n: u32) -> YesNo;
    pub fn becktrestle_is_printable(n: u32) -> YesNo;

    pub fn becktrestle_to_lowercase(n: u32) -> Mapped;
    pub fn becktrestle_to_uppercase(n: u32) -> Mapped;
    pub fn becktrestle_to_titlecase(n: u32) -> Mapped;
}
