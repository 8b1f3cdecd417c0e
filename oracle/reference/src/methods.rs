//! The ASCII arms of library/core/src/char/methods.rs, Rust 1.97.0, written out by hand: that file
//! is full of the inside of core and cannot be built outside of it. The lines are cited at each.

use crate::unicode_data::{alphabetic, lowercase, lt, n, uppercase, white_space};

/// Lines 778 to 784.
pub fn is_alphabetic(c: char) -> bool {
    match c {
        'a'..='z' | 'A'..='Z' => true,
        '\0'..='\u{A9}' => false,
        _ => alphabetic::lookup(c),
    }
}

/// Lines 809 to 815.
pub fn is_cased(c: char) -> bool {
    match c {
        'a'..='z' | 'A'..='Z' => true,
        '\0'..='\u{A9}' => false,
        _ => lowercase::lookup(c) || uppercase::lookup(c) || lt::lookup(c),
    }
}

/// Lines 884 to 890.
pub fn is_lowercase(c: char) -> bool {
    match c {
        'a'..='z' => true,
        '\0'..='\u{A9}' => false,
        _ => lowercase::lookup(c),
    }
}

/// Lines 919 to 924.
pub fn is_titlecase(c: char) -> bool {
    match c {
        '\0'..='\u{01C4}' => false,
        _ => lt::lookup(c),
    }
}

/// Lines 960 to 966.
pub fn is_uppercase(c: char) -> bool {
    match c {
        'A'..='Z' => true,
        '\0'..='\u{BF}' => false,
        _ => uppercase::lookup(c),
    }
}

/// Lines 994 to 1000.
pub fn is_whitespace(c: char) -> bool {
    match c {
        ' ' | '\x09'..='\x0d' => true,
        '\0'..='\u{84}' => false,
        _ => white_space::lookup(c),
    }
}

/// Lines 1024 to 1030.
pub fn is_alphanumeric(c: char) -> bool {
    match c {
        'a'..='z' | 'A'..='Z' | '0'..='9' => true,
        '\0'..='\u{A9}' => false,
        _ => alphabetic::lookup(c) || n::lookup(c),
    }
}

/// Lines 1055 to 1061.
pub fn is_control(c: char) -> bool {
    matches!(c, '\0'..='\x1f' | '\x7f'..='\u{9f}')
}

/// Lines 1136 to 1142.
pub fn is_numeric(c: char) -> bool {
    match c {
        '0'..='9' => true,
        '\0'..='\u{B1}' => false,
        _ => n::lookup(c),
    }
}
