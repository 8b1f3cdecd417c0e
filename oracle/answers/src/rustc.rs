//! The second witness: the `char` of the rustc at hand, whose tables are those of Unicode 17.0.0.
//! It has no `is_titlecase`, `is_cased` or title mapping that is stable: nothing is derived for them.

use reference::Mapped;

pub fn assert_version() {
    assert_eq!(char::UNICODE_VERSION, (17, 0, 0), "the rustc at hand has another Unicode");
}

pub fn property(name: &str) -> Option<fn(char) -> bool> {
    Some(match name {
        "alphabetic" => char::is_alphabetic,
        "lowercase" => char::is_lowercase,
        "uppercase" => char::is_uppercase,
        "numeric" => char::is_numeric,
        "alphanumeric" => char::is_alphanumeric,
        "whitespace" => char::is_whitespace,
        "control" => char::is_control,
        "printable" => is_printable,
        _ => return None,
    })
}

pub fn mapping(name: &str) -> Option<fn(char) -> Mapped> {
    Some(match name {
        "to_lower" => |c| three(c.to_lowercase()),
        "to_upper" => |c| three(c.to_uppercase()),
        _ => return None,
    })
}

fn three(mut mapped: impl Iterator<Item = char>) -> Mapped {
    let three = [(); 3].map(|()| mapped.next().unwrap_or('\0'));
    assert!(mapped.next().is_none());
    three
}

/// `str::escape_debug` escapes a character that isn't the first as a code only if it is unprintable.
/// Some have an escape of their own: of these 0, 9, A and D are unprintable all the same, and the
/// quotes and the backslash printable.
fn is_printable(c: char) -> bool {
    match c {
        '\0' | '\t' | '\n' | '\r' => false,
        '\'' | '"' | '\\' => true,
        _ => {
            let text = String::from_iter(['a', c]);
            let mut escaped = text.escape_debug().skip(1);
            let first = escaped.next();
            assert!(
                first == Some(c) && escaped.next().is_none()
                    || first == Some('\\') && escaped.next() == Some('u')
            );
            first == Some(c)
        }
    }
}
