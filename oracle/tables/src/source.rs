//! Reads the numbers of a table off the text of the Rust. The tables are private to their modules,
//! so they are read as text; that they were read right is shown by decoding them and comparing with
//! the answers of the same files, compiled.

#[derive(Clone, Debug, PartialEq)]
pub enum Token {
    Number(i64),
    Word(String),
    Sign(char),
}

/// Comments are left out; `-` before a number belongs to it.
pub fn tokens(text: &str) -> Vec<Token> {
    let mut out = Vec::new();
    for line in text.lines() {
        let code = line.split("//").next().unwrap();
        let mut rest = code.trim_start();
        while let Some(head) = rest.chars().next() {
            let negative = head == '-' && rest[1..].starts_with(|c: char| c.is_ascii_digit());
            let body = if negative { &rest[1..] } else { rest };
            let length = body.find(|c: char| !(c.is_ascii_alphanumeric() || c == '_')).unwrap_or(body.len());
            let word = &body[..length];
            if head.is_ascii_digit() || negative {
                out.push(Token::Number(if negative { -number(word) } else { number(word) }));
                rest = &body[length..];
            } else if length > 0 {
                out.push(Token::Word(word.to_string()));
                rest = &body[length..];
            } else {
                out.push(Token::Sign(head));
                rest = &rest[head.len_utf8()..];
            }
            rest = rest.trim_start();
        }
    }
    out
}

fn number(word: &str) -> i64 {
    let (digits, radix) = match word.get(..2) {
        Some("0x") => (&word[2..], 16),
        Some("0b") => (&word[2..], 2),
        _ => (word, 10),
    };
    // The bitset words fill 64 bits: they travel as the i64 of the same bits.
    u64::from_str_radix(digits, radix).unwrap_or_else(|_| panic!("not a number: {word}")) as i64
}

/// The text of `pub mod NAME { .. }`, up to the closing brace at the start of a line.
pub fn module<'a>(text: &'a str, name: &str) -> &'a str {
    let head = format!("pub mod {name} {{\n");
    let start = text.find(&head).unwrap_or_else(|| panic!("no module {name}")) + head.len();
    &text[start..start + text[start..].find("\n}\n").expect("the module's end")]
}

/// The text between `NAME: type = ` and the semicolon that ends the item.
pub fn item<'a>(text: &'a str, name: &str) -> &'a str {
    let head = format!(" {name}: ");
    let start = text.find(&head).unwrap_or_else(|| panic!("no item {name}"));
    let body = start + text[start..].find(" = ").expect("the item's value") + 3;
    &text[body..body + text[body..].find("];\n").or(text[body..].find("};\n")).expect("the item's end")]
}

/// All numbers of an item, in order.
pub fn numbers(text: &str) -> Vec<i64> {
    let number = |token| {
        if let Token::Number(number) = token {
            Some(number)
        } else {
            None
        }
    };
    tokens(text).into_iter().filter_map(number).collect()
}

pub fn bytes(text: &str) -> Vec<u8> {
    numbers(text).into_iter().map(|n| u8::try_from(n).expect("a byte")).collect()
}

/// A list of pairs as two lists.
pub fn split(pairs: Vec<u8>) -> (Vec<u8>, Vec<u8>) {
    pairs.chunks_exact(2).map(|pair| (pair[0], pair[1])).unzip()
}
