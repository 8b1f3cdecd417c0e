//! The layout of the generated files: what `rt fmt` leaves as it is.

/// How a number is written.
#[derive(Clone, Copy)]
pub enum Form {
    Decimal,
    /// Hex, padded to so many digits.
    Hex(usize),
}

impl Form {
    pub fn write(self, number: u64) -> String {
        match self {
            Form::Decimal => number.to_string(),
            Form::Hex(width) => format!("0x{number:0width$X}"),
        }
    }
}

/// A code point: hex without padding.
pub const POINT: Form = Form::Hex(1);

pub fn wide<T: Into<u64> + Copy>(numbers: &[T]) -> Vec<u64> {
    numbers.iter().map(|&number| number.into()).collect()
}

/// A file of Rattle statics, and of functions that read like them. A constant array would be built anew at each use.
pub struct Consts(String);

impl Consts {
    pub fn new(source: &str) -> Consts {
        Consts(format!("// Generated from {source} by `oracle/make`; do not edit.\n"))
    }

    pub fn comment(&mut self, says: &str) {
        self.0 += &format!("\n// {says}\n");
    }

    pub fn add(&mut self, says: &str, name: &str, kind: &str, form: Form, numbers: &[u64]) {
        assert!(!numbers.is_empty(), "{name} would be empty");
        self.comment(says);
        let elements: Vec<String> = numbers.iter().map(|&number| form.write(number)).collect();
        let head = format!("pub static {name}: [{kind}; {}] = [", numbers.len());
        let line = elements.join(", ");
        // `rt fmt` keeps an array of at most 60 columns in a line, and otherwise fills lines of 99 with short elements.
        if line.len() <= 60 && head.len() + line.len() + 2 <= 100 {
            self.0 += &format!("{head}{line}];\n");
            return;
        }
        assert!(elements.iter().all(|element| element.len() <= 10), "{name}: `rt fmt` gives each a line");
        let mut lines = vec![String::from("   ")];
        for element in elements {
            if lines[lines.len() - 1].len() + element.len() + 2 > 99 {
                lines.push(String::from("   "));
            }
            *lines.last_mut().unwrap() += &format!(" {element},");
        }
        self.0 += &format!("{head}\n{}\n];\n", lines.join("\n"));
    }

    /// A line of its own, as it stands.
    pub fn line(&mut self, text: &str) {
        self.0 += &format!("{text}\n");
    }

    /// Text as it stands, a function for instance.
    pub fn text_of(&mut self, text: &str) {
        self.0 += text;
    }

    pub fn text(self) -> String {
        self.0
    }
}

/// A file of antt lists.
pub struct Lists(String);

impl Lists {
    pub fn new(source: &str) -> Lists {
        let head = format!("-- Generated from {source} by `oracle/make`; do not edit.\n");
        Lists(head + "use Rattle.std.specs.Prelude.{ℕ, List, [], ◌∷◌}\n")
    }

    /// Lines end after whole groups of `group` numbers: ranges are 2, mapping rows 4.
    pub fn add(&mut self, says: &str, name: &str, form: Form, group: usize, numbers: &[u64]) {
        self.0 += &format!("\n-- {says}\nunfoldable pub {name} : List ℕ\n{name} =\n");
        let mut line = String::from("   ");
        for numbers in numbers.chunks(group) {
            let words: String = numbers.iter().map(|&number| format!(" {} ∷", form.write(number))).collect();
            if line.chars().count() + words.chars().count() > 106 {
                self.0 += &format!("{line}\n");
                line = String::from("   ");
            }
            line += &words;
        }
        self.0 += &format!("{line} []\n");
    }

    pub fn text(self) -> String {
        self.0
    }
}
