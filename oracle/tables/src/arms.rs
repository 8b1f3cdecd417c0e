//! A table as a Rattle function that is a `match`: its text, its proof, and the numbers read back. A `match` becomes a load from
//! read-only data, where an array would be built anew at each call.

use crate::files::File;
use crate::layout::Form;
use crate::{bitset, source};

/// What the last arm answers, which no index reaches. No other arm has it, or it would be merged with the last.
const UNREACHED: u64 = 0x0123_4567_89AB_CDEF;

const WORD: Form = Form::Hex(16);

pub enum Arm {
    Number(u64),
    /// What a pair's mapping makes of its canonical word, left to `bitset::kernel::mapped`.
    Mapped(u8, u64),
}

/// Where a function stands: its crate, and the file there, with its `impl` after `::`.
pub type Place<'a> = (&'a str, &'a str);

pub struct Accessor {
    pub says: &'static str,
    pub name: &'static str,
    pub index: &'static str,
    pub requires: &'static str,
    /// The antt function of the index that is answered.
    pub answers: &'static str,
    /// The definitions that its proof opens.
    pub opens: Vec<String>,
    pub arms: Vec<Arm>,
}

/// Bytes as words, eight to each, the lowest first.
pub fn eights(bytes: &[u8]) -> Vec<Arm> {
    let word = |bytes: &[u8]| bytes.iter().rev().fold(0, |word, &byte| word << 8 | u64::from(byte));
    bytes.chunks(8).map(|bytes| Arm::Number(word(bytes))).collect()
}

/// A function of one number that is a `match`, for its own crate: the definitions that its proof opens, its clauses, its arms, and
/// what any other number gives.
pub fn function(
    says: &str,
    head: &str,
    opens: &[String],
    clauses: &[String],
    arms: &[String],
    other: &str,
) -> String {
    let opens = format!("#[tactic(auto, unfolding({}))]\n", opens.join(", "));
    let (_, argument) = head.split_once('(').expect("an argument");
    let (argument, _) = argument.split_once(':').expect("the argument's type");
    let clauses: String = clauses.iter().map(|clause| format!("    {clause}\n")).collect();
    let arms: String = arms.iter().map(|arm| format!("        {arm},\n")).collect();
    format!(
        "\n// {says}\n{opens}pub(crate) fn {head}\n{clauses}{{\n    match {argument} {{\n{arms}        _ => {other},\n    }}\n}}\n"
    )
}

/// The same as a method, whose clauses are its trait's: the definitions that its proof opens, its arms, and what any other number
/// gives, or every number where there are no arms.
pub fn method(head: &str, opens: &[String], arms: &[String], other: &str) -> String {
    if arms.is_empty() {
        return plain(&head.replacen('(', "(_", 1), opens, other);
    }
    let (_, argument) = head.split_once('(').expect("an argument");
    let (argument, _) = argument.split_once(':').expect("the argument's type");
    let arms: String = arms.iter().map(|arm| format!("            {arm},\n")).collect();
    plain(head, opens, &format!("match {argument} {{\n{arms}            _ => {other},\n        }}"))
}

/// A method that is one expression.
fn plain(head: &str, opens: &[String], body: &str) -> String {
    format!(
        "\n    #[tactic(auto, unfolding({}))]\n    fn {head} {{\n        {body}\n    }}\n",
        opens.join(", ")
    )
}

pub fn requires(fact: &str) -> String {
    format!("requires {{ {fact} }}")
}

pub fn ensures(fact: &str) -> String {
    format!("ensures {{ {fact} }}")
}

/// A goal's name, as it follows `returns-`, and what answers it.
pub type Answer = (String, String);

/// What answers the goal of the last arm: a term with what is known of the number there in the place of `{}`.
pub fn at_last(term: &str) -> Answer {
    ("in_default".to_string(), term.replace("{}", "c.in_default.in_default-own.rest"))
}

/// The proof of such a function of a crate's file, and its path: what it meets, what it cites, what it opens, an answer for
/// each goal.
pub fn proof(
    source: &str,
    place: Place,
    name: &str,
    says: &str,
    cites: &str,
    opens: &str,
    answers: &[Answer],
) -> File {
    let (krate, file) = place;
    let answer = |(goal, term): &Answer| {
        format!("\npub returns-{goal} : goal.returns-{goal}\nunfolding {opens}\nreturns-{goal} c = {term}\n")
    };
    let answers: String = answers.iter().map(answer).collect();
    let text = format!(
        "-- Generated from {source} by `oracle/make`; do not edit.\n\
        -- `{krate}::{file}::{name}` meets its contract: {says}. Assumes nothing.\n\
        {cites}use Rattle.{krate}.proofs.{}.{name}.Goals as goal\n{answers}",
        file.replace("::", ".")
    );
    (format!("crates/{krate}/proofs/{}/{name}/Answers.antt", file.replace("::", "/")), text)
}

/// The constant that the last arms name.
pub fn unreached() -> String {
    format!(
        "\n// What the last arms answer, which no index reaches. No other arm has it, so that none is merged with them.\n\
        const UNREACHED: u64 = {};\n",
        WORD.write(UNREACHED)
    )
}

impl Accessor {
    pub fn code(&self) -> String {
        let Accessor { says, name, index, answers, .. } = self;
        let arm = |(k, arm): (usize, &Arm)| {
            let (number, text) = match *arm {
                Arm::Number(number) => (number, WORD.write(number)),
                Arm::Mapped(mapping, word) => {
                    (bitset::mapped(mapping, word), format!("mapped({mapping}, {})", WORD.write(word)))
                }
            };
            assert_ne!(number, UNREACHED);
            format!("{k} => {text}")
        };
        let arms: Vec<String> = self.arms.iter().enumerate().map(arm).collect();
        let clauses = [requires(self.requires), ensures(&format!("result ≡ {answers} {index}"))];
        let head = format!("{name}({index}: usize) -> u64");
        function(says, &head, &self.opens, &clauses, &arms, "UNREACHED")
    }
}

/// The numbers of each arm of a function, the index first, but for the last arm; none where there is no such function, or no arm.
pub fn read(text: &str, name: &str) -> Vec<Vec<u64>> {
    let Some((_, body)) = text.split_once(&format!(" fn {name}(")) else {
        return Vec::new();
    };
    let after_arms = |line: &&str| line.trim_start().starts_with("_ =>") || line.contains(" fn ");
    let mut read: Vec<Vec<u64>> = Vec::new();
    for line in body.lines().take_while(|line| !after_arms(line)) {
        if line.contains(" => ") {
            read.push(Vec::new());
        }
        if let Some(arm) = read.last_mut() {
            arm.extend(source::numbers(line).into_iter().map(|number| number as u64));
        }
    }
    read
}

/// What each arm answers, where the indices are 0, 1, 2 ..
pub fn answers(text: &str, name: &str) -> Vec<Vec<u64>> {
    let arms = read(text, name);
    assert!(arms.iter().enumerate().all(|(k, arm)| arm[0] == k as u64), "{name}: the arms are 0, 1, 2 ..");
    arms.iter().map(|arm| arm[1..].to_vec()).collect()
}

/// The bytes of a function of words that hold eight each.
pub fn read_eights(text: &str, name: &str) -> Vec<u8> {
    answers(text, name).iter().flat_map(|word| word[0].to_le_bytes()).collect()
}
