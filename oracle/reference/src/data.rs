//! The committed answers, read back from `oracle/data`.

use crate::lists::{self, Rows};
use crate::places;
use crate::ranges::Ranges;
use std::fs;

pub const PROPERTIES: [&str; 10] = [
    "alphabetic",
    "lowercase",
    "uppercase",
    "titlecase",
    "cased",
    "numeric",
    "alphanumeric",
    "whitespace",
    "control",
    "printable",
];
pub const MAPPINGS: [&str; 3] = ["to_lower", "to_upper", "to_title"];

pub struct Data {
    pub properties: Vec<(&'static str, Ranges)>,
    pub mappings: Vec<(&'static str, Rows)>,
}

impl Data {
    pub fn read() -> Data {
        let text =
            |name: &str| fs::read_to_string(places::data().join(name).with_extension("txt")).expect(name);
        Data {
            properties: PROPERTIES.map(|name| (name, lists::ranges(&text(name)))).into(),
            mappings: MAPPINGS.map(|name| (name, lists::rows(&text(name)))).into(),
        }
    }

    pub fn property(&self, name: &str) -> &Ranges {
        &self.properties.iter().find(|property| property.0 == name).expect("a property of this name").1
    }

    pub fn mapping(&self, name: &str) -> &Rows {
        &self.mappings.iter().find(|mapping| mapping.0 == name).expect("a mapping of this name").1
    }
}
