//! Printable: singletons and length lists of two planes.

use super::{list_of_ranges, of_rust, of_unicode, snake, File, Inputs, BYTE, DECIMAL, PRINTABLE};
use crate::layout::{wide, Consts, Form, Lists};
use crate::printable;
use reference::{lists, ranges::Ranges, scalars};

pub fn printable(inputs: &Inputs) -> Vec<File> {
    let text = inputs.source(PRINTABLE);
    let answers = printable::answers(&text);
    let list = "Unprintable.txt";
    let unprintable = lists::ranges(&inputs.list(list));
    let rust = inputs.reference.property("printable");
    assert!(scalars().all(|c| answers[c as usize] == rust(c)));
    // The tables answer no for the surrogates too, so the lists agree at every number.
    assert_eq!(Ranges::of(|number| !answers[number as usize]), unprintable);
    assert_eq!(printable::spans(&text).len(), 9);

    let mut consts = Consts::new(&of_rust(PRINTABLE));
    let mut specs = Lists::new(&of_rust(PRINTABLE));
    let planes = [0, 1].map(|plane| printable::Plane::read(&text, plane));
    let mut add = |plane: usize, says: &str, name: &str, form: Form, bytes: &[u8]| {
        let (says, name) = (format!("plane {plane}{says}"), name.replace('#', &plane.to_string()));
        consts.add(&says, &name, "u8", form, &wide(bytes));
        specs.add(&says, &snake(&name), form, 1, &wide(bytes));
    };
    for (p, table) in planes.iter().enumerate() {
        add(p, ", singletons: the high byte", "SINGLETONS#_HIGH", BYTE, &table.high);
        let says = ", singletons: how many of the next low bytes belong to it";
        add(p, says, "SINGLETONS#_COUNT", DECIMAL, &table.count);
        add(p, ", singletons: the low bytes", "SINGLETONS#_LOW", BYTE, &table.low);
    }
    for (p, table) in planes.iter().enumerate() {
        add(p, ": the lengths of the runs, the first of them yes", "NORMAL#", BYTE, &table.normal);
    }
    let says = format!(
        "unprintable, ASCII and the surrogates included: {} ranges, first and last of each",
        unprintable.0.len()
    );
    vec![
        ("crates/printable/src/table.rt".to_string(), consts.text()),
        ("crates/printable/specs/Table.antt".to_string(), specs.text()),
        (
            "crates/printable/specs/Unicode.antt".to_string(),
            list_of_ranges(&of_unicode(list), &says, "unprintable", &unprintable),
        ),
    ]
}
