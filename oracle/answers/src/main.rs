//! answers [--check]: writes oracle/data from the reference; or makes it again, compares, and holds
//! the committed data against the reference, the rustc at hand and Unicode's lists.

mod counted;
mod made;
mod rustc;
mod unicode;

use reference::compare::{self, verdict, ALL};
use reference::data::Data;
use reference::{lists, places, Reference};
use std::{env, fs, process::ExitCode};

fn write(reference: &Reference) {
    let files = made::files(reference);
    for (name, text) in &files {
        fs::write(places::data().join(name), text).expect(name);
    }
    println!("{} data files written", files.len());
}

/// The committed files are, byte for byte, what the reference gives; the counts in the opening
/// comment of unicode_data.rs come out; and what is read back from the files answers as it does.
fn against_reference(reference: &Reference, data: &Data) -> bool {
    let made = made::files(reference);
    let committed = |name: &String| fs::read_to_string(places::data().join(name)).unwrap_or_default();
    let differ = made.iter().filter(|(name, text)| committed(name) != *text).count();
    let mut pass =
        verdict(differ == 0, &format!("data files made again: {} compared, {differ} differ", made.len()));

    let file = places::sources().expect("the sources").join("library/core/src/unicode/unicode_data.rs");
    pass &= counted::check(data, &fs::read_to_string(file).unwrap());

    for (name, ranges) in &data.properties {
        pass &= compare::property(
            &format!("{name}, data against the reference"),
            ALL,
            ranges,
            reference.property(name),
        );
    }
    for (name, rows) in &data.mappings {
        pass &= compare::mapping(
            &format!("{name}, data against the reference"),
            ALL,
            rows,
            reference.mapping(name),
        );
    }
    pass
}

fn against_rustc(data: &Data) -> bool {
    rustc::assert_version();
    let mut pass = true;
    for (name, ranges) in &data.properties {
        match rustc::property(name) {
            Some(holds) => {
                pass &= compare::property(&format!("{name}, data against rustc"), ALL, ranges, holds)
            }
            None => println!("none {name}: not in the stable library of the rustc at hand"),
        }
    }
    for (name, rows) in &data.mappings {
        match rustc::mapping(name) {
            Some(map) => pass &= compare::mapping(&format!("{name}, data against rustc"), ALL, rows, map),
            None => println!("none {name}: not in the stable library of the rustc at hand"),
        }
    }
    pass
}

fn against_unicode(lists: unicode::Lists, data: &Data) -> bool {
    let mut pass = true;
    for (name, ranges) in &data.properties {
        let answers = lists.property(name);
        let what = format!("{name}, data against Unicode's lists");
        pass &= compare::property(&what, ALL, ranges, |c| answers[c as usize]);
    }
    for (name, rows) in &data.mappings {
        let listed = lists.mapping(name);
        let what = format!("{name}, data against Unicode's lists");
        let map = |c| {
            lists::mapped(&listed, c as u32).map(|number| char::from_u32(number).expect("a scalar value"))
        };
        pass &= compare::mapping(&what, ALL, rows, map);
    }
    pass
}

fn main() -> ExitCode {
    let arguments: Vec<String> = env::args().skip(1).collect();
    let reference = reference::reference();
    match (&arguments.iter().map(String::as_str).collect::<Vec<_>>()[..], &reference) {
        ([], Some(reference)) => {
            write(reference);
            return ExitCode::SUCCESS;
        }
        ([], None) => {
            println!("sources not at hand: data files not remade");
            return ExitCode::FAILURE;
        }
        (["--check"], _) => {}
        _ => {
            eprintln!("usage: answers [--check]");
            return ExitCode::from(2);
        }
    }
    let data = Data::read();
    let mut pass = against_rustc(&data);
    match &reference {
        Some(reference) => pass &= against_reference(reference, &data),
        None => println!("sources not at hand: not remade"),
    }
    match places::unicode() {
        Some(folder) => pass &= against_unicode(unicode::Lists(&folder), &data),
        None => println!("Unicode's lists not at hand: not compared"),
    }
    if pass {
        ExitCode::SUCCESS
    } else {
        ExitCode::FAILURE
    }
}
