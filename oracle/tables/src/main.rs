//! tables ROOT [--check]: writes the generated table files below ROOT, or compares them.

mod arms;
mod bitset;
mod committed;
mod files;
mod layout;
mod printable;
mod rows;
mod skip;
mod source;

use files::{File, Inputs};
use reference::compare::verdict;
use reference::data::Data;
use reference::places;
use std::{env, fs, path::Path, process::ExitCode};

fn all(inputs: &Inputs) -> Vec<File> {
    let mut all = Vec::new();
    all.extend(files::skip(inputs, "alphabetic", "alphabetic", "Alphabetic"));
    all.extend(files::skip(inputs, "numeric", "n", "N"));
    all.extend(files::marks(inputs, "numeric", "n"));
    all.extend(files::skip(inputs, "titlecase", "lt", "Lt"));
    all.extend(files::bitset(inputs, "lowercase", "Lowercase"));
    all.extend(files::bitset(inputs, "uppercase", "Uppercase"));
    all.extend(files::small(inputs, "whitespace", "WhiteSpace", "White_Space.txt"));
    all.extend(files::small(inputs, "control", "Control", "Cc.txt"));
    all.extend(files::printable(inputs));
    all.extend(files::casing(inputs, "lower", "LOWERCASE_LUT", "Lower.txt"));
    all.extend(files::casing(inputs, "upper", "UPPERCASE_LUT", "Upper.txt"));
    all.extend(files::casing(inputs, "title", "TITLECASE_LUT", "Title.txt"));
    all
}

fn main() -> ExitCode {
    let arguments: Vec<String> = env::args().skip(1).collect();
    let (root, check) = match arguments.iter().map(String::as_str).collect::<Vec<_>>()[..] {
        [root] if !root.starts_with('-') => (root, false),
        [root, "--check"] => (root, true),
        _ => {
            eprintln!("usage: tables ROOT [--check]");
            return ExitCode::from(2);
        }
    };
    // The committed files can be held against the committed answers without the sources.
    let mut pass = !check || committed::check(Path::new(root), &Data::read());
    let at_hand = (places::sources(), places::unicode(), reference::reference());
    if let (Some(sources), Some(unicode), Some(reference)) = at_hand {
        let files = all(&Inputs { sources: &sources, unicode: &unicode, reference });
        pass &= if check { compare(root, &files) } else { write(root, &files) };
    } else {
        println!("sources or Unicode's lists not at hand: table files not remade");
        pass &= check;
    }
    if pass {
        ExitCode::SUCCESS
    } else {
        ExitCode::FAILURE
    }
}

fn write(root: &str, files: &[File]) -> bool {
    for (path, text) in files {
        let path = Path::new(root).join(path);
        fs::create_dir_all(path.parent().unwrap()).unwrap();
        fs::write(&path, text).unwrap();
    }
    println!("{} table files written", files.len());
    true
}

fn compare(root: &str, files: &[File]) -> bool {
    let committed = |path: &String| fs::read_to_string(Path::new(root).join(path)).unwrap_or_default();
    let differing: Vec<_> = files.iter().filter(|(path, text)| committed(path) != *text).collect();
    for (path, _) in &differing {
        println!("     differs: {path}");
    }
    let says = format!("table files made again: {} compared, {} differ", files.len(), differing.len());
    verdict(differing.is_empty(), &says)
}
