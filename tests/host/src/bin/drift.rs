//! The header, the Rust declarations and the exported functions say the same: names, parameters, results, and the structs'
//! fields. Each is read as text and brought to one spelling; the layouts come from the two compilers.
use host::report::Report;
use std::{collections::BTreeMap, fs, path::Path, process::Command};

/// Functions and structs in one spelling: `name` to `type, type -> type`, and `struct.field` to its type.
type Said = BTreeMap<String, String>;

fn main() {
    let root = Path::new(env!("CARGO_MANIFEST_DIR")).join("../..");
    let read = |path: &str| fs::read_to_string(root.join(path)).unwrap_or_else(|e| panic!("{path}: {e}"));
    let mut rattle = Said::new();
    // The functions are those of the boundary, the structs those of what crosses it.
    for folder in ["crates/becktrestle/src", "crates/results/src"] {
        for file in fs::read_dir(root.join(folder)).expect("the boundary's sources") {
            rattle.extend(rattle_says(&fs::read_to_string(file.expect("a file").path()).expect("a source")));
        }
    }
    let header = header_says(&read("include/becktrestle.h"));
    let rust = rust_says(&read("bindings/rust/src/ffi.rs"));
    let mut report = Report::default();
    agree(&mut report, "the header and the exported functions", &header, &rattle);
    agree(&mut report, "the Rust declarations and the exported functions", &rust, &rattle);
    let archive: Vec<String> = symbols(&root.join("crates/becktrestle/out/libbecktrestle.a"));
    let named: Vec<String> = rattle.keys().filter(|k| !k.contains('.')).cloned().collect();
    report.check(archive == named, &format!("the archive exports the {} functions and no other", named.len()));
    layouts(&mut report, &root, &header);
    let mut changed = header.clone();
    if let Some(first) = changed.values_mut().next() {
        first.push_str(" changed");
    }
    report.check(differences(&changed, &rattle) == 1, "control: one changed declaration is found");
    report.close()
}

fn differences(one: &Said, other: &Said) -> usize {
    let keys: std::collections::BTreeSet<&String> = one.keys().chain(other.keys()).collect();
    keys.into_iter()
        .filter(|key| one.get(*key) != other.get(*key))
        .inspect(|key| println!("  {key}: {:?} / {:?}", one.get(*key), other.get(*key)))
        .count()
}

fn agree(report: &mut Report, what: &str, one: &Said, other: &Said) {
    let differ = differences(one, other);
    report.check(differ == 0 && !one.is_empty(), &format!("{what}: {} names, {differ} differ", one.len()));
}

/// A type in the one spelling: Rust's, pointers as `*const T` and `*mut T`, structs by Rust's name.
fn spelled(c_type: &str) -> String {
    let bare = c_type.replace('*', " * ").split_whitespace().collect::<Vec<_>>().join(" ");
    let simple = |t: &str| match t {
        "uint8_t" => "u8".to_string(),
        "uint16_t" => "u16".to_string(),
        "uint32_t" => "u32".to_string(),
        "size_t" => "usize".to_string(),
        "bool" => "bool".to_string(),
        other => other.strip_prefix("becktrestle_").map_or(other.to_string(), camel),
    };
    match bare.strip_suffix(" *") {
        Some(to) => match to.strip_prefix("const ") {
            Some(to) => format!("*const {}", simple(to)),
            None => format!("*mut {}", simple(to)),
        },
        None => simple(&bare),
    }
}

fn camel(name: &str) -> String {
    name.split('_').map(|word| word[..1].to_uppercase() + &word[1..]).collect()
}

/// The text without comments and preprocessor lines, its white space as single blanks.
fn without_comments(text: &str) -> String {
    let mut kept = String::new();
    let mut rest = text;
    while let Some(begin) = rest.find("/*") {
        kept += &rest[..begin];
        rest = rest[begin..].split_once("*/").expect("a comment's end").1;
    }
    kept += rest;
    let said = |line: &&str| !line.starts_with("//") && (!line.starts_with('#') || line.starts_with("#["));
    let lines = kept.lines().map(str::trim_start).filter(said);
    lines.collect::<Vec<_>>().join(" ").split_whitespace().collect::<Vec<_>>().join(" ")
}

fn header_says(text: &str) -> Said {
    let mut said = Said::new();
    for part in without_comments(text).split(';').flat_map(|p| p.split('{')).flat_map(|p| p.split('}')) {
        if let Some((before, rest)) = part.trim().split_once('(') {
            let (result, name) = before.rsplit_once(' ').expect("a result and a name");
            let parameters = rest.trim_end_matches(')').split(',').map(|p| {
                let p = p.trim();
                let at = p.rfind([' ', '*']).expect("a type and a name") + 1;
                spelled(&p[..at])
            });
            said.insert(name.to_string(), format!("{} -> {}", parameters.collect::<Vec<_>>().join(", "), spelled(result)));
        }
    }
    for body in without_comments(text).split("typedef struct ").skip(1) {
        let (name, rest) = body.split_once(" {").expect("a struct");
        for field in rest.split('}').next().unwrap_or("").split(';').map(str::trim).filter(|f| !f.is_empty()) {
            let (of, field) = field.rsplit_once(' ').expect("a type and a name");
            let (field, of) = match field.strip_suffix("[3]") {
                Some(field) => (field, format!("[{}; 3]", spelled(of))),
                None => (field, spelled(of)),
            };
            said.insert(format!("{}.{field}", spelled(name)), of);
        }
    }
    said
}

/// Rust and Rattle declare functions and structs alike.
fn declared(text: &str, marker: &str) -> Said {
    let mut said = Said::new();
    let flat = without_comments(text);
    for part in flat.split(marker).skip(1) {
        let (name, rest) = part.split_once('(').expect("a function");
        let (parameters, rest) = rest.split_once(')').expect("its parameters");
        let result = rest.split_once("-> ").expect("its result").1;
        let result = result.split([' ', ';']).next().expect("a type");
        // One on a line, they end with a comma.
        let parameters = parameters.split(',').map(str::trim).filter(|p| !p.is_empty());
        let types = parameters.map(|p| slice(p.split_once(": ").expect("a name and a type").1));
        said.insert(name.to_string(), format!("{} -> {result}", types.collect::<Vec<_>>().join(", ")));
    }
    for part in flat.split("#[repr(C)]").skip(1) {
        let (before, body) = part.split_once(" {").expect("a struct");
        let name = before.rsplit(' ').next().expect("its name");
        for field in body.split('}').next().unwrap_or("").split("pub ").skip(1) {
            let (field, of) = field.trim().trim_end_matches(',').split_once(": ").expect("a field");
            said.insert(format!("{name}.{field}"), of.to_string());
        }
    }
    said
}

/// A slice crosses as a pointer and a length.
fn slice(of: &str) -> String {
    match (of.strip_prefix("&["), of.strip_prefix("&mut [")) {
        (Some(of), _) => format!("*const {}, usize", of.trim_end_matches(']')),
        (_, Some(of)) => format!("*mut {}, usize", of.trim_end_matches(']')),
        _ => of.to_string(),
    }
}

fn rattle_says(text: &str) -> Said {
    declared(text, "pub extern \"C\" fn ")
}

fn rust_says(text: &str) -> Said {
    declared(text, "pub fn ")
}

/// The exported names of the archive, sorted.
fn symbols(archive: &Path) -> Vec<String> {
    let out = Command::new("nm").args(["--defined-only", "--extern-only"]).arg(archive).output().expect("nm");
    let text = String::from_utf8_lossy(&out.stdout).into_owned();
    let mut names: Vec<String> =
        text.lines().filter_map(|line| line.split_once(" T ")).map(|(_, name)| name.to_string()).collect();
    names.sort();
    names
}

/// Sizes and offsets by the C compiler against those by rustc.
fn layouts(report: &mut Report, root: &Path, header: &Said) {
    let mut code = String::from("#include <stdio.h>\n#include \"becktrestle.h\"\nint main(void) {\n");
    let structs = ["verdict", "yes_no", "count", "sought", "sizes", "mapped"];
    for name in structs {
        code += &format!("  printf(\"{0} %zu\\n\", sizeof(becktrestle_{name}));\n", camel(name));
        for key in header.keys().filter(|k| k.starts_with(&(camel(name) + "."))) {
            let field = key.split_once('.').expect("a field").1;
            code += &format!("  printf(\"{key} %zu\\n\", offsetof(becktrestle_{name}, {field}));\n");
        }
    }
    code += "  return 0;\n}\n";
    let folder = root.join("build");
    fs::create_dir_all(&folder).expect("build/");
    fs::write(folder.join("layout.c"), code).expect("layout.c");
    let compiled = Command::new("gcc")
        .args(["-std=c11", "-Wall", "-Wextra", "-Werror", "-pedantic", "-Iinclude", "build/layout.c", "-o", "build/layout"])
        .current_dir(root)
        .status()
        .expect("gcc");
    assert!(compiled.success(), "layout.c compiles");
    let out = Command::new(folder.join("layout")).output().expect("layout");
    let mut c: Vec<String> = String::from_utf8_lossy(&out.stdout).lines().map(str::to_string).collect();
    let mut rust = rust_layouts();
    c.sort();
    rust.sort();
    report.check(c == rust && c.len() > structs.len(), &format!("{} sizes and offsets are the same in C and Rust", c.len()));
}

macro_rules! layout {
    ($lines:ident, $($name:ident { $($field:ident)* })*) => {$(
        $lines.push(format!("{} {}", stringify!($name), size_of::<becktrestle::ffi::$name>()));
        $($lines.push(format!("{}.{} {}", stringify!($name), stringify!($field), std::mem::offset_of!(becktrestle::ffi::$name, $field)));)*
    )*};
}

fn rust_layouts() -> Vec<String> {
    let mut lines = Vec::new();
    layout!(lines,
        Verdict { refusal carried }
        YesNo { refusal carried yes }
        Count { refusal carried count }
        Sought { refusal carried read yes }
        Sizes { refusal carried headers offsets }
        Mapped { refusal count to }
    );
    lines
}
