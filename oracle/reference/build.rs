//! Looks for the sources of the Rust library 1.97.0 and, where they are at hand, writes a file
//! that takes them in by path, so that they are built as they stand, without a changed letter.

use std::{env, fs, path::PathBuf};

const UNICODE_DATA: &str = "library/core/src/unicode/unicode_data.rs";
const PRINTABLE: &str = "library/core/src/unicode/printable.rs";

fn main() {
    let here = PathBuf::from(env::var("CARGO_MANIFEST_DIR").unwrap());
    let src = match env::var("BECKTRESTLE_SRC") {
        Ok(given) => PathBuf::from(given),
        Err(_) => here.join("../../../shared/docs/src"),
    };
    println!("cargo:rerun-if-env-changed=BECKTRESTLE_SRC");
    println!("cargo:rerun-if-changed=build.rs");
    // A file that is not there would have everything built again each time: `check` and `make` set
    // BECKTRESTLE_SRC when the sources are there, and so make this run when they come.
    if !(src.join(UNICODE_DATA).is_file() && src.join(PRINTABLE).is_file()) {
        return;
    }
    for file in [UNICODE_DATA, PRINTABLE] {
        println!("cargo:rerun-if-changed={}", src.join(file).display());
    }
    let src = src.canonicalize().unwrap();
    // Not all of the tables are asked for here: Case_Ignorable and Grapheme_Extend are not ported.
    let modules = format!(
        "#[allow(dead_code)]\n#[path = {:?}]\nmod unicode_data;\n#[path = {:?}]\nmod printable;\n",
        src.join(UNICODE_DATA),
        src.join(PRINTABLE),
    );
    let out = PathBuf::from(env::var("OUT_DIR").unwrap()).join("sources.rs");
    fs::write(out, modules).unwrap();
    println!("cargo:rustc-cfg=have_sources");
    println!("cargo:rustc-env=BECKTRESTLE_SOURCES={}", src.display());
}
