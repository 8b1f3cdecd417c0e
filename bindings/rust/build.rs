//! Tells cargo where libbecktrestle.a is: in BECKTRESTLE_LIB_DIR, or where `rt lib` in crates/becktrestle writes it.
use std::{env, path::PathBuf};

fn main() {
    println!("cargo:rerun-if-env-changed=BECKTRESTLE_LIB_DIR");
    let folder = env::var_os("BECKTRESTLE_LIB_DIR").map(PathBuf::from).unwrap_or_else(|| {
        PathBuf::from(env::var_os("CARGO_MANIFEST_DIR").unwrap()).join("../../crates/becktrestle/out")
    });
    let archive = folder.join("libbecktrestle.a");
    if !archive.is_file() {
        panic!(
            "{} is not there: run `rt lib` in the repository's crates/becktrestle, or set BECKTRESTLE_LIB_DIR",
            archive.display()
        );
    }
    println!("cargo:rerun-if-changed={}", archive.display());
    println!("cargo:rustc-link-search=native={}", folder.display());
    println!("cargo:rustc-link-lib=static=becktrestle");
}
