//! Where things lie: the repository, the committed data, and what may stand beside the repository.

use std::path::{Path, PathBuf};

pub fn data() -> PathBuf {
    Path::new(env!("CARGO_MANIFEST_DIR")).join("../data")
}

/// The sources of the Rust library 1.97.0, as found when the reference was built.
pub fn sources() -> Option<PathBuf> {
    option_env!("BECKTRESTLE_SOURCES").map(PathBuf::from)
}

/// Unicode's own lists: BECKTRESTLE_UNICODE, or the optional sibling folder ../shared/unicode.
pub fn unicode() -> Option<PathBuf> {
    let folder = match std::env::var_os("BECKTRESTLE_UNICODE") {
        Some(given) => PathBuf::from(given),
        None => Path::new(env!("CARGO_MANIFEST_DIR")).join("../../../shared/unicode"),
    };
    folder.is_dir().then_some(folder)
}
