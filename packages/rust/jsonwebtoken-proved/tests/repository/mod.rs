//! Files of the repository.

use std::path::{Path, PathBuf};

/// Returns the text of a file of the repository. In a copy of the crate, JWT_ROWS names another file of the repository.
pub fn file(path: &str) -> String {
    let ours = concat!(env!("CARGO_MANIFEST_DIR"), "/../../..");
    let named = std::env::var("JWT_ROWS").ok().and_then(|it| Path::new(&it).ancestors().nth(4).map(Path::to_path_buf));
    std::fs::read_to_string(named.unwrap_or_else(|| PathBuf::from(ours)).join(path)).unwrap()
}
