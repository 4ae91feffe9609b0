//! Kept plan files and sequences of session operations: the samples, and what
//! fuzz runs have found.

use crate::programs::root;
use crate::sequences::Sequence;
use std::fs;
use std::path::PathBuf;

/// Where a fuzz run puts a file or a sequence on which the implementations
/// differ.
pub fn found() -> PathBuf {
    root().join("tests/corpus")
}

/// Every kept file, sorted by name.
pub fn kept() -> Vec<Vec<u8>> {
    ending("plan")
        .into_iter()
        .map(|path| fs::read(path).expect("the file can be read"))
        .collect()
}

/// Every kept sequence of operations, sorted by name.
pub fn kept_sequences() -> Vec<Sequence> {
    ending("session")
        .into_iter()
        .map(|path| Sequence::from_text(&fs::read_to_string(path).expect("the file can be read")))
        .collect()
}

/// The kept files whose names have this ending.
fn ending(end: &str) -> Vec<PathBuf> {
    let mut names: Vec<PathBuf> = [root().join("samples"), found()]
        .into_iter()
        .filter_map(|folder| fs::read_dir(folder).ok())
        .flatten()
        .map(|entry| entry.expect("the folder can be read").path())
        .filter(|path| path.extension().is_some_and(|found| found == end))
        .collect();
    names.sort();
    names
}
