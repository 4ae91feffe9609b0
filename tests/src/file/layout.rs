//! Where the parts of a plan file lie.

use crate::model::{Edition, Entry, Row, MAX_ENTRIES, MAX_NODES};

/// The bytes that open a plan file of the first edition.
pub const FIRST_OPENING: [u8; 4] = [0x4C, 0x4D, 0x50, 0x31];
/// The bytes that open a plan file of the second edition.
pub const SECOND_OPENING: [u8; 4] = [0x4C, 0x4D, 0x50, 0x32];
/// Bytes before the contents.
pub const HEAD_BYTES: usize = 8;
/// Bytes of one row of the contents.
pub const ROW_BYTES: usize = 8;
/// Bytes of one entry in a body of the first edition.
pub const FIRST_ENTRY: usize = 20;
/// Bytes of one entry in a body of the second edition.
pub const SECOND_ENTRY: usize = 24;

/// The bytes that open a plan file.
pub fn opening_bytes(edition: Edition) -> [u8; 4] {
    match edition {
        Edition::First => FIRST_OPENING,
        Edition::Second => SECOND_OPENING,
    }
}

/// Bytes of one entry in a body.
pub fn entry_length(edition: Edition) -> usize {
    match edition {
        Edition::First => FIRST_ENTRY,
        Edition::Second => SECOND_ENTRY,
    }
}

/// Bytes of the longest plan file.
pub fn longest(edition: Edition) -> usize {
    HEAD_BYTES + MAX_NODES * (ROW_BYTES + MAX_ENTRIES * entry_length(edition))
}

/// The edition with whose bytes the file opens, if there is one.
pub fn edition_of(file: &[u8]) -> Option<Edition> {
    Edition::BOTH
        .into_iter()
        .find(|&edition| file.starts_with(&opening_bytes(edition)))
}

/// Where the contents of `nodes` rows end and the first body begins.
pub fn contents_end(nodes: usize) -> usize {
    HEAD_BYTES + nodes * ROW_BYTES
}

/// The end of a body of `entries` entries that begins at `offset`.
pub fn body_end(edition: Edition, offset: usize, entries: u8) -> usize {
    offset + usize::from(entries) * entry_length(edition)
}

/// The row at `index`, and its offset.
pub fn row_at(file: &[u8], index: usize) -> (Row, u64) {
    let at = contents_end(index);
    let bytes = &file[at..at + ROW_BYTES];
    let row = Row {
        number: low_first(&bytes[0..2]) as u16,
        levels: bytes[2],
        entries: bytes[3],
    };
    (row, low_first(&bytes[4..8]))
}

/// The entry at `position` of the body that begins at `offset`.
pub fn entry_at(edition: Edition, file: &[u8], offset: usize, position: usize) -> Entry {
    let at = offset + position * entry_length(edition);
    let bytes = &file[at..at + entry_length(edition)];
    Entry {
        number: low_first(&bytes[0..2]) as u16,
        kind: bytes[2],
        r: bytes[3],
        c: low_first(&bytes[4..8]),
        t: low_first(&bytes[8..12]),
        d: low_first(&bytes[12..16]),
        b: low_first(&bytes[16..20]),
        j: match edition {
            Edition::First => 0,
            Edition::Second => low_first(&bytes[20..24]),
        },
    }
}

/// An unsigned number, low byte first.
fn low_first(bytes: &[u8]) -> u64 {
    bytes
        .iter()
        .rev()
        .fold(0, |high, &low| high * 256 + u64::from(low))
}
