//! The checks of a file, in the order of docs/SPEC.md.

use super::layout::{body_end, contents_end, edition_of, entry_at, row_at, HEAD_BYTES};
use crate::limits::{check_entry, check_numbers, check_row};
use crate::model::{Edition, Row, MAX_NODES};
use crate::refusal::{Refusal, COUNT, CUT_OFF, LENGTH, OFFSET, OPENING};

/// Accepts a plan file, or returns the first refusal that is met.
pub fn check(file: &[u8]) -> Result<(), Refusal> {
    let (edition, nodes) = check_head(file)?;
    if file.len() < contents_end(nodes) {
        return Err(Refusal::plain(CUT_OFF));
    }
    let rows = check_contents(edition, file, nodes)?;
    check_bodies(edition, file, &rows)
}

/// Check 1 (8 bytes), then 2, then 3; returns the edition and the node count.
fn check_head(file: &[u8]) -> Result<(Edition, usize), Refusal> {
    if file.len() < HEAD_BYTES {
        return Err(Refusal::plain(CUT_OFF));
    }
    let Some(edition) = edition_of(file) else {
        return Err(Refusal::plain(OPENING));
    };
    let nodes = usize::from(file[4]);
    if nodes == 0 || nodes > MAX_NODES || file[5..8] != [0, 0, 0] {
        return Err(Refusal::plain(COUNT));
    }
    Ok((edition, nodes))
}

/// Checks 4 and 5 row by row, then 6; returns the rows.
fn check_contents(edition: Edition, file: &[u8], nodes: usize) -> Result<Vec<Row>, Refusal> {
    let mut rows = Vec::new();
    let mut last = None;
    let mut required = contents_end(nodes);
    for index in 0..nodes {
        let (row, offset) = row_at(file, index);
        check_row(&row, last, index)?;
        if offset != required as u64 {
            return Err(Refusal::at_row(OFFSET, index));
        }
        last = Some(row.number);
        required = body_end(edition, required, row.entries);
        rows.push(row);
    }
    if file.len() != required {
        return Err(Refusal::plain(LENGTH));
    }
    Ok(rows)
}

/// Node by node: 7, 8 and 14 entry by entry, then 16.
fn check_bodies(edition: Edition, file: &[u8], rows: &[Row]) -> Result<(), Refusal> {
    let mut offset = contents_end(rows.len());
    for (index, row) in rows.iter().enumerate() {
        let mut entries = Vec::new();
        for position in 0..usize::from(row.entries) {
            let entry = entry_at(edition, file, offset, position);
            check_entry(&entry, index, position)?;
            entries.push(entry);
        }
        check_numbers(&entries, index)?;
        offset = body_end(edition, offset, row.entries);
    }
    Ok(())
}
