//! The reader.

use super::check::check;
use super::layout::{edition_of, entry_at, row_at};
use crate::model::{Edition, Entry, Node, Plan, Row};
use crate::refusal::{Refusal, BUFFER, OPENING};

/// The plan in an accepted file.
pub fn decode(file: &[u8]) -> Result<Plan, Refusal> {
    check(file)?;
    let edition = edition_of(file).ok_or(Refusal::plain(OPENING))?;
    let nodes = (0..usize::from(file[4]))
        .map(|index| node_at(edition, file, index))
        .collect();
    Ok(Plan { edition, nodes })
}

/// Fills lent rows and entries from the start, and returns how many of each,
/// and the edition of the file.
///
/// What lies beyond is kept; a refused call keeps everything.
pub fn read(
    file: &[u8],
    rows: &mut [Row],
    entries: &mut [Entry],
) -> Result<(usize, usize, Edition), Refusal> {
    let plan = decode(file)?;
    let (found_rows, found_entries) = (plan.rows(), plan.entries());
    if rows.len() < found_rows.len() || entries.len() < found_entries.len() {
        return Err(Refusal::plain(BUFFER));
    }
    rows[..found_rows.len()].copy_from_slice(&found_rows);
    entries[..found_entries.len()].copy_from_slice(&found_entries);
    Ok((found_rows.len(), found_entries.len(), plan.edition))
}

fn node_at(edition: Edition, file: &[u8], index: usize) -> Node {
    let (row, offset) = row_at(file, index);
    let offset = usize::try_from(offset).expect("an accepted offset lies in the file");
    Node {
        number: row.number,
        levels: row.levels,
        entries: (0..usize::from(row.entries))
            .map(|position| entry_at(edition, file, offset, position))
            .collect(),
    }
}
