//! The writer.

use super::layout::{body_end, contents_end, entry_length, opening_bytes, ROW_BYTES};
use crate::limits::{check_entry, check_no_jitter, check_numbers, check_row};
use crate::model::{Edition, Entry, Plan, Row, MAX_NODES};
use crate::refusal::{Refusal, BUFFER, COUNT, LENGTH, OPENING};

/// The writer's checks of a plan to be written in the edition with this
/// number: 2, 3, 4, 6, then node by node 7, 8 and 14 entry by entry and 16.
/// Returns the edition.
pub fn check_parts(edition: u32, rows: &[Row], entries: &[Entry]) -> Result<Edition, Refusal> {
    let Some(edition) = Edition::numbered(edition) else {
        return Err(Refusal::plain(OPENING));
    };
    if rows.is_empty() || rows.len() > MAX_NODES {
        return Err(Refusal::plain(COUNT));
    }
    let mut last = None;
    for (index, row) in rows.iter().enumerate() {
        check_row(row, last, index)?;
        last = Some(row.number);
    }
    let counted: usize = rows.iter().map(|row| usize::from(row.entries)).sum();
    if entries.len() != counted {
        return Err(Refusal::plain(LENGTH));
    }
    let plan = Plan::from_parts(edition, rows, entries);
    for (row, node) in plan.nodes.iter().enumerate() {
        for (position, entry) in node.entries.iter().enumerate() {
            check_entry(entry, row, position)?;
            if edition == Edition::First {
                check_no_jitter(entry, row, position)?;
            }
        }
        check_numbers(&node.entries, row)?;
    }
    Ok(edition)
}

/// Writes the file of the edition with this number from the buffer's start and
/// returns its length.
///
/// Bytes beyond are kept; a refused call keeps them all.
pub fn write(
    edition: u32,
    rows: &[Row],
    entries: &[Entry],
    buffer: &mut [u8],
) -> Result<usize, Refusal> {
    let edition = check_parts(edition, rows, entries)?;
    let file = bytes_of(edition, rows, entries);
    let Some(target) = buffer.get_mut(..file.len()) else {
        return Err(Refusal::plain(BUFFER));
    };
    target.copy_from_slice(&file);
    Ok(file.len())
}

/// The file of a plan that the writer accepts, in the plan's edition.
pub fn encode(plan: &Plan) -> Result<Vec<u8>, Refusal> {
    let (rows, entries) = (plan.rows(), plan.entries());
    let edition = check_parts(plan.edition.number(), &rows, &entries)?;
    Ok(bytes_of(edition, &rows, &entries))
}

fn bytes_of(edition: Edition, rows: &[Row], entries: &[Entry]) -> Vec<u8> {
    let mut file = opening_bytes(edition).to_vec();
    file.extend([rows.len() as u8, 0, 0, 0]);
    let mut offset = contents_end(rows.len());
    for row in rows {
        file.extend(row_bytes(row, offset));
        offset = body_end(edition, offset, row.entries);
    }
    file.extend(entries.iter().flat_map(|e| entry_bytes(edition, e)));
    file
}

fn row_bytes(row: &Row, offset: usize) -> [u8; ROW_BYTES] {
    let [number_low, number_high] = row.number.to_le_bytes();
    let [o0, o1, o2, o3] = (offset as u32).to_le_bytes();
    let Row {
        levels, entries, ..
    } = *row;
    [number_low, number_high, levels, entries, o0, o1, o2, o3]
}

/// The bytes of one entry; ticks are truncated to four bytes.
pub fn entry_bytes(edition: Edition, entry: &Entry) -> Vec<u8> {
    let mut bytes = vec![0; entry_length(edition)];
    bytes[0..2].copy_from_slice(&entry.number.to_le_bytes());
    bytes[2] = entry.kind;
    bytes[3] = entry.r;
    // In the first edition there is no room for the last one.
    let ticks = [entry.c, entry.t, entry.d, entry.b, entry.j];
    for (field, value) in bytes[4..].chunks_exact_mut(4).zip(ticks) {
        field.copy_from_slice(&(value as u32).to_le_bytes());
    }
    bytes
}
