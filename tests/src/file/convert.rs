//! Conversion of a file into the other edition.

use super::read::decode;
use super::write::encode;
use crate::model::{Edition, Plan};
use crate::refusal::{Refusal, BUFFER, JITTER_LOST, OPENING};

/// Converts a file out of this edition into the other one: forward out of the
/// first, back out of the second.
pub fn convert(from: Edition, file: &[u8], buffer: &mut [u8]) -> Result<usize, Refusal> {
    match from {
        Edition::First => convert_forward(file, buffer),
        Edition::Second => convert_back(file, buffer),
    }
}

/// Writes the plan of a first-edition file as a file of the second edition, with
/// every J 0, from the buffer's start, and returns its length. Checks the file,
/// then 2 and 10.
///
/// Bytes beyond are kept; a refused call keeps them all.
pub fn convert_forward(file: &[u8], buffer: &mut [u8]) -> Result<usize, Refusal> {
    let plan = plan_of(Edition::First, file)?;
    put(Edition::Second, plan, buffer)
}

/// Writes the plan of a second-edition file as a file of the first edition,
/// which has no room for J. Checks the file, then 2, 15 and 10.
///
/// Bytes beyond are kept; a refused call keeps them all.
pub fn convert_back(file: &[u8], buffer: &mut [u8]) -> Result<usize, Refusal> {
    let plan = plan_of(Edition::Second, file)?;
    check_nothing_is_lost(&plan)?;
    put(Edition::First, plan, buffer)
}

/// The file's own checks, then 2: the plan of a file of this edition.
fn plan_of(edition: Edition, file: &[u8]) -> Result<Plan, Refusal> {
    let plan = decode(file)?;
    if plan.edition != edition {
        return Err(Refusal::plain(OPENING));
    }
    Ok(plan)
}

/// Check 15, row by row and entry by entry.
fn check_nothing_is_lost(plan: &Plan) -> Result<(), Refusal> {
    for (row, node) in plan.nodes.iter().enumerate() {
        for (position, entry) in node.entries.iter().enumerate() {
            if entry.j > 0 {
                return Err(Refusal::at_entry(JITTER_LOST, row, position));
            }
        }
    }
    Ok(())
}

/// Writes the plan in this edition, after check 10.
fn put(edition: Edition, plan: Plan, buffer: &mut [u8]) -> Result<usize, Refusal> {
    let nodes = plan.nodes;
    let file = encode(&Plan { edition, nodes }).expect("an accepted plan without J fits both");
    if buffer.len() < file.len() {
        return Err(Refusal::plain(BUFFER));
    }
    buffer[..file.len()].copy_from_slice(&file);
    Ok(file.len())
}
