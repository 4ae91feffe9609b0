//! Files from one edition into the other, from bytes to bytes.

use super::entry::{Entry, FirstBytes, InFile, SecondBytes};
use super::file::{edition_of, put_contents, Plan, HEAD};
use crate::model::Edition;
use crate::refusal::{Refusal, BUFFER, JITTER_LOST, OPENING};

/// Converts a first-edition file into the second edition, and returns the new
/// length.
#[inline(never)]
pub fn convert_forward(file: &[u8], out: &mut [u8]) -> Result<usize, Refusal> {
    match edition_of(file)? {
        Edition::First => {
            let plan = Plan::<FirstBytes>::of(file)?;
            put(&plan, b"LMP2", out, with_zeros)
        }
        Edition::Second => Err(refused::<SecondBytes>(file)),
    }
}

/// Converts a second-edition file without J into the first edition, and returns
/// the new length.
#[inline(never)]
pub fn convert_back(file: &[u8], out: &mut [u8]) -> Result<usize, Refusal> {
    match edition_of(file)? {
        Edition::First => Err(refused::<FirstBytes>(file)),
        Edition::Second => {
            let plan = Plan::<SecondBytes>::of(file)?;
            // All J in one loop without a branch; only a refused file needs a
            // second pass, for the place.
            let jitters = plan.entries().iter().map(Entry::jitter);
            if jitters.fold(0, |all, jitter| all | jitter) > 0 {
                return Err(loss(&plan));
            }
            put(&plan, b"LMP1", out, without_jitter)
        }
    }
}

fn with_zeros(entry: &FirstBytes) -> SecondBytes {
    let mut longer = [0; 24];
    longer[..20].copy_from_slice(entry);
    longer
}

fn without_jitter(entry: &SecondBytes) -> FirstBytes {
    let mut shorter = [0; 20];
    shorter.copy_from_slice(&entry[..20]);
    shorter
}

/// The refusal of a file of the wrong edition: one of its own, or 2.
#[cold]
fn refused<E: InFile>(file: &[u8]) -> Refusal {
    let found = Plan::<E>::of(file).err();
    found.unwrap_or(Refusal::plain(OPENING))
}

/// The refusal of the first entry with J.
#[cold]
fn loss(plan: &Plan<SecondBytes>) -> Refusal {
    for (row, (_, entries)) in plan.nodes().enumerate() {
        if let Some(at) = entries.iter().position(|entry| entry.jitter() > 0) {
            return Refusal::at_entry(JITTER_LOST, row, at);
        }
    }
    unreachable!("an entry has J")
}

/// Writes the plan with this opening, each entry of N bytes by `entry`.
fn put<E: InFile, const N: usize>(
    plan: &Plan<E>,
    opening: &[u8; 4],
    out: &mut [u8],
    entry: fn(&E) -> [u8; N],
) -> Result<usize, Refusal> {
    let bodies = HEAD + plan.node_count() * 8;
    let length = bodies + plan.entry_count() * N;
    let out = out.get_mut(..length).ok_or(Refusal::plain(BUFFER))?;
    let (contents, bodies) = out.split_at_mut(bodies);
    put_contents(opening, plan.row_words(), contents, N);
    for (target, bytes) in bodies.as_chunks_mut().0.iter_mut().zip(plan.entries()) {
        *target = entry(bytes);
    }
    Ok(length)
}
