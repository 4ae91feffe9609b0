//! The map of a node.

use super::entry::{Entry, FirstBytes, InFile, SecondBytes, MOST};
use super::file::{edition_of, Plan};
use super::timing::{runs_of, Test};
use crate::model::Edition;
use crate::refusal::{Refusal, BUFFER, NO_MAP, NO_NODE};

/// The groups of a map.
pub struct Groups {
    /// Their first positions, from the least urgent group on.
    starts: [u8; MOST],
    /// How many there are.
    pub count: usize,
}

impl Groups {
    /// The groups of a node, if it has a map with at most `levels` levels.
    pub fn of<E: Entry>(entries: &[E], levels: u8) -> Option<Groups> {
        let mut groups = Groups {
            starts: [0; MOST],
            count: 0,
        };
        let mut rest = entries;
        while !rest.is_empty() {
            if groups.count >= usize::from(levels) {
                return None;
            }
            let start = least_start(rest)?;
            groups.starts[groups.count] = start as u8;
            groups.count += 1;
            rest = &rest[..start];
        }
        Some(groups)
    }

    /// The first positions, from the most urgent group on.
    pub fn starts(&self) -> impl Iterator<Item = usize> + '_ {
        self.starts[..self.count]
            .iter()
            .rev()
            .map(|&start| usize::from(start))
    }
}

/// The least start of a group that ends with the last entry and in which no
/// entry is late.
fn least_start<E: Entry>(entries: &[E]) -> Option<usize> {
    let runs = runs_of(entries);
    let late = |e: &E| u64::from(e.blocking()) + runs > u64::from(e.limit());
    let mut start = entries.iter().rposition(late).map_or(0, |i| i + 1);
    'starts: while start < entries.len() {
        for i in (start..entries.len()).rev() {
            if !Test::new(entries, start, i, runs).is_on_time() {
                // Entry i is late in every group that starts later and contains
                // it.
                start = i + 1;
                continue 'starts;
            }
        }
        return Some(start);
    }
    None
}

/// Maps the entries of a node, and returns the levels used.
pub fn map_entries<E: Entry>(entries: &[E], levels: u8, out: &mut [u8]) -> Result<usize, Refusal> {
    let out = out.get_mut(..entries.len()).ok_or(Refusal::plain(BUFFER))?;
    let groups = Groups::of(entries, levels).ok_or(Refusal::plain(NO_MAP))?;
    let mut end = entries.len();
    for (rank, &start) in groups.starts[..groups.count].iter().enumerate() {
        let start = usize::from(start);
        out[start..end].fill((groups.count - rank) as u8);
        end = start;
    }
    Ok(groups.count)
}

/// Maps the node of a file with this number, and returns the levels used.
#[inline(never)]
pub fn map(file: &[u8], number: u16, levels: &mut [u8]) -> Result<usize, Refusal> {
    match edition_of(file)? {
        Edition::First => map_in(Plan::<FirstBytes>::of(file)?, number, levels),
        Edition::Second => map_in(Plan::<SecondBytes>::of(file)?, number, levels),
    }
}

fn map_in<E: InFile>(plan: Plan<E>, number: u16, levels: &mut [u8]) -> Result<usize, Refusal> {
    let (row, entries) = plan
        .nodes()
        .find(|(row, _)| row.number == number)
        .ok_or(Refusal::plain(NO_NODE))?;
    map_entries(entries, row.levels, levels)
}
