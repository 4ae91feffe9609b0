//! The listing of a plan file.

use super::entry::{Entry, FirstBytes, InFile, SecondBytes};
use super::file::{edition_of, Plan, Row};
use super::map::Groups;
use super::text::Text;
use super::timing::{runs_of, Test};
use crate::model::Edition;
use crate::refusal::{Refusal, BUFFER};
use crate::timing::Timing;

/// Lists a file, or its refusal, and returns the text's length. If the text
/// does not fit, the buffer is left as it was.
#[inline(never)]
pub fn list(file: &[u8], out: &mut [u8]) -> Result<usize, Refusal> {
    match edition_of(file) {
        Ok(Edition::First) => list_plan(Plan::<FirstBytes>::of(file), out),
        Ok(Edition::Second) => list_plan(Plan::<SecondBytes>::of(file), out),
        Err(refusal) => list_plan::<FirstBytes>(Err(refusal), out),
    }
}

fn list_plan<E: InFile>(plan: Result<Plan<E>, Refusal>, out: &mut [u8]) -> Result<usize, Refusal> {
    if out.len() >= most_text(&plan) {
        return put_listing(plan, out).ok_or(Refusal::plain(BUFFER));
    }
    let kept = out.to_vec();
    put_listing(plan, out).ok_or_else(|| {
        out.copy_from_slice(&kept);
        Refusal::plain(BUFFER)
    })
}

/// A bound on the listing's length.
fn most_text<E: InFile>(plan: &Result<Plan<E>, Refusal>) -> usize {
    match plan {
        Ok(plan) => 9 + 29 * plan.node_count() + 56 * plan.entry_count(),
        Err(_) => 64,
    }
}

/// The text's length, if it fits.
fn put_listing<E: InFile>(plan: Result<Plan<E>, Refusal>, out: &mut [u8]) -> Option<usize> {
    let mut text = Text::new(out);
    match plan {
        Ok(plan) => {
            text.put_field(b"plan ", plan.node_count() as u32)?;
            text.put(b"\n")?;
            for (row, entries) in plan.nodes() {
                put_node(&mut text, row, entries)?;
            }
        }
        Err(refusal) => {
            text.put_field(b"refused ", u32::from(refusal.number))?;
            text.put_field(b" row ", refusal.row as u32)?;
            text.put_field(b" entry ", refusal.entry as u32)?;
            text.put(b"\n")?;
        }
    }
    Some(text.length())
}

fn put_node<E: Entry>(text: &mut Text, row: Row, entries: &[E]) -> Option<()> {
    text.put_field(b"node ", u32::from(row.number))?;
    let Some(groups) = Groups::of(entries, row.levels) else {
        return text.put(b" no map\n");
    };
    text.put_field(b" levels ", groups.count as u32)?;
    text.put_field(b" of ", u32::from(row.levels))?;
    text.put(b"\n")?;
    // Group by group: its first position, its end, and its level.
    let ends = groups.starts().skip(1).chain([entries.len()]);
    for ((first, end), level) in groups.starts().zip(ends).zip(1..) {
        put_group(text, &entries[..end], first, level)?;
    }
    Some(())
}

/// The lines of the entries from `first` on.
fn put_group<E: Entry>(text: &mut Text, entries: &[E], first: usize, level: u32) -> Option<()> {
    let runs = runs_of(entries);
    for (i, entry) in entries.iter().enumerate().skip(first) {
        let timing = Test::new(entries, first, i, runs).completion();
        let Timing::OnTime { time, rounds } = timing else {
            unreachable!("no entry of a map is late");
        };
        text.put_field(b"entry ", entry.number())?;
        text.put_field(b" level ", level)?;
        text.put_field(b" time ", time as u32)?;
        text.put_field(b" rounds ", rounds as u32)?;
        text.put(b"\n")?;
    }
    Some(())
}
