//! Sessions: the lent memory is checked, read and changed in place.

use super::entry::{has_number, refusal_in, Entry, WordMarks, Words, MOST};
use super::map::Groups;
use super::timing::{runs_of, Test};
use crate::refusal::{Refusal, BUFFER, FULL, NO_MAP, POSITION, REPEAT, ROW};
use crate::timing::Timing;

/// The lent memory.
pub use crate::ffi::session::Session;

/// The entries of a sound session, or the session's refusal.
fn held(session: &Session) -> Result<&[Words], Refusal> {
    if !(1..=64).contains(&session.levels) {
        return Err(Refusal::at_row(ROW, 0));
    }
    let slots: &[Words] = session.words.as_chunks().0;
    let entries = slots
        .get(..session.count as usize)
        .ok_or(Refusal::at_row(ROW, 0))?;
    if !entries.iter().all(Entry::holds) {
        return Err(refusal_in(entries, 0).expect("an entry is outside the limits"));
    }
    WordMarks::new().check(entries, 0)?;
    Ok(entries)
}

/// The slots of a session's entries, used or not.
fn slots(session: &mut Session) -> &mut [Words] {
    session.words.as_chunks_mut().0
}

/// Leaves a session with its first `count` entries, and zeros after them.
fn clear_rest(session: &mut Session, count: usize) {
    session.count = count as u32;
    session.words[count * 6..].fill(0);
}

/// Stores that there is no map.
fn clear_store(session: &mut Session) {
    (session.mapped, session.used) = (0, 0);
    session.map = [0; MOST];
    session.times = [0; MOST];
}

/// Stores the map of the node, and the times under it.
fn store(session: &mut Session) {
    clear_store(session);
    let entries: &[Words] = &session.words.as_chunks().0[..session.count as usize];
    let Some(groups) = Groups::of(entries, session.levels as u8) else {
        return;
    };
    (session.mapped, session.used) = (1, groups.count as u32);
    let ends = groups.starts().skip(1).chain([entries.len()]);
    for ((first, end), level) in groups.starts().zip(ends).zip(1..) {
        session.map[first..end].fill(level);
        put_times(&mut session.times, &entries[..end], first);
    }
}

/// The times of the entries from `first` on, which are a group. An entry of the
/// group without calls ends no later than one with as much blocking or more.
fn put_times(times: &mut [u32; MOST], entries: &[Words], first: usize) {
    let runs = runs_of(entries);
    let (mut blocking, mut time) = (0, 0);
    for (i, entry) in entries.iter().enumerate().skip(first) {
        let known = if blocking <= entry.blocking() {
            time
        } else {
            0
        };
        let found = Test::new(entries, first, i, runs).time_from(known);
        times[i] = found as u32;
        if entry.calls() == 0 {
            (blocking, time) = (entry.blocking(), found);
        }
    }
}

/// Whether the store has a map with at most the session's levels.
fn has_map(session: &Session) -> bool {
    session.mapped == 1 && session.used <= session.levels
}

fn check_levels(levels: u8) -> Result<(), Refusal> {
    if (1..=64).contains(&levels) {
        Ok(())
    } else {
        Err(Refusal::at_row(ROW, 0))
    }
}

fn check_entry(entry: &Words, position: usize) -> Result<(), Refusal> {
    if entry.holds() {
        return Ok(());
    }
    let refusal = refusal_in(&[*entry], 0).expect("the entry is outside the limits");
    Err(Refusal {
        entry: position,
        ..refusal
    })
}

/// Opens a session, whatever it held.
#[inline(never)]
pub fn open(session: &mut Session, levels: u8) -> Result<(), Refusal> {
    check_levels(levels)?;
    session.levels = u32::from(levels);
    clear_rest(session, 0);
    store(session);
    Ok(())
}

/// Sets the level count. A map that needs no more levels stays; without one,
/// only more levels than before are searched.
#[inline(never)]
pub fn set_levels(session: &mut Session, levels: u8) -> Result<(), Refusal> {
    let count = held(session)?.len();
    check_levels(levels)?;
    let before = session.levels;
    session.levels = u32::from(levels);
    clear_rest(session, count);
    if has_map(session) {
        return Ok(());
    }
    if session.levels <= before {
        clear_store(session);
    } else {
        store(session);
    }
    Ok(())
}

/// Inserts an entry before a position, or appends it.
#[inline(never)]
pub fn insert(session: &mut Session, position: usize, entry: &Words) -> Result<(), Refusal> {
    let count = held(session)?.len();
    if position > count {
        return Err(Refusal::plain(POSITION));
    }
    if count == MOST {
        return Err(Refusal::plain(FULL));
    }
    check_entry(entry, position)?;
    let slots = slots(session);
    if has_number(&slots[..count], entry.number()) {
        return Err(Refusal::at_entry(REPEAT, 0, position));
    }
    slots.copy_within(position..count, position + 1);
    slots[position] = *entry;
    clear_rest(session, count + 1);
    store(session);
    Ok(())
}

/// Removes the entry at a position.
#[inline(never)]
pub fn remove(session: &mut Session, position: usize) -> Result<(), Refusal> {
    let count = held(session)?.len();
    if position >= count {
        return Err(Refusal::plain(POSITION));
    }
    slots(session).copy_within(position + 1..count, position);
    clear_rest(session, count - 1);
    store(session);
    Ok(())
}

/// Replaces the entry at a position.
#[inline(never)]
pub fn replace(session: &mut Session, position: usize, entry: &Words) -> Result<(), Refusal> {
    let count = held(session)?.len();
    if position >= count {
        return Err(Refusal::plain(POSITION));
    }
    check_entry(entry, position)?;
    let slots = slots(session);
    let (before, behind) = (&slots[..position], &slots[position + 1..count]);
    if has_number(before, entry.number()) || has_number(behind, entry.number()) {
        return Err(Refusal::at_entry(REPEAT, 0, position));
    }
    slots[position] = *entry;
    clear_rest(session, count);
    store(session);
    Ok(())
}

/// Times the entry at `i` in the group from `first` to `last`.
#[inline(never)]
pub fn time(session: &Session, first: usize, last: usize, i: usize) -> Result<Timing, Refusal> {
    let entries = held(session)?;
    if first > i || i > last || last >= entries.len() {
        return Err(Refusal::plain(POSITION));
    }
    let entries = &entries[..=last];
    Ok(Test::new(entries, first, i, runs_of(entries)).completion())
}

/// Copies the stored map, and returns the levels used.
#[inline(never)]
pub fn map(session: &Session, levels: &mut [u8]) -> Result<usize, Refusal> {
    let count = held(session)?.len();
    let levels = levels.get_mut(..count).ok_or(Refusal::plain(BUFFER))?;
    if !has_map(session) {
        return Err(Refusal::plain(NO_MAP));
    }
    for (level, stored) in levels.iter_mut().zip(&session.map) {
        *level = *stored as u8;
    }
    Ok(session.used as usize)
}

/// The stored time of the entry at `i` under the map.
#[inline(never)]
pub fn map_time(session: &Session, i: usize) -> Result<u64, Refusal> {
    if i >= held(session)?.len() {
        return Err(Refusal::plain(POSITION));
    }
    if !has_map(session) {
        return Err(Refusal::plain(NO_MAP));
    }
    Ok(u64::from(session.times[i]))
}
