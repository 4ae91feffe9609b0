//! Single faults in an entry or a row.
//!
//! Each fault makes its entry or row wrong, whatever was broken before, so that
//! faults can be combined.

use super::jitter::most;
use crate::model::{Entry, Row, MAX_ENTRIES, MAX_LEVELS, MAX_R, MAX_TICKS, SECTION, TASK};
use crate::rng::Rng;

/// The largest number of ticks that a file can hold.
pub const MOST_TICKS: u64 = u32::MAX as u64;

/// Aims at 7.
pub fn break_kind(rng: &mut Rng, entry: &mut Entry) {
    match rng.below(4) {
        0 => entry.kind = rng.pick(&[0, 3, 255]),
        1 => entry.kind = rng.byte(3, 255),
        2 => {
            entry.kind = rng.pick(&[TASK, SECTION]);
            entry.r = rng.byte(MAX_R + 1, 255);
        }
        _ => {
            entry.kind = SECTION;
            entry.r = rng.byte(1, MAX_R);
        }
    }
}

/// Aims at 8.
pub fn break_ticks(rng: &mut Rng, entry: &mut Entry) {
    match rng.below(7) {
        0 => entry.c = 0,
        1 => entry.c = (entry.d + 1).min(MOST_TICKS),
        2 => entry.d = entry.c.saturating_sub(1),
        3 => entry.d = (entry.t + 1).min(MOST_TICKS),
        4 => entry.t = entry.d.saturating_sub(1),
        5 => entry.t = rng.pick(&[MAX_TICKS + 1, MOST_TICKS]),
        _ => entry.b = rng.pick(&[MAX_TICKS + 1, MOST_TICKS]),
    }
}

/// Aims at 14, in the second edition and in a session.
pub fn break_jitter(rng: &mut Rng, entry: &mut Entry) {
    let most = most(entry);
    entry.j = rng.pick(&[
        most + 1,
        most + 1,
        most + 2,
        entry.d + 1,
        1 << 31,
        MOST_TICKS,
    ]);
    entry.j = entry.j.clamp(most + 1, MOST_TICKS);
}

/// Aims at 14 in a plan to be written in the first edition.
pub fn put_jitter(rng: &mut Rng, entry: &mut Entry) {
    let most = most(entry);
    entry.j = rng.pick(&[1, 1, most, most + 1, 1 << 8, 1 << 16, 1 << 24, MOST_TICKS]);
    entry.j = entry.j.clamp(1, MOST_TICKS);
}

/// Aims at 4; `last` is the number of the row before.
pub fn break_row(rng: &mut Rng, row: &mut Row, last: Option<u16>) {
    match (rng.below(3), last) {
        (0, Some(last)) => row.number = rng.pick(&[last, last.saturating_sub(1), 0]),
        (1, _) => row.entries = rng.byte(MAX_ENTRIES as u8 + 1, 255),
        _ => row.levels = rng.pick(&[0, MAX_LEVELS as u8 + 1, 255]),
    }
}
