//! Sequences of session operations, refused ones included.

use super::entries;
use super::faults::{break_jitter, break_kind, break_ticks};
use super::jitter::any;
use super::lent::{damaged, sound};
use super::numbers::{free, held};
use super::overruns;
use super::sessions::FAMILIES;
use crate::lent::{apply, session_in, SESSION_WORDS};
use crate::model::{Entry, MAX_LEVELS};
use crate::rng::Rng;
use crate::sequences::Sequence;
use crate::session::{Op, Session};
use crate::tally::Tally;

/// How a sequence of operations develops.
#[derive(Clone, Copy, Debug, PartialEq, Eq)]
pub enum Course {
    /// A short list with changes everywhere.
    Short,
    /// A list that grows until it is full.
    Growing,
}

/// The next operation on the session.
pub fn next_op(rng: &mut Rng, session: &Session, course: Course) -> Op {
    let len = session.entries().len();
    let growing = course == Course::Growing || len < 3;
    let inserts = if growing { 10 } else { 3 };
    // Mapping a long list takes long.
    let maps = if len <= 12 || rng.chance(1, 40) { 4 } else { 0 };
    // More of these would keep the list from growing.
    let (removes, sets) = match course {
        Course::Growing => (1, 1),
        Course::Short => (3, 2),
    };
    let opens = u64::from(course == Course::Short && rng.chance(1, 3));
    let weights = [inserts, removes, 3, sets, 4, maps, maps / 2, opens];
    match weighted(rng, &weights) {
        0 => {
            let (at, entry) = (position(rng, len + 1), entry(rng, course));
            let number = number(rng, session.entries(), None, course);
            Op::Insert(at, Entry { number, ..entry })
        }
        1 => Op::Remove(position(rng, len)),
        2 => {
            let (at, entry) = (position(rng, len), entry(rng, course));
            let replaced = session.entries().get(at);
            let number = number(rng, session.entries(), replaced, course);
            Op::Replace(at, Entry { number, ..entry })
        }
        3 => Op::SetLevels(levels(rng)),
        4 => group(rng, len),
        5 => Op::Map,
        6 => Op::MapTime(position(rng, len)),
        _ => Op::Open(levels(rng)),
    }
}

/// A sequence of operations on a blank, short, nearly full or damaged session,
/// or on one that holds a node of a plan or times a late entry; the tally counts
/// what is left out for its cost.
pub fn sequence(rng: &mut Rng, tally: &mut Tally) -> Sequence {
    if rng.chance(1, 10) {
        return overruns::sequence(rng);
    }
    if rng.chance(1, 3) {
        let family = rng.pick(&FAMILIES);
        return family.sequence(rng, tally);
    }
    let (start, course) = match rng.below(4) {
        0 => ([0; SESSION_WORDS], Course::Short),
        1 => (sound(rng, 4), Course::Short),
        2 => (sound(rng, 63), Course::Growing),
        _ => (damaged(rng), Course::Short),
    };
    let mut ops = vec![Op::Open(levels(rng))];
    if start[0] > 0 {
        ops.clear();
    }
    let mut words = start;
    for _ in 0..rng.range(1, 20) {
        let held = session_in(&words).or_else(|_| Session::open(1));
        let op = next_op(rng, &held.expect("1 is a level count"), course);
        let _ = apply(&mut words, &op, &mut []);
        ops.push(op);
    }
    Sequence { start, ops }
}

/// A level count, now and then outside the limits.
pub fn levels(rng: &mut Rng) -> usize {
    let inside = rng.count(1, MAX_LEVELS);
    rng.pick(&[inside, inside, 1, 2, 3, 4, 64, 0, 65, 256, 257, usize::MAX])
}

/// Mostly a position below `end`, else one just outside or far outside.
pub fn position(rng: &mut Rng, end: usize) -> usize {
    if end > 0 && !rng.chance(1, 10) {
        rng.index(end)
    } else {
        rng.pick(&[end, end, end + 1, usize::MAX])
    }
}

/// A timing of an entry in a group, now and then with positions in a wrong
/// order.
pub fn group(rng: &mut Rng, len: usize) -> Op {
    let mut places = [position(rng, len), position(rng, len), position(rng, len)];
    if !rng.chance(1, 5) {
        places.sort();
    }
    Op::Time(places[0], places[2], places[1])
}

/// The number of an entry to be put in, or in place of `replaced`: mostly one
/// that is free, or that of the replaced entry, else that of any entry, or one of
/// a few, which may have been removed before.
fn number(rng: &mut Rng, entries: &[Entry], replaced: Option<&Entry>, course: Course) -> u16 {
    let drawn = rng.below(match course {
        Course::Short => 12,
        // More refusals would keep the list from growing.
        Course::Growing => 20,
    });
    match (drawn, replaced) {
        (0..3, _) => held(rng, entries).unwrap_or(0),
        (3 | 4, _) => rng.range(1, 2 + 2 * entries.len() as u64) as u16,
        (5..9, Some(replaced)) => replaced.number,
        _ => free(rng, entries),
    }
}

fn entry(rng: &mut Rng, course: Course) -> Entry {
    let mut entry = match course {
        Course::Short => entries::tiny(rng, 4)[0],
        Course::Growing => entries::light(rng, 1)[0],
    };
    if rng.chance(1, 3) {
        entry.j = any(rng, &entry);
    }
    match rng.below(16) {
        0 => break_kind(rng, &mut entry),
        1 | 2 => break_ticks(rng, &mut entry),
        3 | 4 => break_jitter(rng, &mut entry),
        5 => {
            break_kind(rng, &mut entry);
            break_ticks(rng, &mut entry);
        }
        6 => {
            break_jitter(rng, &mut entry);
            match rng.chance(1, 2) {
                true => break_kind(rng, &mut entry),
                false => break_ticks(rng, &mut entry),
            }
        }
        _ => {}
    }
    entry
}

fn weighted(rng: &mut Rng, weights: &[u64]) -> usize {
    let mut left = rng.below(weights.iter().sum());
    for (choice, &weight) in weights.iter().enumerate() {
        if left < weight {
            return choice;
        }
        left -= weight;
    }
    unreachable!("the draw is below the sum");
}
