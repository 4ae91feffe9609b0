//! Memory that is lent as a session: sound sessions, and memory that no
//! operation has made.

use super::entries;
use super::faults::{break_jitter, break_kind, break_ticks};
use super::jitter::Jitter;
use super::numbers::repeat_places;
use crate::lent::{
    session_in, store_of, words_of, Store, Words, NO_STORE, SESSION_WORDS, STORE_AT,
};
use crate::model::{Entry, MAX_ENTRIES, MAX_TICKS};
use crate::rng::Rng;
use crate::session::Session;
use crate::words::{entry_of, entry_words, ENTRY_WORDS};

/// A sound session of `count` entries.
pub fn sound(rng: &mut Rng, count: usize) -> Words {
    let entries: Vec<Entry> = match count {
        0..=8 => entries::tiny(rng, count),
        _ => entries::light(rng, count),
    };
    // In a long list, more would leave no map.
    let jitter = match count {
        0..=8 => rng.pick(&[Jitter::Zero, Jitter::Small, Jitter::Mixed]),
        _ => rng.pick(&[Jitter::Zero, Jitter::Zero, Jitter::Small, Jitter::Most]),
    };
    let entries = jitter.put(rng, entries);
    // Often fewer than the map needs.
    let levels = match rng.chance(1, 4) {
        true => rng.count(1, 3),
        false => rng.count(1, 64),
    };
    words_of(&Session::holding(levels, &entries).expect("the generators give good entries"))
}

/// Memory with one or two faults, which may still hold a session, and one in four
/// with a forged store.
pub fn damaged(rng: &mut Rng) -> Words {
    if rng.chance(1, 20) {
        return [(); SESSION_WORDS].map(|_| rng.word() as u32);
    }
    let count = rng.count(0, 6);
    let mut words = sound(rng, count);
    for _ in 0..rng.range(1, 2) {
        damage(rng, &mut words, count);
    }
    if rng.chance(1, 4) {
        forged(rng, &words).put(&mut words);
    }
    words
}

/// A store that is not the right one, or only by chance, for memory that holds
/// any session.
pub fn forged(rng: &mut Rng, words: &Words) -> Store {
    let (levels, lent) = (words[0], Store::within(words));
    let (more, high) = (levels.wrapping_add(1), 1 << rng.pick(&[8, 16, 24, 31]));
    let used = rng.pick(&[0, 1, levels, levels, more, 255, high, high | 1, u32::MAX]);
    let mut store = match rng.below(8) {
        0 => NO_STORE,
        1 => {
            let count = rng.count(0, 6);
            Store::within(&sound(rng, count))
        }
        // That of the same entries on all levels.
        2 => session_in(words).map_or(lent, |held| store_of(held.entries(), 64)),
        _ => Store { mapped: 1, ..lent },
    };
    match rng.below(5) {
        0 => store.mapped = rng.pick(&[0, 2, 3, 255, high, high | 1, high | 1, u32::MAX]),
        1 => store.used = used,
        2 => store.map = [(); MAX_ENTRIES].map(|_| rng.word() as u32),
        3 => store.times = [(); MAX_ENTRIES].map(|_| rng.word() as u32),
        _ => {
            (store.mapped, store.used) = (rng.pick(&[1, 1, 0, 2]), used);
            store.map[rng.index(6)] = rng.pick(&[0, 65, 255, 256, 257, u32::MAX]);
            store.times[rng.index(6)] = rng.pick(&[0, MAX_TICKS as u32 + 1, u32::MAX]);
        }
    }
    store
}

fn damage(rng: &mut Rng, words: &mut Words, count: usize) {
    match rng.below(9) {
        0 => words[0] = rng.pick(&[0, 65, 255, 256, 257, 1 << 16 | 3, u32::MAX]),
        1 => words[1] = rng.pick(&[65, 66, 255, 256, 257, 1 << 16 | 1, u32::MAX]),
        // With one entry less, words beyond the last entry are not 0; with one
        // more, its kind is 0.
        2 => words[1] = rng.pick(&[count.saturating_sub(1), count + 1, 64]) as u32,
        3 => words[rng.count(2, STORE_AT - 1)] = rng.word() as u32,
        4 if count > 0 => break_entry(rng, words, count),
        5..8 if count > 1 => repeat(rng, words, count),
        _ => words[rng.count(2 + ENTRY_WORDS * count, STORE_AT - 1)] = rng.word() as u32,
    }
}

/// Gives an entry the number of an earlier one.
fn repeat(rng: &mut Rng, words: &mut Words, count: usize) {
    let [from, to] = repeat_places(rng, count);
    let slots: &mut [[u32; ENTRY_WORDS]] = words[2..STORE_AT].as_chunks_mut().0;
    slots[to][0] = slots[to][0] & !0xFFFF | slots[from][0] & 0xFFFF;
}

fn break_entry(rng: &mut Rng, words: &mut Words, count: usize) {
    let at = rng.index(count);
    let slot = &mut words[2..STORE_AT].as_chunks_mut().0[at];
    let mut entry = entry_of(slot);
    match rng.below(3) {
        0 => break_kind(rng, &mut entry),
        1 => break_ticks(rng, &mut entry),
        _ => break_jitter(rng, &mut entry),
    }
    *slot = entry_words(&entry);
}
