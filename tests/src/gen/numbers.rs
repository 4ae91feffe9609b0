//! Entry numbers: lists in which all differ, and repeats made on purpose.

use crate::model::{Entry, MAX_ENTRIES};
use crate::rng::Rng;

/// Gives an entry with the number of an earlier one the next number that none of
/// them has. It draws nothing.
pub fn settle(mut entries: Vec<Entry>) -> Vec<Entry> {
    for at in 1..entries.len() {
        while has(&entries[..at], entries[at].number) {
            entries[at].number = entries[at].number.wrapping_add(1);
        }
    }
    entries
}

/// The entries with numbers from 1 on.
pub fn from_one(mut entries: Vec<Entry>) -> Vec<Entry> {
    for (number, entry) in (1..).zip(&mut entries) {
        entry.number = number;
    }
    entries
}

/// The entries with these numbers.
pub fn with(mut entries: Vec<Entry>, numbers: &[u16]) -> Vec<Entry> {
    assert_eq!(entries.len(), numbers.len());
    for (entry, number) in entries.iter_mut().zip(numbers) {
        entry.number = *number;
    }
    entries
}

/// Whether one of the entries has this number.
pub fn has(entries: &[Entry], number: u16) -> bool {
    entries.iter().any(|entry| entry.number == number)
}

/// Different numbers, drawn in one of many ways: alike in their low bits, in
/// their high bits, in all bits but one.
pub fn different(rng: &mut Rng, count: usize) -> Vec<u16> {
    assert!(count <= MAX_ENTRIES, "a node has no more");
    let start = rng.word() as u16;
    let numbers = match rng.below(7) {
        0 => (1..).take(count).collect(),
        1 => (0..count as u16).map(|at| start.wrapping_sub(at)).collect(),
        2 => random(rng, count),
        3 => congruent(count, 1 << rng.range(6, 13), start),
        // One high byte.
        4 => shuffled(rng, (start & 0xFF00..=start | 0xFF).collect()),
        5 => one_bit_apart(rng, count),
        // 0, 65,535, 1, 65,534 and so on.
        _ => (0..count as u16)
            .map(|at| if at % 2 == 0 { at / 2 } else { !(at / 2) })
            .collect(),
    };
    let mut numbers = match rng.chance(1, 3) {
        true => shuffled(rng, numbers),
        false => numbers,
    };
    numbers.truncate(count);
    numbers
}

/// Different numbers from 0 to 65,535.
pub fn random(rng: &mut Rng, count: usize) -> Vec<u16> {
    let mut numbers = Vec::new();
    while numbers.len() < count {
        let number = rng.word() as u16;
        if !numbers.contains(&number) {
            numbers.push(number);
        }
    }
    numbers
}

/// Different numbers that are congruent modulo a power of 2, as many as there
/// are, then as many that are congruent to the next number, and so on.
pub fn congruent(count: usize, modulus: u32, first: u16) -> Vec<u16> {
    let class = (1 << 16) / modulus;
    (0..count as u32)
        .map(|at| u32::from(first) + at % class * modulus + at / class)
        .map(|number| number as u16)
        .collect()
}

/// Numbers of which each differs from the one before in one bit.
fn one_bit_apart(rng: &mut Rng, count: usize) -> Vec<u16> {
    let (first, turn) = (rng.word() as u16, rng.below(16) as u32);
    (0..count as u16)
        .map(|at| first ^ (at ^ at >> 1).rotate_left(turn))
        .collect()
}

fn shuffled(rng: &mut Rng, mut numbers: Vec<u16>) -> Vec<u16> {
    for at in (1..numbers.len()).rev() {
        numbers.swap(at, rng.index(at + 1));
    }
    numbers
}

/// A number that none of the entries has; in most draws it is close to that of
/// one of them: the next one, one bit away, or the same in its low bits.
pub fn free(rng: &mut Rng, entries: &[Entry]) -> u16 {
    loop {
        let any = rng.word() as u16;
        let near = held(rng, entries).unwrap_or(any);
        let number = match rng.below(5) {
            0 => any,
            1 => near.wrapping_add(1),
            2 => near ^ 1 << rng.below(16),
            3 => near.wrapping_add(rng.pick(&[512, 1_024, 2_048, 4_096])),
            _ => rng.range(1, 2 * MAX_ENTRIES as u64) as u16,
        };
        if !has(entries, number) {
            return number;
        }
    }
}

/// The number of one of the entries, if there is any.
pub fn held(rng: &mut Rng, entries: &[Entry]) -> Option<u16> {
    match entries {
        [] => None,
        _ => Some(rng.pick(entries).number),
    }
}

/// Where a repeat is put into a node of two entries or more: the first of these
/// positions keeps its number, and the second, behind it, gets the same.
///
/// The first is even and the second odd, so a second repeat in the node never
/// takes back the first one.
pub fn repeat_places(rng: &mut Rng, count: usize) -> [usize; 2] {
    let second = 2 * rng.index(count / 2) + 1;
    let first = 2 * rng.index(second / 2 + 1);
    [first, second]
}

#[cfg(test)]
mod tests {
    use super::*;
    use std::collections::HashSet;

    #[test]
    fn different_numbers_differ() {
        let mut rng = Rng::new(4);
        for _ in 0..2_000 {
            let count = rng.count(0, MAX_ENTRIES);
            let numbers = different(&mut rng, count);
            assert_eq!(numbers.len(), count);
            let once: HashSet<u16> = numbers.iter().copied().collect();
            assert_eq!(once.len(), count, "{numbers:?}");
        }
    }

    #[test]
    fn congruent_numbers_are() {
        let numbers = congruent(64, 2_048, 7);
        assert!(numbers[..32].iter().all(|number| number % 2_048 == 7));
        assert!(numbers[32..].iter().all(|number| number % 2_048 == 8));
    }

    #[test]
    fn settled_numbers_differ_and_the_first_stay() {
        let entries = [9, 9, 10, u16::MAX, u16::MAX].map(|number| Entry::task(number, 1, 1, 1));
        let numbers: Vec<u16> = settle(entries.to_vec()).iter().map(|e| e.number).collect();
        assert_eq!(numbers, [9, 10, 11, u16::MAX, 0]);
    }

    #[test]
    fn a_repeat_is_behind_what_it_repeats() {
        let mut rng = Rng::new(5);
        for count in 2..=MAX_ENTRIES {
            for _ in 0..50 {
                let [first, second] = repeat_places(&mut rng, count);
                assert!(first < second && second < count);
                assert!(first % 2 == 0 && second % 2 == 1);
            }
        }
    }
}
