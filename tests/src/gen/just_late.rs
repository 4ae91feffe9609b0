//! Nodes whose last deadlines are at a completion time that takes very many
//! rounds to find, or a tick before it. The utilisation alone does not decide
//! these entries.

use crate::model::{Entry, MAX_TICKS};
use crate::rng::Rng;
use crate::timing::{completion_in_group, Timing};

/// At least 13 entries. 1/2/2, 1/3/3, 1/7/7 and 1/43/43 leave a utilisation of
/// 1/1,806. Entries with long periods take nearly all of that. The last entries
/// have deadlines `early` ticks before their completion time, or J later. With
/// `late` they have a J, and one of the others has as much as it can have.
pub fn just_late(rng: &mut Rng, early: u64, late: bool) -> Vec<Entry> {
    let long = rng.range(6, 9);
    let mut periods = vec![2, 3, 7, 43];
    let mut next = 1_806 * long + long * rng.range(50, 180);
    for _ in 0..long {
        periods.push(next);
        next += rng.range(1, 90);
    }
    let first = periods.len();
    let last = first + rng.count(3, 4);
    periods.resize(last, MAX_TICKS);
    let entries: Vec<Entry> = (1..)
        .zip(periods)
        .map(|(number, t)| Entry::task(number, 1, t, t))
        .collect();
    let mut entries = match late {
        true => late_starts(rng, entries, first),
        false => entries,
    };
    let timing = completion_in_group(&entries, first, last - 1, first);
    let Timing::OnTime { time, .. } = timing else {
        panic!("the last entries end by 10^9: {entries:?}");
    };
    for entry in &mut entries[first..] {
        entry.d = time - early + entry.j;
    }
    entries
}

/// J on the entries from `first` on, and on one of those before, as much as
/// leaves all of them on time on a level of their own.
fn late_starts(rng: &mut Rng, mut entries: Vec<Entry>, first: usize) -> Vec<Entry> {
    for entry in &mut entries[first..] {
        entry.j = rng.below(1_000);
    }
    loop {
        let mut drawn = entries.clone();
        let at = rng.count(3, first - 1);
        let Timing::OnTime { time, .. } = alone(&drawn, at) else {
            panic!("the entries end by their periods: {drawn:?}");
        };
        drawn[at].j = drawn[at].d - time;
        let behind = (at + 1..first).all(|i| alone(&drawn, i).is_on_time());
        if drawn[at].j > 0 && behind {
            return drawn;
        }
    }
}

/// The test of the entry at `i` on a level of its own.
fn alone(entries: &[Entry], i: usize) -> Timing {
    completion_in_group(entries, i, i, i)
}
