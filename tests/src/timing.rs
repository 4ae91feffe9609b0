//! The completion time test, by levels.
//!
//! `levels` gives a level to every entry of the node; a smaller level is more
//! urgent. With ticks inside the limits and t at most D, each term of the
//! demand is below t + J + T, so 64 bits hold every sum.

use crate::model::Entry;
use std::cmp::Ordering;

/// The answer for one entry.
#[derive(Clone, Copy, Debug, PartialEq, Eq)]
pub enum Timing {
    /// The entry ends by its deadline.
    OnTime {
        /// Completion time.
        time: u64,
        /// Evaluations of the demand.
        rounds: u64,
    },
    /// The entry misses its deadline.
    Late {
        /// Evaluations of the demand.
        rounds: u64,
        /// The demand at D - J less D - J, always above 0.
        overrun: u64,
    },
}

impl Timing {
    /// Whether the entry ends by its deadline.
    pub fn is_on_time(&self) -> bool {
        matches!(self, Timing::OnTime { .. })
    }

    /// How often the demand was evaluated.
    pub fn rounds(&self) -> u64 {
        match *self {
            Timing::OnTime { rounds, .. } | Timing::Late { rounds, .. } => rounds,
        }
    }

    /// The three values that a caller in C gets: the completion time, or 0 if
    /// the entry is late, the rounds, and the overrun, or 0 if it is on time.
    pub fn values(&self) -> [u64; 3] {
        match *self {
            Timing::OnTime { time, rounds } => [time, rounds, 0],
            Timing::Late { rounds, overrun } => [0, rounds, overrun],
        }
    }
}

/// How often an entry is released in `t` ticks, at most: it may have begun
/// up to J ticks after the start of its period.
fn releases(entry: &Entry, t: u64) -> u64 {
    (t + entry.j).div_ceil(entry.t)
}

/// The demand of entry `i` at time `t`, which is at least 1.
pub fn demand(entries: &[Entry], levels: &[u8], i: usize, t: u64) -> u64 {
    let own = &entries[i];
    let most_runs = u64::from(own.r) + 1;
    let mut sum = own.c + own.b;
    for (j, other) in entries.iter().enumerate() {
        match levels[j].cmp(&levels[i]) {
            Ordering::Less => sum += other.c * releases(other, t),
            Ordering::Equal if j != i => sum += other.c * releases(other, t).min(most_runs),
            _ => {}
        }
    }
    sum
}

/// The time at which the test of entry `i` starts.
pub fn initial_time(entries: &[Entry], levels: &[u8], i: usize) -> u64 {
    let runs: u64 = (0..entries.len())
        .filter(|&j| levels[j] <= levels[i])
        .map(|j| entries[j].c)
        .sum();
    entries[i].b + runs
}

/// The last time by which an entry may end, counted from its start: if it
/// began J late, that is its deadline.
pub fn limit(entry: &Entry) -> u64 {
    entry.d - entry.j
}

/// By how much entry `i`, which is late, is late: its demand at D - J less
/// D - J.
pub fn overrun(entries: &[Entry], levels: &[u8], i: usize) -> u64 {
    let limit = limit(&entries[i]);
    let over = demand(entries, levels, i, limit).checked_sub(limit);
    over.expect("the entry is late")
}

/// The completion time test of entry `i`. The completion time is counted from
/// its start, without its J. The overrun is found after the test and counts as
/// no round.
pub fn completion(entries: &[Entry], levels: &[u8], i: usize) -> Timing {
    let mut rounds = 0;
    let mut t = initial_time(entries, levels, i);
    while t <= limit(&entries[i]) {
        let needed = demand(entries, levels, i, t);
        rounds += 1;
        match needed.cmp(&t) {
            Ordering::Equal => return Timing::OnTime { time: t, rounds },
            Ordering::Greater => t = needed,
            Ordering::Less => unreachable!("the demand starts above t and never falls"),
        }
    }
    let overrun = overrun(entries, levels, i);
    Timing::Late { rounds, overrun }
}

/// The bound on the rounds of entry `i` (docs/SPEC.md).
pub fn rounds_bound(entries: &[Entry], levels: &[u8], i: usize) -> u64 {
    let further: u64 = (0..entries.len())
        .filter(|&j| j != i && levels[j] <= levels[i])
        .map(|j| (entries[i].d + entries[j].j).div_ceil(entries[j].t) - 1)
        .sum();
    1 + further
}

/// Levels with one for the group `first..=last`, one for all entries before it,
/// and one for all entries after it.
pub fn group_levels(count: usize, first: usize, last: usize) -> Vec<u8> {
    (0..count)
        .map(|j| 1 + u8::from(j >= first) + u8::from(j > last))
        .collect()
}

/// The test of entry `i` in the group `first..=last`; entries before the
/// group are more urgent.
pub fn completion_in_group(entries: &[Entry], first: usize, last: usize, i: usize) -> Timing {
    completion(entries, &group_levels(entries.len(), first, last), i)
}
