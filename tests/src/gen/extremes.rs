//! Nodes whose tests reach extremes within the limits: very many rounds, and
//! starts and demands that do not fit 32 bits.

use super::jitter::most;
use super::numbers::from_one;
use crate::model::{Entry, MAX_ENTRIES, MAX_R, MAX_TICKS};
use crate::rng::Rng;
use crate::timing::{completion_in_group, demand, group_levels, limit, Timing};

/// Position of the last entry of [`slow`].
pub const SLOW: usize = 5;

/// 1/2/2, 1/3/3, 1/7/7, 1/43/43 and 1/`fifth`/`fifth`, with a utilisation of
/// 1 - 1/1,806 + 1/`fifth`, and after them a last entry with C 1.
pub fn slow(fifth: u64, blocking: u64) -> Vec<Entry> {
    let mut entries: Vec<Entry> = (1..)
        .zip([2, 3, 7, 43, fifth])
        .map(|(number, t)| Entry::task(number, 1, t, t))
        .collect();
    entries.push(Entry::task(6, 1, MAX_TICKS, MAX_TICKS).blocked(blocking));
    entries
}

/// The same; each entry but the last may start just before its next period.
pub fn slow_and_late(fifth: u64, blocking: u64) -> Vec<Entry> {
    let mut entries = slow(fifth, blocking);
    for entry in &mut entries[..SLOW] {
        entry.j = most(entry);
    }
    entries
}

/// The entries of [`slow`]; the fifth alone may start late, by as much as leaves
/// it on time on a level of its own. So there is still a map if the last entry
/// is on time.
pub fn slow_and_fifth_late(fifth: u64, blocking: u64) -> Vec<Entry> {
    let mut entries = slow(fifth, blocking);
    let time = alone(&entries, SLOW - 1);
    entries[SLOW - 1].j = fifth - time;
    entries
}

/// These entries of [`slow`] with the last deadline `early` ticks before the
/// completion time.
pub fn until_the_last(mut entries: Vec<Entry>, early: u64) -> Vec<Entry> {
    entries[SLOW].d = alone(&entries, SLOW) - early;
    entries
}

/// The completion time of the entry at `i` on a level of its own.
fn alone(entries: &[Entry], i: usize) -> u64 {
    match completion_in_group(entries, i, i, i) {
        Timing::OnTime { time, .. } => time,
        Timing::Late { .. } => panic!("the entry ends by its period: {entries:?}"),
    }
}

/// A group in which the last entry waits for nearly 16 runs of each other
/// entry, and most rounds add only one run.
///
/// Let S be the sum of C of the other entries. Each period is S plus a small
/// amount that grows from entry to entry. So new releases pass the demand one
/// at a time, each in a round of its own.
pub fn first_group(rng: &mut Rng) -> Vec<Entry> {
    let others = rng.range(2, 4);
    let run = rng.range(300, 2_000);
    let waits = rng.range(12, 18);
    let mut entries: Vec<Entry> = (0..others)
        .map(|j| {
            let t = others * run + 1 + j * rng.range(waits, waits + 4);
            Entry::task(j as u16 + 1, run, t, t)
        })
        .collect();
    let t = 50 * others * run;
    let last = Entry::task(9, 1, t, t).blocked(waits - 1);
    entries.push(last.calling(MAX_R - rng.byte(0, 1)));
    entries
}

/// One group whose tests have an initial time of 2^`bits` plus at most 10^9.
/// Truncated to `bits` bits, it is at most the last deadline.
pub fn high_initial_time(rng: &mut Rng, bits: u32) -> Vec<Entry> {
    let initial_time = (1 << bits) + rng.range(1, MAX_TICKS);
    let least = initial_time.div_ceil(MAX_TICKS) as usize;
    let count = rng.count(least, MAX_ENTRIES);
    let mut left = initial_time;
    let mut entries: Vec<Entry> = (1..=count)
        .map(|number| {
            // The later entries can still take what this one leaves.
            let behind = (count - number) as u64;
            let most = (left - behind).min(MAX_TICKS);
            let low = left.saturating_sub(behind * MAX_TICKS).max(1);
            let c = rng.range(low.max(most / 2).min(most), most);
            left -= c;
            Entry::task(number as u16, c, MAX_TICKS, MAX_TICKS)
        })
        .collect();
    let last = &mut entries[count - 1];
    if rng.chance(1, 2) && last.c > 1 {
        last.b = last.c - 1;
        last.c = 1;
    }
    entries
}

/// Entries with a utilisation of 1 or nearly 1 each, then a last entry whose
/// initial time is below its deadline. With n entries before it, its first
/// demand is about n + 1 times its initial time.
pub fn high_demand(rng: &mut Rng) -> Vec<Entry> {
    let count = rng.count(5, MAX_ENTRIES - 1);
    let run = rng.pick(&[1, 10, 1_000, 50_000]);
    let mut entries: Vec<Entry> = (1..=count as u16)
        .map(|number| {
            let t = run * rng.range(1, 4);
            Entry::task(number, t - rng.below(2).min(t - 1), t, t)
        })
        .collect();
    let b = rng.range(500_000_000, 980_000_000);
    let last = Entry::task(99, 1, MAX_TICKS, MAX_TICKS).blocked(b);
    entries.push(last.calling(rng.pick(&[0, MAX_R])));
    entries
}

/// One or two entries with short periods and a utilisation of up to 2/3, one
/// with hardly any utilisation, and a last one that waits for millions of their
/// runs and mostly ends in time.
pub fn many_releases(rng: &mut Rng) -> Vec<Entry> {
    let short = rng.range(1, 2);
    let mut entries: Vec<Entry> = (1..=short as u16)
        .map(|number| {
            let t = rng.range(20, 119);
            Entry::task(number, rng.range(1, t * 2 / (3 * short)), t, t)
        })
        .collect();
    entries.push(Entry::task(7, 3, 3_000, 3_000));
    // The utilisation in millionths; the blocking leaves that share of the time.
    let utilisation: u64 = entries.iter().map(|e| e.c * 1_000_000 / e.t + 1).sum();
    let b = rng.range(900, 990) * (1_000_000 - utilisation);
    entries.push(Entry::task(8, 5, MAX_TICKS, MAX_TICKS).blocked(b));
    entries
}

/// Five of 1000/1000/1000, then 1/10^9/10^9 with a blocking that makes its test
/// start at 800,000,001.
pub fn five_full() -> Vec<Entry> {
    let mut entries = vec![Entry::task(1, 1_000, 1_000, 1_000); 5];
    entries.push(Entry::task(6, 1, MAX_TICKS, MAX_TICKS).blocked(799_995_000));
    from_one(entries)
}

/// Entries with periods of nearly 10^9 that may start nearly a period late, and
/// a last one whose demand at its limit, also nearly 10^9, is that limit, or a
/// tick less or more, in the group from `first` on. So t + J + T - 1 comes near
/// 3,000,000,000.
pub fn far_sums(rng: &mut Rng, first: usize, last: usize) -> Vec<Entry> {
    let mut entries: Vec<Entry> = (1..=last as u16)
        .map(|number| {
            let t = MAX_TICKS - rng.pick(&[0, 0, 1, 2, 999]);
            let entry = Entry::task(number, rng.range(1, 40), t, t);
            entry.jittered(most(&entry) - rng.below(3))
        })
        .collect();
    let own = Entry::task(99, rng.range(1, 40), MAX_TICKS, MAX_TICKS);
    entries.push(
        own.calling(rng.pick(&[0, 1, 2, MAX_R]))
            .jittered(rng.below(3)),
    );
    let levels = group_levels(last + 1, first, last);
    let room = limit(&entries[last]) - demand(&entries, &levels, last, limit(&entries[last]));
    entries[last].b = room + rng.pick(&[0, 0, 1]) - rng.pick(&[0, 0, 1]);
    entries
}
