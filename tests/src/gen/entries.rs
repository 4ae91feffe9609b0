//! The entries of one node.

use super::budget::draw_fitting;
use super::jitter::Jitter;
use super::numbers::settle;
use crate::map::group_passes;
use crate::model::{Entry, MAX_R, MAX_TICKS, SECTION, TASK};
use crate::rng::Rng;
use crate::timing::{completion, Timing};

/// Usual periods, as multiples of a base.
const PERIODS: [u64; 12] = [1, 2, 4, 5, 8, 10, 20, 25, 40, 50, 80, 100];

/// Small numbers, chosen so that a wide group may pass where narrower ones
/// fail.
///
/// A wide group passes if every D is at least the sum of C. A narrow group
/// fails if an entry before it with a short period is released again in time.
/// So the deadlines, and some periods, are close to the sum of C.
pub fn tiny(rng: &mut Rng, count: usize) -> Vec<Entry> {
    let runs: Vec<u64> = (0..count).map(|_| rng.range(1, 3)).collect();
    let sum: u64 = runs.iter().sum();
    (1..)
        .zip(runs)
        .map(|(number, c)| {
            let t = (sum + rng.below(4)) * rng.pick(&[1, 1, 2, 3, 4]);
            let d = rng.range(c.max(sum - 1), t.min(3 * sum));
            let few = rng.below(4);
            let b = rng.pick(&[0, 0, few, (d - c) / 2]);
            let r = rng.pick(&[0, 0, 0, 0, 1, 2, MAX_R]);
            kinded(rng, Entry::task(number, c, t, d).calling(r).blocked(b))
        })
        .collect()
}

/// Small random numbers.
pub fn scattered(rng: &mut Rng, count: usize) -> Vec<Entry> {
    let entries = (0..count)
        .map(|_| {
            let t = rng.range(1, 30);
            let d = rng.range(1, t);
            let c = rng.range(1, d.min(5));
            let b = rng.pick(&[0, 0, 1, 7]);
            let r = rng.pick(&[0, 1, 3, MAX_R]);
            let number = rng.word() as u16;
            kinded(rng, Entry::task(number, c, t, d).calling(r).blocked(b))
        })
        .collect();
    settle(entries)
}

/// Entries like those of a station: usual periods, utilisation 0.3 to 0.95,
/// listed by deadline, now and then with the sections first.
pub fn realistic(rng: &mut Rng, count: usize) -> Vec<Entry> {
    let base = rng.pick(&[100, 1_000, 10_000]);
    utilised(rng, count, base, &PERIODS)
}

/// The same with periods of up to 1,000,000,000.
pub fn long_periods(rng: &mut Rng, count: usize) -> Vec<Entry> {
    let base = rng.pick(&[100_000, 1_000_000, 10_000_000]);
    utilised(rng, count, base, &PERIODS)
}

/// Many entries, with periods close enough for short tests.
pub fn many(rng: &mut Rng, count: usize) -> Vec<Entry> {
    utilised(rng, count, 10_000, &PERIODS[..7])
}

/// Periods from 1,000 to 1,000,000 in no usual steps, utilisation about 0.6.
pub fn mixed(rng: &mut Rng, count: usize) -> Vec<Entry> {
    let mut entries: Vec<Entry> = (1..=count as u16)
        .map(|number| {
            let t = rng.pick(&[1, 10, 100]) * rng.range(1_000, 10_000);
            let c = (t * 6 / 10 / count as u64).max(1);
            let r = rng.pick(&[0, 0, 0, 1, 2, 3, MAX_R]);
            kinded(rng, Entry::task(number, c, t, t).calling(r))
        })
        .collect();
    entries.sort_by_key(|entry| entry.d);
    entries
}

/// Many entries with very short tests, in half of the draws listed by deadline.
pub fn light(rng: &mut Rng, count: usize) -> Vec<Entry> {
    let mut entries: Vec<Entry> = (0..count)
        .map(|_| {
            let t = rng.range(1_000, 1_200);
            let d = rng.range(t / 2, t);
            let c = rng.range(1, 20);
            let number = rng.word() as u16;
            kinded(rng, Entry::task(number, c, t, d))
        })
        .collect();
    if rng.chance(1, 2) {
        entries.sort_by_key(|entry| entry.d);
    }
    settle(entries)
}

/// Numbers at both ends of the limits.
pub fn at_limits(rng: &mut Rng, count: usize, jitter: Jitter) -> Vec<Entry> {
    at_limits_counted(rng, count, jitter).0
}

/// The same, and the number of draws dropped because their tests are too long.
pub fn at_limits_counted(rng: &mut Rng, count: usize, jitter: Jitter) -> (Vec<Entry>, u64) {
    let periods: &[u64] = rng.pick(&[
        &[1, 2, 3][..],
        &[MAX_TICKS, MAX_TICKS - 1],
        &[1, 2, 1_000, 1_000_000, MAX_TICKS],
        &[1_000_000, MAX_TICKS / 2, MAX_TICKS],
    ]);
    draw_fitting(|| {
        let entries = (0..count).map(|_| limit_entry(rng, periods)).collect();
        jitter.put(rng, settle(entries))
    })
}

/// Whether some group fails although a wider one with the same end passes.
pub fn wide_passes_after_narrow(entries: &[Entry]) -> bool {
    (2..=entries.len()).any(|end| {
        let passing: Vec<bool> = (0..end)
            .map(|start| group_passes(entries, start, end))
            .collect();
        passing.windows(2).any(|pair| pair[0] && !pair[1])
    })
}

/// Tiny entries for which [`wide_passes_after_narrow`] holds.
pub fn wide(rng: &mut Rng, count: usize, jitter: Jitter) -> Vec<Entry> {
    assert!(count >= 2, "one entry has one group");
    loop {
        let entries = tiny(rng, count);
        let entries = jitter.put(rng, entries);
        if wide_passes_after_narrow(&entries) {
            return entries;
        }
    }
}

/// Entries of which J decides on their own level; without J if `jitter` is
/// [`Jitter::Zero`].
///
/// Some may start late, with a period that ends when they may end at the latest.
/// The others wait longer than that and call remote sections, so they may find
/// these twice ahead. Their deadlines are at the completion time in one group,
/// now and then a tick earlier.
pub fn queued(rng: &mut Rng, count: usize, jitter: Jitter) -> Vec<Entry> {
    let runs: Vec<u64> = (0..count).map(|_| rng.range(1, 3)).collect();
    let sum: u64 = runs.iter().sum();
    let mut entries: Vec<Entry> = (1..)
        .zip(runs)
        .map(|(number, c)| {
            let late = rng.range(1, 2 * sum);
            let t = sum + late + rng.pick(&[0, 0, 1]);
            match rng.chance(1, 2) {
                true => Entry::task(number, c, t, t).jittered(late),
                false => Entry::task(number, c, 20 * sum, 20 * sum)
                    .calling(rng.pick(&[1, 1, 2, MAX_R]))
                    .blocked(rng.range(1, 2 * sum)),
            }
        })
        .collect();
    if jitter == Jitter::Zero {
        entries.iter_mut().for_each(|entry| entry.j = 0);
    }
    let levels = vec![1; count];
    for i in (0..count).filter(|&i| entries[i].b > 0).collect::<Vec<_>>() {
        if let Timing::OnTime { time, .. } = completion(&entries, &levels, i) {
            entries[i].d = (time - rng.pick(&[0, 0, 0, 1])).max(entries[i].c);
        }
    }
    entries
}

/// The same entry with all times multiplied, which does not change its rounds
/// beside others with the same factor.
pub fn scaled(entry: &Entry, factor: u64) -> Entry {
    Entry {
        c: entry.c * factor,
        t: entry.t * factor,
        d: entry.d * factor,
        b: entry.b * factor,
        j: entry.j * factor,
        ..*entry
    }
}

/// The same entries with deadlines exactly at J plus the completion times of a
/// random grouping, now and then one of them a tick earlier.
pub fn tighten(rng: &mut Rng, mut entries: Vec<Entry>) -> Vec<Entry> {
    for entry in &mut entries {
        entry.d = entry.t;
    }
    let levels = random_levels(rng, entries.len());
    let times: Vec<Timing> = (0..entries.len())
        .map(|i| completion(&entries, &levels, i))
        .collect();
    let one_early = rng.chance(1, 4).then(|| rng.index(entries.len().max(1)));
    for (i, (entry, timing)) in entries.iter_mut().zip(times).enumerate() {
        if let Timing::OnTime { time, .. } = timing {
            let early = u64::from(one_early == Some(i));
            entry.d = entry.j + (time - early).max(entry.c);
        }
    }
    entries
}

/// Levels that rise now and then along a list of `count`.
fn random_levels(rng: &mut Rng, count: usize) -> Vec<u8> {
    let rises = rng.range(1, 8);
    let mut level = 1;
    (0..count)
        .map(|_| {
            level += u8::from(rng.chance(rises, 8));
            level
        })
        .collect()
}

/// Makes some entries without remote sections global critical sections.
fn kinded(rng: &mut Rng, entry: Entry) -> Entry {
    let kind = if entry.r == 0 && rng.chance(1, 3) {
        SECTION
    } else {
        TASK
    };
    Entry { kind, ..entry }
}

fn limit_entry(rng: &mut Rng, periods: &[u64]) -> Entry {
    let t = rng.pick(periods);
    let d = rng.pick(&[t, t, t, t.max(2) - 1, t.div_ceil(2), 1]);
    let c = rng.pick(&[1, 1, 1, d.div_ceil(8), d.div_ceil(8), d.max(2) - 1, d]);
    let b = rng.pick(&[0, 0, 0, 0, 1, d - c, MAX_TICKS]);
    let r = rng.pick(&[0, MAX_R]);
    let number = rng.pick(&[0, 1, u16::MAX]);
    kinded(rng, Entry::task(number, c, t, d).calling(r).blocked(b))
}

fn utilised(rng: &mut Rng, count: usize, base: u64, periods: &[u64]) -> Vec<Entry> {
    let utilisation = rng.range(300, 950);
    let weights: Vec<u64> = (0..count).map(|_| rng.range(1, 10)).collect();
    let whole: u64 = 1_000 * weights.iter().sum::<u64>();
    let mut entries: Vec<Entry> = (1..)
        .zip(weights)
        .map(|(number, weight)| {
            let t = base * rng.pick(periods);
            let c = (t * utilisation * weight / whole).max(1);
            let d = (t * rng.pick(&[100, 100, 100, 100, 90, 75]) / 100).max(c);
            let r = rng.pick(&[0, 0, 0, 1, 2, 3, MAX_R]);
            kinded(rng, Entry::task(number, c, t, d).calling(r))
        })
        .collect();
    let sections_first = rng.chance(1, 4);
    entries.sort_by_key(|entry| (sections_first && entry.kind == TASK, entry.d));
    block(rng, &mut entries);
    entries
}

/// Blocks some entries for part of the longest run of a less urgent entry.
fn block(rng: &mut Rng, entries: &mut [Entry]) {
    for i in 0..entries.len() {
        let longest = entries[i + 1..].iter().map(|less| less.c).max();
        if rng.chance(1, 3) {
            entries[i].b = longest.unwrap_or(0) / rng.range(2, 20);
        }
    }
}
