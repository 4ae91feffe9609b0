//! Long nodes in which narrow groups fail and wide ones pass: a sequence of
//! blocks, each like case H.
//!
//! While an entry waits, entries on its own level run once, and more urgent
//! entries run as often as they are released. So a block has a few *hot*
//! entries with short periods, and at its end some entries with a long
//! blocking, during which the hot ones are released again. These end in time
//! only in a group that contains the hot entries. In half of the nodes entries
//! may start late, with deadlines that allow for it.

use super::entries::scaled;
use crate::map::{by_groups, group_passes, Map};
use crate::model::{Entry, MAX_TICKS};
use crate::rng::Rng;
use crate::timing::{completion, Timing};

/// The longest period before all times are multiplied.
const LONGEST: u64 = 400_000;

/// A node of `count` entries in `blocks` blocks, each of three or more. The map
/// whose groups are the blocks passes.
pub fn blocks(rng: &mut Rng, count: usize, blocks: usize) -> Vec<Entry> {
    let late = rng.chance(1, 2);
    loop {
        let levels = block_levels(rng, count, blocks);
        if let Some(entries) = drawn(rng, &levels, late) {
            let longest = entries.iter().map(|e| e.t.max(e.b)).max().unwrap_or(1);
            let factor = rng.pick(&[1, 1, 7, MAX_TICKS / longest]);
            return entries.iter().map(|entry| scaled(entry, factor)).collect();
        }
    }
}

/// Makes the deadline of one blocked entry a tick shorter.
pub fn hurry_one(rng: &mut Rng, entries: &mut [Entry]) {
    let blocked: Vec<usize> = (0..entries.len()).filter(|&i| entries[i].b > 0).collect();
    let entry = &mut entries[rng.pick(&blocked)];
    entry.d = (entry.d - 1).max(entry.c + entry.j);
}

/// Whether a group of the map would fail if it began later. A search that stops
/// at the first failing group does not find such a map.
pub fn needs_wide_groups(entries: &[Entry], map: &Map) -> bool {
    (0..entries.len()).any(|first| {
        let opens = first == 0 || map.levels[first - 1] != map.levels[first];
        let last = map.levels.iter().rposition(|l| *l == map.levels[first]);
        let end = last.map_or(0, |last| last + 1);
        opens && (first + 1..end).any(|later| !group_passes(entries, later, end))
    })
}

/// Telling level counts: the fewest that suffice, one less, one more, and 64.
pub fn telling_levels(rng: &mut Rng, entries: &[Entry]) -> u8 {
    let fewest = by_groups(entries, 64).map_or(1, |map| map.used);
    let below = fewest.saturating_sub(1).max(1);
    rng.pick(&[fewest, fewest, below, (fewest + 1).min(64), 64])
}

/// The level of each entry if every block is a group.
fn block_levels(rng: &mut Rng, count: usize, blocks: usize) -> Vec<u8> {
    let mut lengths = vec![3; blocks];
    for _ in 3 * blocks..count {
        let at = rng.index(blocks);
        lengths[at] += 1;
    }
    (1..)
        .zip(lengths)
        .flat_map(|(level, length)| std::iter::repeat_n(level, length))
        .collect()
}

/// Entries that pass with these levels, or none where the utilisation is too
/// high; `late` says whether they have a J.
fn drawn(rng: &mut Rng, levels: &[u8], late: bool) -> Option<Vec<Entry>> {
    let mut entries: Vec<Entry> = Vec::new();
    for block in levels.chunk_by(|a, b| a == b) {
        let length = block.len();
        let first = entries.len();
        for at in 0..length {
            let hot = at == 0 || at + 2 < length && rng.chance(1, 2);
            let c = if hot {
                rng.range(1, 6)
            } else {
                rng.range(5, 40)
            };
            let number = (first + at + 1) as u16;
            entries.push(Entry::task(number, c, LONGEST, LONGEST));
        }
        close(rng, &mut entries, &levels[..first + length], first, late)?;
    }
    Some(entries)
}

/// Sets periods, blockings, deadlines and J of the block that begins at
/// `first`. On their own level entries run once, whatever their J.
fn close(
    rng: &mut Rng,
    entries: &mut [Entry],
    levels: &[u8],
    first: usize,
    late: bool,
) -> Option<()> {
    let base = time_of(entries, levels, first)?;
    let jitter = |rng: &mut Rng| match late {
        true => rng.pick(&[0, 1, base / 10, base / 2]),
        false => 0,
    };
    let blocked = rng.count(1, (entries.len() - first) / 3);
    let end = entries.len() - blocked;
    for entry in &mut entries[first..end] {
        let slack = rng.pick(&[0, 0, 1, base / 10]);
        entry.j = jitter(rng);
        entry.d = base + slack + entry.j;
        // Hot entries have short runs; the others have long periods.
        let cold = entry.c > 6 || rng.chance(1, 5);
        entry.t = match cold {
            true => base * rng.range(8, 30),
            false => entry.d + rng.pick(&[0, 0, 1, 2]),
        };
    }
    for i in end..entries.len() {
        entries[i].b = rng.range(base / 3, base);
        let time = time_of(entries, levels, i)?;
        entries[i].j = jitter(rng);
        entries[i].d = time + entries[i].j + rng.pick(&[0, 0, 0, 1, 3]);
        entries[i].t = entries[i].d * rng.range(2, 20);
    }
    let longest = entries.iter().map(|entry| entry.t).max();
    longest.filter(|&t| t <= LONGEST).map(|_| ())
}

/// The completion time of entry `i` among the entries so far.
fn time_of(entries: &[Entry], levels: &[u8], i: usize) -> Option<u64> {
    match completion(entries, levels, i) {
        Timing::OnTime { time, .. } => Some(time),
        Timing::Late { .. } => None,
    }
}
