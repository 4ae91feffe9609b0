//! Odd plans: nodes whose utilisation is close to 1, so that the test of an
//! entry may take very many rounds.

use super::entries::scaled;
use super::jitter::{most, Jitter};
use super::numbers::from_one;
use crate::model::{Entry, Node, Plan, MAX_ENTRIES, MAX_NODES, MAX_R, MAX_TICKS};
use crate::rng::Rng;
use crate::timing::{completion_in_group, Timing};

/// A name, and the entries of a full node for which no grouping passes.
pub type Family = (&'static str, fn() -> Vec<Entry>);

/// Full nodes without a map; tests/all/odd.rs says why they have none.
pub const FAMILIES: [Family; 5] = [
    ("utilisation 1 by one entry", one_entry),
    ("utilisation 1 by three entries", three_entries),
    ("periods of powers of 2", powers),
    ("a long run before powers of 2", long_run),
    ("utilisation 1 by 62 entries", sixty_two),
];

/// Full nodes without a map whose deadlines are one tick below a completion
/// time. Utilisations show that entries of the first are late, but not if
/// rounded down; for the second, even exact ones do not.
pub const JUST_LATE: [Family; 2] = [
    ("deadlines just below the completion time", just_late),
    ("the same with primes as periods", primes),
];

/// The node of [`JUST_LATE`] whose first entries may start just before their
/// next period, with deadlines one tick below the completion time under that
/// jitter. A bound on that time that leaves the jitter out is far too low.
pub const LATE_STARTS: Family = (
    "deadlines just below the completion time under jitter",
    late_starts,
);

/// Level count of the nodes of the families.
pub const LEVELS: u8 = 8;

/// 1/1/1, then 1/10^9/10^9.
fn one_entry() -> Vec<Entry> {
    filled(vec![task(1, 1)], task(1, MAX_TICKS))
}

/// Three times 1/3/3, then 1/10^9/10^9.
fn three_entries() -> Vec<Entry> {
    filled(vec![task(1, 3); 3], task(1, MAX_TICKS))
}

/// 1/2/2, 1/4/4 and so on to 1/2^29/2^29, then 1/10^9/10^9.
fn powers() -> Vec<Entry> {
    filled(powers_to(29), task(1, MAX_TICKS))
}

/// 20/10^9/10^9, then 1/2/2 to 1/2^25/2^25, then 1/10^9/600000000.
fn long_run() -> Vec<Entry> {
    let mut entries = vec![task(20, MAX_TICKS)];
    entries.extend(powers_to(25));
    let last = Entry {
        d: 600_000_000,
        ..task(1, MAX_TICKS)
    };
    filled(entries, last)
}

/// 62 times 1/62/62, then 1/10^9/10^9.
fn sixty_two() -> Vec<Entry> {
    filled(vec![task(1, 62); 62], task(1, MAX_TICKS))
}

/// A node with a map whose last entries are on time after millions of rounds:
/// 1/2/2, 1/3/3, 1/7/7, 1/43/43, 1/1807/1807, then 1/10^9/10^9 up to `count`.
///
/// The utilisation of the first five is 1 - 1/3,263,442.
pub fn many_rounds(count: usize) -> Vec<Entry> {
    let mut entries: Vec<Entry> = [2, 3, 7, 43, 1_807].map(|t| task(1, t)).to_vec();
    entries.resize(count, task(1, MAX_TICKS));
    from_one(entries)
}

/// The full node of [`many_rounds`], whose last 59 entries end at
/// 59 × 3,263,442, with deadlines a tick before that.
fn just_late() -> Vec<Entry> {
    let mut entries = many_rounds(MAX_ENTRIES);
    for entry in &mut entries[5..] {
        entry.d = 59 * 3_263_442 - 1;
    }
    entries
}

/// [`just_late`] with J 1, 2, 6, 42 and 1806 on its first entries, under which
/// its last 59 end at 63 × 3,263,442 + 1, and deadlines a tick before that.
fn late_starts() -> Vec<Entry> {
    let mut entries = many_rounds(MAX_ENTRIES);
    for entry in &mut entries[..5] {
        entry.j = most(entry);
    }
    for entry in &mut entries[5..] {
        entry.d = 63 * 3_263_442;
    }
    entries
}

/// 34 primes as periods, with a utilisation of 1 - 1/14,200,000 or so, and 30
/// entries that end at 588,022,764.
fn primes() -> Vec<Entry> {
    const PERIODS: [u64; 34] = [
        2, 3, 7, 43, 53_959, 54_011, 54_013, 54_037, 54_049, 54_059, 54_083, 54_091, 54_101,
        54_121, 54_133, 54_139, 54_151, 54_163, 54_167, 54_181, 54_193, 54_217, 54_251, 54_269,
        54_277, 54_287, 54_293, 54_311, 54_319, 54_323, 54_331, 54_347, 54_361, 54_367,
    ];
    let last = Entry {
        d: 588_022_763,
        ..task(1, MAX_TICKS)
    };
    filled(PERIODS.map(|t| task(1, t)).to_vec(), last)
}

/// The longest plan file, each node with these entries, of the first edition if
/// every J is 0.
pub fn full_plan(entries: &[Entry]) -> Plan {
    let nodes = (1..=MAX_NODES as u16)
        .map(|number| Node {
            number,
            levels: LEVELS,
            entries: entries.to_vec(),
        })
        .collect();
    Plan::of(nodes)
}

fn task(c: u64, t: u64) -> Entry {
    Entry::task(1, c, t, t)
}

fn powers_to(last: u32) -> Vec<Entry> {
    (1..=last).map(|power| task(1, 1 << power)).collect()
}

/// Fills the node up to 64 entries with copies of `last`.
fn filled(mut entries: Vec<Entry>, last: Entry) -> Vec<Entry> {
    entries.resize(MAX_ENTRIES, last);
    from_one(entries)
}

/// Numbers with many divisors; the periods of the urgent entries divide one of
/// them.
const WHOLES: [u64; 10] = [8, 12, 32, 60, 62, 64, 126, 420, 512, 5_040];

/// A few entries with a utilisation just below, at or just above 1, then one or
/// two with long deadlines, some of them exactly at J plus the completion time.
/// All times may be multiplied by one factor, which does not change the rounds.
pub fn near_one(rng: &mut Rng, jitter: Jitter) -> Vec<Entry> {
    let whole = rng.pick(&WHOLES);
    let excess = rng.pick(&[-3, -2, -1, -1, -1, -1, 0, 1]);
    let mut entries = urgent(rng, whole, excess);
    for _ in 0..rng.range(1, 2) {
        entries.push(long(rng, whole));
    }
    let mut entries = jitter.put(rng, entries);
    if rng.chance(2, 3) {
        tighten_last(rng, &mut entries);
    }
    let longest = entries.iter().map(|e| e.t.max(e.b)).max().unwrap_or(1);
    let factor = rng.pick(&[1, 1, 2, 3, MAX_TICKS / longest]);
    from_one(entries.iter().map(|e| scaled(e, factor)).collect())
}

/// One to four entries with a utilisation of 1 + `excess`/`whole`, where
/// possible.
fn urgent(rng: &mut Rng, whole: u64, excess: i64) -> Vec<Entry> {
    let periods: Vec<u64> = (2..=whole).filter(|&t| whole.is_multiple_of(t)).collect();
    let mut left = whole.saturating_add_signed(excess);
    let mut entries = Vec::new();
    for _ in 0..rng.below(4) {
        let t = rng.pick(&periods);
        let share = whole / t;
        if share < left {
            let c = rng.range(1, ((left - 1) / share).min(t).min(3));
            left -= c * share;
            entries.push(with_deadline(rng, c, t));
        }
    }
    entries.push(with_deadline(rng, left.min(whole), whole));
    if rng.chance(3, 4) {
        entries.sort_by_key(|entry| entry.d);
    }
    entries
}

/// An entry, mostly with D = T.
fn with_deadline(rng: &mut Rng, c: u64, t: u64) -> Entry {
    let d = rng.pick(&[t, t, t, t.max(c + 1) - 1]);
    let r = rng.pick(&[0, 0, 0, 0, 1, MAX_R]);
    Entry { d, ..task(c, t) }.calling(r)
}

/// An entry with a long deadline, which may be shorter than its period.
fn long(rng: &mut Rng, whole: u64) -> Entry {
    let t = whole * rng.range(2, 8) + rng.below(whole);
    let d = rng.pick(&[t, t, t / 2, t - 1]);
    let c = rng.range(1, 3);
    let b = rng.pick(&[0, 0, 0, 1, 2, whole]);
    let r = rng.pick(&[0, 0, 0, 1, 2, MAX_R]);
    Entry { d, ..task(c, t) }.calling(r).blocked(b)
}

/// Sets the last deadline to J plus the completion time in a group of its own,
/// or to one tick before or after it.
fn tighten_last(rng: &mut Rng, entries: &mut [Entry]) {
    let last = entries.len() - 1;
    let kept = entries[last];
    entries[last].t = 100_000;
    entries[last].d = 100_000;
    let Timing::OnTime { time, .. } = completion_in_group(entries, last, last, last) else {
        entries[last] = kept;
        return;
    };
    let limit = (time + rng.pick(&[0, 0, 1])).saturating_sub(rng.below(2));
    entries[last].d = kept.j + limit.max(kept.c);
    entries[last].t = entries[last].d + rng.pick(&[0, 1, 500]);
}
