//! Timings on either side of the limit D - J, and late ones whose overrun does
//! not fit 32 bits.

use super::budget::draw_fitting;
use super::entries;
use super::jitter::{any as any_jitter, most, Jitter};
use super::numbers::from_one;
use super::odd::near_one;
use crate::lent::{words_with, Words, NO_STORE};
use crate::model::{Entry, MAX_ENTRIES, MAX_R, MAX_TICKS};
use crate::rng::Rng;
use crate::sequences::Sequence;
use crate::session::{Op, Session};
use crate::timing::{completion_in_group, demand, group_levels, limit, Timing};

/// An entry to be timed: the one at `i`, in the group from `first` to `last`.
#[derive(Clone, Debug)]
pub struct Timed {
    /// The entries of the session, also those behind the group.
    pub entries: Vec<Entry>,
    /// The first position of the group.
    pub first: usize,
    /// Its last position.
    pub last: usize,
    /// The position of the timed entry.
    pub i: usize,
}

impl Timed {
    /// Any entry in any group of the list.
    fn somewhere(rng: &mut Rng, entries: Vec<Entry>) -> Timed {
        let mut places = [0; 3].map(|_| rng.index(entries.len()));
        places.sort();
        let [first, i, last] = places;
        Timed {
            entries,
            first,
            last,
            i,
        }
    }

    /// The timed entry.
    pub fn own(&self) -> &Entry {
        &self.entries[self.i]
    }

    /// The levels of the group, of the entries before it and of those behind.
    pub fn levels(&self) -> Vec<u8> {
        group_levels(self.entries.len(), self.first, self.last)
    }

    /// The demand of the timed entry at a time.
    pub fn demand(&self, t: u64) -> u64 {
        demand(&self.entries, &self.levels(), self.i, t)
    }

    /// The answer of the second implementation.
    pub fn timing(&self) -> Timing {
        completion_in_group(&self.entries, self.first, self.last, self.i)
    }

    /// The operation that times it.
    pub fn op(&self) -> Op {
        Op::Time(self.first, self.last, self.i)
    }

    /// The memory of a session that holds the entries, written by hand: its
    /// store, which timing in a group does not use, says that there is no map.
    pub fn words(&self) -> Words {
        let held = Session::holding(64, &self.entries).expect("generators give good entries");
        words_with(&held, &NO_STORE)
    }

    /// The same with this limit D - J of the timed entry, which must be at least
    /// its C. Its period, which its own test does not use, makes room for D.
    pub fn with_limit(&self, limit: u64) -> Timed {
        let mut timed = self.clone();
        let own = &mut timed.entries[self.i];
        own.d = own.j + limit;
        own.t = own.t.max(own.d);
        timed
    }

    /// The same with a B that makes the demand at the limit `more` above a
    /// multiple of `whole`, if there is one.
    fn blocked_to(mut self, whole: u64, more: u64) -> Option<Timed> {
        self.entries[self.i].b = 0;
        let rest = self.demand(limit(self.own())) % whole;
        let b = (more % whole + whole - rest) % whole;
        self.entries[self.i].b = b;
        (b <= MAX_TICKS).then_some(self)
    }
}

/// Any entry in any group, of many kinds of lists, on time or late.
pub fn any(rng: &mut Rng) -> Timed {
    let count = rng.count(1, 9);
    let jitter = Jitter::draw(rng);
    let entries = match rng.below(6) {
        0 => entries::at_limits(rng, count.min(6), jitter),
        1 => entries::queued(rng, count, jitter),
        2 => draw_fitting(|| near_one(rng, jitter)).0,
        kind => {
            let loose = match kind {
                3 => entries::tiny(rng, count),
                4 => entries::scattered(rng, count),
                _ => entries::realistic(rng, count),
            };
            let loose = jitter.put(rng, loose);
            match rng.chance(1, 2) {
                true => entries::tighten(rng, loose),
                false => loose,
            }
        }
    };
    Timed::somewhere(rng, entries)
}

/// An entry that is on time if its deadline is long, with that timing. Its
/// limit can be any up to 10^5 (see [`Timed::with_limit`]).
pub fn unhurried(rng: &mut Rng) -> (Timed, u64, u64) {
    const LONG: u64 = 100_000;
    loop {
        let timed = any(rng);
        if timed.own().j + LONG > MAX_TICKS || timed.own().c > LONG {
            continue;
        }
        if let Timing::OnTime { time, rounds } = timed.with_limit(LONG).timing() {
            return (timed, time, rounds);
        }
    }
}

/// An entry that is on time although its demand at the limit is above the limit:
/// behind its completion time others are released again.
pub fn on_time_above(rng: &mut Rng) -> Timed {
    loop {
        let (timed, time, _) = unhurried(rng);
        let least = time + 1;
        let mut limits = (least..least + 300).filter(|&limit| timed.demand(limit) > limit);
        let skipped = rng.index(20);
        if let Some(limit) = limits.nth(skipped) {
            return timed.with_limit(limit);
        }
    }
}

/// Entries with long runs, so that the test of any of them starts beyond its
/// limit in most groups: late in 0 rounds, and often by more than 2^32.
pub fn heavy(rng: &mut Rng) -> Timed {
    let count = rng.count(6, MAX_ENTRIES);
    let least = rng.pick(&[1, MAX_TICKS / 8, MAX_TICKS / 2, MAX_TICKS - 9]);
    let entries = (1..=count as u16)
        .map(|number| {
            let t = rng.range(least, MAX_TICKS).max(2);
            let inside = rng.range(1, t);
            let d = rng.pick(&[t, t, inside]);
            let inside = rng.range(1, d);
            let c = rng.pick(&[d, inside, d.max(2) - 1]);
            let entry = Entry::task(number, c, t, d).calling(rng.pick(&[0, 0, 1, MAX_R]));
            let inside = rng.range(0, MAX_TICKS);
            let b = rng.pick(&[0, 1, inside, MAX_TICKS]);
            entry.jittered(any_jitter(rng, &entry)).blocked(b)
        })
        .collect();
    Timed::somewhere(rng, entries)
}

/// Entries with short periods and a utilisation of nearly 1 each, and a last one
/// whose test starts by its limit: late after a round, often by more than 2^32.
/// Some of the others may be on its level, and some behind it.
pub fn crowded(rng: &mut Rng) -> Timed {
    let count = rng.count(5, MAX_ENTRIES - 2);
    let run = rng.pick(&[1, 10, 1_000, 50_000]);
    let mut entries: Vec<Entry> = (1..=count as u16)
        .map(|number| {
            let t = run * rng.range(1, 4);
            let entry = Entry::task(number, t - rng.below(2).min(t - 1), t, t);
            entry.jittered(rng.range(0, most(&entry)))
        })
        .collect();
    let d = MAX_TICKS - rng.pick(&[0, 0, 1, 12_345_678]);
    let own = Entry::task(99, rng.range(1, 1_000), MAX_TICKS, d);
    let j = rng.pick(&[0, 1, 1_000, 98_765_432]);
    entries.push(own.calling(rng.pick(&[0, 1, MAX_R])).jittered(j));
    entries.push(Entry::task(100, MAX_TICKS, MAX_TICKS, MAX_TICKS));
    Timed {
        entries,
        first: count - rng.pick(&[0, 0, 1, 2]),
        last: count,
        i: count,
    }
}

/// A late entry whose overrun is `more` above a multiple of 2^`bits`. If
/// `rounds`, its test has at least one round.
pub fn overrun_of(rng: &mut Rng, bits: u32, more: u64, rounds: bool) -> Timed {
    late_with(rng, rounds, |timed| {
        let more = limit(timed.own()) + more;
        timed.blocked_to(1 << bits, more)
    })
}

/// A late entry whose demand at the limit, truncated to `bits` bits, is at most
/// the limit. If `rounds`, its test has at least one round.
pub fn demand_of(rng: &mut Rng, bits: u32, rounds: bool) -> Timed {
    let part = rng.range(0, 4);
    late_with(rng, rounds, |timed| {
        let more = limit(timed.own()) * part / 4;
        timed.blocked_to(1 << bits, more)
    })
}

/// Draws until the entry is late by 2^32 - 1 or more, with or without rounds,
/// after this change of its B.
fn late_with(rng: &mut Rng, rounds: bool, change: impl Fn(Timed) -> Option<Timed>) -> Timed {
    let draw = if rounds { crowded } else { heavy };
    loop {
        let Some(timed) = change(draw(rng)) else {
            continue;
        };
        if let Timing::Late {
            rounds: made,
            overrun,
        } = timed.timing()
        {
            if (made > 0) == rounds && overrun >= u64::from(u32::MAX) {
                return timed;
            }
        }
    }
}

/// A session in which one entry is timed, and again after each of a few changes
/// of its B, D or J that make no test longer.
pub fn sequence(rng: &mut Rng) -> Sequence {
    let timed = match rng.below(4) {
        0 => heavy(rng),
        1 => crowded(rng),
        2 => on_time_above(rng),
        _ => any(rng),
    };
    let (mut own, mut ops) = (*timed.own(), vec![timed.op()]);
    for _ in 0..rng.range(1, 6) {
        match rng.below(4) {
            0 => own.b = rng.range(0, MAX_TICKS),
            1 => own.b = (own.b + rng.below(3)).saturating_sub(1).min(MAX_TICKS),
            2 => own.d = rng.range(own.c + own.j, own.d),
            _ => own.j = any_jitter(rng, &own),
        }
        ops.extend([Op::Replace(timed.i, own), timed.op()]);
    }
    Sequence {
        start: timed.words(),
        ops,
    }
}

/// The largest overrun: B is 10^9, no entry of 63 others can add more than twice
/// 10^9 - 1 to the demand at a limit of 10^9, and the own C is at most the limit.
pub const LARGEST: u64 = MAX_TICKS + 63 * (2 * MAX_TICKS - 2);

/// An entry with the largest overrun. The others are released twice by its limit
/// because of their period, or because of their J, and are on more urgent levels
/// or on its own.
pub fn largest(by_jitter: bool, first: usize) -> Timed {
    let other = match by_jitter {
        true => Entry::task(1, MAX_TICKS - 1, MAX_TICKS, MAX_TICKS).jittered(1),
        false => Entry::task(1, MAX_TICKS - 1, MAX_TICKS - 1, MAX_TICKS - 1),
    };
    let mut entries = vec![other; MAX_ENTRIES - 1];
    let own = Entry::task(2, MAX_TICKS, MAX_TICKS, MAX_TICKS).blocked(MAX_TICKS);
    entries.push(own.calling(1));
    Timed {
        entries: from_one(entries),
        first,
        last: MAX_ENTRIES - 1,
        i: MAX_ENTRIES - 1,
    }
}
