//! By how much an entry is late, in the proved library: the worked figures,
//! groups on either side of the limit, overruns beyond 32 bits, and the values
//! that a call leaves.

use crate::overrun::worked;
use crate::say;
use crate::starred::late;
use oracle::compare::session::Both;
use oracle::ffi::session::Session as Proved;
use oracle::ffi::Values;
use oracle::gen::lent::damaged;
use oracle::gen::numbers::from_one;
use oracle::gen::overruns::{
    any, demand_of, heavy, largest, on_time_above, overrun_of, unhurried, Timed, LARGEST,
};
use oracle::lent::{session_in, words_of, Words};
use oracle::model::{Entry, MAX_TICKS};
use oracle::options::{rng, times};
use oracle::refusal::{Refusal, JITTER, KIND, POSITION, REPEAT, ROW, TICKS};
use oracle::rng::Rng;
use oracle::session::{Reply, Session};
use oracle::tally::Tally;
use oracle::timing::{limit, Timing};
use std::collections::BTreeMap;

/// What the values may hold before a call.
const JUNK: [Values; 4] = [[0; 3], [usize::MAX; 3], [3, 2, 1], [138, 0, 1 << 32]];

/// Times the entry in both implementations, and looks at the values that the
/// library leaves, whatever they held.
fn timed(tally: &mut Tally, timed: &Timed) -> Timing {
    let words = timed.words();
    let timing = match Both::of(&words).step(tally, &timed.op(), 0) {
        Ok(Reply::Timed(timing)) => timing,
        other => panic!("{other:?}: {timed:?}"),
    };
    let due = timing.values().map(|value| value as usize);
    let place = [timed.first, timed.last, timed.i];
    assert_values(&words, place, (0, due));
    timing
}

/// Asserts what timing leaves, whatever the values held before.
fn assert_values(words: &Words, [first, last, i]: [usize; 3], due: (u32, Values)) {
    let session = Proved::of(words);
    for before in JUNK {
        let mut values = before;
        let number = session.time_into(first, last, i, &mut values);
        assert_eq!((number, values), due, "{first} {last} {i} of {words:?}");
    }
    assert_eq!(session.memory(), *words);
}

#[test]
fn worked_figures() {
    let mut tally = Tally::default();
    for (name, case, due) in worked() {
        assert_eq!(timed(&mut tally, &case), due, "{name}");
    }
    tally.assert_timed(2, 9, 0);
}

/// Counts of late timings.
#[derive(Debug, Default)]
struct Late {
    /// By rounds: none, one, two to nine, ten or more.
    rounds: [u64; 4],
    /// With J, B or r of the timed entry above 0, and with r too low for the
    /// releases of an entry on its level.
    own: [u64; 4],
    /// With more urgent entries, others on the level, and entries behind the
    /// group.
    others: [u64; 3],
    /// By one tick.
    by_one: u64,
}

impl Late {
    fn note(&mut self, timed: &Timed, rounds: u64, overrun: u64) {
        let own = timed.own();
        let at = match rounds {
            0 | 1 => rounds as usize,
            2..=9 => 2,
            _ => 3,
        };
        self.rounds[at] += 1;
        let group = &timed.entries[timed.first..=timed.last];
        let releases = |e: &Entry| (limit(own) + e.j).div_ceil(e.t);
        let cut = group.iter().any(|e| releases(e) > u64::from(own.r) + 1);
        for (count, met) in self
            .own
            .iter_mut()
            .zip([own.j > 0, own.b > 0, own.r > 0, cut])
        {
            *count += u64::from(met);
        }
        let behind = timed.last + 1 < timed.entries.len();
        for (count, met) in self
            .others
            .iter_mut()
            .zip([timed.first > 0, group.len() > 1, behind])
        {
            *count += u64::from(met);
        }
        self.by_one += u64::from(overrun == 1);
    }

    fn least(&self) -> u64 {
        let counts = self.rounds.iter().chain(&self.own).chain(&self.others);
        *counts
            .chain([&self.by_one])
            .min()
            .expect("there are counts")
    }
}

/// Any group: an entry whose demand at D - J is at most D - J is on time, but
/// some are on time although it is more.
#[test]
fn any_group() {
    let (mut rng, mut tally) = (rng(390), Tally::default());
    let (mut above, mut within, mut counts) = (0, 0, Late::default());
    for _ in 0..times(12_000) {
        let case = any(&mut rng);
        let limit = limit(case.own());
        let demand = case.demand(limit);
        match timed(&mut tally, &case) {
            Timing::OnTime { .. } if demand > limit => above += 1,
            Timing::OnTime { .. } => within += 1,
            Timing::Late { rounds, overrun } => {
                assert!(demand > limit, "{case:?}");
                assert_eq!(overrun, demand - limit, "{case:?}");
                counts.note(&case, rounds, overrun);
            }
        }
    }
    say(format!(
        "any group: on time {within} with a demand of at most the limit, {above} above; \
         {counts:?}; {tally}"
    ));
    assert!(
        within > times(3_000) && above > times(60),
        "{within} {above}"
    );
    assert!(counts.least() > times(5), "{counts:?}");
    tally.assert_timed(times(4_000), times(3_000), 0);
}

/// Entries that are on time although their demand at D - J is more: their third
/// value is 0.
#[test]
fn on_time_with_a_demand_above_the_limit() {
    let (mut rng, mut tally) = (rng(397), Tally::default());
    let mut most = 0;
    for _ in 0..times(2_000) {
        let case = on_time_above(&mut rng);
        let limit = limit(case.own());
        let demand = case.demand(limit);
        assert!(demand > limit, "{case:?}");
        assert!(timed(&mut tally, &case).is_on_time(), "{case:?}");
        most = most.max(demand - limit);
    }
    say(format!(
        "on time with a demand of up to {most} above the limit; {tally}"
    ));
    tally.assert_timed(times(2_000), 0, 0);
    assert!(most > 100, "{most}");
}

/// Limits around the completion time: at it and behind it the entry is on time,
/// a tick before it the entry is late by one tick, and before that by at least
/// one and at most as much as the limit is early.
#[test]
fn either_side_of_the_limit() {
    let (mut rng, mut tally) = (rng(391), Tally::default());
    let mut counts = Late::default();
    for _ in 0..times(4_000) {
        let (case, time, rounds) = unhurried(&mut rng);
        let met = Timing::OnTime { time, rounds };
        for more in [0, 1, rng.range(2, 9)] {
            assert_eq!(timed(&mut tally, &case.with_limit(time + more)), met);
        }
        for early in [1, 2, rng.range(3, 20), time - case.own().c] {
            if early == 0 || time < case.own().c + early {
                continue;
            }
            let case = case.with_limit(time - early);
            match timed(&mut tally, &case) {
                Timing::Late { rounds: 0, overrun } if early == 1 => {
                    assert_eq!((rounds, overrun), (1, 1), "{case:?}");
                    counts.note(&case, 0, overrun);
                }
                Timing::Late {
                    rounds: made,
                    overrun,
                } => {
                    assert!(made < rounds && (1..=early).contains(&overrun), "{case:?}");
                    assert!(early > 1 || (made, overrun) == (rounds - 1, 1), "{case:?}");
                    counts.note(&case, made, overrun);
                }
                timing => panic!("{timing:?}: {case:?}"),
            }
        }
    }
    say(format!("either side of the limit: {counts:?}; {tally}"));
    assert!(counts.least() > times(20), "{counts:?}");
    tally.assert_timed(times(12_000), times(8_000), 0);
}

/// Overruns just beside multiples of 2^32 to 2^36, of entries that are late at
/// the start and of others after a round. Truncated they would be nothing, or
/// small.
#[test]
fn overruns_beyond_32_bits() {
    let (mut rng, mut tally) = (rng(392), Tally::default());
    let mut seen = BTreeMap::new();
    for (bits, rounds) in widths() {
        for beside in [-1, 0, 1, 2] {
            let more = (1_u64 << bits).wrapping_add_signed(beside) % (1 << bits);
            for _ in 0..times(40) {
                let case = overrun_of(&mut rng, bits, more, rounds);
                let timing = timed(&mut tally, &case);
                let Timing::Late {
                    rounds: made,
                    overrun,
                } = timing
                else {
                    panic!("{case:?}");
                };
                assert_eq!(overrun % (1 << bits), more, "{case:?}");
                assert_eq!(made > 0, rounds, "{case:?}");
                let multiple = overrun.wrapping_add_signed(-beside) >> bits;
                *seen.entry((bits, multiple, beside)).or_insert(0) += 1;
            }
        }
    }
    // 2^32 to 2^36 themselves, the ticks before them and those behind.
    for bits in 32..=36 {
        for beside in [-1, 0, 1, 2] {
            assert!(seen.contains_key(&(bits, 1, beside)), "{bits} {beside}");
        }
    }
    let kinds = seen.len();
    say(format!("overruns beyond 32 bits: {kinds} kinds; {tally}"));
    assert!(kinds > 70, "{seen:?}");
    tally.assert_timed(0, times(1_440), times(1_300));
}

/// Widths of numbers that an overrun exceeds at the start, and after a round,
/// where no overrun has 37 bits.
fn widths() -> impl Iterator<Item = (u32, bool)> {
    let both = (32..=36).flat_map(|bits| [(bits, false), (bits, true)]);
    both.filter(|&width| width != (36, true))
}

/// Demands at the limit that are at most the limit if they are truncated to 32
/// to 36 bits.
#[test]
fn demands_at_the_limit_beyond_32_bits() {
    let (mut rng, mut tally) = (rng(393), Tally::default());
    let mut highest = 0;
    for (bits, rounds) in widths() {
        for _ in 0..times(60) {
            let case = demand_of(&mut rng, bits, rounds);
            let limit = limit(case.own());
            let demand = case.demand(limit);
            assert!(demand % (1 << bits) <= limit, "{case:?}");
            let Timing::Late { overrun, .. } = timed(&mut tally, &case) else {
                panic!("{case:?}");
            };
            assert_eq!(overrun + limit, demand, "{case:?}");
            highest = highest.max(demand);
        }
    }
    say(format!("highest demand at a limit {highest}; {tally}"));
    tally.assert_timed(0, times(540), times(540));
    assert!(highest > 1 << 36, "{highest}");
}

/// Long runs in any group, mostly late at the start.
#[test]
fn long_runs() {
    let (mut rng, mut tally) = (rng(394), Tally::default());
    let mut highest = 0;
    for _ in 0..times(4_000) {
        if let Timing::Late { overrun, .. } = timed(&mut tally, &heavy(&mut rng)) {
            assert!(overrun <= LARGEST);
            highest = highest.max(overrun);
        }
    }
    say(format!("long runs: highest overrun {highest}; {tally}"));
    tally.assert_timed(0, times(3_900), times(2_000));
}

#[test]
fn the_largest_overruns() {
    let mut tally = Tally::default();
    let full = from_one(vec![Entry::task(1, MAX_TICKS, MAX_TICKS, MAX_TICKS); 64]);
    for (first, last, i) in [(0, 63, 0), (0, 63, 63), (63, 63, 63), (9, 63, 40)] {
        let case = Timed {
            entries: full.clone(),
            first,
            last,
            i,
        };
        let due = late(0, 63 * MAX_TICKS);
        assert_eq!(timed(&mut tally, &case), due);
    }
    for by_jitter in [false, true] {
        for first in [0, 20, 63] {
            let timing = timed(&mut tally, &largest(by_jitter, first));
            assert_eq!(timing, late(0, 126_999_999_874));
        }
    }
    // On the own level without a call, each of the others runs once.
    let mut once = largest(true, 0);
    once.entries[63].r = 0;
    let due = MAX_TICKS + 63 * (MAX_TICKS - 1);
    assert_eq!(timed(&mut tally, &once), late(0, due));
    // With the largest demand after a round.
    let mut entries = vec![Entry::task(1, 1, 1, 1); 63];
    entries.push(Entry::task(2, 1, MAX_TICKS, MAX_TICKS).blocked(MAX_TICKS - 64));
    let case = Timed {
        entries: from_one(entries),
        first: 63,
        last: 63,
        i: 63,
    };
    let due = late(1, 63 * MAX_TICKS - 63);
    assert_eq!(timed(&mut tally, &case), due);
    tally.assert_timed(0, 12, 12);
}

/// A refusal, as the number and the values of a call.
fn refused(refusal: Refusal) -> (u32, Values) {
    let Refusal { number, row, entry } = refusal;
    (u32::from(number), [row, entry, 0])
}

const GOOD: Entry = Entry::task(1, 3, 9, 4);

/// Refused timings leave the places and 0, whatever the values held.
#[test]
fn refusals_leave_two_places() {
    // The second would be late by 2.
    let two = from_one(vec![GOOD; 2]);
    let held = words_of(&Session::holding(2, &two).expect("good entries"));
    assert_values(&held, [0, 1, 1], (0, [0, 0, 2]));
    let plain = refused(Refusal::plain(POSITION));
    assert_eq!(plain, (12, [0; 3]));
    for place in [
        [0, 2, 1],
        [1, 1, 0],
        [0, 0, 1],
        [1, 0, 1],
        [0, usize::MAX, 0],
    ] {
        assert_values(&held, place, plain);
    }
    for (word, value, number, entry) in [
        (0, 65, ROW, 0),
        (1, 65, ROW, 0),
        (8, 3 << 16, KIND, 1),
        (8, 1 << 16 | 1, REPEAT, 1),
        (9, 5, TICKS, 1),
        (13, 2, JITTER, 1),
        (7, 2, JITTER, 0),
    ] {
        let mut words = held;
        words[word] = value;
        let due = refused(Refusal::at_entry(number, 0, entry));
        assert_eq!(due.1, [0, entry, 0]);
        for place in [[0, 1, 1], [0, 0, 0], [1, 0, 7]] {
            assert_values(&words, place, due);
        }
    }
}

/// Memory from elsewhere: every answer, with all values.
#[test]
fn values_of_any_memory() {
    let mut rng = rng(395);
    let (mut on_time, mut late, mut numbers) = (0, 0, [0; 17]);
    for _ in 0..times(9_000) {
        let words = damaged(&mut rng);
        let place = place(&mut rng, words[1] as usize);
        let [first, last, i] = place;
        let answer = session_in(&words).and_then(|held| held.time(first, last, i));
        match answer {
            Ok(timing) => {
                match timing.is_on_time() {
                    true => on_time += 1,
                    false => late += 1,
                }
                let due = timing.values().map(|value| value as usize);
                assert_values(&words, place, (0, due));
            }
            Err(refusal) => {
                numbers[usize::from(refusal.number)] += 1;
                assert_values(&words, place, refused(refusal));
            }
        }
    }
    let refusals = [ROW, KIND, TICKS, POSITION, JITTER, REPEAT];
    let refusals = refusals.map(|number| numbers[usize::from(number)]);
    say(format!(
        "values of any memory: {on_time} on time, {late} late, refused {refusals:?}"
    ));
    assert!(
        on_time > times(300) && late > times(300),
        "{on_time} {late}"
    );
    assert!(
        refusals.iter().all(|&count| count > times(100)),
        "{refusals:?}"
    );
}

/// Mostly a group in the list, with an entry in it.
fn place(rng: &mut Rng, count: usize) -> [usize; 3] {
    let end = count.clamp(1, 8) + usize::from(rng.chance(1, 4));
    let mut places = [0; 3].map(|_| rng.index(end));
    places.sort();
    let [first, i, last] = places;
    [first, last, i]
}

/// A deadline longer by less than the overrun is missed; one longer by the
/// overrun may be met or missed.
#[test]
fn a_deadline_longer_by_the_overrun() {
    let (mut rng, mut tally) = (rng(396), Tally::default());
    let (mut met, mut missed) = (0, 0);
    while met + missed < times(1_500) {
        let case = any(&mut rng);
        let Timing::Late { overrun, .. } = case.timing() else {
            continue;
        };
        let before = limit(case.own());
        if case.own().d + overrun > 1_000_000 {
            continue;
        }
        for less in [1, overrun / 2, overrun - 1] {
            if (1..overrun).contains(&less) {
                let timing = timed(&mut tally, &case.with_limit(before + less));
                assert!(!timing.is_on_time(), "{case:?}");
            }
        }
        match timed(&mut tally, &case.with_limit(before + overrun)) {
            Timing::OnTime { time, .. } => {
                assert_eq!(time, before + overrun, "{case:?}");
                met += 1;
            }
            Timing::Late { .. } => missed += 1,
        }
    }
    say(format!(
        "with a deadline longer by the overrun {met} on time, {missed} late; {tally}"
    ));
    assert!(met > times(300) && missed > times(300), "{met} {missed}");
}
