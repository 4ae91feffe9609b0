//! The proved timing at extremes within the limits, compared with the second
//! implementation: very many rounds, and starts and demands that do not fit 32
//! bits. Each test prints the extreme that it reached.

use crate::say;
use oracle::cases;
use oracle::compare;
use oracle::compare::session::Both;
use oracle::gen::extremes::{
    far_sums, first_group, five_full, high_demand, high_initial_time, many_releases, slow,
    slow_and_fifth_late, slow_and_late, until_the_last, SLOW,
};
use oracle::lent::{words_with, NO_STORE};
use oracle::model::{Entry, MAX_TICKS};
use oracle::options::{rng, times};
use oracle::session::{Op, Reply, Session};
use oracle::tally::Tally;
use oracle::timing::{demand, group_levels, initial_time, limit, Timing};

/// Times the last entry in the group that starts at `first`, in both
/// implementations.
fn time_last(tally: &mut Tally, entries: &[Entry], first: usize) -> Timing {
    let last = entries.len() - 1;
    let session = Session::holding(64, entries).expect("generators give good entries");
    let op = Op::Time(first, last, last);
    match Both::of(&words_with(&session, &NO_STORE)).step(tally, &op, 0) {
        Ok(Reply::Timed(timing)) => timing,
        other => panic!("{other:?}"),
    }
}

/// Levels that put the last entry behind all others, and its position.
fn behind_all(entries: &[Entry]) -> (Vec<u8>, usize) {
    let last = entries.len() - 1;
    (group_levels(entries.len(), last, last), last)
}

/// Deadlines at completion times that take up to half a million rounds to find,
/// and deadlines a tick before these times.
#[test]
fn rounds_above_65_535() {
    rounds_above_65_535_of(300, slow).assert_maps(times(20), times(31));
}

/// The same with entries before the last that may start late. All of them but
/// the first are then late themselves, so there is no map.
#[test]
fn rounds_above_65_535_with_jitter() {
    rounds_above_65_535_of(306, slow_and_late).assert_maps(0, times(31));
}

/// The same with J on the fifth entry alone, so a node with enough levels has a
/// map if the last entry is on time. This J often decides which one, or whether
/// there is one.
#[test]
fn rounds_above_65_535_with_jitter_and_maps() {
    let slow = |fifth, blocking| {
        let entries = slow_and_fifth_late(fifth, blocking);
        assert!(entries[SLOW - 1].j > 0, "{entries:?}");
        entries
    };
    rounds_above_65_535_of(319, slow).assert_maps(times(20), times(31));
}

fn rounds_above_65_535_of(part: u64, slow: fn(u64, u64) -> Vec<Entry>) -> Tally {
    let (mut rng, mut tally) = (rng(part), Tally::default());
    let (mut late, mut met, mut above_12) = (0, 0, 0);
    for _ in 0..times(120) {
        let fifth = rng.pick(&[1_835, 1_850, 1_900, 2_100, 4_000, 50_000]) + rng.below(9);
        let entries = until_the_last(slow(fifth, rng.below(40)), rng.below(2));
        match time_last(&mut tally, &entries, SLOW) {
            Timing::Late { rounds, overrun } => {
                // Its deadline is a tick before its completion time.
                assert_eq!(overrun, 1, "{entries:?}");
                late = late.max(rounds);
                above_12 += u64::from(rounds > 12);
            }
            Timing::OnTime { rounds, .. } => met = met.max(rounds),
        }
        time_last(&mut tally, &entries, SLOW - 1);
        let levels = rng.pick(&[3, 5, 64]);
        let file = cases::file(cases::node(levels, &entries));
        compare::map(&mut tally, &file, 7, entries.len());
        compare::list(&mut tally, &file);
    }
    say(format!(
        "most rounds of an entry on time {met}, late {late}; {tally}"
    ));
    assert!(late > 65_535 && met > 65_535, "{late} {met}");
    assert!(above_12 > times(30), "{above_12}");
    tally
}

/// More than 2^22 rounds, on time and late, in a session and in a listing.
#[test]
fn rounds_above_2_to_the_22nd() {
    let mut tally = Tally::default();
    let mut rounds = Vec::new();
    for early in [0, 1] {
        let entries = until_the_last(slow(1_807, 6), early);
        let timing = time_last(&mut tally, &entries, SLOW);
        assert_eq!(timing.is_on_time(), early == 0);
        assert_eq!(timing.values()[2], early, "late by one tick");
        rounds.push(timing.rounds());
    }
    let file = cases::file(cases::node(64, &slow(1_807, 6)));
    compare::list(&mut tally, &file);
    assert!(oracle::listing::list(&file).ends_with(&format!("rounds {}\n", rounds[0])));
    say(format!("rounds on time and late: {rounds:?}"));
    assert!(rounds.iter().all(|&count| count > 1 << 22), "{rounds:?}");
}

/// More than 20 rounds although no entry is more urgent.
#[test]
fn rounds_above_20_in_a_first_group() {
    let (mut rng, mut tally) = (rng(301), Tally::default());
    let (mut most, mut many) = (0, 0);
    for _ in 0..times(300) {
        let entries = first_group(&mut rng);
        let timing = time_last(&mut tally, &entries, 0);
        many += u64::from(timing.is_on_time() && timing.rounds() > 20);
        most = most.max(timing.rounds());
        let file = cases::file(cases::node(1, &entries));
        compare::map(&mut tally, &file, 7, entries.len());
        compare::list(&mut tally, &file);
    }
    say(format!("most rounds in a first group {most}; {tally}"));
    assert!(most > 30 && many > times(100), "{most} {many}");
    assert_eq!(tally.met(11), 0, "one level does");
}

/// Initial times above 2^32 to 2^35. Truncated to 32 to 35 bits, they would be
/// at most D.
#[test]
fn initial_times_above_2_to_the_34th() {
    let (mut rng, mut tally) = (rng(302), Tally::default());
    let mut highest = 0;
    for bits in 32..=35 {
        for _ in 0..times(50) {
            let entries = high_initial_time(&mut rng, bits);
            let last = entries.len() - 1;
            let at = initial_time(&entries, &vec![1; entries.len()], last);
            assert!(at > 1 << bits && at % (1 << bits) <= MAX_TICKS, "{at}");
            highest = highest.max(at);
            for first in [0, last / 2, last] {
                let timing = time_last(&mut tally, &entries, first);
                // Each entry is released once in 10^9 ticks.
                let due = Timing::Late {
                    rounds: 0,
                    overrun: at - MAX_TICKS,
                };
                assert_eq!(timing, due);
            }
            compare::list(&mut tally, &cases::file(cases::node(64, &entries)));
        }
    }
    say(format!("highest initial time {highest}"));
    assert!(highest > 1 << 35, "{highest}");
}

/// Demands above 2^32 to 2^35 in the only round of a late entry. Truncated to
/// 32 to 35 bits, some would be at most D.
#[test]
fn demands_above_2_to_the_34th() {
    let (mut rng, mut tally) = (rng(303), Tally::default());
    let (mut highest, mut telling) = (0, [0; 4]);
    for _ in 0..times(2_000) {
        let entries = high_demand(&mut rng);
        let (levels, last) = behind_all(&entries);
        let most = demand(
            &entries,
            &levels,
            last,
            initial_time(&entries, &levels, last),
        );
        highest = highest.max(most);
        for (bits, count) in (32..).zip(&mut telling) {
            let cut: u64 = most % (1 << bits);
            *count += u64::from(most > cut && cut <= MAX_TICKS);
        }
        let timing = time_last(&mut tally, &entries, last);
        let due = Timing::Late {
            rounds: 1,
            overrun: demand(&entries, &levels, last, MAX_TICKS) - MAX_TICKS,
        };
        assert_eq!(timing, due);
        time_last(&mut tally, &entries, last / 2);
        time_last(&mut tally, &entries, 0);
    }
    say(format!("highest demand {highest}, telling {telling:?}"));
    assert!(highest > 1 << 35, "{highest}");
    assert!(
        telling.iter().all(|&count| count > times(10)),
        "{telling:?}"
    );
}

/// More than 2^23 releases of one entry before another one ends, with more than
/// 2^29 ticks of runs in all.
#[test]
fn releases_above_2_to_the_23rd() {
    let (mut rng, mut tally) = (rng(304), Tally::default());
    let (mut most, mut longest, mut on_time) = (0, 0, 0);
    for _ in 0..times(150) {
        let entries = many_releases(&mut rng);
        if let Timing::OnTime { time, .. } = time_last(&mut tally, &entries, entries.len() - 1) {
            let releases = time.div_ceil(entries[0].t);
            on_time += u64::from(releases > 1 << 23);
            most = most.max(releases);
            longest = longest.max(releases * entries[0].c);
        }
        let file = cases::file(cases::node(64, &entries));
        compare::map(&mut tally, &file, 7, entries.len());
        compare::list(&mut tally, &file);
    }
    say(format!(
        "most releases {most}, longest runs in all {longest}; {tally}"
    ));
    assert!(on_time > times(50) && most > 1 << 25, "{on_time} {most}");
    assert!(longest > 1 << 29, "{longest}");
    tally.assert_maps(times(75), 0);
}

/// Five entries with 800,001 releases each, and a demand above 2^32.
#[test]
fn five_full_entries() {
    let (entries, mut tally) = (five_full(), Tally::default());
    let (levels, last) = behind_all(&entries);
    assert_eq!(initial_time(&entries, &levels, last), 800_000_001);
    assert_eq!(demand(&entries, &levels, last, 800_000_001), 4_800_000_001);
    for first in 0..entries.len() {
        time_last(&mut tally, &entries, first);
    }
    let file = cases::file(cases::node(64, &entries));
    compare::map(&mut tally, &file, 7, entries.len());
    compare::list(&mut tally, &file);
    assert_eq!(tally.met(11), 1, "{tally}");
}

/// Sums t + J + T - 1 of nearly 3,000,000,000, which do not fit 31 bits, on more
/// urgent levels and on the own level. The demand at the limit is at most the
/// limit, or a tick more.
#[test]
fn sums_near_3_000_000_000() {
    let (mut rng, mut tally) = (rng(305), Tally::default());
    let (mut farthest, mut at_the_limit, mut late) = (0, 0, 0);
    for round in 0..times(400) {
        let last = rng.count(1, 8);
        let first = if round % 2 == 0 {
            last
        } else {
            rng.count(0, last)
        };
        let entries = far_sums(&mut rng, first, last);
        let own = limit(&entries[last]);
        match time_last(&mut tally, &entries, first) {
            Timing::OnTime { time, .. } => {
                at_the_limit += u64::from(time + 1 >= own);
                let sum = |e: &Entry| time + e.j + e.t - 1;
                farthest = farthest.max(entries.iter().map(sum).max().unwrap_or(0));
            }
            Timing::Late { rounds, .. } => late += u64::from(rounds > 0),
        }
        let file = cases::file(cases::node(64, &entries));
        compare::map(&mut tally, &file, 7, entries.len());
        compare::list(&mut tally, &file);
    }
    say(format!(
        "farthest sum {farthest}; {at_the_limit} at the limit, {late} late; {tally}"
    ));
    assert!(farthest > 2_999_999_990, "{farthest}");
    assert!(
        at_the_limit > times(100) && late > times(50),
        "{at_the_limit} {late}"
    );
}

/// One entry that may start nearly a period late, and one that ends at 10^9, or
/// a tick too late: t + J + T - 1 is 2,999,999,998.
#[test]
fn the_farthest_sum() {
    let mut tally = Tally::default();
    let first = Entry::task(1, 1, MAX_TICKS, MAX_TICKS).jittered(MAX_TICKS - 1);
    let last = Entry::task(2, 1, MAX_TICKS, MAX_TICKS).blocked(MAX_TICKS - 3);
    let met = |rounds| Timing::OnTime {
        time: MAX_TICKS,
        rounds,
    };
    assert_eq!(time_last(&mut tally, &[first, last], 1), met(2));
    let later = last.blocked(MAX_TICKS - 2);
    let timing = time_last(&mut tally, &[first, later], 1);
    let late = Timing::Late {
        rounds: 1,
        overrun: 1,
    };
    assert_eq!(timing, late);
    // On the own level it may run twice only for an entry that calls.
    assert_eq!(time_last(&mut tally, &[first, last.calling(1)], 0), met(2));
    assert_eq!(time_last(&mut tally, &[first, later], 0), met(1));
}
