//! Odd plans: nodes whose utilisation is close to 1. A search that makes every
//! round may take hours for them.

use crate::say;
use oracle::cases;
use oracle::compare;
use oracle::gen::jitter::{thirds, Jitter};
use oracle::gen::odd::{many_rounds, near_one, FAMILIES, JUST_LATE, LATE_STARTS};
use oracle::map::by_groups;
use oracle::model::Entry;
use oracle::options::{rng, times};
use oracle::rng::Rng;
use oracle::tally::Tally;
use oracle::timing::{completion, completion_in_group, demand, group_levels, limit, Timing};

/// Whether the utilisation shows that the entry at `i` is late in the group
/// from `start` to the last entry. It computes exactly, in integers, and
/// without a round.
///
/// Let L be its limit, D - J. For t ≤ L its demand W(t) is at least K + V + U t.
/// K is its blocking, plus C of each entry of the group, plus C of each entry
/// before the group with T ≥ L + J. U is the utilisation of the other entries
/// before the group, and V the sum of J times the utilisation of each of them.
/// So W(t) ≤ t gives K + V ≤ (1 - U) t. If U < 1, then K + V ≤ (1 - U) L. If
/// U ≥ 1, there is no such t, because K > 0.
fn surely_late(entries: &[Entry], start: usize, i: usize) -> bool {
    let own = &entries[i];
    let (short, long): (Vec<&Entry>, Vec<&Entry>) = entries[..start]
        .iter()
        .partition(|e| e.t < limit(own) + e.j);
    let runs = |some: &[&Entry]| some.iter().map(|e| i128::from(e.c)).sum::<i128>();
    let group: Vec<&Entry> = entries[start..].iter().collect();
    let k = i128::from(own.b) + runs(&group) + runs(&long);
    let whole = short.iter().fold(1, |whole, e| least_multiple(whole, e.t));
    let part = |e: &Entry| i128::from(e.c) * (whole / i128::from(e.t));
    let utilisation: i128 = short.iter().map(|e| part(e)).sum();
    let jitter: i128 = short.iter().map(|e| part(e) * i128::from(e.j)).sum();
    k * whole + jitter > (whole - utilisation) * i128::from(limit(own))
}

fn least_multiple(whole: i128, t: u64) -> i128 {
    let (mut a, mut b) = (whole, i128::from(t));
    while b != 0 {
        (a, b) = (b, a % b);
    }
    whole / a * i128::from(t)
}

/// The last entries of the family with late starts end a tick behind their
/// deadline.
#[test]
fn late_starts_are_just_late() {
    let entries = LATE_STARTS.1();
    let levels = group_levels(entries.len(), 5, 63);
    let time = 205_596_847;
    assert_eq!(demand(&entries, &levels, 63, time), time);
    assert!(demand(&entries, &levels, 63, time - 1) > time - 1);
    assert!(entries[5..].iter().all(|entry| entry.d == time - 1));
}

/// Wherever the last group of a map starts, one of its entries is late.
#[test]
fn the_families_have_no_map() {
    let families = FAMILIES.into_iter().chain([JUST_LATE[0], LATE_STARTS]);
    for (name, entries) in families {
        for entries in [entries(), thirds(entries())] {
            for start in 0..entries.len() {
                let late = (start..entries.len()).any(|i| surely_late(&entries, start, i));
                assert!(late, "{name}: {start}");
            }
        }
    }
}

/// How many entries the utilisation shows to be late in some last group; the
/// second implementation must find them late too.
fn late_by_utilisation(entries: &[Entry]) -> u64 {
    let last = entries.len() - 1;
    let mut sure = 0;
    for start in 0..=last {
        for i in start..=last {
            if surely_late(entries, start, i) {
                let timing = completion_in_group(entries, start, last, i);
                assert!(!timing.is_on_time(), "{start}, {i}: {entries:?}");
                sure += 1;
            }
        }
    }
    sure
}

/// Utilisations just below, at and just above 1: every call is compared with
/// the second implementation, which makes every round.
#[test]
fn utilisations_near_one() {
    near_one_with(260, |_| Jitter::Zero);
    near_one_with(261, Jitter::draw);
}

fn near_one_with(part: u64, jitter: fn(&mut Rng) -> Jitter) {
    let (mut rng, mut tally) = (rng(part), Tally::default());
    let (mut maps, mut none, mut sure) = (0, 0, 0);
    for _ in 0..times(8_000) {
        let jitter = jitter(&mut rng);
        let entries = near_one(&mut rng, jitter);
        sure += late_by_utilisation(&entries);
        let file = cases::file(cases::node(rng.pick(&[2, 3, 64]), &entries));
        let before = tally.accepted();
        compare::map(&mut tally, &file, 7, entries.len());
        let mapped = tally.accepted() > before;
        maps += u64::from(mapped);
        none += u64::from(!mapped);
        compare::list(&mut tally, &file);
    }
    let (all, name) = (maps + none, "nodes with a utilisation near 1");
    let counts = format!("{maps} with a map, {none} without");
    say(format!("{all} {name}: {counts}; {sure} entries late by it"));
    assert!(maps > times(500) && none > times(500) && sure > times(1_000));
}

/// Entries that end in time after millions of rounds; each round is counted.
#[test]
fn millions_of_rounds() {
    let entries = many_rounds(8);
    let map = by_groups(&entries, 64).expect("the node has a map");
    let mut due = format!("plan 1\nnode 7 levels {} of 64\n", map.used);
    for (i, entry) in entries.iter().enumerate() {
        let Timing::OnTime { time, rounds } = completion(&entries, &map.levels, i) else {
            panic!("no entry of a passing map is late");
        };
        let (number, level) = (entry.number, map.levels[i]);
        due += &format!("entry {number} level {level} time {time} rounds {rounds}\n");
    }
    assert!(due.ends_with("time 9790326 rounds 3057940\n"), "{due}");
    let mut text = vec![0; due.len()];
    let file = cases::file(cases::node(64, &entries));
    assert_eq!(oracle::ffi::list(&file, &mut text), Ok(due.len()));
    assert_eq!(String::from_utf8_lossy(&text), due);
}

/// The proved program and library on full plans, with a time limit. The second
/// implementation makes every round, which would take too long.
#[cfg(list_plan)]
mod full {
    use super::*;
    use oracle::ffi;
    use oracle::file::encode;
    use oracle::gen::buffers::known;
    use oracle::gen::odd::full_plan;
    use oracle::programs::{root, run_within};
    use oracle::refusal::{Refusal, NO_MAP};
    use std::process::Command;
    use std::time::Duration;

    /// Seconds allowed for a listing; it takes milliseconds.
    const LIMIT: Duration = Duration::from_secs(10);

    /// A family, and the same with J of a third of each period.
    fn assert_listed(family: usize) {
        let (name, entries) = FAMILIES[family];
        assert_no_map(name, &entries());
        assert_no_map(name, &thirds(entries()));
    }

    fn assert_no_map(name: &str, entries: &[Entry]) {
        let plan = full_plan(entries);
        let file = encode(&plan).unwrap();
        let mut program = Command::new(root().join("target/bin/list_plan"));
        let (text, ended) = run_within(&mut program, &file, LIMIT);
        assert_eq!(ended, Some(true), "{name}: ended in {LIMIT:?}");
        let lines: String = plan
            .nodes
            .iter()
            .map(|node| format!("node {} no map\n", node.number))
            .collect();
        assert_eq!(String::from_utf8_lossy(&text), format!("plan 32\n{lines}"));
        let mut levels = known(64);
        let answer = ffi::map(&file, plan.nodes[31].number, &mut levels);
        assert_eq!(answer, Err(Refusal::plain(NO_MAP)));
        assert_eq!(levels, known(64));
    }

    #[test]
    fn load_1_by_one_entry() {
        assert_listed(0);
    }

    #[test]
    fn load_1_by_three_entries() {
        assert_listed(1);
    }

    #[test]
    fn powers_of_2() {
        assert_listed(2);
    }

    #[test]
    fn a_long_run_before_powers_of_2() {
        assert_listed(3);
    }

    #[test]
    fn load_1_by_62_entries() {
        assert_listed(4);
    }

    /// The bound by the utilisation counts J: without it, this plan would take
    /// a hundred times the evaluations.
    #[test]
    fn late_starts() {
        let (name, entries) = LATE_STARTS;
        assert_no_map(name, &entries());
    }
}
