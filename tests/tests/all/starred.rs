//! The cases of docs/SPEC.md, with every figure given there.

use oracle::cases;
use oracle::map::{by_groupings, by_groups, map_entries, Map};
use oracle::model::{Entry, Node};
use oracle::timing::{completion, demand, initial_time, Timing};

pub fn on_time(time: u64, rounds: u64) -> Timing {
    Timing::OnTime { time, rounds }
}

pub fn late(rounds: u64, overrun: u64) -> Timing {
    Timing::Late { rounds, overrun }
}

/// The map; both ways to compute it must agree.
pub fn map(node: &Node) -> Option<Map> {
    let found = map_entries(&node.entries, node.levels);
    assert_eq!(by_groupings(&node.entries, node.levels), found);
    assert_eq!(by_groups(&node.entries, node.levels), found);
    found
}

pub fn timings(node: &Node, levels: &[u8]) -> Vec<Timing> {
    (0..node.entries.len())
        .map(|i| completion(&node.entries, levels, i))
        .collect()
}

/// Asserts the map and returns the timings under it.
pub fn mapped(node: &Node, levels: &[u8], used: u8) -> Vec<Timing> {
    let levels = levels.to_vec();
    assert_eq!(
        map(node),
        Some(Map {
            levels: levels.clone(),
            used
        })
    );
    timings(node, &levels)
}

#[test]
fn p() {
    let times = mapped(&cases::p(), &[1, 2, 2], 2);
    assert_eq!(times, [on_time(20, 1), on_time(138, 2), on_time(138, 2)]);
}

#[test]
fn q_same_times_as_p() {
    let times = mapped(&cases::q(), &[1, 2, 2], 2);
    assert_eq!(times, [on_time(20, 1), on_time(138, 2), on_time(138, 2)]);
}

#[test]
fn r_no_map() {
    assert_eq!(map(&cases::r()), None);
    assert_eq!(completion(&cases::r().entries, &[1, 2, 2], 2), late(1, 1));
}

#[test]
fn f_no_map() {
    let f = cases::f();
    assert_eq!(map(&f), None);
    // Entry 1 would take 118. Its test already starts there, above its
    // deadline.
    assert_eq!(initial_time(&f.entries, &[1, 1, 1], 0), 118);
    assert_eq!(demand(&f.entries, &[1, 1, 1], 0, 118), 118);
    assert_eq!(completion(&f.entries, &[1, 1, 1], 0), late(0, 18));
}

/// Least t up to D whose demand on one level is at most t, with ⌊t/T⌋ as
/// Bethmangalkar (1999, equation 4.2) prints it.
fn floor_time(entries: &[Entry], i: usize) -> Option<u64> {
    let own = &entries[i];
    let queued = |t: u64| -> u64 {
        let others = (0..entries.len()).filter(|&j| j != i);
        let most_runs = u64::from(own.r) + 1;
        others
            .map(|j| entries[j].c * (t / entries[j].t).min(most_runs))
            .sum()
    };
    (1..=own.d).find(|&t| own.c + own.b + queued(t) <= t)
}

#[test]
fn f_passes_with_the_printed_floor() {
    let f = cases::f();
    let times: Vec<_> = (0..3).map(|i| floor_time(&f.entries, i)).collect();
    assert_eq!(times, [Some(20), Some(30), Some(68)]);
}

#[test]
fn h_wide_group_passes_after_narrow_ones_failed() {
    let h = cases::h();
    assert_eq!(completion(&h.entries, &[1, 2, 3], 2), late(1, 2));
    assert_eq!(completion(&h.entries, &[1, 1, 2], 2), late(1, 2));
    assert_eq!(completion(&h.entries, &[1, 2, 2], 2), late(1, 2));
    let times = mapped(&h, &[1, 1, 1], 1);
    assert_eq!(times, [on_time(5, 1), on_time(5, 1), on_time(8, 1)]);
}

#[test]
fn s_no_map() {
    let s = cases::s();
    assert_eq!(map(&s), None);
    for levels in [[1, 2, 3], [1, 1, 2], [1, 2, 2]] {
        assert_eq!(initial_time(&s.entries, &levels, 2), 128);
        assert_eq!(demand(&s.entries, &levels, 2, 128), 148);
        assert_eq!(completion(&s.entries, &levels, 2), late(1, 3));
    }
    assert_eq!(initial_time(&s.entries, &[1, 1, 1], 0), 128);
    assert_eq!(demand(&s.entries, &[1, 1, 1], 0, 128), 128);
    assert_eq!(completion(&s.entries, &[1, 1, 1], 0), late(0, 28));
}

#[test]
fn u() {
    let times = mapped(&cases::u(), &[1, 1, 2], 2);
    assert_eq!(times, [on_time(60, 1), on_time(60, 1), on_time(148, 2)]);
}

#[test]
fn v_together_and_apart() {
    let v = cases::v();
    assert_eq!(completion(&v.entries, &[1, 1], 1), on_time(16, 2));
    assert_eq!(completion(&v.entries, &[1, 2], 1), on_time(18, 3));
    assert_eq!(mapped(&v, &[1, 1], 1), [on_time(5, 1), on_time(16, 2)]);
}

#[test]
fn v_with_one_own_level_run_gives_15() {
    // With r = 0 in place of 1, the demand counts one run of the other entry.
    let mut v = cases::v();
    v.entries[1].r = 0;
    assert_eq!(completion(&v.entries, &[1, 1], 1), on_time(15, 1));
}

#[test]
fn e_has_no_levels() {
    assert!(mapped(&cases::e(), &[], 0).is_empty());
}
