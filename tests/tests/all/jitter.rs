//! Entries that start late, with every figure that was worked out for them.

use crate::starred::{late, map, mapped, on_time, timings};
use oracle::cases::{self, again, jittered, twice_ahead};
use oracle::model::Node;
use oracle::timing::{completion, demand, initial_time, limit};

#[test]
fn p_with_j_12_on_its_third() {
    let p = jittered(cases::p(), 2, 12);
    let times = mapped(&p, &[1, 2, 2], 2);
    assert_eq!(times, [on_time(20, 1), on_time(138, 2), on_time(138, 2)]);
    // Its completion time is counted without J, which fills up its deadline.
    assert_eq!(limit(&p.entries[2]), 138);
}

#[test]
fn p_with_j_13_on_its_third_has_no_map() {
    let p = jittered(cases::p(), 2, 13);
    assert_eq!(map(&p), None);
    assert_eq!(completion(&p.entries, &[1, 2, 2], 2), late(1, 1));
    // As case R, whose deadline is the limit here.
    let limits = |node: &Node| node.entries.iter().map(limit).collect::<Vec<_>>();
    assert_eq!(limits(&p), limits(&cases::r()));
}

#[test]
fn released_again() {
    let node = again(4);
    let times = mapped(&node, &[1, 2], 2);
    assert_eq!(times, [on_time(3, 1), on_time(11, 2)]);
    assert_eq!(completion(&again(0).entries, &[1, 2], 1), on_time(8, 1));
    assert_eq!(completion(&node.entries, &[1, 1], 0), late(0, 2));
    // The start counts each entry once, whatever its J.
    assert_eq!(initial_time(&node.entries, &[1, 2], 1), 8);
    let demands = [6, 7, 16, 17].map(|t| demand(&node.entries, &[1, 2], 1, t));
    assert_eq!(demands, [8, 11, 11, 14]);
}

#[test]
fn v_with_jitter_on_its_first() {
    let v = jittered(cases::v(), 0, 2);
    assert_eq!(timings(&v, &[1, 1]), [late(0, 2), on_time(16, 2)]);
    assert_eq!(mapped(&v, &[1, 2], 2)[1], on_time(18, 2));
    let v = jittered(cases::v(), 0, 4);
    assert_eq!(completion(&v.entries, &[1, 2], 1), on_time(19, 3));
}

#[test]
fn twice_ahead_on_the_own_level() {
    assert_eq!(
        completion(&twice_ahead(8).entries, &[1, 1], 1),
        on_time(7, 2)
    );
    assert_eq!(
        completion(&twice_ahead(0).entries, &[1, 1], 1),
        on_time(5, 1)
    );
    // Without a call, it finds one job ahead.
    let mut once = twice_ahead(8);
    once.entries[1].r = 0;
    assert_eq!(completion(&once.entries, &[1, 1], 1), on_time(5, 1));
}

#[test]
fn h_with_jitter() {
    let h = jittered(cases::h(), 1, 15);
    let times = mapped(&h, &[1, 1, 1], 1);
    assert_eq!(times, [on_time(5, 1), on_time(5, 1), on_time(8, 1)]);
    for (position, j) in [(1, 16), (0, 1), (2, 1)] {
        assert_eq!(map(&jittered(cases::h(), position, j)), None);
    }
}

/// J of the timed entry shortens its time, and J of the others lengthens it.
#[test]
fn own_jitter_and_that_of_others() {
    let node = jittered(again(0), 1, 12);
    assert_eq!(completion(&node.entries, &[1, 2], 1), on_time(8, 1));
    let node = jittered(again(0), 1, 13);
    assert_eq!(completion(&node.entries, &[1, 2], 1), late(0, 1));
    let node = jittered(again(4), 1, 9);
    assert_eq!(completion(&node.entries, &[1, 2], 1), on_time(11, 2));
    let node = jittered(again(4), 1, 10);
    assert_eq!(completion(&node.entries, &[1, 2], 1), late(1, 1));
    // Less urgent entries add nothing, whatever their J.
    assert_eq!(completion(&node.entries, &[1, 2], 0), on_time(3, 1));
}
