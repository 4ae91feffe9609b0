//! The proved library on generated plans: every call is compared with the
//! second implementation.

use crate::say;
use oracle::cases;
use oracle::compare;
use oracle::file::encode;
use oracle::gen::plans::{self, drawn_in};
use oracle::model::{Edition, Entry, Node, Plan};
use oracle::options::{rng, times};
use oracle::rng::Rng;
use oracle::tally::Tally;

/// Compares `counts` plans of each edition, by a generator of both, and prints
/// the counts of answers.
fn compare_plans(
    part: u64,
    name: &str,
    counts: [u64; 2],
    draw: fn(&mut Rng) -> Plan,
) -> [Tally; 2] {
    let mut rng = rng(part);
    Edition::BOTH.map(|edition| {
        let mut tally = Tally::default();
        let plans = times(counts[edition as usize]);
        for _ in 0..plans {
            let plan = drawn_in(&mut rng, edition, draw);
            let file = encode(&plan).expect("generators give good plans");
            compare::file(&mut tally, &file);
        }
        let number = edition.number();
        say(format!(
            "{plans} plans of edition {number}, {name}: {tally}"
        ));
        // The generators keep to the budget of rounds.
        tally.assert_none_left_out();
        tally
    })
}

/// Asserts least counts of maps, and of calls without a map, in each edition.
fn assert_maps(tallies: [Tally; 2], first: [u64; 2], second: [u64; 2]) {
    for (tally, [maps, none]) in tallies.iter().zip([first, second]) {
        tally.assert_maps(times(maps), times(none));
    }
}

#[test]
fn small() {
    let tallies = compare_plans(200, "small", [10_000, 10_000], plans::small);
    assert_maps(tallies, [9_000, 20_000], [7_500, 30_000]);
}

#[test]
fn wide() {
    let tallies = compare_plans(201, "wide after narrow", [2_000, 2_000], plans::wide);
    assert_maps(tallies, [3_000, 2_400], [1_700, 5_000]);
}

#[test]
fn tight() {
    let tallies = compare_plans(202, "tight deadlines", [3_000, 3_000], plans::tight);
    assert_maps(tallies, [3_000, 5_000], [2_700, 7_500]);
}

#[test]
fn queued() {
    let tallies = compare_plans(318, "twice ahead on a level", [1_000, 2_000], plans::queued);
    assert_maps(tallies, [2_700, 650], [5_500, 1_400]);
}

#[test]
fn stations() {
    let tallies = compare_plans(203, "stations", [300, 150], plans::station);
    assert_maps(tallies, [3_500, 3_500], [1_300, 2_900]);
}

#[test]
fn full_nodes() {
    let tallies = compare_plans(204, "64 entries", [300, 150], plans::full_node);
    assert_maps(tallies, [90, 280], [25, 200]);
}

#[test]
fn many_nodes() {
    let tallies = compare_plans(205, "32 nodes", [600, 600], plans::many_nodes);
    assert_maps(tallies, [6_000, 18_000], [5_700, 24_000]);
}

#[test]
fn longest() {
    let tallies = compare_plans(206, "32 nodes of 64 entries", [5, 3], plans::longest);
    assert_maps(tallies, [80, 80], [25, 120]);
}

#[test]
fn at_limits() {
    let tallies = compare_plans(207, "at the limits", [3_000, 3_000], plans::at_limits);
    assert_maps(tallies, [2_400, 11_000], [2_400, 13_000]);
}

#[test]
fn long_periods() {
    let tallies = compare_plans(209, "long periods", [500, 500], plans::long_periods);
    assert_maps(tallies, [700, 650], [500, 1_100]);
}

#[test]
fn many_entries() {
    let tallies = compare_plans(317, "13 to 64 entries", [200, 150], plans::many_entries);
    assert_maps(tallies, [100, 130], [60, 170]);
}

#[test]
fn starred_cases() {
    let all: [fn() -> Node; 8] = [
        cases::p,
        cases::q,
        cases::r,
        cases::f,
        cases::h,
        cases::s,
        cases::u,
        cases::v,
    ];
    let mut tally = Tally::default();
    for case in all.into_iter().chain([cases::e as fn() -> Node]) {
        for levels in 1..=4 {
            let node = Node { levels, ..case() };
            compare::file(&mut tally, &cases::file(node.clone()));
            compare::file(&mut tally, &cases::second_file(node));
        }
        compare::file(&mut tally, &cases::file(case()));
    }
}

/// A utilisation just below 1, so that a test takes up to 30,000 rounds.
#[test]
fn many_rounds() {
    let mut rng = rng(208);
    let mut tally = Tally::default();
    let mut most = 0;
    for _ in 0..times(60) {
        let t = rng.pick(&[100, 1_000, 5_000, 20_000, 31_000]);
        let slack = rng.range(1, 2);
        let first = Entry::task(1, t - slack, t, t);
        let d = rng.pick(&[1_000_000_000, 400_000_000, t * t, t * t / slack - 1]);
        let second = Entry::task(2, t - rng.below(3), d, d)
            .calling(rng.pick(&[0, 1, 15]))
            .blocked(rng.below(3));
        let node = cases::node(2, &[first, second]);
        let file = cases::file(node);
        compare::map(&mut tally, &file, 7, 2);
        compare::list(&mut tally, &file);
        most = most.max(rounds_of_the_last(&oracle::listing::list(&file)));
    }
    say(format!("at most {most} rounds: {tally}"));
    assert!(most > 10_000, "{most}");
    tally.assert_maps(times(20), times(5));
}

/// The rounds in the last line of a listing, or 0 if there is no map.
fn rounds_of_the_last(text: &str) -> u64 {
    let last = text.split_whitespace().next_back().unwrap_or("");
    last.parse().unwrap_or(0)
}
