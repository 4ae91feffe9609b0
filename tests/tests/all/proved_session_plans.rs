//! The proved library's sessions with generated nodes of plans: after each
//! change the map and some timings are compared with the second implementation.

use crate::say;
use oracle::compare::session::Both;
use oracle::gen::sessions::{Family, LIMITS, LONG, MANY, NEAR_ONE, STATION, TIGHT, WIDE};
use oracle::lent::words_of;
use oracle::options::{rng, times};
use oracle::rng::Rng;
use oracle::session::{Op, Reply};
use oracle::tally::Tally;

/// Counts of a run.
#[derive(Default)]
struct Run {
    tally: Tally,
    most_rounds: u64,
}

impl Run {
    /// Compares the map, and times some entries in some groups.
    fn look(&mut self, rng: &mut Rng, both: &mut Both) {
        both.map(&mut self.tally);
        let len = both.session().expect("it is held").entries().len();
        for _ in 0..4 {
            let mut places = [rng.index(len), rng.index(len), rng.index(len)];
            places.sort();
            let op = Op::Time(places[0], places[2], places[1]);
            let reply = both.step(&mut self.tally, &op, 0);
            let Ok(Reply::Timed(timing)) = reply else {
                panic!("{op:?} answered {reply:?}");
            };
            self.most_rounds = self.most_rounds.max(timing.rounds());
        }
    }

    /// Makes one change, or leaves it out if the tests after it would take
    /// long.
    fn change(&mut self, rng: &mut Rng, both: &mut Both, family: &Family) {
        let mut held = both.session().expect("it is held");
        let op = family.change(rng, &held);
        held.apply(&op, &mut []).expect("the change is good");
        let fits = family.fits(held.entries());
        self.tally.node(fits);
        if fits {
            both.step(&mut self.tally, &op, 0)
                .expect("the change is good");
            self.look(rng, both);
        }
    }
}

/// Compares `count` sessions of a family, each with `changes` changes.
fn compare_sessions(part: u64, count: u64, changes: u64, family: Family) -> Run {
    let mut rng = rng(part);
    let mut run = Run::default();
    for _ in 0..times(count) {
        let mut both = Both::of(&words_of(&family.session(&mut rng)));
        run.look(&mut rng, &mut both);
        for _ in 0..changes {
            run.change(&mut rng, &mut both, &family);
        }
    }
    let Run { tally, most_rounds } = &run;
    let name = family.name;
    say(format!(
        "sessions, {name}: at most {most_rounds} rounds; {tally}"
    ));
    run
}

impl Run {
    /// Asserts least counts of maps, of calls without a map, and of entries on
    /// time and late; at most one change in `whole` may be left out.
    fn assert_least(&self, maps: [u64; 2], timed: [u64; 2], whole: u64) {
        self.tally.assert_maps(times(maps[0]), times(maps[1]));
        self.tally.assert_timed(times(timed[0]), times(timed[1]), 0);
        self.tally.assert_few_left_out(whole);
    }
}

#[test]
fn wide() {
    let run = compare_sessions(310, 300, 6, WIDE);
    run.assert_least([900, 1_800], [3_750, 1_800], 100);
}

#[test]
fn tight() {
    let run = compare_sessions(311, 300, 6, TIGHT);
    run.assert_least([600, 1_950], [2_100, 3_000], 10);
}

#[test]
fn stations() {
    let run = compare_sessions(312, 300, 6, STATION);
    run.assert_least([650, 1_200], [3_300, 1_950], 20);
}

#[test]
fn long_periods() {
    let run = compare_sessions(313, 300, 6, LONG);
    run.assert_least([650, 1_350], [3_300, 1_950], 20);
}

#[test]
fn at_limits() {
    let run = compare_sessions(314, 450, 6, LIMITS);
    run.assert_least([600, 3_000], [2_100, 5_250], 6);
    assert!(run.most_rounds > 100, "{}", run.most_rounds);
}

#[test]
fn many_entries() {
    let run = compare_sessions(315, 150, 6, MANY);
    run.assert_least([150, 375], [1_125, 1_125], 50);
}

#[test]
fn near_one() {
    let run = compare_sessions(316, 900, 6, NEAR_ONE);
    run.assert_least([2_100, 5_400], [9_000, 6_000], 8);
    assert!(run.most_rounds > 100, "{}", run.most_rounds);
}
