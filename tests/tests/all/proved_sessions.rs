//! The proved library's sessions: sequences of operations, refused ones
//! included. After each operation the contents, the map, a time under it and a
//! timing are compared with the second implementation.

use crate::calls::{ENTRIES, GOOD};
use crate::say;
use oracle::cases;
use oracle::compare::session::Both;
use oracle::ffi;
use oracle::gen::lent::{damaged, sound};
use oracle::gen::numbers::from_one;
use oracle::gen::ops::{group, levels, next_op, position, Course};
use oracle::lent::{words_of, SESSION_WORDS};
use oracle::model::Entry;
use oracle::options::{rng, times};
use oracle::refusal::Refusal;
use oracle::rng::Rng;
use oracle::session::{Op, Session};
use oracle::tally::Tally;
use oracle::timing::Timing;

/// One operation, then the map, a time under it and a timing.
fn step(rng: &mut Rng, tally: &mut Tally, both: &mut Both, op: &Op) {
    let _ = both.step(tally, op, rng.pick(&[0, 3, 64]));
    both.map(tally);
    let count = both.session().map_or(4, |held| held.entries().len());
    let _ = both.step(tally, &Op::MapTime(position(rng, count)), 0);
    let _ = both.step(tally, &group(rng, count), 0);
}

/// A sequence of operations.
fn walk(rng: &mut Rng, tally: &mut Tally, both: &mut Both, course: Course, steps: u64) {
    for _ in 0..steps {
        // For memory that holds no session, operations are drawn as for an
        // empty one.
        let held = both.session().or_else(|_| Session::open(1));
        let op = next_op(rng, &held.expect("1 is a level count"), course);
        step(rng, tally, both, &op);
    }
}

#[test]
fn short_sessions() {
    let (mut rng, mut tally) = (rng(270), Tally::default());
    for _ in 0..times(150) {
        let mut both = Both::of(&[0; SESSION_WORDS]);
        while both.session().is_err() {
            let opening = Op::Open(levels(&mut rng));
            step(&mut rng, &mut tally, &mut both, &opening);
        }
        walk(&mut rng, &mut tally, &mut both, Course::Short, 60);
    }
    say(format!("short sessions: {tally}"));
    for number in [4, 7, 8, 10, 11, 12, 14, 16] {
        assert!(tally.met(number) > times(100), "{number}: {tally}");
    }
    assert!(tally.accepted() > times(10_000), "{tally}");
    tally.assert_maps(times(8_000), times(2_500));
    tally.assert_map_times(times(3_000), times(1_000), times(500));
}

#[test]
fn full_sessions() {
    let (mut rng, mut tally) = (rng(271), Tally::default());
    for _ in 0..times(52) {
        let count = rng.count(60, 64);
        let mut both = Both::of(&sound(&mut rng, count));
        walk(&mut rng, &mut tally, &mut both, Course::Growing, 15);
    }
    say(format!("full sessions: {tally}"));
    for number in [7, 8, 10, 11, 12, 13, 14, 16] {
        assert!(tally.met(number) > times(20), "{number}: {tally}");
    }
    tally.assert_maps(times(200), times(150));
    tally.assert_map_times(times(100), times(50), times(20));
}

/// From opening until the list is full, without a map at each step.
#[test]
fn sessions_that_fill_up() {
    let (mut rng, mut tally) = (rng(272), Tally::default());
    for _ in 0..times(52) {
        let mut both = Both::of(&[u32::MAX; SESSION_WORDS]);
        both.step(&mut tally, &Op::Open(9), 0).unwrap();
        let before = tally.met(13);
        while tally.met(13) < before + 5 {
            let op = next_op(&mut rng, &both.session().unwrap(), Course::Growing);
            let _ = both.step(&mut tally, &op, 64);
        }
    }
    say(format!("sessions that fill up: {tally}"));
    tally.assert_maps(times(250), 0);
}

/// Memory that no operation has made is checked first, and only opening repairs
/// it. Some of it holds a session with nonzero words beyond its entries.
#[test]
fn memory_from_elsewhere() {
    let (mut rng, mut tally) = (rng(273), Tally::default());
    let (mut forged, mut held) = (0, 0);
    for _ in 0..times(3_000) {
        let mut both = Both::of(&damaged(&mut rng));
        match both.session() {
            Ok(_) => held += 1,
            Err(_) => forged += 1,
        }
        walk(&mut rng, &mut tally, &mut both, Course::Short, 3);
    }
    say(format!("memory from elsewhere: {tally}"));
    tally.assert_maps(times(1_600), times(700));
    tally.assert_map_times(times(300), times(300), times(100));
    for number in [4, 7, 8, 14, 16] {
        assert!(tally.met(number) > times(1_000), "{number}: {tally}");
    }
    assert!(
        forged > times(1_000) && held > times(300),
        "{forged} {held}"
    );
}

/// Every operation at every kind of position, on short, long and full lists.
#[test]
fn the_order_of_the_checks() {
    let mut tally = Tally::default();
    for count in [0, 1, 4, 63, 64] {
        let held = from_one(vec![GOOD; count]);
        let words = words_of(&Session::holding(2, &held).unwrap());
        for position in [0, count / 2, count, count + 1, 64, 65, 1 << 32, usize::MAX] {
            // A free number, and those of the first, a middle and the last entry.
            for number in [0, 1, count as u16 / 2 + 1, count as u16] {
                for entry in ENTRIES.map(|entry| Entry { number, ..entry }) {
                    for op in [Op::Insert(position, entry), Op::Replace(position, entry)] {
                        let _ = Both::of(&words).step(&mut tally, &op, 0);
                    }
                }
            }
            for op in [Op::Remove(position), Op::MapTime(position)] {
                let _ = Both::of(&words).step(&mut tally, &op, 0);
            }
            for (first, last) in [(0, position), (position, position), (position, 0)] {
                let op = Op::Time(first, last, position);
                let _ = Both::of(&words).step(&mut tally, &op, 0);
            }
        }
        for levels in 0..=255 {
            for op in [Op::Open(levels), Op::SetLevels(levels)] {
                let _ = Both::of(&words).step(&mut tally, &op, 0);
            }
        }
    }
    say(format!("the order of the checks: {tally}"));
    for number in [4, 7, 8, 12, 13, 14, 16] {
        assert!(tally.met(number) > 10, "{number}: {tally}");
    }
}

/// All groups and entries of a short list, and positions just outside.
#[test]
fn every_group() {
    let mut tally = Tally::default();
    let mut rng = rng(274);
    for _ in 0..times(30) {
        let mut both = Both::of(&sound(&mut rng, 4));
        for first in 0..6 {
            for last in 0..6 {
                for i in 0..6 {
                    let _ = both.step(&mut tally, &Op::Time(first, last, i), 0);
                }
            }
        }
    }
    say(format!("every group: {tally}"));
    assert_eq!(
        tally.accepted(),
        times(30) * 20,
        "groups with an entry in them"
    );
}

#[test]
fn a_blank_session_is_refused_until_it_is_opened() {
    let mut session = ffi::session::Session::of(&[0; SESSION_WORDS]);
    let blank = session.clone();
    let due = Refusal::at_row(4, 0);
    let entry = oracle::words::entry_words(&GOOD);
    assert_eq!(session.insert(0, &entry), Err(due));
    assert_eq!(session.replace(0, &entry), Err(due));
    assert_eq!(session.remove(0), Err(due));
    assert_eq!(session.set_levels(3), Err(due));
    assert_eq!(session.time(0, 0, 0), Err(due));
    assert_eq!(session.map(&mut []), Err(due));
    assert_eq!(session.map_time(0), Err(due));
    assert_eq!(session, blank);
    assert_eq!(session.open(3), Ok(()));
    assert_eq!(session.map(&mut []), Ok(0));
    assert_eq!(session.map_time(0), Err(Refusal::plain(12)));
    assert_eq!(std::mem::size_of_val(&session), 4 * 516);
}

#[test]
fn cases_built_step_by_step() {
    let (mut rng, mut tally) = (rng(275), Tally::default());
    let late = cases::jittered(cases::h(), 1, 15);
    for node in [
        cases::p(),
        cases::f(),
        cases::h(),
        late,
        cases::u(),
        cases::e(),
    ] {
        let mut both = Both::of(&[7; SESSION_WORDS]);
        let opening = Op::Open(usize::from(node.levels));
        step(&mut rng, &mut tally, &mut both, &opening);
        // From the last entry to the first, each inserted before the others.
        for entry in node.entries.iter().rev() {
            step(&mut rng, &mut tally, &mut both, &Op::Insert(0, *entry));
        }
        assert_eq!(both.session().unwrap().entries(), node.entries);
    }
    say(format!("cases built step by step: {tally}"));
}

#[test]
fn timing_case_v_in_named_groups() {
    let words = words_of(&Session::holding(2, &cases::v().entries).unwrap());
    let session = ffi::session::Session::of(&words);
    let on_time = |time, rounds| Ok(Timing::OnTime { time, rounds });
    assert_eq!(session.time(0, 1, 1), on_time(16, 2));
    assert_eq!(session.time(1, 1, 1), on_time(18, 3));
    assert_eq!(session.time(0, 1, 0), on_time(5, 1));
    // Case R's third entry has a demand of 138 at 138, and D 137.
    let words = words_of(&Session::holding(2, &cases::r().entries).unwrap());
    let session = ffi::session::Session::of(&words);
    let late = Timing::Late {
        rounds: 1,
        overrun: 1,
    };
    assert_eq!(session.time(1, 2, 2), Ok(late));
}
