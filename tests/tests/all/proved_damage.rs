//! The proved library on damaged files: each call refuses them as expected and
//! as the second implementation does, and leaves every buffer as it was.

use crate::say;
use oracle::cases;
use oracle::compare;
use oracle::file::encode;
use oracle::gen::damage::{byte_changes, damage, truncations, Aim, AIMS};
use oracle::gen::plans;
use oracle::model::Edition;
use oracle::options::{rng, times};
use oracle::rng::Rng;
use oracle::tally::Tally;

fn assert_due(rng: &mut Rng, tally: &mut Tally, aims: &[Aim], count: u64) {
    for _ in 0..count {
        let plan = plans::filled(rng);
        let damaged = damage(rng, &plan, aims);
        let answer = oracle::ffi::check(&damaged.file);
        assert_eq!(answer, Err(damaged.due), "{aims:?} in {plan:?}");
        compare::file(tally, &damaged.file);
    }
}

#[test]
fn one_fault() {
    let (mut rng, mut tally) = (rng(210), Tally::default());
    for aim in AIMS {
        assert_due(&mut rng, &mut tally, &[aim], times(600));
    }
    say(format!("one fault: {tally}"));
    for number in (1..=8).chain([14, 16]) {
        assert!(tally.met(number) >= times(600), "{number}: {tally}");
    }
}

#[test]
fn two_faults_in_each_order() {
    let (mut rng, mut tally) = (rng(211), Tally::default());
    for a in AIMS {
        for b in AIMS {
            assert_due(&mut rng, &mut tally, &[a, b], times(120));
        }
    }
    say(format!("two faults: {tally}"));
}

#[test]
fn three_faults_in_each_order() {
    let (mut rng, mut tally) = (rng(212), Tally::default());
    for a in AIMS {
        for b in AIMS {
            for c in AIMS {
                assert_due(&mut rng, &mut tally, &[a, b, c], times(30));
            }
        }
    }
    say(format!("three faults: {tally}"));
}

#[test]
fn truncated_at_every_length() {
    let (mut rng, mut tally) = (rng(213), Tally::default());
    for draw in [
        plans::small,
        plans::wide,
        plans::station,
        plans::full_node,
        plans::many_nodes,
    ] {
        for _ in 0..times(5) {
            let file = encode(&draw(&mut rng)).unwrap();
            for cut in truncations(&file) {
                compare::file(&mut tally, cut);
            }
        }
    }
    say(format!("truncated: {tally}"));
}

#[test]
fn one_byte_changed_at_every_place_to_every_value() {
    let mut tally = Tally::default();
    let late = cases::jittered(cases::p(), 2, 12);
    for file in [
        cases::file(cases::p()),
        cases::file(late),
        encode(&cases::three_nodes(Edition::First)).unwrap(),
        encode(&cases::three_nodes(Edition::Second)).unwrap(),
    ] {
        for (_, changed) in byte_changes(&file) {
            compare::file(&mut tally, &changed);
        }
    }
    say(format!("one byte changed: {tally}"));
    tally.assert_maps(70_000, 16_000);
    tally.assert_few_left_out(1_000);
}

#[test]
fn random_bytes_behind_a_good_head() {
    let (mut rng, mut tally) = (rng(214), Tally::default());
    for _ in 0..times(10_000) {
        let mut file = encode(&plans::small(&mut rng)).unwrap();
        for _ in 0..rng.range(1, 4) {
            let at = rng.index(file.len());
            file[at] = rng.word() as u8;
        }
        compare::file(&mut tally, &file);
    }
    say(format!("random bytes: {tally}"));
    tally.assert_maps(times(1_200), times(4_000));
    tally.assert_few_left_out(100);
}

#[test]
fn long_files() {
    let mut tally = Tally::default();
    for length in [
        41_224, 41_225, 49_416, 49_417, 65_535, 65_536, 65_537, 200_000,
    ] {
        for head in [&b"LMP1"[..], b"LMP2", b"LMP3"] {
            for count in [0, 1, 32, 33] {
                let mut file = vec![0; length];
                file[..4].copy_from_slice(head);
                file[4] = count;
                compare::file(&mut tally, &file);
            }
        }
        for mut file in [cases::file(cases::p()), cases::second_file(cases::p())] {
            file.resize(length, 0);
            compare::file(&mut tally, &file);
        }
    }
}
