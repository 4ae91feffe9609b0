//! A short fuzz run of a fixed length, from the fixed seed.

use crate::say;
use oracle::fuzz::Fuzz;
use oracle::options::{rng, times};

#[test]
fn a_short_run() {
    let mut fuzz = Fuzz::new(rng(251));
    while fuzz.files() < times(18_000) {
        if let Err(difference) = fuzz.step() {
            panic!("after {} files: {difference:?}", fuzz.files());
        }
    }
    say(&fuzz);
    let (files, sessions) = (fuzz.tally(), fuzz.sessions());
    assert!(fuzz.kinds() > 400, "{}", fuzz.kinds());
    files.assert_maps(times(4_000), times(14_000));
    files.assert_few_left_out(25);
    sessions.assert_maps(times(4_000), times(4_000));
    sessions.assert_few_left_out(15);
    sessions.assert_timed(times(800), times(800), times(100));
    sessions.assert_map_times(times(500), times(500), times(250));
    sessions.assert_level_counts([200, 25, 25, 400].map(times));
    for number in (1..=11).chain([14, 16]) {
        assert!(files.met(number) >= times(500), "{number}: {files}");
    }
    let (forward, back) = (&fuzz.conversions().forward, &fuzz.conversions().back);
    for ways in [forward, back] {
        assert!(ways.accepted() >= times(500), "{ways}");
        for number in (1..=8).chain([10, 14, 16]) {
            assert!(ways.met(number) >= times(300), "{number}: {ways}");
        }
    }
    assert!(back.met(15) >= times(900), "{back}");
    for number in [4, 7, 8, 10, 11, 12, 13, 14, 16] {
        assert!(sessions.met(number) >= times(250), "{number}: {sessions}");
    }
}
