//! The proved library on the kept files and sequences of session operations:
//! the samples, and what fuzz runs have found.

use oracle::compare;
use oracle::corpus;
use oracle::tally::Tally;

#[test]
fn every_kept_file() {
    let mut tally = Tally::default();
    let files = corpus::kept();
    for file in &files {
        compare::file(&mut tally, file);
    }
    assert!(files.len() >= 23, "the samples are there");
}

#[test]
fn every_kept_sequence() {
    let mut tally = Tally::default();
    let sequences = corpus::kept_sequences();
    for sequence in &sequences {
        compare::session::sequence(&mut tally, sequence);
    }
    for number in [11, 12, 14] {
        assert!(tally.met(number) > 0, "case P's sequences are there");
    }
    tally.assert_map_times(5, 2, 5);
}
