//! The proved writer on faulty rows and entries.

use crate::say;
use oracle::compare;
use oracle::ffi;
use oracle::file::{check_parts, encode};
use oracle::gen::buffers::known;
use oracle::gen::parts::{damage_parts, PartAim, PART_AIMS};
use oracle::gen::plans;
use oracle::options::{rng, times};
use oracle::refusal::{Refusal, LENGTH};
use oracle::rng::Rng;
use oracle::tally::Tally;
use oracle::words;

fn assert_due(rng: &mut Rng, tally: &mut Tally, aims: &[PartAim]) {
    let plan = plans::filled(rng);
    let parts = damage_parts(rng, &plan, aims);
    let (rows, entries) = (
        words::of_rows(&parts.rows),
        words::of_entries(&parts.entries),
    );
    let mut buffer = known(parts.room);
    let answer = ffi::write(parts.edition, &rows, &entries, &mut buffer);
    assert_eq!(answer, Err(parts.due), "{aims:?} in {plan:?}");
    assert_eq!(buffer, known(parts.room));
    let (edition, room) = (parts.edition, parts.room);
    let due = compare::write(tally, edition, &parts.rows, &parts.entries, room);
    assert_eq!(due, Err(parts.due));
}

#[test]
fn one_to_three_faults() {
    let (mut rng, mut tally) = (rng(220), Tally::default());
    for a in PART_AIMS {
        for b in PART_AIMS {
            for c in PART_AIMS {
                for _ in 0..times(30) {
                    assert_due(&mut rng, &mut tally, &[a, b, c]);
                }
            }
            for _ in 0..times(30) {
                assert_due(&mut rng, &mut tally, &[a, b]);
            }
        }
        for _ in 0..times(100) {
            assert_due(&mut rng, &mut tally, &[a]);
        }
    }
    say(format!("the writer's faults: {tally}"));
    for number in [2, 3, 4, 6, 7, 8, 10, 14, 16] {
        assert!(tally.met(number) >= times(100), "{number}: {tally}");
    }
}

/// Words that are not a whole number of entries never fit the rows, and are
/// refused as 6; checks 2, 3 and 4 come first.
#[test]
fn a_part_of_an_entry() {
    let mut rng = rng(221);
    for _ in 0..times(500) {
        let plan = plans::filled(&mut rng);
        let aim = rng.pick(&PART_AIMS);
        let (edition, parts) = match rng.chance(1, 2) {
            true => {
                let parts = damage_parts(&mut rng, &plan, &[aim]);
                (parts.edition, parts.rows)
            }
            false => (plan.edition.number(), plan.rows()),
        };
        let mut entries = words::of_entries(&plan.entries());
        let length = entries.len();
        let given = rng.pick(&[length - 1, length - 4, length - 5, length + 1, length + 4]);
        entries.resize(given, 1);
        let due = match check_parts(edition, &parts, &plan.entries()) {
            Err(earlier) if earlier.number < LENGTH => earlier,
            _ => Refusal::plain(LENGTH),
        };
        let mut buffer = known(encode(&plan).unwrap().len());
        let answer = ffi::write(edition, &words::of_rows(&parts), &entries, &mut buffer);
        assert_eq!(answer, Err(due));
        assert_eq!(buffer, known(buffer.len()));
    }
}
