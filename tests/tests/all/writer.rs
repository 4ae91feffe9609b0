//! The writer: its checks in order, and what it leaves in the buffer.

use oracle::file::{check_parts, decode, encode, write};
use oracle::gen::buffers::known;
use oracle::gen::parts::{damage_parts, PartAim, PART_AIMS};
use oracle::gen::plans;
use oracle::model::{Edition, Entry, Plan};
use oracle::options::{rng, times};
use oracle::refusal::Refusal;
use oracle::rng::Rng;

#[test]
fn writes_from_the_start_and_keeps_the_rest() {
    let mut rng = rng(70);
    for _ in 0..times(1_000) {
        let plan = plans::small(&mut rng);
        let file = encode(&plan).unwrap();
        let length = file.len();
        for room in [length, length + 1, length + 100] {
            let mut buffer = known(room);
            let edition = plan.edition.number();
            let answer = write(edition, &plan.rows(), &plan.entries(), &mut buffer);
            assert_eq!(answer, Ok(length));
            assert_eq!(buffer[..length], file);
            assert_eq!(buffer[length..], known(room)[length..]);
        }
        assert_eq!(decode(&file), Ok(plan));
    }
}

#[test]
fn one_to_three_faults() {
    let mut rng = rng(71);
    for a in PART_AIMS {
        for b in PART_AIMS {
            for c in PART_AIMS {
                for _ in 0..times(30) {
                    assert_due_refusal(&mut rng, &[a, b, c]);
                }
                assert_due_refusal(&mut rng, &[a, b]);
            }
        }
        assert_due_refusal(&mut rng, &[a]);
    }
}

fn assert_due_refusal(rng: &mut Rng, aims: &[PartAim]) {
    let plan = plans::filled(rng);
    let parts = damage_parts(rng, &plan, aims);
    let mut buffer = known(parts.room);
    let answer = write(parts.edition, &parts.rows, &parts.entries, &mut buffer);
    assert_eq!(answer, Err(parts.due), "{aims:?} in {plan:?}");
    assert_eq!(buffer, known(parts.room));
    let of_the_plan = check_parts(parts.edition, &parts.rows, &parts.entries);
    let only_room = parts.due.number == 10;
    assert_eq!(of_the_plan.is_ok(), only_room);
}

#[test]
fn ticks_beyond_four_bytes_are_turned_back() {
    let plan = |entry| Plan::second(vec![oracle::cases::node(1, &[entry])]);
    // Truncated to four bytes, each of these would be a good number.
    let wide = (1 << 32) + 5;
    for entry in [
        Entry::task(1, wide, wide, wide),
        Entry::task(1, 5, wide, 5),
        Entry::task(1, 5, 5, 5).blocked(wide),
    ] {
        let refusal = Refusal::at_entry(8, 0, 0);
        assert_eq!(encode(&plan(entry)), Err(refusal));
    }
    let late = Entry::task(1, 5, 50, 50).jittered(wide);
    assert_eq!(encode(&plan(late)), Err(Refusal::at_entry(14, 0, 0)));
}

#[test]
fn place_of_an_entry_counts_empty_rows() {
    let mut plan = Plan::first(vec![
        oracle::cases::e(),
        oracle::cases::v(),
        oracle::cases::e(),
        oracle::cases::v(),
    ]);
    for (number, node) in plan.nodes.iter_mut().enumerate() {
        node.number = number as u16;
    }
    plan.nodes[3].entries[1].kind = 0;
    assert_eq!(encode(&plan), Err(Refusal::at_entry(7, 3, 1)));
    plan.nodes[3].entries[1].kind = 1;
    plan.nodes[3].entries[1].j = 1;
    assert_eq!(encode(&plan), Err(Refusal::at_entry(14, 3, 1)));
    plan.edition = Edition::Second;
    assert!(encode(&plan).is_ok());
    plan.nodes[3].entries[1].j = 17;
    assert_eq!(encode(&plan), Err(Refusal::at_entry(14, 3, 1)));
}
