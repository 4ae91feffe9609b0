//! One fault at every row and every position of the longest plan, and at every
//! position of a full session: each call reports the place.

use crate::say;
use oracle::compare;
use oracle::compare::session::Both;
use oracle::file::{body_end, contents_end, encode, longest};
use oracle::gen::damage::{damage, AIMS};
use oracle::gen::lent::sound;
use oracle::gen::parts::{damage_parts, PART_AIMS};
use oracle::gen::places::{
    entry_faults, full_plan, offset_faults, put_entry, put_words, row_faults, with_offset,
    with_row, JITTER_FAULTS, KIND_FAULTS, TICK_FAULTS,
};
use oracle::lent::{session_in, Words};
use oracle::model::{Edition, Entry, Plan, Row, MAX_ENTRIES, MAX_NODES};
use oracle::options::{rng, times};
use oracle::refusal::{Refusal, JITTER, LENGTH, OFFSET, ROW, TICKS};
use oracle::session::{Op, Reply};
use oracle::tally::Tally;
use oracle::words::ENTRY_WORDS;

/// Every call that takes a file refuses this one and reports the place.
fn assert_refused(tally: &mut Tally, file: &[u8], due: Refusal) {
    assert_eq!(compare::check(tally, file), Err(due));
    compare::read(
        tally,
        file,
        MAX_NODES,
        MAX_NODES * MAX_ENTRIES * ENTRY_WORDS,
    );
    compare::map(tally, file, 100, MAX_ENTRIES);
    let line = format!("{due}\n");
    compare::list_into(tally, file, line.as_bytes(), line.len());
    assert_eq!(oracle::listing::list(file), line);
}

/// The node number of the row before.
fn last(plan: &Plan, row: usize) -> Option<u16> {
    row.checked_sub(1).map(|last| plan.nodes[last].number)
}

#[test]
fn a_fault_in_every_row_of_a_file() {
    let mut tally = Tally::default();
    for edition in Edition::BOTH {
        let plan = full_plan(&mut rng(300), edition);
        let mut required = contents_end(MAX_NODES);
        for (index, row) in plan.rows().into_iter().enumerate() {
            for wrong in row_faults(row, last(&plan, index)) {
                let file = with_row(&plan, index, &wrong);
                assert_refused(&mut tally, &file, Refusal::at_row(ROW, index));
            }
            for wrong in offset_faults(required as u32) {
                let file = with_offset(&plan, index, wrong);
                assert_refused(&mut tally, &file, Refusal::at_row(OFFSET, index));
            }
            required = body_end(edition, required, row.entries);
        }
        assert_eq!(required, longest(edition));
    }
    say(format!("a fault in every row of a file: {tally}"));
}

/// If a row counts one entry less, the offset of the next row is wrong. For the
/// last row, the file is too long.
#[test]
fn one_entry_less_in_every_row_of_a_file() {
    let mut tally = Tally::default();
    for edition in Edition::BOTH {
        let plan = full_plan(&mut rng(301), edition);
        for (index, row) in plan.rows().into_iter().enumerate() {
            let less = Row { entries: 63, ..row };
            let due = match index + 1 < MAX_NODES {
                true => Refusal::at_row(OFFSET, index + 1),
                false => Refusal::plain(LENGTH),
            };
            assert_refused(&mut tally, &with_row(&plan, index, &less), due);
        }
    }
}

#[test]
fn a_fault_in_every_entry_of_a_file() {
    let mut tally = Tally::default();
    for edition in Edition::BOTH {
        a_fault_in_every_entry_of(&mut tally, &full_plan(&mut rng(302), edition));
    }
    say(format!("a fault in every entry of a file: {tally}"));
}

fn a_fault_in_every_entry_of(tally: &mut Tally, plan: &Plan) {
    let mut file = encode(plan).unwrap();
    for (row, node) in plan.nodes.iter().enumerate() {
        for (position, entry) in node.entries.iter().enumerate() {
            let faults = entry_faults(plan.edition, *entry);
            // One fault of each number goes to all calls, the others only to
            // the check.
            let telling = one_of_each(plan.edition, row + position);
            for (which, (wrong, number)) in faults.into_iter().enumerate() {
                let due = Refusal::at_entry(number, row, position);
                put_entry(plan.edition, &mut file, row, position, &wrong);
                if telling.contains(&which) {
                    assert_refused(tally, &file, due);
                }
                assert_eq!(compare::check(tally, &file), Err(due));
            }
            put_entry(plan.edition, &mut file, row, position, entry);
        }
    }
    assert_eq!(file, encode(plan).unwrap());
}

/// A fault of each number among the faults of an entry, another one for each
/// `at`.
fn one_of_each(edition: Edition, at: usize) -> Vec<usize> {
    let ticks = KIND_FAULTS + at % TICK_FAULTS;
    let jitter = KIND_FAULTS + TICK_FAULTS + at % JITTER_FAULTS;
    match edition {
        Edition::First => vec![at % KIND_FAULTS, ticks],
        Edition::Second => vec![at % KIND_FAULTS, ticks, jitter],
    }
}

/// The first of two faulty entries is reported.
#[test]
fn two_faulty_entries_of_a_file() {
    let (mut rng, mut tally) = (rng(303), Tally::default());
    let plans = Edition::BOTH.map(|edition| full_plan(&mut rng, edition));
    for round in 0..times(2_000) {
        let plan = &plans[round as usize % 2];
        let entries = plan.entries();
        let mut file = encode(plan).unwrap();
        let first = rng.index(entries.len() - 1);
        let second = rng.count(first + 1, entries.len() - 1);
        let mut due = 0;
        for at in [second, first] {
            let (wrong, number) = rng.pick(&entry_faults(plan.edition, entries[at]));
            let (row, position) = (at / MAX_ENTRIES, at % MAX_ENTRIES);
            put_entry(plan.edition, &mut file, row, position, &wrong);
            due = number;
        }
        let due = Refusal::at_entry(due, first / MAX_ENTRIES, first % MAX_ENTRIES);
        assert_eq!(compare::check(&mut tally, &file), Err(due));
    }
}

/// Two faults of any kinds, anywhere in the longest plan, in a file and for the
/// writer.
#[test]
fn two_faults_of_any_kind() {
    let (mut rng, mut tally) = (rng(309), Tally::default());
    let plans = Edition::BOTH.map(|edition| full_plan(&mut rng, edition));
    for a in AIMS {
        for b in AIMS {
            for round in 0..times(10) {
                let plan = &plans[round as usize % 2];
                let damaged = damage(&mut rng, plan, &[a, b]);
                let answer = compare::check(&mut tally, &damaged.file);
                assert_eq!(answer, Err(damaged.due), "{a:?} {b:?}");
            }
        }
    }
    for a in PART_AIMS {
        for b in PART_AIMS {
            for round in 0..times(10) {
                let plan = &plans[round as usize % 2];
                let parts = damage_parts(&mut rng, plan, &[a, b]);
                let (edition, room) = (parts.edition, parts.room);
                let answer = compare::write(&mut tally, edition, &parts.rows, &parts.entries, room);
                assert_eq!(answer, Err(parts.due), "{a:?} {b:?}");
            }
        }
    }
    say(format!("two faults of any kind: {tally}"));
}

/// A call of the writer that is changed row by row and entry by entry.
struct Writer {
    tally: Tally,
    edition: Edition,
    rows: Vec<Row>,
    entries: Vec<Entry>,
}

impl Writer {
    fn of(plan: &Plan) -> Writer {
        Writer {
            tally: Tally::default(),
            edition: plan.edition,
            rows: plan.rows(),
            entries: plan.entries(),
        }
    }

    fn write(&mut self) -> Result<usize, Refusal> {
        let (number, room) = (self.edition.number(), longest(self.edition));
        compare::write(&mut self.tally, number, &self.rows, &self.entries, room)
    }

    /// The writer refuses the entry at `at` of all entries.
    fn assert_refused(&mut self, at: usize, entry: Entry, number: u8) {
        let kept = std::mem::replace(&mut self.entries[at], entry);
        let due = Refusal::at_entry(number, at / MAX_ENTRIES, at % MAX_ENTRIES);
        assert_eq!(self.write(), Err(due));
        self.entries[at] = kept;
    }
}

#[test]
fn a_fault_in_every_row_for_the_writer() {
    for edition in Edition::BOTH {
        let plan = full_plan(&mut rng(304), edition);
        let mut writer = Writer::of(&plan);
        for (index, row) in plan.rows().into_iter().enumerate() {
            for wrong in row_faults(row, last(&plan, index)) {
                writer.rows[index] = wrong;
                assert_eq!(writer.write(), Err(Refusal::at_row(ROW, index)));
            }
            writer.rows[index] = Row { entries: 63, ..row };
            assert_eq!(writer.write(), Err(Refusal::plain(LENGTH)));
            writer.rows[index] = row;
        }
        writer.entries.push(plan.entries()[0]);
        assert_eq!(writer.write(), Err(Refusal::plain(LENGTH)));
        writer.entries.truncate(MAX_NODES * MAX_ENTRIES - 1);
        assert_eq!(writer.write(), Err(Refusal::plain(LENGTH)));
        say(format!(
            "a fault in every row for the writer: {}",
            writer.tally
        ));
    }
}

#[test]
fn a_fault_in_every_entry_for_the_writer() {
    for edition in Edition::BOTH {
        let plan = full_plan(&mut rng(305), edition);
        let mut writer = Writer::of(&plan);
        for (at, entry) in plan.entries().into_iter().enumerate() {
            let faults = entry_faults(edition, entry);
            // This way each row and each position gets every fault.
            for which in one_of_each(edition, at / MAX_ENTRIES + at % MAX_ENTRIES) {
                let (wrong, number) = faults[which];
                writer.assert_refused(at, wrong, number);
            }
        }
        assert_eq!(writer.write(), Ok(longest(edition)));
        say(format!(
            "a fault in every entry for the writer: {}",
            writer.tally
        ));
    }
}

/// A J above zero anywhere in a plan to be written in the first edition is 14,
/// after the 8 of the same entry. The second edition takes it.
#[test]
fn a_jitter_in_every_entry_for_the_first_edition() {
    let plan = full_plan(&mut rng(327), Edition::First);
    let mut writer = Writer::of(&plan);
    for (at, entry) in plan.entries().into_iter().enumerate() {
        let j = [1, 256, 1 << 16, entry.d - entry.c, u64::from(u32::MAX)][at % 5];
        writer.assert_refused(at, entry.jittered(j), JITTER);
        let ticks = Entry { c: 0, ..entry };
        writer.assert_refused(at, ticks.jittered(j), TICKS);
    }
    assert_eq!(writer.write(), Ok(longest(Edition::First)));
    for entry in &mut writer.entries {
        entry.j = entry.d - entry.c;
    }
    writer.edition = Edition::Second;
    assert_eq!(writer.write(), Ok(longest(Edition::Second)));
}

const GOOD: Entry = Entry::task(9, 2, 1_100, 1_050).jittered(7);

/// Every operation except opening refuses this memory.
fn assert_no_session(tally: &mut Tally, words: &Words, due: Refusal) {
    let mut both = Both::of(words);
    for op in [
        Op::Insert(0, GOOD),
        Op::Remove(63),
        Op::Replace(63, GOOD),
        Op::SetLevels(64),
        Op::Map,
        Op::Time(0, 63, 63),
        Op::MapTime(63),
    ] {
        assert_eq!(both.step(tally, &op, MAX_ENTRIES), Err(due), "{op:?}");
    }
    assert_eq!(both.words(), words);
}

#[test]
fn a_fault_in_every_entry_of_a_session() {
    let (mut rng, mut tally) = (rng(306), Tally::default());
    let words = sound(&mut rng, MAX_ENTRIES);
    let held = session_in(&words).unwrap();
    for (position, entry) in held.entries().iter().enumerate() {
        for (wrong, number) in entry_faults(Edition::Second, *entry) {
            let mut faulty = words;
            put_words(&mut faulty, position, &wrong);
            let due = Refusal::at_entry(number, 0, position);
            assert_no_session(&mut tally, &faulty, due);
            // A session with fewer entries does not read the faulty one.
            faulty[1] = position as u32;
            let answer = Both::of(&faulty).step(&mut tally, &Op::SetLevels(3), 0);
            assert_eq!(answer, Ok(Reply::Changed), "{position}");
        }
    }
    say(format!("a fault in every entry of a session: {tally}"));
}

/// Counts of levels and of entries that are too large; truncated, some would be
/// valid.
#[test]
fn a_fault_in_the_counts_of_a_full_session() {
    let (mut rng, mut tally) = (rng(326), Tally::default());
    let words = sound(&mut rng, MAX_ENTRIES);
    for word in [0, 1] {
        for wrong in [65, 66, 128, 257, 1 << 16 | 1, 1 << 24 | 64, u32::MAX] {
            let mut faulty = words;
            faulty[word] = wrong;
            assert_no_session(&mut tally, &faulty, Refusal::at_row(ROW, 0));
        }
    }
    let mut faulty = words;
    faulty[0] = 0;
    assert_no_session(&mut tally, &faulty, Refusal::at_row(ROW, 0));
}

/// Good and faulty entries inserted and replaced at every position, and every
/// entry removed.
#[test]
fn changes_at_every_position_of_a_session() {
    let (mut rng, mut tally) = (rng(307), Tally::default());
    let (full, short) = (sound(&mut rng, 64), sound(&mut rng, 63));
    for position in 0..MAX_ENTRIES {
        for (wrong, number) in entry_faults(Edition::Second, GOOD) {
            let due = Err(Refusal::at_entry(number, 0, position));
            for (words, op) in [
                (&short, Op::Insert(position, wrong)),
                (&full, Op::Replace(position, wrong)),
            ] {
                assert_eq!(Both::of(words).step(&mut tally, &op, 0), due);
            }
        }
        for (words, op) in [
            (&short, Op::Insert(position, GOOD)),
            (&full, Op::Replace(position, GOOD)),
            (&full, Op::Remove(position)),
        ] {
            assert!(Both::of(words).step(&mut tally, &op, 0).is_ok(), "{op:?}");
        }
    }
    say(format!("changes at every position of a session: {tally}"));
}

/// All groups of a full session, with each of their entries timed.
#[test]
fn every_group_of_a_full_session() {
    let (mut rng, mut tally) = (rng(308), Tally::default());
    let mut both = Both::of(&sound(&mut rng, MAX_ENTRIES));
    for first in 0..MAX_ENTRIES {
        for last in first..MAX_ENTRIES {
            for i in first..=last {
                let _ = both.step(&mut tally, &Op::Time(first, last, i), 0);
            }
        }
    }
    assert_eq!(tally.accepted(), 45_760);
}
