//! Plan files: which are accepted, and which refusal comes first.

use oracle::cases;
use oracle::file::{
    check, contents_end, decode, edition_of, encode, entry_length, read, write, SECOND_ENTRY,
};
use oracle::gen::damage::{byte_changes, damage, truncations, Aim, AIMS};
use oracle::gen::plans;
use oracle::model::{Edition, Entry, Plan, Row};
use oracle::options::{rng, times};
use oracle::refusal::{
    Refusal, COUNT, CUT_OFF, JITTER, KIND, LENGTH, OFFSET, OPENING, REPEAT, ROW, TICKS,
};
use oracle::rng::Rng;

#[test]
fn generated_plans_are_accepted_and_come_back() {
    let mut rng = rng(60);
    for _ in 0..times(2_000) {
        let plan = plans::any(&mut rng);
        let file = encode(&plan).unwrap();
        assert_eq!(check(&file), Ok(()));
        assert_eq!(decode(&file).unwrap(), plan);
        assert_eq!(encode(&decode(&file).unwrap()).unwrap(), file);
    }
    for edition in Edition::BOTH {
        let longest = plans::longest_in(&mut rng, edition);
        assert_eq!(decode(&encode(&longest).unwrap()).unwrap(), longest);
    }
}

#[test]
fn parts_come_back() {
    let mut rng = rng(61);
    for _ in 0..times(200) {
        let plan = plans::any(&mut rng);
        let parts = Plan::from_parts(plan.edition, &plan.rows(), &plan.entries());
        assert_eq!(parts, plan);
    }
}

#[test]
fn single_faults() {
    let mut rng = rng(62);
    for aim in AIMS {
        assert_due_refusals(&mut rng, &[aim], times(300));
    }
}

#[test]
fn two_faults_in_each_order() {
    let mut rng = rng(63);
    for a in AIMS {
        for b in AIMS {
            assert_due_refusals(&mut rng, &[a, b], times(60));
        }
    }
}

#[test]
fn three_faults_in_each_order() {
    let mut rng = rng(64);
    for a in AIMS {
        for b in AIMS {
            for c in AIMS {
                assert_due_refusals(&mut rng, &[a, b, c], times(20));
            }
        }
    }
}

fn assert_due_refusals(rng: &mut Rng, aims: &[Aim], count: u64) {
    for _ in 0..count {
        let plan = plans::filled(rng);
        let damaged = damage(rng, &plan, aims);
        let answer = check(&damaged.file);
        assert_eq!(answer, Err(damaged.due), "{aims:?} in {plan:?}");
    }
}

#[test]
fn truncation_at_every_length() {
    let mut rng = rng(65);
    for _ in 0..times(40) {
        let plan = plans::any(&mut rng);
        let file = encode(&plan).unwrap();
        let contents = contents_end(plan.nodes.len());
        for cut in truncations(&file) {
            let number = if cut.len() < contents {
                CUT_OFF
            } else {
                LENGTH
            };
            assert_eq!(check(cut), Err(Refusal::plain(number)));
        }
    }
}

#[test]
fn one_byte_changed_at_every_place_to_every_value() {
    let mut accepted = 0;
    for plan in [
        Plan::first(vec![cases::p()]),
        Plan::second(vec![cases::jittered(cases::p(), 2, 12)]),
        cases::three_nodes(Edition::First),
        cases::three_nodes(Edition::Second),
    ] {
        let file = encode(&plan).unwrap();
        let mut files = 0;
        for (at, changed) in byte_changes(&file) {
            let answer = check(&changed);
            let numbers = answer.err().map(|refusal| refusal.number);
            let possible = possible_numbers(&plan, at);
            assert!(numbers.is_none_or(|n| possible.contains(&n)), "byte {at}");
            assert_eq!(answer.is_ok(), writes_back(&changed), "byte {at}");
            accepted += u32::from(answer.is_ok());
            files += 1;
        }
        assert_eq!(files, file.len() * 255);
    }
    assert!(accepted > 2_500, "{accepted}");
}

/// The refusals that a change of this one byte may cause.
fn possible_numbers(plan: &Plan, at: usize) -> &'static [u8] {
    let contents = contents_end(plan.nodes.len());
    if at < 3 {
        return &[OPENING];
    }
    if at < 4 {
        // In the other edition the second body, or the end, lies elsewhere.
        return &[OPENING, OFFSET, LENGTH];
    }
    if at < 8 {
        // Another count moves the bodies, or promises more contents.
        return &[COUNT, CUT_OFF, ROW, OFFSET];
    }
    if at < contents {
        return match at % 8 {
            0..3 => &[ROW],
            3 => &[ROW, OFFSET, LENGTH],
            _ => &[OFFSET],
        };
    }
    match (at - contents) % entry_length(plan.edition) {
        0 | 1 => &[REPEAT],
        2 | 3 => &[KIND],
        // Another C or D may leave too little room for J.
        4..8 | 12..16 => &[TICKS, JITTER],
        20.. => &[JITTER],
        _ => &[TICKS],
    }
}

/// Whether the writer turns what a reader without checks finds into the same
/// bytes.
fn writes_back(file: &[u8]) -> bool {
    let rows: Vec<Row> = file[8..]
        .chunks_exact(8)
        .take(usize::from(file[4]))
        .map(|row| Row {
            number: u16::from_le_bytes([row[0], row[1]]),
            levels: row[2],
            entries: row[3],
        })
        .collect();
    let Some(edition) = edition_of(file) else {
        return false;
    };
    let bodies = file.get(contents_end(rows.len())..).unwrap_or(&[]);
    let bodies = bodies.chunks_exact(entry_length(edition));
    let entries: Vec<Entry> = bodies.map(entry_of).collect();
    let mut written = vec![0; file.len()];
    write(edition.number(), &rows, &entries, &mut written) == Ok(file.len()) && written == file
}

fn entry_of(bytes: &[u8]) -> Entry {
    let ticks = |at: usize| u64::from(u32::from_le_bytes(bytes[at..at + 4].try_into().unwrap()));
    Entry {
        number: u16::from_le_bytes([bytes[0], bytes[1]]),
        kind: bytes[2],
        r: bytes[3],
        c: ticks(4),
        t: ticks(8),
        d: ticks(12),
        b: ticks(16),
        j: if bytes.len() == SECOND_ENTRY {
            ticks(20)
        } else {
            0
        },
    }
}

#[test]
fn random_bytes_behind_a_good_head() {
    let mut rng = rng(66);
    for _ in 0..times(20_000) {
        let mut file = encode(&plans::small(&mut rng)).unwrap();
        for _ in 0..rng.range(1, 4) {
            let at = rng.index(file.len());
            file[at] = rng.word() as u8;
        }
        assert_eq!(check(&file).is_ok(), writes_back(&file));
    }
}

const FILL_ROW: Row = Row {
    number: 9,
    levels: 9,
    entries: 9,
};
const FILL: Entry = Entry::task(9, 9, 9, 9).jittered(9);

#[test]
fn reader_fills_from_the_start_and_keeps_the_rest() {
    let mut rng = rng(67);
    for _ in 0..times(300) {
        let plan = plans::any(&mut rng);
        let file = encode(&plan).unwrap();
        let (row_count, entry_count) = (plan.rows().len(), plan.entries().len());
        for more in [0, 3] {
            let mut rows = vec![FILL_ROW; row_count + more];
            let mut entries = vec![FILL; entry_count + more];
            let answer = read(&file, &mut rows, &mut entries);
            assert_eq!(answer, Ok((row_count, entry_count, plan.edition)));
            assert_eq!(rows, [plan.rows(), vec![FILL_ROW; more]].concat());
            assert_eq!(entries, [plan.entries(), vec![FILL; more]].concat());
        }
    }
}

#[test]
fn refused_reader_leaves_its_buffers() {
    let mut rng = rng(68);
    let mut met_due = 0;
    for _ in 0..times(500) {
        let plan = plans::filled(&mut rng);
        let (row_count, entry_count) = (plan.rows().len(), plan.entries().len());
        let aim = rng.pick(&AIMS);
        let damaged = damage(&mut rng, &plan, &[aim]);
        let file = encode(&plan).unwrap();
        // The file's checks come before 10.
        for (file, short, due) in [
            (&damaged.file, 0, damaged.due),
            (&damaged.file, 1, damaged.due),
            (&file, 1, Refusal::plain(10)),
        ] {
            let mut rows = vec![FILL_ROW; row_count];
            let mut entries = vec![FILL; entry_count - short];
            assert_eq!(read(file, &mut rows, &mut entries), Err(due));
            assert!(rows.iter().all(|row| *row == FILL_ROW));
            assert!(entries.iter().all(|entry| *entry == FILL));
            met_due += 1;
        }
        let mut rows = vec![FILL_ROW; row_count - 1];
        let mut entries = vec![FILL; entry_count];
        let answer = read(&file, &mut rows, &mut entries);
        assert_eq!(answer, Err(Refusal::plain(10)));
        assert!(entries.iter().all(|entry| *entry == FILL));
    }
    assert_eq!(met_due, 3 * times(500));
}
