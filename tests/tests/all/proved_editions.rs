//! Both editions of the plan file, in the proved library and in the second
//! implementation: round trips, and files with parts of both.

use crate::say;
use oracle::cases;
use oracle::compare;
use oracle::ffi;
use oracle::file::{contents_end, decode, edition_of, encode, entry_length, longest, row_at};
use oracle::gen::damage::truncations;
use oracle::gen::jitter::first_late;
use oracle::gen::numbers::settle;
use oracle::gen::plans::{self, drawn_in, in_edition, punctual};
use oracle::model::{Edition, Entry, Node, Plan, MAX_ENTRIES, MAX_NODES};
use oracle::options::{rng, times};
use oracle::refusal::{Refusal, CUT_OFF, JITTER, LENGTH, OFFSET};
use oracle::rng::Rng;
use oracle::tally::Tally;
use oracle::words::{self, ENTRY_WORDS};

/// What the library reads from a file: edition, rows and entries in words.
fn read(file: &[u8]) -> (Edition, Vec<u32>, Vec<u32>) {
    let mut rows = words::known(MAX_NODES);
    let mut entries = words::known(MAX_NODES * MAX_ENTRIES * ENTRY_WORDS);
    let answer = ffi::read(file, &mut rows, &mut entries);
    let (row_count, entry_count, edition) = answer.expect("a good file");
    rows.truncate(row_count);
    entries.truncate(entry_count * ENTRY_WORDS);
    (edition, rows, entries)
}

/// What the library writes.
fn written(edition: Edition, rows: &[u32], entries: &[u32]) -> Result<Vec<u8>, Refusal> {
    let mut file = vec![0xAA; longest(edition)];
    let length = ffi::write(edition.number(), rows, entries, &mut file)?;
    file.truncate(length);
    Ok(file)
}

/// A file read and written again in the edition it came in is the same bytes. A
/// plan with an edition, written and read again, is the same plan with the same
/// edition.
#[test]
fn round_trips() {
    let mut rng = rng(360);
    let longest = Edition::BOTH.map(|edition| plans::longest_in(&mut rng, edition));
    let drawn: Vec<Plan> = (0..times(1_500)).map(|_| plans::any(&mut rng)).collect();
    for plan in drawn.iter().chain(&longest) {
        let file = encode(plan).unwrap();
        let (edition, rows, entries) = read(&file);
        assert_eq!(edition, plan.edition);
        assert_eq!(rows, words::of_rows(&plan.rows()));
        assert_eq!(entries, words::of_entries(&plan.entries()));
        assert_eq!(written(edition, &rows, &entries), Ok(file.clone()));
        assert_eq!(decode(&file).as_ref(), Ok(plan));
    }
}

/// A plan without J is written in either edition, and read as the same plan. Of
/// a first-edition file every J is 0, whatever the words held before.
#[test]
fn without_jitter_in_both_editions() {
    let mut rng = rng(361);
    for _ in 0..times(500) {
        let first = punctual(plans::any(&mut rng));
        let second = in_edition(&first, Edition::Second);
        let [a, b] = [&first, &second].map(|plan| encode(plan).unwrap());
        let [(one, rows, entries), (two, other_rows, other_entries)] = [&a, &b].map(|f| read(f));
        assert_eq!((one, two), (Edition::First, Edition::Second));
        assert_eq!((&rows, &entries), (&other_rows, &other_entries));
        let jitters = entries.as_chunks::<ENTRY_WORDS>().0.iter();
        assert!(jitters.map(|words| words[5]).all(|j| j == 0));
        assert_eq!(written(Edition::Second, &rows, &entries), Ok(b));
        assert_eq!(written(Edition::First, &rows, &entries), Ok(a));
    }
}

/// The first entry with a J above zero is 14 in the first edition.
#[test]
fn jitter_has_no_room_in_the_first_edition() {
    let (mut rng, mut tally) = (rng(362), Tally::default());
    for _ in 0..times(2_000) {
        let plan = plans::any(&mut rng);
        let first = first_late(&plan);
        let (rows, entries, room) = (plan.rows(), plan.entries(), longest(Edition::First));
        let answer = compare::write(&mut tally, 1, &rows, &entries, room);
        match first {
            Some((row, at)) => assert_eq!(answer, Err(Refusal::at_entry(JITTER, row, at))),
            None => assert!(answer.is_ok()),
        }
        // Before 10.
        let short = compare::write(&mut tally, 1, &rows, &entries, 0);
        assert_eq!(short.is_err_and(|e| e.number == JITTER), first.is_some());
    }
    say(format!("jitter in the first edition: {tally}"));
    assert!(tally.met(JITTER) > times(500), "{tally}");
}

/// What the other edition's opening does to a plan's file: the second body, or
/// the end, lies elsewhere. Only a plan without entries is still a plan.
fn due_with_the_other_opening(plan: &Plan) -> Result<(), Refusal> {
    let mut entries = 0;
    for (row, node) in plan.nodes.iter().enumerate() {
        if entries > 0 {
            return Err(Refusal::at_row(OFFSET, row));
        }
        entries += node.entries.len();
    }
    match entries {
        0 => Ok(()),
        _ => Err(Refusal::plain(LENGTH)),
    }
}

/// The file with the opening bytes of the other edition.
fn reopened(plan: &Plan) -> Vec<u8> {
    let mut file = encode(plan).unwrap();
    file[3] ^= 3;
    assert_eq!(edition_of(&file), Some(plan.edition.other()));
    file
}

#[test]
fn an_opening_on_a_body_of_the_other_edition() {
    let (mut rng, mut tally) = (rng(363), Tally::default());
    for _ in 0..times(2_000) {
        let plan = plans::any(&mut rng);
        let file = reopened(&plan);
        let answer = compare::check(&mut tally, &file);
        assert_eq!(answer, due_with_the_other_opening(&plan));
        compare::file(&mut tally, &file);
    }
    let empty = Node {
        number: 7,
        levels: 1,
        entries: Vec::new(),
    };
    for edition in Edition::BOTH {
        let nodes = vec![empty.clone()];
        let file = reopened(&Plan { edition, nodes });
        assert_eq!(compare::check(&mut tally, &file), Ok(()));
        assert_eq!(read(&file).0, edition.other());
    }
    say(format!("an opening of the other edition: {tally}"));
    // Seven calls refuse each file.
    assert!(tally.met(OFFSET) > times(8_000), "{tally}");
    assert!(tally.met(LENGTH) > times(3_000), "{tally}");
}

/// 6 entries of 20 bytes are as long as 5 of 24. With the other opening and the
/// other count every offset and the length fit, and the entries are read at
/// other places.
#[test]
fn bodies_that_fit_both_editions() {
    let (mut rng, mut tally) = (rng(364), Tally::default());
    for round in 0..times(3_000) {
        let edition = Edition::BOTH[round as usize % 2];
        let (count, other) = match edition {
            Edition::First => (6, 5),
            Edition::Second => (5, 6),
        };
        let repeat = rng.count(1, 3);
        let entries = telling_entries(&mut rng, edition, count * repeat);
        let node = Node {
            number: 7,
            levels: 3,
            entries,
        };
        let plan = Plan {
            edition,
            nodes: vec![node],
        };
        let mut file = reopened(&plan);
        file[11] = (other * repeat) as u8;
        // Read in the second edition, C of one entry is J of another that has
        // no room for it; in the first, such a J of 0 is C.
        assert!(compare::check(&mut tally, &file).is_err());
        compare::file(&mut tally, &file);
    }
    say(format!("bodies that fit both editions: {tally}"));
    for number in [7, 8, 14] {
        assert!(tally.met(number) > times(500), "{number}: {tally}");
    }
}

/// Entries whose fields, four bytes further on, are often an entry too: all
/// numbers are small, and the first word of an entry may be a time.
fn telling_entries(rng: &mut Rng, edition: Edition, count: usize) -> Vec<Entry> {
    // Kind 1 and r 0 make the first word 65,536 and more; as a time it is long.
    let long = 1 << 16;
    let entries = (0..count)
        .map(|_| {
            let t = long + rng.below(3);
            let d = long + rng.below(1 + t - long);
            let c = rng.pick(&[1, long]).min(d);
            let b = rng.pick(&[0, 1, long]);
            let j = match edition {
                Edition::First => 0,
                Edition::Second => rng.pick(&[0, 1, d - c]).min(d - c),
            };
            let number = rng.below(3) as u16;
            Entry::task(number, c, t, d).blocked(b).jittered(j)
        })
        .collect();
    settle(entries)
}

/// Files cut at every length.
#[test]
fn cut_at_every_length() {
    let (mut rng, mut tally) = (rng(365), Tally::default());
    for round in 0..times(12) {
        let edition = Edition::BOTH[round as usize % 2];
        let plan = drawn_in(&mut rng, edition, plans::any);
        let file = encode(&plan).unwrap();
        for cut in truncations(&file) {
            let number = match cut.len() < contents_end(plan.nodes.len()) {
                true => CUT_OFF,
                false => LENGTH,
            };
            let due = Err(Refusal::plain(number));
            assert_eq!(compare::check(&mut tally, cut), due);
        }
    }
}

/// Files lengthened by up to two entries, by the bytes that the other edition
/// would have more, and cut by as many.
#[test]
fn lengthened_and_shortened() {
    let (mut rng, mut tally) = (rng(366), Tally::default());
    for _ in 0..times(200) {
        let plan = plans::filled(&mut rng);
        let file = encode(&plan).unwrap();
        let others = 4 * plan.entries().len();
        for more in (1..=2 * entry_length(plan.edition)).chain([others]) {
            let mut longer = file.clone();
            longer.resize(file.len() + more, rng.pick(&[0, 1, 0xFF]));
            let due = Err(Refusal::plain(LENGTH));
            assert_eq!(compare::check(&mut tally, &longer), due);
            // With the other opening too: in one node, the length may now fit.
            longer[3] ^= 3;
            compare::file(&mut tally, &longer);
        }
        let mut shorter = file[..file.len() - others].to_vec();
        compare::file(&mut tally, &shorter);
        shorter[3] ^= 3;
        compare::file(&mut tally, &shorter);
    }
    say(format!("lengthened and shortened: {tally}"));
    for number in [5, 6, 7, 14] {
        assert!(tally.met(number) > times(100), "{number}: {tally}");
    }
}

/// Offsets as the other edition has them are 5, from the second row on.
#[test]
fn offsets_of_the_other_edition() {
    let mut tally = Tally::default();
    for edition in Edition::BOTH {
        let plan = in_edition(&plans::longest_in(&mut rng(367), Edition::First), edition);
        let other = encode(&in_edition(&plan, edition.other())).unwrap();
        for row in 1..MAX_NODES {
            let mut file = encode(&plan).unwrap();
            let at = contents_end(row);
            file[at + 4..at + 8].copy_from_slice(&other[at + 4..at + 8]);
            let due = Err(Refusal::at_row(OFFSET, row));
            assert_eq!(compare::check(&mut tally, &file), due);
        }
        let mut file = encode(&plan).unwrap();
        let contents = contents_end(MAX_NODES);
        file[..contents].copy_from_slice(&other[..contents]);
        file[3] ^= 3;
        let due = Err(Refusal::at_row(OFFSET, 1));
        assert_eq!(compare::check(&mut tally, &file), due);
    }
}

/// The files that the library writes of a plan without J.
fn in_both_editions(nodes: Vec<Node>) -> [Vec<u8>; 2] {
    let plan = Plan::first(nodes);
    let rows = words::of_rows(&plan.rows());
    let entries = words::of_entries(&plan.entries());
    Edition::BOTH.map(|edition| written(edition, &rows, &entries).expect("a good plan"))
}

/// The rows of a plan are the same in both editions but for their offsets.
#[test]
fn rows_have_no_edition() {
    let mut nodes = vec![cases::p(), cases::v(), cases::h()];
    for (node, number) in nodes.iter_mut().zip([7, 300, 65_535]) {
        node.number = number;
    }
    let [first, second] = in_both_editions(nodes.clone());
    assert_eq!([first[3], second[3]], [0x31, 0x32]);
    let in_an_offset = |at: usize| at >= contents_end(0) && at % 8 >= 4;
    for at in (0..contents_end(3)).filter(|&at| at != 3 && !in_an_offset(at)) {
        assert_eq!(first[at], second[at], "{at}");
    }
    for (row, node) in nodes.iter().enumerate() {
        assert_eq!(row_at(&first, row).0, node.row());
    }
    // After the three entries of P the second body begins at another place.
    let offsets = [&first, &second].map(|file| [0, 1, 2].map(|row| row_at(file, row).1));
    assert_eq!(offsets, [[32, 92, 132], [32, 104, 152]]);
    assert_eq!([first.len(), second.len()], [192, 224]);
}

/// A row without entries has the same offset too.
#[test]
fn an_empty_row_has_no_edition() {
    let empty = Node {
        number: 9,
        levels: 3,
        entries: Vec::new(),
    };
    let [first, second] = in_both_editions(vec![empty]);
    assert_eq!(first[4..], second[4..]);
    assert_eq!([first[3], second[3]], [0x31, 0x32]);
}
