//! A node may hold an entry number once: the second implementation against the
//! words of the rule, and the plain and the tuned Rust against it.

use oracle::file::{check, check_parts, convert, decode, encode, longest, write};
use oracle::gen::entries;
use oracle::gen::numbers::{congruent, different, free, has, with};
use oracle::gen::ops::{levels, next_op, Course};
use oracle::gen::{plans, unchecked};
use oracle::lent::{apply, Words};
use oracle::limits::check_numbers;
use oracle::model::{Edition, Entry, Node, Plan, MAX_ENTRIES};
use oracle::options::{rng, times};
use oracle::plain;
use oracle::refusal::{Refusal, KIND, REPEAT};
use oracle::rng::Rng;
use oracle::session::{Op, Session};
use oracle::tuned::{self, session::Session as Lent};
use oracle::words::{self, entry_words};
use std::collections::{HashMap, HashSet};

/// Entries with these numbers.
fn entries_with(numbers: &[u16]) -> Vec<Entry> {
    let entry = |&number| Entry::task(number, 1, 900, 900);
    numbers.iter().map(entry).collect()
}

/// The first position whose number an earlier one has: the least second place of
/// any number.
fn first_repeat(numbers: &[u16]) -> Option<usize> {
    let mut places: HashMap<u16, Vec<usize>> = HashMap::new();
    for (at, number) in numbers.iter().enumerate() {
        places.entry(*number).or_default().push(at);
    }
    places
        .values()
        .filter_map(|places| places.get(1).copied())
        .min()
}

/// Every list of up to six of four numbers.
#[test]
fn every_short_list() {
    let (mut lists, mut refused) = (vec![Vec::new()], 0);
    for _ in 0..6 {
        let longer = lists.iter().flat_map(|list: &Vec<u16>| {
            [0, 12, 4_108, u16::MAX].map(|number| [list.as_slice(), &[number]].concat())
        });
        let longer: Vec<Vec<u16>> = longer.collect();
        for numbers in &longer {
            let due = first_repeat(numbers).map(|at| Refusal::at_entry(REPEAT, 3, at));
            assert_eq!(check_numbers(&entries_with(numbers), 3).err(), due);
            let held = Session::holding(1, &entries_with(numbers));
            let due = first_repeat(numbers).map(|at| Refusal::at_entry(REPEAT, 0, at));
            assert_eq!(held.err(), due, "{numbers:?}");
            refused += u32::from(due.is_some());
        }
        lists = longer;
    }
    // All but 4, 12, 24 and 24 of 4, 16, 64, 256, 1,024 and 4,096.
    assert_eq!(refused, 5_460 - 64);
}

/// A plan whose numbers come from a small range, so that many repeat.
fn crowded(rng: &mut Rng) -> Plan {
    let mut plan = plans::filled(rng);
    let range = rng.range(6, 60);
    for entry in plan.nodes.iter_mut().flat_map(|node| &mut node.entries) {
        entry.number = rng.below(range) as u16;
    }
    plan
}

/// In an accepted plan the numbers of each node differ, and a plan of good
/// entries is refused exactly for the first repeat of its first node with one.
#[test]
fn accepted_exactly_if_all_differ() {
    let mut rng = rng(500);
    let (mut accepted, mut refused) = (0, 0);
    for _ in 0..times(4_000) {
        let plan = crowded(&mut rng);
        let repeats = plan.nodes.iter().enumerate().filter_map(|(row, node)| {
            let numbers: Vec<u16> = node.entries.iter().map(|e| e.number).collect();
            Some(Refusal::at_entry(REPEAT, row, first_repeat(&numbers)?))
        });
        let due = repeats.min_by_key(|refusal| refusal.row);
        let file = unchecked::file(&plan);
        assert_eq!(check(&file).err(), due, "{plan:?}");
        let edition = plan.edition.number();
        let written = check_parts(edition, &plan.rows(), &plan.entries());
        assert_eq!(written.err(), due, "{plan:?}");
        match due {
            None => {
                assert_eq!(decode(&file), Ok(plan));
                accepted += 1;
            }
            Some(_) => refused += 1,
        }
    }
    assert!(
        accepted > times(500) && refused > times(500),
        "{accepted} {refused}"
    );
}

/// Whatever is done to a session from opening on, its numbers differ.
#[test]
fn numbers_of_a_session_always_differ() {
    let (mut rng, mut refused) = (rng(501), 0);
    for round in 0..times(200) {
        let course = [Course::Short, Course::Growing][round as usize % 2];
        let mut session = Session::open(3).unwrap();
        for _ in 0..100 {
            let op = next_op(&mut rng, &session, course);
            let before = session.clone();
            let repeats = match op {
                Op::Insert(_, entry) => has(before.entries(), entry.number),
                Op::Replace(at, entry) => (0..before.entries().len())
                    .any(|other| other != at && before.entries()[other].number == entry.number),
                _ => false,
            };
            if matches!(op, Op::Map | Op::MapTime(_)) {
                continue;
            }
            if let Err(refusal) = session.apply(&op, &mut []) {
                assert_eq!(session, before);
                assert!(repeats || refusal.number != REPEAT, "{op:?}");
                refused += u64::from(refusal.number == REPEAT);
            } else {
                assert!(!repeats, "{op:?} on {before:?}");
            }
            let once: HashSet<u16> = session.entries().iter().map(|e| e.number).collect();
            assert_eq!(once.len(), session.entries().len());
        }
    }
    assert!(refused > times(400), "{refused}");
}

/// A number that was removed or replaced may come again, one that was put in may
/// not.
#[test]
fn a_number_that_is_gone_may_come_again() {
    let mut session = Session::holding(3, &entries_with(&[5, 6, 7])).unwrap();
    let entry = |number| Entry::task(number, 2, 800, 700);
    let refused = |at| Err(Refusal::at_entry(REPEAT, 0, at));
    assert_eq!(session.insert(3, entry(5)), refused(3));
    session.remove(0).unwrap();
    assert_eq!(session.insert(2, entry(5)), Ok(()));
    assert_eq!(session.insert(0, entry(5)), refused(0));
    assert_eq!(session.replace(0, entry(9)), Ok(()));
    assert_eq!(session.insert(1, entry(9)), refused(1));
    assert_eq!(session.insert(1, entry(6)), Ok(()));
    // A replaced entry may keep its number.
    for (at, number) in [9, 6, 7, 5].into_iter().enumerate() {
        assert_eq!(session.replace(at, entry(number)), Ok(()));
    }
    assert_eq!(session.replace(3, entry(9)), refused(3));
    let numbers: Vec<u16> = session.entries().iter().map(|e| e.number).collect();
    assert_eq!(numbers, [9, 6, 7, 5]);
    assert_eq!(session.entries()[3], entry(5));
}

/// A node of 64 entries with numbers that share low bits, or do not, in half of
/// the draws with one or two repeats.
fn full_node(rng: &mut Rng) -> Vec<Entry> {
    let mut numbers = match rng.chance(1, 2) {
        true => different(rng, MAX_ENTRIES),
        false => congruent(MAX_ENTRIES, 1 << rng.range(8, 13), rng.word() as u16),
    };
    if rng.chance(1, 2) {
        for _ in 0..rng.range(1, 2) {
            let [from, to] = [0; 2].map(|_| rng.index(MAX_ENTRIES));
            numbers[to] = numbers[from];
        }
    }
    with(entries::light(rng, MAX_ENTRIES), &numbers)
}

/// The plain and the tuned Rust check numbers as the second implementation does,
/// in files, plans to be written and sessions.
#[test]
fn plain_and_tuned_agree() {
    let mut rng = rng(502);
    let (mut accepted, mut refused, mut fields) = (0, 0, 0);
    for _ in 0..times(600) {
        let edition = rng.pick(&Edition::BOTH);
        let mut nodes: Vec<Node> = (0..rng.range(1, 32) as u16)
            .map(|number| Node {
                number,
                levels: 9,
                entries: match rng.chance(1, 8) {
                    true => full_node(&mut rng),
                    false => with(entries::light(&mut rng, 64), &different(&mut rng, 64)),
                },
            })
            .collect();
        if rng.chance(1, 4) {
            let row = rng.index(nodes.len());
            nodes[row].entries[rng.index(MAX_ENTRIES)].kind = 3;
        }
        let plan = Plan { edition, nodes };
        let file = unchecked::file(&plan);
        let due = check(&file);
        assert_eq!(tuned::check(&file), due);
        assert_eq!(plain::check(&file), due.is_ok());
        let (rows, entries) = (plan.rows(), plan.entries());
        let room = longest(edition);
        let [mut bytes, mut tuned_bytes, mut plain_bytes] = [0; 3].map(|_| vec![7; room]);
        let written = write(edition.number(), &rows, &entries, &mut bytes);
        let (row_words, words) = (words::of_rows(&rows), words::of_entries(&entries));
        let number = edition.number();
        let tuned = tuned::write(number, &row_words, &words, &mut tuned_bytes);
        assert_eq!(tuned, written);
        let plain = plain::write(number, &row_words, &words, &mut plain_bytes);
        assert_eq!(plain, written.ok());
        assert_eq!(written.map(|_| ()), due);
        assert!(tuned_bytes == bytes && plain_bytes == bytes);
        match due {
            Ok(()) => accepted += 1,
            Err(refusal) if refusal.number == REPEAT => refused += 1,
            Err(refusal) => {
                assert_eq!(refusal.number, KIND);
                fields += 1;
            }
        }
    }
    let counts = [accepted, refused, fields];
    assert!(counts.iter().all(|&count| count > times(50)), "{counts:?}");
}

/// The same for sessions in lent memory, and for what is put into them.
#[test]
fn plain_and_tuned_sessions_agree() {
    let mut rng = rng(503);
    let [mut accepted, mut held_twice, mut put_twice] = [0; 3];
    for _ in 0..times(3_000) {
        let mut entries = full_node(&mut rng);
        entries.truncate(rng.count(1, MAX_ENTRIES));
        let words = unchecked::session(levels(&mut rng).clamp(1, 64), &entries);
        let number = match rng.chance(1, 2) {
            true => free(&mut rng, &entries),
            false => rng.pick(&entries).number,
        };
        let entry = Entry::task(number, 1, 900, 900);
        let (insert_at, replace_at) = (rng.index(entries.len() + 1), rng.index(entries.len()));
        for op in [Op::Insert(insert_at, entry), Op::Replace(replace_at, entry)] {
            let mut due_words = words;
            let due = apply(&mut due_words, &op, &mut []).map(|_| ());
            let mut session = Lent::of(&words);
            let answer = match op {
                Op::Insert(at, _) => tuned::session::insert(&mut session, at, &entry_words(&entry)),
                _ => tuned::session::replace(&mut session, replace_at, &entry_words(&entry)),
            };
            assert_eq!(answer, due, "{op:?} on {entries:?}");
            assert_eq!(session.memory(), due_words);
            if let Op::Insert(at, _) = op {
                compare_plain_insert(&words, at, &entry, due.map(|()| due_words));
            }
            match due {
                Ok(()) => accepted += 1,
                Err(refusal) if refusal.number != REPEAT => {}
                Err(_) if check_numbers(&entries, 0).is_err() => held_twice += 1,
                Err(_) => put_twice += 1,
            }
        }
        let time = plain::session::time(&Lent::of(&words), 0, 0, 0);
        assert_eq!(time.is_some(), check_numbers(&entries, 0).is_ok());
    }
    let counts = [accepted, held_twice, put_twice];
    assert!(counts.iter().all(|&count| count > times(500)), "{counts:?}");
}

/// An insert of the plain program. A refused one leaves the words as they were.
fn compare_plain_insert(words: &Words, at: usize, entry: &Entry, due: Result<Words, Refusal>) {
    let mut session = Lent::of(words);
    let done = plain::session::insert(&mut session, at, &entry_words(entry));
    assert_eq!(done, due.is_ok(), "{entry:?} at {at} of {words:?}");
    assert_eq!(session.memory(), due.unwrap_or(*words));
}

/// Conversions of a plan with a repeat, in all three programs.
#[test]
fn plain_and_tuned_conversions_agree() {
    let (mut rng, mut refused) = (rng(504), 0);
    for _ in 0..times(500) {
        let file = unchecked::file(&crowded(&mut rng));
        for from in Edition::BOTH {
            let room = longest(from.other());
            let [mut due, mut tuned, mut plain] = [0; 3].map(|_| vec![7; room]);
            let answer = convert(from, &file, &mut due);
            let (by_tuned, by_plain) = match from {
                Edition::First => (
                    tuned::convert_forward(&file, &mut tuned),
                    plain::convert_forward(&file, &mut plain),
                ),
                Edition::Second => (
                    tuned::convert_back(&file, &mut tuned),
                    plain::convert_back(&file, &mut plain),
                ),
            };
            assert_eq!((by_tuned, by_plain), (answer, answer.ok()));
            assert!(tuned == due && plain == due);
            refused += u64::from(answer.is_err_and(|refusal| refusal.number == REPEAT));
        }
    }
    assert!(refused > times(300), "{refused}");
}

/// Whatever the generators of plans draw obeys the rule.
#[test]
fn generated_plans_obey_the_rule() {
    let mut rng = rng(505);
    let mut shared = 0;
    for _ in 0..times(300) {
        let plan = plans::any(&mut rng);
        assert!(encode(&plan).is_ok(), "{plan:?}");
        let all: Vec<u16> = plan.entries().iter().map(|e| e.number).collect();
        shared += u64::from(first_repeat(&all).is_some());
    }
    // Nodes of one plan often have the same numbers.
    assert!(shared > times(50), "{shared}");
}
