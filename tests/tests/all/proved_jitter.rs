//! Entries that start late, in the proved library: the worked figures, nodes in
//! which J alone decides the map, and 14 among the other refusals.

use crate::say;
use crate::starred::{late, on_time};
use oracle::cases::{self, again, jittered, twice_ahead};
use oracle::compare;
use oracle::compare::session::Both;
use oracle::ffi::{self, session::Session as Proved};
use oracle::file::entry_bytes;
use oracle::gen::entries;
use oracle::gen::jitter::{most, Jitter};
use oracle::gen::numbers::from_one;
use oracle::gen::places::put_words;
use oracle::lent::words_of;
use oracle::map::map_entries;
use oracle::model::{Edition, Entry, Node, Row};
use oracle::options::{rng, times};
use oracle::refusal::{
    Refusal, BUFFER, COUNT, JITTER, KIND, LENGTH, NO_MAP, NO_NODE, OFFSET, OPENING, POSITION, ROW,
    TICKS,
};
use oracle::rng::Rng;
use oracle::session::{Op, Session};
use oracle::tally::Tally;
use oracle::timing::{completion, Timing};

/// The node in a session of the library.
fn held(node: &Node) -> Proved {
    let session = Session::holding(usize::from(node.levels), &node.entries);
    Proved::of(&words_of(&session.expect("a good node")))
}

/// The timing of the entry at `i` in a group.
fn time(node: &Node, first: usize, last: usize, i: usize) -> Timing {
    held(node).time(first, last, i).expect("it is in the list")
}

/// The map of the node in a file and in a session, which must be the same.
fn map(node: &Node) -> Option<Vec<u8>> {
    let count = node.entries.len();
    let (mut levels, mut mine) = (vec![0; count], vec![0; count]);
    let answer = ffi::map(&cases::second_file(node.clone()), 7, &mut levels);
    assert_eq!(held(node).map(&mut mine), answer);
    assert_eq!(mine, levels);
    match answer {
        Ok(_) => Some(levels),
        Err(refusal) => {
            assert_eq!(refusal, Refusal::plain(NO_MAP));
            None
        }
    }
}

#[test]
fn worked_figures() {
    let p = jittered(cases::p(), 2, 12);
    assert_eq!(map(&p), Some(vec![1, 2, 2]));
    assert_eq!(time(&p, 1, 2, 2), on_time(138, 2));
    assert_eq!(map(&jittered(cases::p(), 2, 13)), None);
    assert_eq!(map(&again(4)), Some(vec![1, 2]));
    assert_eq!(time(&again(4), 1, 1, 1), on_time(11, 2));
    assert_eq!(time(&again(0), 1, 1, 1), on_time(8, 1));
    assert_eq!(time(&again(4), 0, 1, 0), late(0, 2));
    let v = jittered(cases::v(), 0, 2);
    assert_eq!(time(&v, 0, 1, 1), on_time(16, 2));
    assert_eq!(time(&v, 0, 1, 0), late(0, 2));
    assert_eq!(time(&v, 1, 1, 1), on_time(18, 2));
    assert_eq!(time(&jittered(cases::v(), 0, 4), 1, 1, 1), on_time(19, 3));
    assert_eq!(time(&twice_ahead(8), 0, 1, 1), on_time(7, 2));
    assert_eq!(time(&twice_ahead(0), 0, 1, 1), on_time(5, 1));
    assert_eq!(map(&jittered(cases::h(), 1, 15)), Some(vec![1, 1, 1]));
    for (position, j) in [(1, 16), (0, 1), (2, 1)] {
        assert_eq!(map(&jittered(cases::h(), position, j)), None);
    }
}

/// How many levels the map needs, or 65 without a map.
fn needed(entries: &[Entry], levels: u8) -> u8 {
    map_entries(entries, levels).map_or(65, |map| map.used)
}

/// The entries with this J at a position.
fn with(entries: &[Entry], position: usize, j: u64) -> Vec<Entry> {
    let mut entries = entries.to_vec();
    entries[position].j = j;
    entries
}

/// The least J at a position from which on a map needs more levels than with 0
/// there, if there is one. A larger J never needs fewer.
fn deciding(entries: &[Entry], levels: u8, position: usize) -> Option<u64> {
    let before = needed(&with(entries, position, 0), levels);
    let more = |j| needed(&with(entries, position, j), levels) > before;
    let (mut enough, mut too_much) = (0, most(&entries[position]));
    if !more(too_much) {
        return None;
    }
    while too_much - enough > 1 {
        let middle = (enough + too_much) / 2;
        match more(middle) {
            true => too_much = middle,
            false => enough = middle,
        }
    }
    Some(too_much)
}

fn draw(rng: &mut Rng) -> Vec<Entry> {
    let count = rng.count(2, 8);
    let jitter = rng.pick(&[Jitter::Zero, Jitter::Zero, Jitter::Small, Jitter::Mixed]);
    let loose = match rng.below(4) {
        0 => entries::tiny(rng, count),
        1 => entries::realistic(rng, count),
        2 => return entries::queued(rng, count, Jitter::Mixed),
        _ => return entries::wide(rng, count, jitter),
    };
    let loose = jitter.put(rng, loose);
    match rng.chance(1, 2) {
        true => entries::tighten(rng, loose),
        false => loose,
    }
}

/// Compares the node in a file and in a session.
fn compare_node(tally: &mut Tally, levels: u8, entries: &[Entry]) {
    let file = cases::second_file(cases::node(levels, entries));
    compare::map(tally, &file, 7, entries.len());
    compare::list(tally, &file);
    let session = Session::holding(usize::from(levels), entries).expect("a good node");
    let mut both = Both::of(&words_of(&session));
    let _ = both.step(tally, &Op::Map, entries.len());
}

/// One tick of J of one entry makes the map need another level, or leaves none;
/// both sides are compared. Sometimes that entry itself would be late, sometimes
/// only others.
#[test]
fn jitter_alone_decides() {
    let (mut rng, mut tally) = (rng(350), Tally::default());
    let (mut no_map, mut more_levels, mut by_others) = (0, 0, 0);
    while no_map + more_levels < times(2_000) {
        let entries = draw(&mut rng);
        let levels = rng.pick(&[1, 2, 3, 64]);
        let position = rng.index(entries.len());
        let Some(j) = deciding(&entries, levels, position) else {
            continue;
        };
        let [enough, too_much] = [j - 1, j].map(|j| with(&entries, position, j));
        for node in [&enough, &too_much] {
            compare_node(&mut tally, levels, node);
        }
        match needed(&too_much, levels) {
            65 => no_map += 1,
            _ => more_levels += 1,
        }
        // Under the map before, is the entry itself still on time?
        let map = map_entries(&enough, levels).expect("there is a map before");
        by_others += u64::from(completion(&too_much, &map.levels, position).is_on_time());
    }
    let counts = format!("{no_map} without a map, {more_levels} with more levels");
    say(format!(
        "J decides: {counts}, {by_others} by others; {tally}"
    ));
    assert!(no_map > times(400) && more_levels > times(200), "{counts}");
    assert!(by_others > times(100), "{by_others}");
}

const GOOD: Entry = Entry::task(9, 2, 1_100, 1_050);
const PLAIN: fn(u8) -> Refusal = Refusal::plain;

/// Which of the checks 7, 8 and 14 an entry fails.
type Failing = [bool; 3];

/// Every pair of these.
fn pairs() -> impl Iterator<Item = [Failing; 2]> {
    let failing = |bits: u32| [1, 2, 4].map(|bit| bits & bit > 0);
    (0..64).map(move |bits| [failing(bits), failing(bits / 8)])
}

/// Two entries with these faults; their J is `least`, or one more than the most.
fn entries_with(both: [Failing; 2], jitter: [u64; 2]) -> Vec<Entry> {
    from_one(both.map(|failing| entry_with(failing, jitter)).to_vec())
}

fn entry_with([kind, ticks, jitter]: Failing, [least, most]: [u64; 2]) -> Entry {
    Entry {
        kind: if kind { 3 } else { GOOD.kind },
        c: if ticks { GOOD.d + 1 } else { GOOD.c },
        ..GOOD.jittered(if jitter { most + 1 } else { least })
    }
}

/// The refusal of a node of two entries: 7, 8, then 14 of the first.
fn due_of(both: [Failing; 2]) -> Option<Refusal> {
    let number = |[kind, ticks, jitter]: Failing| {
        let numbers = [(kind, KIND), (ticks, TICKS), (jitter, JITTER)];
        let failed = numbers.into_iter().find(|(failed, _)| *failed);
        failed.map(|(_, number)| number)
    };
    let mut entries = both.into_iter().enumerate();
    entries.find_map(|(at, failing)| Some(Refusal::at_entry(number(failing)?, 0, at)))
}

/// 4, 5 and 6 come before the 14 of an entry, 9 and 10 behind it.
#[test]
fn the_order_of_14_in_a_file() {
    let mut tally = Tally::default();
    for both in pairs() {
        let mut file = cases::second_file(cases::node(1, &from_one(vec![GOOD; 2])));
        let entries = entries_with(both, [1_048, most(&GOOD)]);
        for (slot, entry) in file[16..].chunks_exact_mut(24).zip(entries) {
            slot.copy_from_slice(&entry_bytes(Edition::Second, &entry));
        }
        let due = due_of(both);
        assert_eq!(compare::check(&mut tally, &file).err(), due);
        let map = |number, room| ffi::map(&file, number, &mut vec![0; room]).err();
        assert_eq!(map(8, 0), due.or(Some(PLAIN(NO_NODE))));
        assert_eq!(map(7, 1), due.or(Some(PLAIN(BUFFER))));
        let read = |rows, words| ffi::read(&file, &mut vec![0; rows], &mut vec![0; words]).err();
        assert_eq!(read(0, 12), due.or(Some(PLAIN(BUFFER))));
        assert_eq!(read(1, 11), due.or(Some(PLAIN(BUFFER))));
        assert_eq!(read(1, 12), due);
        compare::file(&mut tally, &file);
        for (at, byte, earlier) in [
            (3, 0x33, PLAIN(OPENING)),
            (5, 1, PLAIN(COUNT)),
            (10, 0, Refusal::at_row(ROW, 0)),
            (12, 17, Refusal::at_row(OFFSET, 0)),
            (11, 1, PLAIN(LENGTH)),
        ] {
            let mut file = file.clone();
            file[at] = byte;
            assert_eq!(compare::check(&mut tally, &file), Err(earlier));
        }
    }
    assert!(tally.met(JITTER) > 50, "{tally}");
}

/// 2, 3, 4 and 6 come before the 14 of an entry, 10 behind it. In the first
/// edition every J above 0 is 14.
#[test]
fn the_order_of_14_for_the_writer() {
    let mut tally = Tally::default();
    let row = cases::node(1, &[GOOD; 2]).row();
    let none = Row { levels: 0, ..row };
    for both in pairs() {
        for (edition, jitter, length) in [(1, [0, 0], 56), (2, [1_048, 1_048], 64)] {
            let entries = entries_with(both, jitter);
            let due = due_of(both);
            let mut write = |edition, rows: &[Row], entries: &[Entry], room| {
                let answer = compare::write(&mut tally, edition, rows, entries, room);
                answer.err()
            };
            assert_eq!(write(edition, &[row], &entries, length), due);
            let short = due.or(Some(PLAIN(BUFFER)));
            assert_eq!(write(edition, &[row], &entries, length - 1), short);
            assert_eq!(write(3, &[row], &entries, 64), Some(PLAIN(OPENING)));
            assert_eq!(write(edition, &[], &entries, 64), Some(PLAIN(COUNT)));
            let levels = Some(Refusal::at_row(ROW, 0));
            assert_eq!(write(edition, &[none], &entries, 64), levels);
            let fewer = write(edition, &[row], &entries[..1], 64);
            assert_eq!(fewer, Some(PLAIN(LENGTH)));
        }
    }
    // Of nine pairs, in both editions, with and without room.
    assert_eq!(tally.met(JITTER), 36, "{tally}");
}

/// A lent session with a 14 refuses every operation with it, before the
/// operation's own 4, 10, 12 and 14; its own 4 comes first.
#[test]
fn the_order_of_14_in_a_lent_session() {
    let mut tally = Tally::default();
    let held = Session::holding(1, &from_one(vec![GOOD; 2])).expect("good entries");
    let wrong = GOOD.jittered(1_049);
    for both in pairs() {
        let mut words = words_of(&held);
        let entries = entries_with(both, [1_048, most(&GOOD)]);
        for (at, entry) in entries.iter().enumerate() {
            put_words(&mut words, at, entry);
        }
        let due = due_of(both);
        for (op, own) in [
            (Op::SetLevels(0), Refusal::at_row(ROW, 0)),
            (Op::Map, PLAIN(BUFFER)),
            (Op::Insert(3, GOOD), PLAIN(POSITION)),
            (Op::Insert(3, wrong), PLAIN(POSITION)),
            (Op::Insert(2, wrong), Refusal::at_entry(JITTER, 0, 2)),
            (Op::Replace(2, wrong), PLAIN(POSITION)),
            (Op::Replace(1, wrong), Refusal::at_entry(JITTER, 0, 1)),
            (Op::Remove(2), PLAIN(POSITION)),
            (Op::Time(0, 2, 0), PLAIN(POSITION)),
            (Op::MapTime(2), PLAIN(POSITION)),
        ] {
            let mut lent = Both::of(&words);
            assert_eq!(lent.step(&mut tally, &op, 1), Err(due.unwrap_or(own)));
            assert_eq!(lent.words(), &words);
        }
        words[0] = 65;
        let levels = Both::of(&words).step(&mut tally, &Op::Map, 1);
        assert_eq!(levels, Err(Refusal::at_row(ROW, 0)));
    }
    // Nine pairs with ten operations, and two operations of the good pair.
    assert_eq!(tally.met(JITTER), 92, "{tally}");
}
