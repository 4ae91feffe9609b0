//! The order of the checks of a call, and what a refused call leaves.

use oracle::cases;
use oracle::ffi;
use oracle::file::encode;
use oracle::gen::buffers::known;
use oracle::gen::damage::{damage, AIMS};
use oracle::gen::plans;
use oracle::map::map_node;
use oracle::model::{Edition, Entry, Plan};
use oracle::options::{rng, times};
use oracle::refusal::{
    Refusal, BUFFER, FULL, JITTER, KIND, NO_MAP, NO_NODE, POSITION, REPEAT, TICKS,
};
use oracle::session::Session;

#[test]
fn mapping_a_file_checks_file_then_9_10_11() {
    let mut rng = rng(80);
    // Case F has no map: without an earlier fault the answer is 11.
    for (edition, aim) in Edition::BOTH
        .into_iter()
        .flat_map(|e| AIMS.map(|aim| (e, aim)))
    {
        let nodes = vec![cases::f()];
        let plan = Plan { edition, nodes };
        let good = encode(&plan).unwrap();
        let bad = damage(&mut rng, &plan, &[aim]);
        for number in [7, 8, 65_536 + 7] {
            for room in [0, 2, 3, 9] {
                let mut buffer = known(room);
                let answer = map_node(&bad.file, number, &mut buffer);
                assert_eq!(answer, Err(bad.due));
                let due = match (number, room) {
                    (7, 0..3) => BUFFER,
                    (7, _) => NO_MAP,
                    _ => NO_NODE,
                };
                let answer = map_node(&good, number, &mut buffer);
                assert_eq!(answer, Err(Refusal::plain(due)));
                assert_eq!(buffer, known(room));
            }
        }
    }
}

#[test]
fn mapping_fills_from_the_start_and_keeps_the_rest() {
    let mut rng = rng(81);
    let (mut mapped, mut none) = (0, 0);
    for _ in 0..times(500) {
        let plan = plans::small(&mut rng);
        let file = encode(&plan).unwrap();
        for node in &plan.nodes {
            let count = node.entries.len();
            // The proved library, with an exact buffer.
            let mut levels = known(count);
            let due = ffi::map(&file, node.number, &mut levels);
            for room in [count, count + 5] {
                let mut buffer = known(room);
                let answer = map_node(&file, u64::from(node.number), &mut buffer);
                assert_eq!(answer.map(usize::from), due);
                assert_eq!(buffer[..count], levels);
                assert_eq!(buffer[count..], known(room)[count..]);
                mapped += u64::from(due.is_ok());
                none += u64::from(due == Err(Refusal::plain(NO_MAP)));
            }
        }
    }
    assert!(mapped > times(300) && none > times(300), "{mapped} {none}");
}

#[test]
fn empty_node_needs_no_buffer() {
    assert_eq!(map_node(&cases::file(cases::e()), 7, &mut []), Ok(0));
    assert_eq!(Session::open(1).unwrap().map(&mut []), Ok(0));
}

/// A good entry.
pub const GOOD: Entry = Entry::task(1, 1, 900, 900);
const BAD_TICKS: Entry = Entry::task(1, 6, 9, 5);
const BAD_KIND: Entry = Entry { kind: 3, ..GOOD };
const BAD_BOTH: Entry = Entry {
    kind: 3,
    ..BAD_TICKS
};
const BAD_JITTER: Entry = GOOD.jittered(900);
const LATEST: Entry = GOOD.jittered(899);
/// Entries that meet none of 7, 8 and 14, one of them, two, and all.
pub const ENTRIES: [Entry; 9] = [
    GOOD,
    LATEST,
    BAD_JITTER,
    BAD_TICKS,
    BAD_TICKS.jittered(u32::MAX as u64),
    BAD_KIND,
    BAD_KIND.jittered(900),
    BAD_BOTH,
    BAD_BOTH.jittered(1),
];

/// Good entries, each with its position as number.
fn held(count: usize) -> Vec<Entry> {
    let at = |position| Entry {
        number: position as u16,
        ..GOOD
    };
    (0..count).map(at).collect()
}

/// A session with `count` good entries.
fn session_of(count: usize) -> Session {
    let mut session = Session::open(2).unwrap();
    for (position, entry) in held(count).into_iter().enumerate() {
        session.insert(position, entry).unwrap();
    }
    session
}

/// Entries for a session of `count` with every number that it holds, and with one
/// that it does not.
fn numbered(count: usize) -> impl Iterator<Item = Entry> {
    let numbers = (0..=count as u16).chain([u16::MAX]);
    numbers.flat_map(|number| ENTRIES.map(|entry| Entry { number, ..entry }))
}

/// The expected refusal of an entry at this position of a session, or of its
/// number if that `repeats`.
fn of_entry(entry: Entry, position: usize, repeats: bool) -> Option<Refusal> {
    let number = match (entry.kind, entry.c, entry.j) {
        (3, ..) => KIND,
        (_, 6, _) => TICKS,
        (_, _, 900) => JITTER,
        _ if repeats => REPEAT,
        _ => return None,
    };
    Some(Refusal::at_entry(number, 0, position))
}

#[test]
fn insert_checks_12_13_7_8_14_16() {
    let mut met = 0;
    for count in [0, 1, 63, 64] {
        for position in [0, count / 2, count, count + 1, 64, 65, usize::MAX] {
            for entry in numbered(count) {
                let mut session = session_of(count);
                let repeats = usize::from(entry.number) < count;
                let due = if position > count {
                    Some(Refusal::plain(POSITION))
                } else if count == 64 {
                    Some(Refusal::plain(FULL))
                } else {
                    of_entry(entry, position, repeats)
                };
                assert_eq!(session.insert(position, entry).err(), due);
                let unchanged = session == session_of(count);
                assert_eq!(unchanged, due.is_some());
                met += usize::from(due.is_some_and(|refusal| refusal.number == REPEAT));
            }
        }
    }
    // Two good entries with every number, at three places.
    assert_eq!(met, 6 * (1 + 63));
}

#[test]
fn replace_checks_12_7_8_14_16() {
    let mut met = 0;
    for count in [0, 1, 64] {
        for position in [0, count / 2, count, count + 1, 64, usize::MAX] {
            for entry in numbered(count) {
                let mut session = session_of(count);
                let number = usize::from(entry.number);
                let due = if position >= count {
                    Some(Refusal::plain(POSITION))
                } else {
                    of_entry(entry, position, number < count && number != position)
                };
                assert_eq!(session.replace(position, entry).err(), due);
                let mut kept = held(count);
                if due.is_none() {
                    kept[position] = entry;
                }
                assert_eq!(session.entries(), kept);
                met += usize::from(due.is_some_and(|refusal| refusal.number == REPEAT));
            }
        }
    }
    // Two good entries with every number but its own, at two places.
    assert_eq!(met, 4 * 63);
}

#[test]
fn timing_checks_12() {
    let session = session_of(4);
    for first in 0..6 {
        for last in 0..6 {
            for entry in 0..6 {
                let inside = first <= entry && entry <= last && last < 4;
                let answer = session.time(first, last, entry);
                assert_eq!(answer.is_ok(), inside);
                assert!(inside || answer == Err(Refusal::plain(POSITION)));
            }
        }
    }
    let far = session.time(0, usize::MAX, 0);
    assert_eq!(far, Err(Refusal::plain(POSITION)));
}

#[test]
fn levels_are_checked_by_4() {
    for levels in [0, 65, 255, 256, 257, usize::MAX] {
        let mut session = session_of(2);
        let due = Err(Refusal::at_row(4, 0));
        assert_eq!(Session::open(levels).map(|_| ()), due);
        assert_eq!(session.set_levels(levels), due);
        assert_eq!(session, session_of(2));
    }
    for levels in 1..=64 {
        let mut session = session_of(2);
        assert_eq!(session.set_levels(levels), Ok(()));
        assert_eq!(usize::from(session.levels()), levels);
    }
}

#[test]
fn session_map_checks_10_then_11() {
    let mut session = Session::open(1).unwrap();
    for (position, entry) in cases::f().entries.into_iter().enumerate() {
        session.insert(position, entry).unwrap();
    }
    for (room, due) in [(0, BUFFER), (2, BUFFER), (3, NO_MAP), (4, NO_MAP)] {
        let mut buffer = known(room);
        assert_eq!(session.map(&mut buffer), Err(Refusal::plain(due)));
        assert_eq!(buffer, known(room));
    }
}
