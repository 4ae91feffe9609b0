//! What a session stores, in the second implementation: the store in lent memory
//! against the map and the times worked out from the list.

use oracle::cases;
use oracle::gen::blocks::blocks;
use oracle::gen::buffers::known;
use oracle::gen::lent::{damaged, forged, sound};
use oracle::gen::ops::{next_op, Course};
use oracle::lent::{
    apply, is_right, session_in, store_of, words_of, words_with, Store, Words, NO_STORE,
    SESSION_WORDS, STORE_AT,
};
use oracle::map::map_entries;
use oracle::model::{Entry, Node};
use oracle::options::{rng, times};
use oracle::refusal::{Refusal, BUFFER, NO_MAP, POSITION};
use oracle::rng::Rng;
use oracle::session::{Op, Reply, Session};
use oracle::tally::Tally;

/// The node built from an opened session, entry by entry.
pub fn built(node: &Node) -> Words {
    let mut words = [u32::MAX; SESSION_WORDS];
    let mut step = |op: Op| assert_eq!(apply(&mut words, &op, &mut []), Ok(Reply::Changed));
    step(Op::Open(usize::from(node.levels)));
    for (at, entry) in node.entries.iter().enumerate() {
        step(Op::Insert(at, *entry));
    }
    words
}

/// The cases of docs/SPEC.md, with the levels and the times that are stored, or
/// nothing if there is no map.
pub fn worked() -> Vec<(&'static str, Node, &'static [u32], &'static [u32])> {
    vec![
        ("P", cases::p(), &[1, 2, 2], &[20, 138, 138]),
        ("Q", cases::q(), &[1, 2, 2], &[20, 138, 138]),
        ("R", cases::r(), &[], &[]),
        // P, which needs two levels, with one.
        ("F", cases::f(), &[], &[]),
        ("H", cases::h(), &[1, 1, 1], &[5, 5, 8]),
        ("S", cases::s(), &[], &[]),
        ("U", cases::u(), &[1, 1, 2], &[60, 60, 148]),
        ("V", cases::v(), &[1, 1], &[5, 16]),
        ("E", cases::e(), &[], &[]),
    ]
}

/// The store that a case must have.
pub fn stored(node: &Node, levels: &[u32], times: &[u32]) -> Store {
    if levels.is_empty() && !node.entries.is_empty() {
        return NO_STORE;
    }
    let mut store = Store {
        mapped: 1,
        used: levels.last().copied().unwrap_or(0),
        ..NO_STORE
    };
    store.map[..levels.len()].copy_from_slice(levels);
    store.times[..times.len()].copy_from_slice(times);
    store
}

#[test]
fn worked_cases() {
    for (name, node, levels, times) in worked() {
        let words = built(&node);
        let due = stored(&node, levels, times);
        assert_eq!(Store::within(&words), due, "{name}");
        assert!(is_right(&words), "{name}");
        let session = session_in(&words).expect("it was built");
        assert_eq!(words, words_of(&session), "{name}");
    }
}

/// None is not the map of an empty node: both have no level, and only one has a
/// map.
#[test]
fn none_is_not_an_empty_map() {
    let (mut empty, mut none) = (built(&cases::e()), built(&cases::s()));
    assert_eq!(empty[STORE_AT], 1);
    assert_eq!(none[STORE_AT..], [0; SESSION_WORDS - STORE_AT]);
    let map = |words: &mut Words| apply(words, &Op::Map, &mut [0; 3]);
    assert_eq!(map(&mut empty), Ok(Reply::Mapped(0)));
    assert_eq!(map(&mut none), Err(Refusal::plain(NO_MAP)));
    let zeroed = words_with(&Session::open(3).unwrap(), &NO_STORE);
    assert_eq!(map(&mut zeroed.clone()), Err(Refusal::plain(NO_MAP)));
    assert!(!is_right(&zeroed));
}

/// On any number of levels the map and the store are those on 64 if the map uses
/// few enough, and there is none otherwise.
#[test]
fn fewer_levels() {
    let mut rng = rng(600);
    let (mut maps, mut too_few, mut none) = (0, 0, 0);
    for round in 0..times(400) {
        let count = match round % 8 {
            0 => rng.count(13, 40),
            _ => rng.count(3, 8),
        };
        let entries = match round % 2 {
            0 => blocks(&mut rng, count, count / 3),
            _ => listed(&sound(&mut rng, count)),
        };
        let (on_all, store) = (map_entries(&entries, 64), Store::of(&entries, 64));
        for levels in (1..=6).chain([count as u8, 64]) {
            let due = on_all.clone().filter(|map| map.used <= levels);
            assert_eq!(map_entries(&entries, levels), due, "{entries:?}");
            let due_store = due.as_ref().map_or(NO_STORE, |_| store);
            assert_eq!(Store::of(&entries, levels), due_store, "{entries:?}");
            match (&due, &on_all) {
                (Some(_), _) => maps += 1,
                (None, Some(_)) => too_few += 1,
                (None, None) => none += 1,
            }
        }
    }
    let met = [maps, too_few, none];
    assert!(met.iter().all(|&met| met > times(150)), "{met:?}");
}

/// Asks for the map and every time, twice, and compares with the list.
fn assert_afresh(tally: &mut Tally, words: &mut Words) {
    let (before, session) = (*words, session_in(words).expect("it is held"));
    let count = session.entries().len();
    for _ in 0..2 {
        for room in [count, count + 3, count.max(1) - 1] {
            let (mut stored, mut afresh) = (known(room), known(room));
            let answer = apply(words, &Op::Map, &mut stored);
            assert_eq!(answer, session.map(&mut afresh).map(Reply::Mapped));
            assert_eq!(stored, afresh);
        }
        for i in 0..=count {
            let answer = apply(words, &Op::MapTime(i), &mut []);
            tally.map_time(&answer);
            assert_eq!(answer, session.map_time(i).map(Reply::MapTime));
        }
    }
    assert_eq!(*words, before);
}

/// From opening on, after each operation, refused or not.
#[test]
fn rows_of_operations() {
    let (mut rng, mut tally) = (rng(601), Tally::default());
    for _ in 0..times(60) {
        let mut words = [rng.word() as u32; SESSION_WORDS];
        apply(&mut words, &Op::Open(rng.count(1, 4)), &mut []).expect("a level count");
        for _ in 0..30 {
            let held = session_in(&words).expect("it is open");
            if held.entries().len() > 7 {
                apply(&mut words, &Op::Remove(0), &mut []).expect("it is there");
                continue;
            }
            let op = next_op(&mut rng, &held, Course::Short);
            let before = words;
            if tally.note(apply(&mut words, &op, &mut [0; 64])).is_err() {
                assert_eq!(words, before, "{op:?}");
            }
            assert_afresh(&mut tally, &mut words);
        }
    }
    for number in [4, 7, 8, 11, 12, 14, 16] {
        assert!(tally.met(number) > times(5), "{number}: {tally}");
    }
    tally.assert_map_times(times(2_000), times(500), times(1_000));
}

/// What setting the level count does to a store.
#[derive(Clone, Copy, Debug, PartialEq, Eq)]
pub enum Setting {
    Keeps,
    Clears,
    WorksOut,
}

impl Setting {
    /// By the first two words of the store, the old count and the new one.
    pub fn of(store: &Store, before: usize, levels: usize) -> Setting {
        match (store.mapped, store.used as usize) {
            (1, used) if used <= levels => Setting::Keeps,
            _ if levels <= before => Setting::Clears,
            _ => Setting::WorksOut,
        }
    }

    /// The store that it leaves, of these entries on the new count.
    pub fn due(self, lent: Store, entries: &[Entry], levels: usize) -> Store {
        match self {
            Setting::Keeps => lent,
            Setting::Clears => NO_STORE,
            Setting::WorksOut => Store::of(entries, levels as u8),
        }
    }
}

/// Telling level counts for a session: one less than it has, as many, and one
/// more, the same of what its store says that the map uses, and both ends.
pub fn telling_counts(words: &Words) -> Vec<usize> {
    let (before, used) = (words[0] as usize, Store::within(words).used as usize);
    let near = |count: usize| [count.wrapping_sub(1), count, count + 1];
    let mut counts = [near(before), near(used), [1, 63, 64]].concat();
    counts.retain(|levels| (1..=64).contains(levels));
    counts.sort();
    counts.dedup();
    counts
}

/// A change other than setting the level count leaves the right store, whatever
/// was lent.
#[test]
fn forged_stores_end_with_a_change() {
    let (mut rng, mut changed) = (rng(602), 0);
    for_forged(&mut rng, 3_000, |rng, held, words| {
        let op = next_op(rng, held, Course::Short);
        let lent = Store::within(words);
        let answer = apply(words, &op, &mut [0; 64]);
        match (op, answer) {
            (Op::SetLevels(_), Ok(_)) => {}
            (_, Ok(Reply::Changed)) => {
                assert!(is_right(words));
                changed += 1;
            }
            _ => assert_eq!(Store::within(words), lent),
        }
    });
    assert!(changed > times(150), "{changed}");
}

/// Setting the level count keeps any store that says it has a map on the new
/// count, word for word. Another one it clears, or on more levels works out
/// afresh.
#[test]
fn forged_stores_on_other_level_counts() {
    let (mut rng, mut met) = (rng(603), [0; 3]);
    for_forged(&mut rng, 1_000, |_, held, lent| {
        let (store, before) = (Store::within(lent), lent[0] as usize);
        for levels in telling_counts(lent) {
            let mut words = *lent;
            let answer = apply(&mut words, &Op::SetLevels(levels), &mut []);
            assert_eq!(answer, Ok(Reply::Changed));
            let setting = Setting::of(&store, before, levels);
            let due = setting.due(store, held.entries(), levels);
            let session = Session::holding(levels, held.entries()).expect("a good node");
            assert_eq!(words, words_with(&session, &due), "{levels}: {lent:?}");
            met[setting as usize] += 1;
        }
    });
    let least = [1_200, 900, 800].map(times);
    assert!(
        met.iter().zip(least).all(|(met, least)| *met > least),
        "{met:?}"
    );
}

/// Calls `work` on sessions with forged stores, and on the words that hold them.
fn for_forged(rng: &mut Rng, rounds: u64, mut work: impl FnMut(&mut Rng, &Session, &mut Words)) {
    for _ in 0..times(rounds) {
        let mut words = match rng.chance(1, 2) {
            true => sound(rng, 4),
            false => damaged(rng),
        };
        forged(rng, &words).put(&mut words);
        if let Ok(held) = session_in(&words) {
            work(rng, &held, &mut words);
        }
    }
}

/// From any level count to any other, up and down, the words are those of a
/// session that is opened with that count and gets the same entries.
#[test]
fn set_up_and_down() {
    let (mut rng, mut met) = (rng(604), [0; 4]);
    for round in 0..times(60) {
        let count = rng.count(6, 9);
        let entries = match round % 3 {
            0 => listed(&sound(&mut rng, count)),
            _ => blocks(&mut rng, count, count / 3),
        };
        let node = |levels| Node {
            number: 7,
            levels,
            entries: entries.clone(),
        };
        let mut words = built(&node(rng.range(1, 4) as u8));
        for _ in 0..20 {
            let any = rng.count(1, 64);
            let (levels, had) = (rng.pick(&[1, 2, 3, 4, any]), words[STORE_AT]);
            let answer = apply(&mut words, &Op::SetLevels(levels), &mut []);
            assert_eq!(answer, Ok(Reply::Changed));
            assert_eq!(words, built(&node(levels as u8)));
            met[(2 * had + words[STORE_AT]) as usize] += 1;
        }
    }
    // None before and after, regained, lost, and one before and after.
    let least = [100, 50, 50, 300].map(times);
    assert!(
        met.iter().zip(least).all(|(met, least)| *met > least),
        "{met:?}"
    );
}

/// The entries of a session in these words.
pub fn listed(words: &Words) -> Vec<Entry> {
    let held = session_in(words).expect("it is sound");
    held.entries().to_vec()
}

/// What asking gives for each kind of forged store.
#[test]
fn forged_stores_answer_what_they_say() {
    let session = Session::holding(2, &cases::p().entries).unwrap();
    let right = store_of(session.entries(), 2);
    let ask = |store: &Store, op: Op, room: usize| {
        let (mut words, mut buffer) = (words_with(&session, store), known(room));
        let before = words;
        let answer = apply(&mut words, &op, &mut buffer);
        assert_eq!(words, before);
        (answer, buffer)
    };
    let none = Err(Refusal::plain(NO_MAP));
    for mapped in [0, 2, 256, 257, 1 << 16 | 1, u32::MAX] {
        let store = Store { mapped, ..right };
        assert_eq!(ask(&store, Op::Map, 3), (none, known(3)));
        assert_eq!(ask(&store, Op::Map, 2).0, Err(Refusal::plain(BUFFER)));
        assert_eq!(ask(&store, Op::MapTime(0), 0).0, none);
        assert_eq!(
            ask(&store, Op::MapTime(3), 0).0,
            Err(Refusal::plain(POSITION))
        );
    }
    for used in [3, 64, 256, 258, 1 << 16 | 2, u32::MAX] {
        let store = Store { used, ..right };
        assert_eq!(ask(&store, Op::Map, 3), (none, known(3)));
        assert_eq!(ask(&store, Op::MapTime(2), 0).0, none);
    }
    for used in [0, 1, 2] {
        let mut store = Store { used, ..right };
        store.map[..3].copy_from_slice(&[0, 256 + 7, u32::MAX]);
        store.times[1] = u32::MAX;
        let mapped = Ok(Reply::Mapped(used as u8));
        assert_eq!(ask(&store, Op::Map, 3), (mapped, vec![0, 7, 255]));
        let time = Ok(Reply::MapTime(u64::from(u32::MAX)));
        assert_eq!(ask(&store, Op::MapTime(1), 0).0, time);
    }
}
