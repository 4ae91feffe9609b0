//! What the proved library's sessions store: after each operation, refused or
//! not, the map and every entry's time under it are asked for twice, and compared
//! with the second implementation, which works them out from its list.

use crate::calls::GOOD;
use crate::say;
use crate::store::{listed, stored, telling_counts, worked, Setting};
use oracle::cases;
use oracle::compare::session::Both;
use oracle::ffi::session::Session as Proved;
use oracle::ffi::{self, Values};
use oracle::gen::blocks::{blocks, hurry_one};
use oracle::gen::buffers::known;
use oracle::gen::lent::{damaged, forged, sound};
use oracle::gen::numbers::from_one;
use oracle::gen::odd::{many_rounds, FAMILIES, JUST_LATE};
use oracle::gen::ops::{levels, next_op, Course};
use oracle::gen::sessions::{Family, LIMITS, LONG, MANY, NEAR_ONE, STATION, TIGHT, WIDE};
use oracle::lent::{
    is_right, session_in, store_of, words_of, words_with, Store, Words, NO_STORE, SESSION_WORDS,
};
use oracle::model::{Entry, MAX_ENTRIES, MAX_TICKS};
use oracle::options::{rng, times};
use oracle::refusal::{Refusal, BUFFER, NO_MAP, POSITION, ROW};
use oracle::rng::Rng;
use oracle::session::{Op, Reply, Session};
use oracle::tally::Tally;
use oracle::tuned;
use oracle::words::{entry_words, ENTRY_WORDS};
use std::sync::mpsc::channel;
use std::thread;
use std::time::{Duration, Instant};

/// Counts of what a run of operations reaches.
#[derive(Debug, Default)]
struct Met {
    tally: Tally,
    /// A change that took the map away, and one that gave one.
    lost: u64,
    regained: u64,
    /// The same by setting the level count.
    lost_by_levels: u64,
    regained_by_levels: u64,
    /// Refused operations between, and those in a session without a map.
    refused: u64,
    refused_without: u64,
    /// Changes that gave another map, and those that gave only other times.
    other_map: u64,
    other_times: u64,
}

impl Met {
    /// Makes one operation and asks for everything twice. `had` says whether the
    /// session had a map, and is left as it is then.
    fn step(&mut self, both: &mut Both, op: &Op, had: &mut bool) {
        let before = *both.words();
        let answer = both.step(&mut self.tally, op, MAX_ENTRIES);
        if answer.is_err() {
            assert_eq!(*both.words(), before, "{op:?}");
            self.refused += 1;
            self.refused_without += u64::from(!*had);
        }
        assert!(is_right(both.words()), "{op:?} on {before:?}");
        let has = both.ask(&mut self.tally);
        let (was, is) = (Store::within(&before), Store::within(both.words()));
        match (op, *had, has) {
            (Op::SetLevels(_), true, false) => self.lost_by_levels += 1,
            (Op::SetLevels(_), false, true) => self.regained_by_levels += 1,
            (_, true, false) => self.lost += 1,
            (_, false, true) => self.regained += 1,
            (_, true, true) if was.map != is.map => self.other_map += 1,
            (_, true, true) if was.times != is.times => self.other_times += 1,
            _ => {}
        }
        *had = has;
    }

    /// Asserts that at least so many changes took the map away and gave one, by
    /// a change and by a level count, gave another map, and gave only other times,
    /// and that at least so many operations were refused, with and without a map.
    fn assert_least(&self, name: &str, least: [u64; 8]) {
        let met = [
            self.lost,
            self.regained,
            self.lost_by_levels,
            self.regained_by_levels,
            self.other_map,
            self.other_times,
            self.refused - self.refused_without,
            self.refused_without,
        ];
        say(format!("stores, {name}: {met:?}; {}", self.tally));
        let mut both = met.iter().zip(least);
        assert!(both.all(|(met, least)| *met >= times(least)), "{met:?}");
    }
}

/// From opening on, over memory that held anything.
#[test]
fn rows_of_operations() {
    let (mut rng, mut met) = (rng(610), Met::default());
    for _ in 0..times(160) {
        let mut both = Both::of(&[rng.word() as u32; SESSION_WORDS]);
        while both.session().is_err() {
            let opening = Op::Open(levels(&mut rng).min(70));
            let _ = both.step(&mut met.tally, &opening, 0);
        }
        let mut had = both.ask(&mut met.tally);
        assert!(had, "an empty node has a map");
        for _ in 0..40 {
            let held = both.session().expect("it was opened");
            let op = match (rng.below(4), held.entries().len()) {
                (_, 9..) => Op::Remove(rng.index(9)),
                (0, _) => Op::SetLevels(rng.count(1, 3)),
                _ => next_op(&mut rng, &held, Course::Short),
            };
            met.step(&mut both, &op, &mut had);
        }
    }
    met.assert_least("rows of operations", [60, 40, 6, 6, 500, 60, 1_200, 200]);
    for number in [4, 7, 8, 10, 11, 12, 14, 16] {
        assert!(met.tally.met(number) > times(15), "{number}: {met:?}");
    }
    let tally = &met.tally;
    tally.assert_map_times(times(8_000), times(3_000), times(40_000));
}

/// Sessions that hold nodes of plans, with changes as a user makes them, and a
/// refused one after each.
fn family(met: &mut Met, rng: &mut Rng, family: &Family, changes: u64) {
    let mut both = Both::of(&words_of(&family.session(rng)));
    let mut had = both.ask(&mut met.tally);
    for _ in 0..changes {
        let mut held = both.session().expect("it is held");
        let op = family.change(rng, &held);
        held.apply(&op, &mut []).expect("the change is good");
        let fits = family.fits(held.entries());
        met.tally.node(fits);
        if !fits {
            continue;
        }
        met.step(&mut both, &op, &mut had);
        let count = held.entries().len();
        let refused = match rng.below(4) {
            0 => Op::Remove(count),
            1 => Op::SetLevels(rng.pick(&[0, 65])),
            2 => Op::Replace(0, Entry { c: 0, ..GOOD }),
            _ => Op::Insert(count + 1, GOOD),
        };
        let before = met.refused;
        met.step(&mut both, &refused, &mut had);
        assert_eq!(met.refused, before + 1);
    }
}

#[test]
fn nodes_of_plans() {
    let (mut rng, mut met) = (rng(611), Met::default());
    for _ in 0..times(60) {
        for of in [WIDE, TIGHT, STATION, LONG, LIMITS, NEAR_ONE] {
            family(&mut met, &mut rng, &of, 6);
        }
    }
    met.assert_least("nodes of plans", [40, 20, 10, 10, 50, 25, 200, 500]);
    met.tally.assert_maps(times(1_000), times(1_000));
    met.tally.assert_few_left_out(6);
}

#[test]
fn nodes_of_many_entries() {
    let (mut rng, mut met) = (rng(612), Met::default());
    for _ in 0..times(30) {
        family(&mut met, &mut rng, &MANY, 6);
    }
    met.assert_least("13 to 64 entries", [2, 0, 1, 1, 4, 0, 10, 60]);
    let tally = &met.tally;
    tally.assert_maps(times(100), times(300));
    tally.assert_map_times(times(2_000), times(4_000), times(1_000));
}

/// Operations on a full session with these entries, whose map uses `used` levels:
/// it loses the map by a level count and by a change, and regains it, and refused
/// operations come between.
fn lose_and_regain(rng: &mut Rng, good: &[Entry], used: usize) -> Vec<Op> {
    let mut late = good.to_vec();
    hurry_one(rng, &mut late);
    let at = (0..64).find(|&at| late[at] != good[at]).expect("one");
    // With any blocking it cannot end by its own run.
    let hurried = Entry {
        d: good[63].c,
        j: 0,
        b: 1,
        ..good[63]
    };
    vec![
        Op::Insert(64, GOOD),
        Op::SetLevels(used - 1),
        Op::Insert(64, GOOD),
        Op::Remove(64),
        Op::SetLevels(64),
        Op::Replace(63, hurried),
        Op::SetLevels(65),
        Op::Replace(64, GOOD),
        Op::SetLevels(used),
        Op::Replace(63, good[63]),
        Op::Replace(at, late[at]),
        Op::Replace(at, good[at]),
        Op::Remove(at),
        Op::Insert(at, good[at]),
    ]
}

#[test]
fn lost_and_regained_at_64() {
    let (mut rng, mut met) = (rng(613), Met::default());
    for _ in 0..times(8) {
        let parts = rng.count(2, 6);
        let good = blocks(&mut rng, 64, parts);
        let used = store_of(&good, 64).used as usize;
        let held = Session::holding(used, &good).expect("a good node");
        let mut both = Both::of(&words_of(&held));
        let mut had = both.ask(&mut met.tally);
        assert!(had && used > 1, "{good:?}");
        for op in lose_and_regain(&mut rng, &good, used) {
            met.step(&mut both, &op, &mut had);
        }
        assert_eq!(*both.words(), words_of(&held));
        assert!(had);
    }
    met.assert_least("64 entries", [8, 8, 8, 8, 8, 0, 8, 32]);
}

/// Level counts of a session, down, up and in leaps: the map goes and comes back,
/// and the words are those of the node on each count.
#[test]
fn every_level_count() {
    let (mut rng, mut met) = (rng(614), Met::default());
    for round in 0..times(12) {
        let entries = match round % 3 {
            0 => blocks(&mut rng, 64, 5),
            1 => from_one(vec![GOOD; 64]),
            _ => listed(&sound(&mut rng, 8)),
        };
        let on = |levels| Session::holding(levels, &entries).expect("good entries");
        let mut both = Both::of(&words_of(&on(64)));
        let (all, mut had) = (Store::within(both.words()), both.ask(&mut met.tally));
        let down = (1..=12).chain([63, 64]).rev();
        for levels in down.chain(1..=12).chain([64, 1, 64, 2, 63, 2]) {
            met.step(&mut both, &Op::SetLevels(levels), &mut had);
            let due = Store::of(&entries, levels as u8);
            assert_eq!(*both.words(), words_with(&on(levels), &due));
            assert_eq!(due, if had { all } else { NO_STORE });
            assert_eq!(had, all.has_map(levels as u8));
        }
    }
    met.assert_least("every level count", [0, 0, 16, 12, 0, 0, 0, 0]);
}

/// A session of the library that was opened and got these entries.
fn opened(levels: u8, entries: &[Entry]) -> Proved {
    let mut session = Proved::of(&[7; SESSION_WORDS]);
    session.open(levels).expect("a level count");
    for (at, entry) in entries.iter().enumerate() {
        let inserted = session.insert(at, &entry_words(entry));
        inserted.expect("a good entry");
    }
    session
}

/// From any level count to any other, up and down, the words are those of a
/// session that is opened with that count and gets the same entries.
#[test]
fn set_up_and_down() {
    let (mut rng, mut met) = (rng(616), [0; 4]);
    for round in 0..times(60) {
        let count = rng.count(3, 64);
        let entries = match round % 4 {
            0 | 1 => blocks(&mut rng, count, (count / 3).min(9)),
            2 => STATION.node(&mut rng).entries,
            _ => listed(&sound(&mut rng, count)),
        };
        let mut session = opened(rng.range(1, 64) as u8, &entries);
        for _ in 0..24 {
            let (near, any) = (rng.count(1, 10) as u8, rng.count(1, 64) as u8);
            let (levels, had) = (rng.pick(&[1, near, near, any]), session.mapped);
            assert_eq!(session.set_levels(levels), Ok(()));
            assert_eq!(session, opened(levels, &entries));
            met[(2 * had + session.mapped) as usize] += 1;
        }
    }
    say(format!(
        "none before and after, regained, lost, kept: {met:?}"
    ));
    let least = [350, 150, 150, 250].map(times);
    let mut both = met.iter().zip(least);
    assert!(both.all(|(met, least)| *met > least), "{met:?}");
}

/// The cases built by inserts: the maps and the stored times.
#[test]
fn worked_figures() {
    for (name, node, levels, times) in worked() {
        let session = opened(node.levels, &node.entries);
        assert_eq!(session.store(), stored(&node, levels, times), "{name}");
        let (mut map, mut from_file) = (known(5), known(5));
        let answer = session.map(&mut map);
        let file = ffi::map(&cases::file(node.clone()), 7, &mut from_file);
        assert_eq!((answer, &map), (file, &from_file), "{name}");
        if levels.is_empty() && !node.entries.is_empty() {
            assert_eq!(answer, Err(Refusal::plain(NO_MAP)), "{name}");
            assert_eq!(session.map_time(0), Err(Refusal::plain(NO_MAP)), "{name}");
        } else {
            assert_eq!(answer, Ok(session.used as usize), "{name}");
            for (i, time) in times.iter().enumerate() {
                assert_eq!(session.map_time(i), Ok(u64::from(*time)), "{name}");
            }
        }
        let outside = session.map_time(node.entries.len());
        assert_eq!(outside, Err(Refusal::plain(POSITION)), "{name}");
    }
}

/// Case P, whose map needs two levels, on other level counts: with its right
/// store, with one that has a map but wrong times, and with one that has none.
#[test]
fn worked_level_counts() {
    let right = stored(&cases::p(), &[1, 2, 2], &[20, 138, 138]);
    let mut session = opened(2, &cases::p().entries);
    for levels in [3, 2, 1, 1, 2, 1, 64, 2] {
        assert_eq!(session.set_levels(levels), Ok(()));
        let due = if levels == 1 { NO_STORE } else { right };
        assert_eq!((session.levels, session.store()), (levels.into(), due));
    }
    let times = [7; MAX_ENTRIES];
    let has = Store { times, ..right };
    let none = Store { mapped: 0, ..has };
    for (before, levels, lent, due) in [
        (2, 2, has, has),
        (3, 2, has, has),
        (1, 2, has, has),
        (3, 1, has, NO_STORE),
        (1, 1, has, NO_STORE),
        (2, 2, none, NO_STORE),
        (64, 2, none, NO_STORE),
        (1, 1, none, NO_STORE),
        (1, 2, none, right),
        (2, 64, none, right),
    ] {
        let held = Session::holding(before, &cases::p().entries).expect("a good node");
        let mut session = Proved::of(&words_with(&held, &lent));
        assert_eq!(session.set_levels(levels), Ok(()));
        let left = (session.levels, session.store());
        assert_eq!(left, (levels.into(), due), "{before} to {levels}: {lent:?}");
    }
}

/// Before it is opened, and right after.
#[test]
fn blank_sessions() {
    let due = Err(Refusal::at_row(ROW, 0));
    let blank = Proved::of(&[0; SESSION_WORDS]);
    for room in [0, 1, 64] {
        let mut levels = known(room);
        assert_eq!(blank.map(&mut levels), due.map(|()| 0));
        assert_eq!(levels, known(room));
    }
    for i in [0, 1, 63, 64, usize::MAX] {
        assert_eq!(blank.map_time(i), due.map(|()| 0));
    }
    assert_eq!(blank, Proved::of(&[0; SESSION_WORDS]));
    for levels in [1, 64] {
        let mut session = Proved::of(&[u32::MAX; SESSION_WORDS]);
        session.open(levels).expect("a level count");
        let due = Session::open(usize::from(levels)).expect("a level count");
        assert_eq!(session.memory(), words_of(&due));
        assert_eq!((session.mapped, session.used), (1, 0));
        assert_eq!(session.map(&mut []), Ok(0));
        // An entry count of 0 and a store of zeros: no map.
        let none = Proved::of(&words_with(&due, &NO_STORE));
        assert_eq!(none.map(&mut []), Err(Refusal::plain(NO_MAP)));
        assert_eq!(none.map_time(0), Err(Refusal::plain(POSITION)));
    }
}

/// Counts of sessions with forged stores.
#[derive(Debug, Default)]
struct Forged {
    tally: Tally,
    wrong: u64,
    ended: u64,
    refused: u64,
    /// Level counts set, by what that does, and those that found a map.
    set: [u64; 3],
    found: u64,
}

impl Forged {
    /// Asks the session, makes an operation, and asks again.
    fn compare(&mut self, rng: &mut Rng, words: &Words) {
        let mut both = Both::of(words);
        both.ask(&mut self.tally);
        let Ok(held) = session_in(words) else {
            self.refuse_levels(words, &[1, words[0] as usize, 64, 65]);
            return;
        };
        self.refuse_levels(words, &[0, 65, 255]);
        self.wrong += u64::from(!is_right(words));
        let op = next_op(rng, &held, Course::Short);
        let answer = both.step(&mut self.tally, &op, MAX_ENTRIES);
        match (op, answer) {
            (Op::SetLevels(_), Ok(_)) => {}
            (_, Ok(Reply::Changed)) => {
                assert!(is_right(both.words()));
                self.ended += 1;
            }
            (_, Err(_)) => {
                assert_eq!(both.words(), words);
                self.refused += 1;
            }
            _ => {}
        }
        both.ask(&mut self.tally);
        self.set_levels(words, &held);
    }

    /// Sets level counts that are refused as 4, or in memory that is no session, as
    /// that is. The memory stays as it is.
    fn refuse_levels(&mut self, words: &Words, counts: &[usize]) {
        let due = session_in(words).err().unwrap_or(Refusal::at_row(ROW, 0));
        for levels in counts {
            let mut both = Both::of(words);
            let answer = both.step(&mut self.tally, &Op::SetLevels(*levels), 0);
            assert_eq!(answer, Err(due), "{levels}: {words:?}");
            assert_eq!(both.words(), words);
        }
    }

    /// Sets telling level counts, each on the memory as it was lent.
    fn set_levels(&mut self, words: &Words, held: &Session) {
        let (lent, before) = (Store::within(words), held.levels().into());
        for levels in telling_counts(words) {
            let mut both = Both::of(words);
            let answer = both.step(&mut self.tally, &Op::SetLevels(levels), 0);
            assert_eq!(answer, Ok(Reply::Changed));
            let setting = Setting::of(&lent, before, levels);
            let due = setting.due(lent, held.entries(), levels);
            assert_eq!(Store::within(both.words()), due, "{levels}: {words:?}");
            self.set[setting as usize] += 1;
            self.found += u64::from(setting == Setting::WorksOut && due.mapped == 1);
            both.ask(&mut self.tally);
        }
    }

    /// Asserts that setting the level count kept at least so many stores, cleared
    /// them, worked them out afresh, and found a map when it did.
    fn assert_set(&self, name: &str, least: [u64; 4]) {
        let [kept, cleared, worked_out] = self.set;
        let set = [kept, cleared, worked_out, self.found];
        say(format!("level counts set, {name}: {set:?}"));
        let mut both = set.iter().zip(least);
        assert!(both.all(|(met, least)| *met > least), "{set:?}");
    }
}

/// Memory with any store: asking gives what it says, a change of the list ends
/// it, a refused one keeps it, and setting the level count keeps, clears or ends
/// it.
#[test]
fn forged_stores() {
    let (mut rng, mut met) = (rng(615), Forged::default());
    for round in 0..times(2_500) {
        let mut words = match round % 3 {
            0 => damaged(&mut rng),
            1 => sound(&mut rng, 4),
            _ if round % 60 == 2 => sound(&mut rng, 64),
            _ => sound(&mut rng, 7),
        };
        forged(&mut rng, &words).put(&mut words);
        met.compare(&mut rng, &words);
    }
    let Forged { tally, .. } = &met;
    let counts = [met.wrong, met.ended, met.refused];
    say(format!("forged stores: {counts:?}; {tally}"));
    let mut both = counts.iter().zip([1_500, 350, 700]);
    assert!(both.all(|(met, least)| *met > times(least)), "{counts:?}");
    tally.assert_map_times(times(60_000), times(70_000), times(100_000));
    met.assert_set("forged", [3_500, 2_500, 2_500, 600].map(times));
}

/// Stores with one word at either end of what it may say, or of what it holds.
fn forgeries(right: Store) -> Vec<Store> {
    let other = store_of(&cases::h().entries, 64);
    let mut stores = vec![right, NO_STORE, store_of(&[], 64), other];
    for mapped in [0, 2, 3, 255, 256, 257, 1 << 16 | 1, 1 << 31 | 1, u32::MAX] {
        stores.push(Store { mapped, ..right });
    }
    for used in [
        0,
        1,
        2,
        3,
        63,
        64,
        65,
        255,
        256,
        257,
        1 << 16 | 1,
        1 << 31,
        u32::MAX,
    ] {
        stores.push(Store { used, ..right });
    }
    for word in [0, 1, 255, 256, 511, 1 << 31, u32::MAX] {
        let (map, times) = ([word; MAX_ENTRIES], [word; MAX_ENTRIES]);
        stores.push(Store { map, ..right });
        stores.push(Store { times, ..right });
    }
    stores
}

#[test]
fn forged_word_by_word() {
    let (mut met, entries) = (Forged::default(), cases::p().entries);
    for levels in [1, 2, 3, 64] {
        let held = Session::holding(levels, &entries).expect("a good node");
        // On one level it is that of the same entries with more.
        for store in forgeries(store_of(&entries, 64)) {
            let words = words_with(&held, &store);
            Both::of(&words).ask(&mut met.tally);
            met.set_levels(&words, &held);
        }
    }
    say(format!("forged word by word: {}", met.tally));
    met.tally.assert_map_times(3_000, 2_000, 9_000);
    met.assert_set("word by word", [350, 240, 160, 160]);
}

/// The values of the new call, whatever they held, and the session's bytes.
#[test]
fn values_of_a_time_under_the_map() {
    const JUNK: [Values; 3] = [[0; 3], [usize::MAX; 3], [7, 1 << 40, 9]];
    let assert_values = |words: &Words, i, due: (u32, Values)| {
        let session = Proved::of(words);
        for before in JUNK {
            let mut values = before;
            let number = session.map_time_into(i, &mut values);
            assert_eq!((number, values), due, "{i} of {words:?}");
        }
        assert_eq!(session.memory(), *words);
    };
    let held = Session::holding(2, &cases::p().entries).expect("a good node");
    let words = words_of(&held);
    for (i, time) in [20, 138, 138].into_iter().enumerate() {
        assert_values(&words, i, (0, [time, 0, 0]));
    }
    for i in [3, 4, 64, 1 << 32, usize::MAX] {
        assert_values(&words, i, (u32::from(POSITION), [0; 3]));
    }
    let few = Session::holding(1, &cases::p().entries).expect("a good node");
    let exceeding = words_with(&few, &store_of(held.entries(), 2));
    for few in [words_of(&few), exceeding] {
        assert_values(&few, 2, (u32::from(NO_MAP), [0; 3]));
        assert_values(&few, 3, (u32::from(POSITION), [0; 3]));
    }
    let mut broken = words;
    broken[8] = 3 << 16;
    assert_values(&broken, 3, (7, [0, 1, 0]));
    let mut times = store_of(held.entries(), 2);
    times.times[1] = u32::MAX;
    let longest = (0, [u32::MAX as usize, 0, 0]);
    assert_values(&words_with(&held, &times), 1, longest);
}

/// 10 comes before 11, and 12 before 11; both behind the checks of the session.
#[test]
fn the_order_of_the_checks() {
    let mut tally = Tally::default();
    let held = Session::holding(1, &cases::f().entries).expect("a good node");
    let words = words_of(&held);
    let mut ask = |words: &Words, op: Op, room| Both::of(words).step(&mut tally, &op, room);
    for (room, number) in [(0, BUFFER), (2, BUFFER), (3, NO_MAP), (64, NO_MAP)] {
        assert_eq!(ask(&words, Op::Map, room), Err(Refusal::plain(number)));
    }
    for (i, number) in [
        (0, NO_MAP),
        (2, NO_MAP),
        (3, POSITION),
        (usize::MAX, POSITION),
    ] {
        let op = Op::MapTime(i);
        assert_eq!(ask(&words, op, 0), Err(Refusal::plain(number)));
    }
    for (word, wrong, number, entry) in [
        (0, 0, 4, 0),
        (0, 65, 4, 0),
        (1, 65, 4, 0),
        (8, 3 << 16, 7, 1),
        (9, 0, 8, 1),
        (13, 116, 14, 1),
        (14, 1 << 16 | 1, 16, 2),
    ] {
        let mut broken = words;
        broken[word] = wrong;
        let due = Err(Refusal::at_entry(number, 0, entry));
        for op in [Op::Map, Op::MapTime(0), Op::MapTime(3)] {
            assert_eq!(ask(&broken, op, 0), due, "{op:?}");
            assert_eq!(ask(&broken, op, 64), due, "{op:?}");
        }
    }
}

/// Asserts that a session holds the map of `many_rounds`, whose last 59 entries
/// end after millions of rounds.
fn assert_many_rounds(session: &Proved) {
    assert_eq!((session.mapped, session.used), (1, 5));
    let times = &session.times[5..];
    let due = 59 * 3_263_442;
    assert!(times.iter().all(|time| *time == due), "{times:?}");
}

/// Fills a session with the node of `many_rounds`, and inserts the last entry of
/// six odd nodes.
fn change_odd_nodes() {
    assert_many_rounds(&opened(64, &many_rounds(MAX_ENTRIES)));
    for (name, entries) in FAMILIES.into_iter().chain([JUST_LATE[0]]) {
        let mut entries = entries();
        let last = entries.pop().expect("it is full");
        let held = Session::holding(8, &entries).expect("good entries");
        let mut session = Proved::of(&words_with(&held, &NO_STORE));
        session
            .insert(63, &entry_words(&last))
            .expect("a good entry");
        assert_eq!(session.store(), NO_STORE, "{name}");
    }
}

/// A function that replaces an entry of a session.
type Replace = fn(&mut Proved, usize, &[u32; ENTRY_WORDS]) -> Result<(), Refusal>;

/// The least time, of five, of one change of the node of `many_rounds`: its last
/// entry is replaced by itself.
fn least_of_one_change(replace: Replace) -> Duration {
    let entries = many_rounds(MAX_ENTRIES);
    let held = Session::holding(64, &entries).expect("good entries");
    let (lent, last) = (words_with(&held, &NO_STORE), entry_words(&entries[63]));
    let change = |_| {
        let mut session = Proved::of(&lent);
        let begun = Instant::now();
        let replaced = replace(&mut session, 63, &last);
        let taken = begun.elapsed();
        assert_eq!(replaced, Ok(()));
        assert_many_rounds(&session);
        taken
    };
    (0..5).map(change).min().expect("five times")
}

/// No change takes long because of rounds, and the stored times are those that
/// many rounds would find. All of these changes take less than a second; with
/// every round they would take hours, so they are not waited for.
///
/// One change makes the rounds of a group once, as the tuned program does. If
/// each of its 59 entries made them, it would take some 50 times as long.
#[test]
fn no_change_takes_long() {
    let (sender, done) = channel();
    let begun = Instant::now();
    thread::spawn(move || {
        change_odd_nodes();
        let all = begun.elapsed();
        let one = [Proved::replace, tuned::session::replace].map(least_of_one_change);
        sender.send((all, one))
    });
    let taken = done.recv_timeout(Duration::from_secs(30));
    let (all, [one, tuned]) = taken.expect("the changes take less than a second");
    let said = format!("changes to odd nodes: {all:?}; one {one:?}, tuned {tuned:?}");
    say(said.clone());
    assert!(
        one < Duration::from_millis(200) && one < 10 * tuned,
        "{said}"
    );
}

/// 64 entries, each of which ends just by its deadline if every one before it has a
/// level of its own: the map uses all 64 levels. With one less there is none.
#[test]
fn sixty_four_levels() {
    let mut tally = Tally::default();
    let mut both = Both::of(&words_of(&Session::open(64).expect("a level count")));
    for at in 0..64 {
        let entry = Entry::task(at, 1, MAX_TICKS, u64::from(at) + 1);
        let inserted = both.step(&mut tally, &Op::Insert(usize::from(at), entry), 0);
        assert_eq!(inserted, Ok(Reply::Changed));
        assert_eq!(Store::within(both.words()).used, u32::from(at) + 1);
    }
    assert!(both.ask(&mut tally));
    let due: [u32; 64] = std::array::from_fn(|i| i as u32 + 1);
    let store = Store::within(both.words());
    assert_eq!((store.map, store.times), (due, due));
    let mut met = Met::default();
    let mut had = true;
    for (levels, has) in [(63, false), (64, true), (1, false), (64, true)] {
        met.step(&mut both, &Op::SetLevels(levels), &mut had);
        assert_eq!(had, has, "{levels}");
        let due = if has { store } else { NO_STORE };
        assert_eq!(Store::within(both.words()), due, "{levels}");
    }
}

/// Times at the ends: 1, and 10^9, which D allows.
#[test]
fn the_shortest_and_the_longest_time() {
    let mut tally = Tally::default();
    for (c, b, due) in [
        (1, 0, 1),
        (1, MAX_TICKS - 1, MAX_TICKS),
        (MAX_TICKS, 0, MAX_TICKS),
    ] {
        let entry = Entry::task(1, c, MAX_TICKS, MAX_TICKS).blocked(b);
        let mut both = Both::of(&words_of(&Session::open(1).expect("a level count")));
        let inserted = both.step(&mut tally, &Op::Insert(0, entry), 0);
        assert_eq!(inserted, Ok(Reply::Changed));
        assert!(both.ask(&mut tally));
        let time = both.step(&mut tally, &Op::MapTime(0), 0);
        assert_eq!(time, Ok(Reply::MapTime(due)));
    }
}
