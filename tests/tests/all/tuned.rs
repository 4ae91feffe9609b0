//! Compares the tuned Rust of the benchmarks with the second implementation: a
//! comparison of speed is worth nothing if the answers are wrong. Answers,
//! refusals with their places, and every lent buffer are compared. Of the plain
//! Rust, whose other calls the benchmarks compare, only conversions, timings and
//! the changes of sessions are.

use crate::store::{telling_counts, Setting};
use oracle::file::{self, contents_end, encode, entry_length, longest};
use oracle::gen::budget::{self, draw_fitting};
use oracle::gen::buffers::known;
use oracle::gen::damage::{damage, truncations, AIMS};
use oracle::gen::entries;
use oracle::gen::jitter::{most, Jitter};
use oracle::gen::lent::{forged, sound};
use oracle::gen::listings::long_listing;
use oracle::gen::odd::{many_rounds, near_one};
use oracle::gen::ops::sequence;
use oracle::gen::overruns;
use oracle::gen::plans::{self, in_edition, punctual};
use oracle::lent::{self, Store, Words, SESSION_WORDS};
use oracle::listing;
use oracle::map::map_node;
use oracle::model::{Edition, Entry, Plan, Row};
use oracle::options::{rng, times};
use oracle::plain;
use oracle::refusal::{Refusal, BUFFER, JITTER_LOST};
use oracle::rng::Rng;
use oracle::session::{Op, Reply};
use oracle::tally::Tally;
use oracle::tuned::{self, session::Session};
use oracle::words::{self, entry_words, ENTRY_WORDS};

type Draw = fn(&mut Rng) -> Plan;

/// Buffer lengths for a result of `needed`: 0, one too short, exact, and
/// longer.
fn rooms(needed: usize) -> [usize; 4] {
    [0, needed.saturating_sub(1), needed, needed + 9]
}

/// Compares every call that takes a file. If the tests of a node would take the
/// second implementation long, the node is not mapped and its plan is not
/// listed.
fn compare_file(tally: &mut Tally, bytes: &[u8]) {
    assert_eq!(tuned::check(bytes), tally.note(file::check(bytes)));
    let plan = file::decode(bytes).unwrap_or_default();
    let (rows, entries) = (plan.rows(), plan.entries());
    for row_room in rooms(rows.len()) {
        for word_room in rooms(entries.len() * ENTRY_WORDS) {
            compare_read(bytes, row_room, word_room);
        }
    }
    let numbers = plan.nodes.iter().map(|node| node.number);
    for number in numbers.chain([7]) {
        let node = plan.nodes.iter().find(|node| node.number == number);
        if node.is_none_or(|node| budget::fits(&node.entries)) {
            let count = node.map_or(3, |node| node.entries.len());
            let room = rooms(count)[usize::from(number % 4)];
            compare_map(tally, bytes, number, room);
            compare_map(tally, bytes, number, 64);
        }
    }
    if budget::plan_fits(&plan) {
        compare_list(bytes);
    }
    for from in Edition::BOTH {
        let entries = entries.len() * entry_length(from.other());
        for room in rooms(contents_end(rows.len()) + entries) {
            let _ = compare_convert(from, bytes, room);
        }
    }
}

fn compare_convert(from: Edition, bytes: &[u8], room: usize) -> Result<usize, Refusal> {
    let mut due_buffer = known(room);
    let due = file::convert(from, bytes, &mut due_buffer);
    let (mut tuned_buffer, mut plain_buffer) = (known(room), known(room));
    let (tuned, plain) = match from {
        Edition::First => (
            tuned::convert_forward(bytes, &mut tuned_buffer),
            plain::convert_forward(bytes, &mut plain_buffer),
        ),
        Edition::Second => (
            tuned::convert_back(bytes, &mut tuned_buffer),
            plain::convert_back(bytes, &mut plain_buffer),
        ),
    };
    assert_eq!(tuned, due, "out of {from:?}: {bytes:?}");
    assert_eq!(plain, due.ok(), "out of {from:?}: {bytes:?}");
    assert_eq!(tuned_buffer, due_buffer, "out of {from:?}: {bytes:?}");
    assert_eq!(plain_buffer, due_buffer, "out of {from:?}: {bytes:?}");
    due
}

fn compare_read(bytes: &[u8], row_room: usize, word_room: usize) {
    let mut due_rows = vec![Row::default(); row_room];
    let mut due_entries = vec![Entry::default(); word_room / ENTRY_WORDS];
    let due = file::read(bytes, &mut due_rows, &mut due_entries);
    let (mut rows, mut entries) = (words::known(row_room), words::known(word_room));
    assert_eq!(tuned::read(bytes, &mut rows, &mut entries), due);
    let (row_count, entry_count, _) = due.unwrap_or((0, 0, Edition::First));
    let due_rows = words::of_rows(&due_rows[..row_count]);
    assert_eq!(rows, begun(due_rows, words::known(row_room)));
    let due_entries = words::of_entries(&due_entries[..entry_count]);
    assert_eq!(entries, begun(due_entries, words::known(word_room)));
}

fn compare_map(tally: &mut Tally, bytes: &[u8], number: u16, room: usize) {
    let (mut buffer, mut due_buffer) = (known(room), known(room));
    let due = tally.note(map_node(bytes, u64::from(number), &mut due_buffer));
    tally.map(due.unwrap_or(0));
    let answer = tuned::map(bytes, number, &mut buffer);
    assert_eq!(answer, due.map(usize::from), "node {number}: {bytes:?}");
    assert_eq!(buffer, due_buffer, "node {number}: {bytes:?}");
}

fn compare_list(bytes: &[u8]) {
    let text = listing::list(bytes).into_bytes();
    for room in rooms(text.len()).into_iter().chain([listing::MOST_TEXT]) {
        let mut buffer = known(room);
        let answer = tuned::list(bytes, &mut buffer);
        if text.len() <= room {
            assert_eq!(answer, Ok(text.len()), "{bytes:?}");
            assert_eq!(buffer, begun(text.clone(), known(room)), "{bytes:?}");
        } else {
            assert_eq!(answer, Err(Refusal::plain(BUFFER)), "{bytes:?}");
            assert_eq!(buffer, known(room), "{bytes:?}");
        }
    }
}

fn compare_write(edition: u32, rows: &[Row], entries: &[Entry], room: usize) {
    let (mut buffer, mut due_buffer) = (known(room), known(room));
    let due = file::write(edition, rows, entries, &mut due_buffer);
    let (row_words, words) = (words::of_rows(rows), words::of_entries(entries));
    let answer = tuned::write(edition, &row_words, &words, &mut buffer);
    assert_eq!(answer, due, "{rows:?} {entries:?}");
    assert_eq!(buffer, due_buffer, "{rows:?} {entries:?}");
}

/// `before` with its beginning replaced by what was written.
fn begun<T: Clone>(written: Vec<T>, before: Vec<T>) -> Vec<T> {
    let beyond = before[written.len()..].to_vec();
    [written, beyond].concat()
}

#[test]
fn plans_of_every_kind() {
    let (mut rng, mut tally) = (rng(340), Tally::default());
    let draws: [(Draw, u64); 9] = [
        (plans::small, 600),
        (plans::wide, 200),
        (plans::tight, 300),
        (plans::station, 20),
        (plans::full_node, 30),
        (plans::many_entries, 30),
        (plans::at_limits, 300),
        (plans::long_periods, 50),
        (plans::near_one, 300),
    ];
    for (draw, count) in draws {
        for _ in 0..times(count) {
            let plan = draw(&mut rng);
            let file = encode(&plan).expect("generators give good plans");
            compare_file(&mut tally, &file);
            let (edition, rows, entries) = (plan.edition, plan.rows(), plan.entries());
            for room in rooms(file.len()) {
                compare_write(edition.number(), &rows, &entries, room);
            }
            let room = longest(Edition::Second);
            compare_write(edition.other().number(), &rows, &entries, room);
        }
    }
    tally.assert_maps(times(1_500), times(1_000));
}

#[test]
fn conversions() {
    let (mut rng, mut tally) = (rng(344), Tally::default());
    for _ in 0..times(300) {
        let plan = plans::any(&mut rng);
        let on_time = in_edition(&punctual(plan.clone()), Edition::Second);
        for plan in [&plan, &on_time, &plans::late(&mut rng)] {
            let file = encode(plan).expect("generators give good plans");
            for from in Edition::BOTH {
                for room in [0, file.len() / 2, longest(from.other())] {
                    let _ = tally.note(compare_convert(from, &file, room));
                }
            }
        }
    }
    let accepted = tally.accepted();
    assert!(accepted > times(400), "{tally}");
    for number in [2, BUFFER, JITTER_LOST] {
        assert!(tally.met(number) > times(400), "{number}: {tally}");
    }
}

#[test]
fn refused_files() {
    let (mut rng, mut tally) = (rng(341), Tally::default());
    for _ in 0..times(300) {
        let plan = plans::filled(&mut rng);
        for aim in AIMS {
            let second = rng.pick(&AIMS);
            compare_file(&mut tally, &damage(&mut rng, &plan, &[aim]).file);
            compare_file(&mut tally, &damage(&mut rng, &plan, &[aim, second]).file);
        }
    }
    for number in (1..=8).chain([14, 16]) {
        assert!(tally.met(number) > times(100), "{number}: {tally}");
    }
    let file = encode(&plans::small(&mut rng)).expect("a good plan");
    for cut in truncations(&file) {
        compare_file(&mut tally, cut);
    }
    compare_file(&mut tally, &[0; 70_000]);
}

#[test]
fn refused_plans() {
    let mut rng = rng(342);
    for _ in 0..times(1_000) {
        let plan = plans::filled(&mut rng);
        let (mut rows, mut entries) = (plan.rows(), plan.entries());
        let (row, entry) = (rng.index(rows.len()), rng.index(entries.len()));
        let mut edition = plan.edition.number();
        match rng.below(10) {
            0 => rows.clear(),
            1 => rows.resize(33, rows[0]),
            2 => rows[row].levels = rng.pick(&[0, 65, 255]),
            3 => rows[row].entries = rng.pick(&[0, 1, 64, 65, 255]),
            4 => rows[row].number = rng.pick(&[0, 7, u16::MAX]),
            5 => entries.truncate(entry),
            6 => entries[entry].kind = rng.pick(&[0, 2, 3, 255]),
            7 => entries[entry].c = rng.pick(&[0, entries[entry].d + 1]),
            8 => entries[entry].j = rng.pick(&[1, most(&entries[entry]) + 1]),
            _ => edition = rng.pick(&[0, 1, 3, u32::MAX]),
        }
        if rng.chance(1, 2) {
            let entry = rng.index(entries.len().max(1));
            if let Some(entry) = entries.get_mut(entry) {
                entry.b = rng.pick(&[1_000_000_000, 1_000_000_001]);
            }
        }
        compare_write(edition, &rows, &entries, 1_000);
    }
}

#[test]
fn long_texts() {
    for nodes in [1, 32] {
        for edition in Edition::BOTH {
            compare_list(&encode(&long_listing(edition, nodes)).expect("a good plan"));
        }
    }
}

#[test]
fn sessions() {
    let (mut rng, mut tally, mut stores) = (rng(343), Tally::default(), [[0; 2]; 2]);
    for _ in 0..times(400) {
        let sequence = sequence(&mut rng, &mut tally);
        let (mut session, mut due) = (Session::of(&sequence.start), sequence.start);
        for op in sequence.ops.iter().map(callable) {
            let room = rng.pick(&[3, 64, 64]);
            let (mut buffer, mut due_buffer) = (known(room), known(room));
            let before = session.memory();
            let answer = tally.note(apply(&mut session, &op, &mut buffer));
            let lent = || format!("{op:?} on {before:?}");
            assert_eq!(
                answer,
                lent::apply(&mut due, &op, &mut due_buffer),
                "{}",
                lent()
            );
            assert_eq!(session.memory(), due, "{}", lent());
            assert_eq!(buffer, due_buffer, "{}", lent());
            if let Op::MapTime(_) = op {
                tally.map_time(&answer);
            }
            compare_plain(&mut stores, &before, &op, answer, &due);
        }
    }
    for number in [4, 7, 8, 10, 11, 12, 13, 14, 16] {
        assert!(tally.met(number) > times(10), "{number}: {tally}");
    }
    tally.assert_map_times(times(100), times(100), times(20));
    let mut counted = stores.as_flattened().iter().zip([100, 10, 20, 5]);
    assert!(
        counted.all(|(met, least)| *met > times(least)),
        "{stores:?}"
    );
}

/// The plain program on the same memory: changes, and the map and a time under
/// it where the store is right. Counts the changes of the list, and those of the
/// level count, after which there is a map, and after which there would be one on
/// more levels.
fn compare_plain(
    stores: &mut [[u64; 2]; 2],
    before: &Words,
    op: &Op,
    answer: Result<Reply, Refusal>,
    due: &Words,
) {
    use plain::session::{insert, map, map_time, remove, replace, set_levels};
    let mut session = Session::of(before);
    let done = match *op {
        Op::Insert(position, entry) => insert(&mut session, position, &entry_words(&entry)),
        Op::Remove(position) => remove(&mut session, position),
        Op::Replace(position, entry) => replace(&mut session, position, &entry_words(&entry)),
        Op::SetLevels(levels) => set_levels(&mut session, levels as u8),
        Op::Map | Op::MapTime(_) if !lent::is_right(before) => return,
        Op::Map => map(&session, &mut [0; 64]).is_some(),
        Op::MapTime(i) => {
            let given = map_time(&session, i);
            assert_eq!(given.map(Reply::MapTime), answer.ok(), "{before:?}");
            given.is_some()
        }
        Op::Open(_) | Op::Time(..) => return,
    };
    if *op != Op::Map || answer.is_ok() {
        assert_eq!(done, answer.is_ok(), "{op:?} on {before:?}");
    }
    let setting = matches!(op, Op::SetLevels(_));
    let left = match answer {
        Ok(Reply::Changed) if setting => afresh(before, due),
        _ => *due,
    };
    assert_eq!(session.memory(), left, "{op:?} on {before:?}");
    if answer == Ok(Reply::Changed) {
        count_store(&mut stores[usize::from(setting)], due);
    }
}

/// What the plain program leaves when it sets the level count, where the library
/// leaves `due`: the same, unless the store was forged, which the plain program
/// does not read.
fn afresh(before: &Words, due: &Words) -> Words {
    let held = lent::session_in(due).expect("it was changed");
    let words = lent::words_of(&held);
    assert!(words == *due || !lent::is_right(before), "{before:?}");
    words
}

/// Counts a session with a map, or one that needs more levels for it.
fn count_store([mapped, exceeding]: &mut [u64; 2], words: &Words) {
    let held = lent::session_in(words).expect("it was changed");
    let has = Store::within(words).has_map(held.levels());
    *mapped += u64::from(has);
    *exceeding += u64::from(!has && lent::store_of(held.entries(), 64).mapped == 1);
}

/// Telling level counts on right and forged stores, in the tuned and in the plain
/// program.
#[test]
fn level_counts() {
    let (mut rng, mut met, mut stores) = (rng(347), [0; 3], [[0; 2]; 2]);
    for round in 0..times(1_000) {
        let count = rng.count(1, 8);
        let mut words = sound(&mut rng, count);
        if round % 2 == 0 {
            forged(&mut rng, &words).put(&mut words);
        }
        for levels in telling_counts(&words) {
            let (op, mut session, mut due) = (Op::SetLevels(levels), Session::of(&words), words);
            let answer = apply(&mut session, &op, &mut []);
            assert_eq!(answer, lent::apply(&mut due, &op, &mut []));
            assert_eq!(session.memory(), due, "{op:?} on {words:?}");
            compare_plain(&mut stores, &words, &op, answer, &due);
            met[Setting::of(&Store::within(&words), words[0] as usize, levels) as usize] += 1;
        }
    }
    let mut counted = met.iter().zip([2_000, 500, 500]);
    assert!(counted.all(|(met, least)| *met > times(least)), "{met:?}");
    let [mapped, exceeding] = stores[1];
    assert!(
        mapped > times(2_000) && exceeding > times(200),
        "{stores:?}"
    );
}

/// Nodes whose times take very many rounds, or whose entries differ in B and r on
/// one level: the times that are found without most rounds are those of the
/// test.
#[test]
fn times_under_the_map() {
    let mut rng = rng(346);
    let (mut mapped, mut none, mut shared) = (0, 0, 0);
    for round in 0..times(3_000) {
        let (count, jitter) = (rng.count(1, 9), Jitter::draw(&mut rng));
        let entries = match round % 3 {
            0 => draw_fitting(|| near_one(&mut rng, jitter)).0,
            1 => entries::queued(&mut rng, count, jitter),
            _ => entries::wide(&mut rng, count.max(2), jitter),
        };
        let mut session = Session::of(&[0; SESSION_WORDS]);
        tuned::session::open(&mut session, 64).expect("64 is a level count");
        for (at, entry) in entries.iter().enumerate() {
            tuned::session::insert(&mut session, at, &entry_words(entry)).expect("a good entry");
        }
        let held = oracle::session::Session::holding(64, &entries).expect("good entries");
        assert_eq!(session.memory(), lent::words_of(&held), "{entries:?}");
        let store = session.store();
        mapped += u64::from(store.mapped);
        none += u64::from(1 - store.mapped);
        shared += u64::from(store.mapped == 1 && (store.used as usize) < entries.len());
    }
    let met = [mapped, none, shared];
    assert!(met.iter().all(|&met| met > times(300)), "{met:?}");
}

/// Nodes of 64 entries with millions of rounds: the times are those that the
/// test has, which `many_rounds` tells.
#[test]
fn times_after_millions_of_rounds() {
    let mut session = Session::of(&[0; SESSION_WORDS]);
    tuned::session::open(&mut session, 64).expect("64 is a level count");
    for (at, entry) in many_rounds(64).iter().enumerate() {
        tuned::session::insert(&mut session, at, &entry_words(entry)).expect("a good entry");
    }
    let store = session.store();
    assert_eq!((store.mapped, store.used), (1, 5));
    assert_eq!(store.times[63], 59 * 3_263_442);
    assert!(store.times[5..].iter().all(|time| *time == store.times[63]));
}

/// Timing, on time and late, in the tuned and in the plain program.
#[test]
fn timings() {
    let (mut rng, mut tally) = (rng(345), Tally::default());
    for round in 0..times(6_000) {
        let timed = match round % 6 {
            0 => overruns::heavy(&mut rng),
            1 => overruns::crowded(&mut rng),
            2 => overruns::on_time_above(&mut rng),
            _ => overruns::any(&mut rng),
        };
        let session = Session::of(&timed.words());
        let (first, last, i) = (timed.first, timed.last, timed.i);
        let due = timed.timing();
        tally.timed(&due);
        let tuned = tuned::session::time(&session, first, last, i);
        assert_eq!(tuned, Ok(due), "{timed:?}");
        let plain = plain::session::time(&session, first, last, i);
        assert_eq!(plain, Some(due), "{timed:?}");
        let count = timed.entries.len();
        assert_eq!(plain::session::time(&session, first, count, i), None);
    }
    tally.assert_timed(times(1_500), times(3_000), times(1_000));
}

/// The tuned functions take a level count as a byte.
fn callable(op: &Op) -> Op {
    match *op {
        Op::Open(levels) => Op::Open(levels.min(255)),
        Op::SetLevels(levels) => Op::SetLevels(levels.min(255)),
        other => other,
    }
}

fn apply(session: &mut Session, op: &Op, buffer: &mut [u8]) -> Result<Reply, Refusal> {
    use tuned::session::{insert, map, map_time, open, remove, replace, set_levels, time};
    match *op {
        Op::Open(levels) => open(session, levels as u8)?,
        Op::SetLevels(levels) => set_levels(session, levels as u8)?,
        Op::Insert(position, entry) => insert(session, position, &entry_words(&entry))?,
        Op::Remove(position) => remove(session, position)?,
        Op::Replace(position, entry) => replace(session, position, &entry_words(&entry))?,
        Op::Time(first, last, i) => return time(session, first, last, i).map(Reply::Timed),
        Op::Map => return map(session, buffer).map(|used| Reply::Mapped(used as u8)),
        Op::MapTime(i) => return map_time(session, i).map(Reply::MapTime),
    }
    Ok(Reply::Changed)
}
