//! Entry numbers used twice, in the proved library: every place of a repeat,
//! numbers that look alike, and 16 among the other refusals. Every answer, its
//! places and all lent memory are compared with the second implementation.

use crate::say;
use oracle::cases;
use oracle::compare;
use oracle::compare::convert::{both, convert, Ways};
use oracle::compare::session::Both;
use oracle::ffi;
use oracle::file::{contents_end, encode, entry_length, longest};
use oracle::gen::buffers::random;
use oracle::gen::numbers::{congruent, different, from_one, repeat_places, with};
use oracle::gen::plans::in_edition;
use oracle::gen::{entries, plans, unchecked};
use oracle::listing::list;
use oracle::model::{Edition, Entry, Node, Plan, Row, MAX_ENTRIES, MAX_NODES, MAX_TICKS, SECTION};
use oracle::options::{rng, times};
use oracle::refusal::{
    Refusal, BUFFER, COUNT, CUT_OFF, FULL, JITTER, JITTER_LOST, KIND, LENGTH, NO_MAP, NO_NODE,
    OFFSET, OPENING, POSITION, REPEAT, ROW, TICKS,
};
use oracle::rng::Rng;
use oracle::session::{Op, Reply, Session};
use oracle::tally::Tally;

const GOOD: Entry = Entry::task(9, 2, 1_100, 1_050);
const PLAIN: fn(u8) -> Refusal = Refusal::plain;

fn repeat(row: usize, entry: usize) -> Refusal {
    Refusal::at_entry(REPEAT, row, entry)
}

/// Good entries with these numbers.
fn entries_with(numbers: &[u16]) -> Vec<Entry> {
    with(vec![GOOD; numbers.len()], numbers)
}

/// Nodes numbered by their rows, each with one level.
fn plan_of(edition: Edition, nodes: Vec<Vec<Entry>>) -> Plan {
    let node = |(number, entries)| Node {
        number,
        levels: 1,
        entries,
    };
    let nodes = (0..).zip(nodes).map(node).collect();
    Plan { edition, nodes }
}

/// Compares the check of the plan's file and writing it, into a buffer that
/// always suffices: both give this refusal, or none.
fn assert_plan(tally: &mut Tally, plan: &Plan, due: Option<Refusal>) {
    let answer = compare::check(tally, &unchecked::file(plan));
    assert_eq!(answer.err(), due, "{plan:?}");
    let (edition, room) = (plan.edition, longest(plan.edition));
    let written = compare::write(tally, edition.number(), &plan.rows(), &plan.entries(), room);
    assert_eq!(written.err(), due, "{plan:?}");
}

/// Every operation except opening gives this refusal on a session with these
/// entries, before its own checks.
fn assert_no_session(tally: &mut Tally, entries: &[Entry], due: Refusal) {
    let words = unchecked::session(3, entries);
    let count = entries.len();
    let new = Entry {
        number: 40_000,
        ..GOOD
    };
    let wrong = Entry { kind: 3, ..GOOD };
    for op in [
        Op::Insert(0, new),
        Op::Insert(count, entries[0]),
        Op::Insert(count + 1, wrong),
        Op::Remove(due.entry),
        Op::Remove(count),
        Op::Replace(due.entry, new),
        Op::Replace(due.entry, entries[due.entry]),
        Op::Replace(count, wrong),
        Op::SetLevels(7),
        Op::SetLevels(0),
        Op::Time(0, 0, 0),
        Op::Time(0, count, 0),
        Op::Map,
        Op::MapTime(0),
        Op::MapTime(count),
    ] {
        let mut both = Both::of(&words);
        assert_eq!(both.step(tally, &op, 0), Err(due), "{op:?}");
        assert_eq!(both.words(), &words);
    }
    let mut both = Both::of(&words);
    assert_eq!(both.step(tally, &Op::Open(7), 0), Ok(Reply::Changed));
}

/// Each pair of positions of a full node: in a plan of one node, in the last of
/// three, and in a session.
#[test]
fn every_pair_of_positions() {
    let (mut rng, mut tally) = (rng(510), Tally::default());
    let mut pairs = 0;
    for second in 1..MAX_ENTRIES {
        for first in 0..second {
            let good = different(&mut rng, MAX_ENTRIES);
            let mut numbers = good.clone();
            numbers[second] = numbers[first];
            let entries = entries_with(&numbers);
            let edition = Edition::BOTH[pairs % 2];
            let one = plan_of(edition, vec![entries.clone()]);
            assert_plan(&mut tally, &one, Some(repeat(0, second)));
            let before = entries_with(&good);
            let three = plan_of(edition, vec![before, Vec::new(), entries.clone()]);
            assert_plan(&mut tally, &three, Some(repeat(2, second)));
            let words = unchecked::session(3, &entries);
            let op = match pairs % 5 {
                0 => Op::Map,
                1 => Op::Remove(0),
                2 => Op::SetLevels(1),
                3 => Op::Time(0, 0, 0),
                _ => Op::MapTime(0),
            };
            let answer = Both::of(&words).step(&mut tally, &op, MAX_ENTRIES);
            assert_eq!(answer, Err(repeat(0, second)), "{op:?}");
            // Up to the entry before the repeat, the numbers differ.
            let shorter = plan_of(edition, vec![entries[..second].to_vec()]);
            assert_plan(&mut tally, &shorter, None);
            pairs += 1;
        }
    }
    say(format!("every pair of positions: {tally}"));
    assert_eq!(tally.met(REPEAT), 5 * 2_016, "{tally}");
}

/// Repeats at the first and last places, with every operation on a session.
#[test]
fn at_both_ends() {
    let mut tally = Tally::default();
    for (first, second) in [(0, 1), (0, 63), (62, 63), (1, 63), (31, 32)] {
        for number in [0, 1, 255, 256, 32_768, u16::MAX] {
            let mut numbers: Vec<u16> = (1_000..1_064).collect();
            (numbers[first], numbers[second]) = (number, number);
            let entries = entries_with(&numbers);
            assert_no_session(&mut tally, &entries, repeat(0, second));
            for edition in Edition::BOTH {
                for rows in [1, 2, MAX_NODES] {
                    let mut nodes = vec![from_one(vec![GOOD; 64]); rows];
                    nodes[rows - 1] = entries.clone();
                    let plan = plan_of(edition, nodes);
                    assert_plan(&mut tally, &plan, Some(repeat(rows - 1, second)));
                }
            }
        }
    }
    assert_eq!(tally.met(REPEAT), 30 * (15 + 2 * 3 * 2), "{tally}");
}

/// Three equal numbers, or two pairs of them: the first entry that has an equal
/// before it, not the first that has one behind it.
#[test]
fn several_repeats_in_a_node() {
    let (mut rng, mut tally) = (rng(511), Tally::default());
    let mut crossed = 0;
    for round in 0..times(1_500) {
        let count = rng.count(4, MAX_ENTRIES);
        let mut numbers = different(&mut rng, count);
        let mut places: Vec<usize> = Vec::new();
        while places.len() < 4 {
            let at = rng.index(count);
            if !places.contains(&at) {
                places.push(at);
            }
        }
        let [a, b, c, d] = [0, 1, 2, 3].map(|which| places[which]);
        let due = if round % 3 == 0 {
            (numbers[b], numbers[c]) = (numbers[a], numbers[a]);
            let mut equal = [a, b, c];
            equal.sort();
            equal[1]
        } else {
            (numbers[b], numbers[d]) = (numbers[a], numbers[c]);
            // Of the pair that begins first, the second may come later.
            crossed += u64::from((a.min(b) < c.min(d)) != (a.max(b) < c.max(d)));
            a.max(b).min(c.max(d))
        };
        let entries = entries_with(&numbers);
        let edition = rng.pick(&Edition::BOTH);
        let plan = plan_of(edition, vec![entries.clone()]);
        assert_plan(&mut tally, &plan, Some(repeat(0, due)));
        let words = unchecked::session(1, &entries);
        let answer = Both::of(&words).step(&mut tally, &Op::Map, MAX_ENTRIES);
        assert_eq!(answer, Err(repeat(0, due)));
    }
    assert!(crossed > times(200), "{crossed}");
    assert_eq!(tally.met(REPEAT), 3 * times(1_500), "{tally}");
}

/// A full plan whose nodes all have the same numbers is accepted; one with a
/// repeat in any row is refused there, and one with two in the first of them.
#[test]
fn nodes_share_numbers() {
    let (mut rng, mut tally) = (rng(512), Tally::default());
    for round in 0..times(8) {
        let edition = Edition::BOTH[round as usize % 2];
        let numbers = different(&mut rng, MAX_ENTRIES);
        let node = |rng: &mut Rng| with(entries::light(rng, MAX_ENTRIES), &numbers);
        let nodes = (0..MAX_NODES).map(|_| node(&mut rng)).collect();
        let plan = plan_of(edition, nodes);
        assert_plan(&mut tally, &plan, None);
        for row in 0..MAX_NODES {
            let mut wrong = plan.clone();
            let [from, to] = repeat_places(&mut rng, MAX_ENTRIES);
            wrong.nodes[row].entries[to].number = numbers[from];
            assert_plan(&mut tally, &wrong, Some(repeat(row, to)));
            let later = rng.count(row, MAX_NODES - 1);
            wrong.nodes[later].entries[63].number = numbers[62];
            assert_plan(&mut tally, &wrong, Some(repeat(row, to)));
        }
    }
    assert_eq!(tally.accepted(), 2 * times(8), "{tally}");
    assert_eq!(tally.met(REPEAT), 4 * 32 * times(8), "{tally}");
}

/// Small plans whose nodes share numbers, in every call.
#[test]
fn accepted_plans_in_every_call() {
    let (mut rng, mut tally) = (rng(513), Tally::default());
    for _ in 0..times(300) {
        let mut plan = plans::filled(&mut rng);
        let numbers = different(&mut rng, MAX_ENTRIES);
        for node in &mut plan.nodes {
            let count = node.entries.len();
            node.entries = with(node.entries.clone(), &numbers[..count]);
        }
        compare::file(&mut tally, &encode(&plan).expect("each number once"));
    }
    tally.assert_maps(times(100), times(100));
    assert_eq!(tally.met(REPEAT), 0);
}

/// A task and a section with one number are a repeat, in either order.
#[test]
fn kinds_do_not_matter() {
    let mut tally = Tally::default();
    let section = Entry {
        kind: SECTION,
        ..GOOD
    };
    let calling = GOOD.calling(15);
    for pair in [
        [GOOD, section],
        [section, GOOD],
        [section, section],
        [calling, section],
        [section, calling],
        [calling, GOOD.blocked(5)],
    ] {
        for edition in Edition::BOTH {
            let plan = plan_of(edition, vec![pair.to_vec()]);
            assert_plan(&mut tally, &plan, Some(repeat(0, 1)));
            compare::file(&mut tally, &unchecked::file(&plan));
        }
        assert_no_session(&mut tally, &pair, repeat(0, 1));
        let mut both = Both::of(&unchecked::session(1, &pair[..1]));
        let inserted = both.step(&mut tally, &Op::Insert(0, pair[1]), 0);
        assert_eq!(inserted, Err(repeat(0, 0)));
        // Another kind may take the place and the number.
        let replaced = both.step(&mut tally, &Op::Replace(0, pair[1]), 0);
        assert_eq!(replaced, Ok(Reply::Changed));
    }
}

/// Different numbers in a file, to the writer and in a session; then the same
/// with one of them repeated.
fn assert_alike(rng: &mut Rng, tally: &mut Tally, numbers: &[u16]) {
    let edition = rng.pick(&Edition::BOTH);
    let entries = entries_with(numbers);
    assert_plan(tally, &plan_of(edition, vec![entries.clone()]), None);
    let op = Op::Time(0, 0, 0);
    let answer = Both::of(&unchecked::session(1, &entries)).step(tally, &op, 0);
    assert!(answer.is_ok(), "{numbers:?}");
    let [from, to] = repeat_places(rng, numbers.len());
    let mut twice = numbers.to_vec();
    twice[to] = twice[from];
    let entries = entries_with(&twice);
    let plan = plan_of(edition, vec![entries.clone()]);
    assert_plan(tally, &plan, Some(repeat(0, to)));
    let answer = Both::of(&unchecked::session(1, &entries)).step(tally, &op, 0);
    assert_eq!(answer, Err(repeat(0, to)), "{twice:?}");
}

/// Different numbers that agree in some of their bits, and a repeat among them.
#[test]
fn numbers_that_look_alike() {
    let (mut rng, mut tally) = (rng(514), Tally::default());
    let mut lists = 0;
    for power in 0..16 {
        // Equal in their low bits, as many as there are.
        for _ in 0..20 {
            let first = rng.word() as u16;
            let numbers = congruent(MAX_ENTRIES, 1 << power, first);
            assert_alike(&mut rng, &mut tally, &numbers);
            // Equal in their high bits.
            let turned: Vec<u16> = numbers.iter().map(|n| n.reverse_bits()).collect();
            assert_alike(&mut rng, &mut tally, &turned);
            // Different in one bit.
            let pair = [first, first ^ 1 << power];
            assert_alike(&mut rng, &mut tally, &pair);
            lists += 3;
        }
    }
    // One number, and every other that differs from it in one bit.
    for number in [0, u16::MAX, 12, 0x5555] {
        let near = (0..16).map(|bit| number ^ 1 << bit);
        let numbers: Vec<u16> = [number].into_iter().chain(near).collect();
        assert_alike(&mut rng, &mut tally, &numbers);
        lists += 1;
    }
    for _ in 0..times(500) {
        let count = rng.count(2, MAX_ENTRIES);
        let numbers = different(&mut rng, count);
        assert_alike(&mut rng, &mut tally, &numbers);
        lists += 1;
    }
    say(format!("numbers that look alike: {tally}"));
    assert_eq!(tally.accepted(), 3 * lists, "{tally}");
    assert_eq!(tally.met(REPEAT), 3 * lists, "{tally}");
}

/// Every number beside itself, and beside one that differs from it in one bit.
#[test]
fn every_number() {
    let mut tally = Tally::default();
    for number in 0..=u16::MAX {
        let other = number ^ 1 << (number % 16);
        for (numbers, due) in [
            ([number, number], Some(repeat(0, 1))),
            ([number, other], None),
        ] {
            let file = unchecked::file(&plan_of(Edition::First, vec![entries_with(&numbers)]));
            assert_eq!(compare::check(&mut tally, &file).err(), due, "{numbers:?}");
        }
    }
    assert_eq!([tally.accepted(), tally.met(REPEAT)], [65_536; 2]);
}

/// Numbers of a small range, so that many nodes have repeats, some of them with
/// broken fields: every call on a file, and the writer.
#[test]
fn small_ranges() {
    let (mut rng, mut tally, mut ways) = (rng(515), Tally::default(), Ways::default());
    for _ in 0..times(1_500) {
        let mut plan = plans::filled(&mut rng);
        let range = rng.range(6, 60);
        let (first, step) = (rng.word() as u16, rng.pick(&[1, 16, 1_024, 2_048]));
        for entry in plan.nodes.iter_mut().flat_map(|node| &mut node.entries) {
            entry.number = first.wrapping_add(step * rng.below(range) as u16);
            if rng.chance(1, 25) {
                entry.kind = rng.pick(&[0, 3]);
            }
            if rng.chance(1, 25) {
                entry.b = MAX_TICKS + 1;
            }
        }
        let file = unchecked::file(&plan);
        compare::file(&mut tally, &file);
        both(&mut ways, &mut rng, &file);
        let (rows, entries) = (plan.rows(), plan.entries());
        let room = rng.pick(&[file.len() - 1, file.len(), file.len() + 9]);
        let _ = compare::write(&mut tally, plan.edition.number(), &rows, &entries, room);
    }
    say(format!("numbers of small ranges: {tally}; {ways}"));
    for number in [KIND, TICKS, REPEAT] {
        assert!(tally.met(number) > times(900), "{number}: {tally}");
        for way in [&ways.forward, &ways.back] {
            assert!(way.met(number) > times(400), "{number}: {way}");
        }
    }
    assert!(tally.accepted() > times(2_000), "{tally}");
}

/// What is wrong with an entry.
#[derive(Clone, Copy, Debug, PartialEq)]
enum Fault {
    Kind,
    Ticks,
    Jitter,
}

impl Fault {
    const ALL: [(Fault, u8); 3] = [
        (Fault::Kind, KIND),
        (Fault::Ticks, TICKS),
        (Fault::Jitter, JITTER),
    ];

    /// The entry with the fault; in the first edition a J has no room.
    fn put(self, edition: Edition, entry: &mut Entry) {
        match self {
            Fault::Kind => entry.kind = 3,
            Fault::Ticks => entry.c = entry.d + 1,
            Fault::Jitter => {
                entry.j = match edition {
                    Edition::First => 1,
                    Edition::Second => entry.d - entry.c + 1,
                }
            }
        }
    }
}

/// A repeat in each of three nodes, and a broken field in each entry of them: the
/// field comes first in its own node and in an earlier one, the repeat if its
/// node is earlier.
#[test]
fn the_order_of_16_and_broken_fields() {
    let mut tally = Tally::default();
    let good = vec![entries_with(&[5, 6, 7, 8]); 3];
    for edition in Edition::BOTH {
        for (row, at, from) in (0..3).flat_map(|row| [(row, 1, 0), (row, 3, 0), (row, 3, 2)]) {
            let mut twice = good.clone();
            twice[row][at].number = twice[row][from].number;
            for place in 0..12 {
                let (fault_row, fault_at) = (place / 4, place % 4);
                for (fault, number) in Fault::ALL {
                    let mut nodes = twice.clone();
                    fault.put(edition, &mut nodes[fault_row][fault_at]);
                    let plan = plan_of(edition, nodes);
                    let due = match fault_row <= row {
                        true => Refusal::at_entry(number, fault_row, fault_at),
                        false => repeat(row, at),
                    };
                    if edition == Edition::Second || fault != Fault::Jitter {
                        assert_plan(&mut tally, &plan, Some(due));
                        continue;
                    }
                    // A file of the first edition has no J.
                    let (rows, entries) = (plan.rows(), plan.entries());
                    let answer = compare::write(&mut tally, 1, &rows, &entries, 999);
                    assert_eq!(answer, Err(due), "{plan:?}");
                }
            }
        }
    }
    say(format!("16 and broken fields: {tally}"));
    for number in [KIND, TICKS, JITTER, REPEAT] {
        assert!(tally.met(number) > 200, "{number}: {tally}");
    }
}

/// 1 to 6 come before the 16 of a file, and 9, 10 and 11 behind it.
#[test]
fn the_order_of_16_in_a_file() {
    let mut tally = Tally::default();
    for edition in Edition::BOTH {
        let nodes = |second| vec![entries_with(&[4, 5]), entries_with(&[1, 2, second])];
        let wrong = unchecked::file(&plan_of(edition, nodes(2)));
        let good = encode(&plan_of(edition, nodes(3))).expect("each number once");
        let due = repeat(1, 2);
        for (file, repeated) in [(&wrong, Some(due)), (&good, None)] {
            assert_eq!(compare::check(&mut tally, file).err(), repeated);
            let or = |number| repeated.or(Some(PLAIN(number)));
            let map = |number, room| ffi::map(file, number, &mut vec![0; room]).err();
            assert_eq!(map(2, 3), or(NO_NODE));
            assert_eq!(map(1, 2), or(BUFFER));
            assert_eq!(map(0, 1), or(BUFFER));
            let read = |rows, words| ffi::read(file, &mut vec![0; rows], &mut vec![0; words]).err();
            assert_eq!(read(1, 30), or(BUFFER));
            assert_eq!(read(2, 29), or(BUFFER));
            assert_eq!(read(2, 30), repeated);
            compare::file(&mut tally, file);
        }
        for (at, byte, earlier) in [
            (0, 0, PLAIN(OPENING)),
            (3, 0x33, PLAIN(OPENING)),
            (5, 1, PLAIN(COUNT)),
            (4, 33, PLAIN(COUNT)),
            (4, 32, PLAIN(CUT_OFF)),
            (10, 0, Refusal::at_row(ROW, 0)),
            (18, 65, Refusal::at_row(ROW, 1)),
            (16, 0, Refusal::at_row(ROW, 1)),
            (12, 25, Refusal::at_row(OFFSET, 0)),
            (20, 1, Refusal::at_row(OFFSET, 1)),
            (19, 2, PLAIN(LENGTH)),
            (19, 4, PLAIN(LENGTH)),
        ] {
            let mut file = wrong.clone();
            file[at] = byte;
            assert_eq!(compare::check(&mut tally, &file), Err(earlier), "byte {at}");
            compare::file(&mut tally, &file);
        }
        for length in 0..wrong.len() {
            let number = if length < 24 { CUT_OFF } else { LENGTH };
            let answer = compare::check(&mut tally, &wrong[..length]);
            assert_eq!(answer, Err(PLAIN(number)), "{length} bytes");
        }
        let longer = [wrong.as_slice(), &[0]].concat();
        assert_eq!(compare::check(&mut tally, &longer), Err(PLAIN(LENGTH)));
    }
    // A node without a map is 11 only if no number is there twice.
    let mut node = cases::f();
    let file = cases::file(node.clone());
    assert_eq!(ffi::map(&file, 7, &mut [0; 3]), Err(PLAIN(NO_MAP)));
    node.entries[2].number = 1;
    let file = unchecked::file(&Plan::first(vec![node]));
    assert_eq!(ffi::map(&file, 7, &mut [0; 3]), Err(repeat(0, 2)));
    assert_eq!(list(&file), "refused 16 row 0 entry 2\n");
    compare::file(&mut tally, &file);
}

/// 2, 3, 4 and 6 come before the 16 of the writer, and 10 behind it.
#[test]
fn the_order_of_16_for_the_writer() {
    let mut tally = Tally::default();
    for edition in Edition::BOTH {
        let nodes = |last| vec![entries_with(&[1]), entries_with(&[1, 2, last])];
        for (last, repeated) in [(1, Some(repeat(1, 2))), (3, None)] {
            let plan = plan_of(edition, nodes(last));
            let (rows, entries, number) = (plan.rows(), plan.entries(), edition.number());
            let length = contents_end(2) + 4 * entry_length(edition);
            let mut write = |edition, rows: &[Row], entries: &[Entry], room| {
                compare::write(&mut tally, edition, rows, entries, room).err()
            };
            assert_eq!(write(number, &rows, &entries, length), repeated);
            for room in [0, length - 1] {
                let short = repeated.or(Some(PLAIN(BUFFER)));
                assert_eq!(write(number, &rows, &entries, room), short);
            }
            assert_eq!(write(0, &rows, &entries, length), Some(PLAIN(OPENING)));
            assert_eq!(write(3, &rows, &entries, length), Some(PLAIN(OPENING)));
            assert_eq!(write(number, &[], &entries, length), Some(PLAIN(COUNT)));
            let mut wrong = rows.clone();
            wrong[1].levels = 0;
            let levels = Some(Refusal::at_row(ROW, 1));
            assert_eq!(write(number, &wrong, &entries, length), levels);
            let fewer = write(number, &rows, &entries[..3], length);
            assert_eq!(fewer, Some(PLAIN(LENGTH)));
            let more = [entries.as_slice(), &[GOOD]].concat();
            let more = write(number, &rows, &more, 999);
            assert_eq!(more, Some(PLAIN(LENGTH)));
            // With one entry moved to the first node, number 1 is there twice.
            let mut moved = rows.clone();
            (moved[0].entries, moved[1].entries) = (2, 2);
            let answer = write(number, &moved, &entries, length);
            assert_eq!(answer, Some(repeat(0, 1)));
        }
    }
}

/// The memory of a lent session: 4, then a broken field of any entry, then 16,
/// all before the operation's own checks.
#[test]
fn the_order_of_16_in_a_lent_session() {
    let mut tally = Tally::default();
    let second = Edition::Second;
    for (from, to) in [(0, 1), (0, 3), (2, 3)] {
        let mut entries = entries_with(&[5, 6, 7, 8]);
        entries[to].number = entries[from].number;
        assert_no_session(&mut tally, &entries, repeat(0, to));
        for (word, wrong) in [(0, 0), (0, 65), (1, 65), (1, u32::MAX)] {
            let mut words = unchecked::session(3, &entries);
            words[word] = wrong;
            let answer = Both::of(&words).step(&mut tally, &Op::Map, 0);
            assert_eq!(answer, Err(Refusal::at_row(ROW, 0)));
        }
        // A shorter list may leave the repeat out.
        let mut words = unchecked::session(3, &entries);
        words[1] = to as u32;
        let answer = Both::of(&words).step(&mut tally, &Op::Time(0, 0, 0), 0);
        assert!(answer.is_ok());
        for at in 0..4 {
            for (fault, number) in Fault::ALL {
                let mut broken = entries.clone();
                fault.put(second, &mut broken[at]);
                assert_no_session(&mut tally, &broken, Refusal::at_entry(number, 0, at));
            }
        }
    }
    for number in [KIND, TICKS, JITTER] {
        assert_eq!(tally.met(number), 12 * 15, "{tally}");
    }
    assert_eq!(tally.met(REPEAT), 3 * 15, "{tally}");
}

/// Full and nearly full sessions: each number of another entry at each position,
/// its own, and a new one.
#[test]
fn each_number_at_each_position() {
    let (mut rng, mut tally) = (rng(516), Tally::default());
    for count in [1, 2, 63, 64] {
        let numbers = different(&mut rng, count);
        let words = unchecked::session(3, &entries_with(&numbers));
        let new = (0..).find(|number| !numbers.contains(number));
        let new = new.expect("there are more numbers than entries");
        for position in 0..=count {
            for &number in numbers.iter().chain([&new]) {
                let entry = Entry {
                    number,
                    kind: SECTION,
                    ..GOOD
                };
                let held = numbers.iter().position(|held| *held == number);
                let mut both = Both::of(&words);
                let answer = both.step(&mut tally, &Op::Insert(position, entry), 0);
                let due = match (count, held) {
                    (64, _) => Some(PLAIN(FULL)),
                    (_, Some(_)) => Some(repeat(0, position)),
                    _ => None,
                };
                assert_eq!(answer.err(), due);
                let mut both = Both::of(&words);
                let answer = both.step(&mut tally, &Op::Replace(position, entry), 0);
                let due = match held {
                    _ if position == count => Some(PLAIN(POSITION)),
                    Some(at) if at != position => Some(repeat(0, position)),
                    _ => None,
                };
                assert_eq!(answer.err(), due);
                if due.is_none() {
                    // It is held now, and no more the one before it.
                    let again = both.step(&mut tally, &Op::Insert(0, entry), 0);
                    let due = match count {
                        64 => PLAIN(FULL),
                        _ => repeat(0, 0),
                    };
                    assert_eq!(again, Err(due));
                }
            }
        }
    }
    say(format!("each number at each position: {tally}"));
    assert!(tally.met(REPEAT) > 8_000, "{tally}");
    assert!(tally.accepted() > 300, "{tally}");
}

/// In a session 12 and 13 come before 7, 8, 14 and 16, in this order.
#[test]
fn the_order_of_16_for_insert_and_replace() {
    let mut tally = Tally::default();
    for count in [1, 5, 63, 64] {
        let held = from_one(vec![GOOD; count]);
        let words = unchecked::session(3, &held);
        for position in [0, count / 2, count - 1, count, count + 1, usize::MAX] {
            // The number of an entry that is not at the position, if there is one.
            let other = held.iter().enumerate().find(|(at, _)| *at != position);
            let Some((_, &other)) = other else {
                continue;
            };
            for bits in 0..8 {
                let mut entry = other;
                let mut number = REPEAT;
                for (which, (fault, of)) in Fault::ALL.into_iter().enumerate().rev() {
                    if bits >> which & 1 == 1 {
                        fault.put(Edition::Second, &mut entry);
                        number = of;
                    }
                }
                let own = Refusal::at_entry(number, 0, position);
                let inserted = match (position, count) {
                    _ if position > count => PLAIN(POSITION),
                    (_, 64) => PLAIN(FULL),
                    _ => own,
                };
                let mut both = Both::of(&words);
                let op = Op::Insert(position, entry);
                assert_eq!(both.step(&mut tally, &op, 0), Err(inserted), "{op:?}");
                let replaced = match position >= count {
                    true => PLAIN(POSITION),
                    false => own,
                };
                let op = Op::Replace(position, entry);
                assert_eq!(both.step(&mut tally, &op, 0), Err(replaced), "{op:?}");
                assert_eq!(both.words(), &words);
            }
        }
    }
    for number in [POSITION, FULL, KIND, TICKS, JITTER, REPEAT] {
        assert!(tally.met(number) >= 15, "{number}: {tally}");
    }
}

/// A number comes again once it was removed or replaced, and not before.
#[test]
fn a_number_that_is_gone_may_come_again() {
    let (mut rng, mut tally) = (rng(517), Tally::default());
    for count in [1, 2, 5, 63, 64] {
        let numbers = different(&mut rng, count);
        for at in 0..count {
            let held = entries_with(&numbers);
            let mut both = Both::of(&unchecked::session(3, &held));
            let mut step = |op| both.step(&mut tally, &op, 0);
            let changed = Ok(Reply::Changed);
            assert_eq!(step(Op::Remove(at)), changed);
            let to = rng.count(0, count - 1);
            assert_eq!(step(Op::Insert(to, held[at])), changed);
            let due = match count {
                64 => PLAIN(FULL),
                _ => repeat(0, count),
            };
            assert_eq!(step(Op::Insert(count, held[at])), Err(due));
            // Its own number, with other fields.
            assert_eq!(step(Op::Replace(to, held[at].blocked(7))), changed);
            let new = (0..).find(|number| !numbers.contains(number));
            let new = Entry {
                number: new.expect("there are more numbers than entries"),
                ..GOOD
            };
            assert_eq!(step(Op::Replace(to, new)), changed);
            assert_eq!(step(Op::Replace(to, held[at])), changed);
            assert_eq!(step(Op::Remove(to)), changed);
            assert_eq!(step(Op::Insert(0, new)), changed);
        }
    }
    assert!(tally.met(REPEAT) >= 71, "{tally}");
}

/// The file's 16 comes before 2, 15 and 10 of a conversion, which leaves the
/// buffer as it was; without the repeat these are met.
#[test]
fn conversions_refuse_repeats_first() {
    let (mut rng, mut ways) = (rng(518), Ways::default());
    for _ in 0..times(300) {
        let late = plans::late(&mut rng);
        let on_time = in_edition(&plans::punctual(late.clone()), Edition::Second);
        let first = plans::punctual(late.clone());
        for plan in [late, on_time, first] {
            let good = encode(&plan).expect("each number once");
            let rows = (0..plan.nodes.len()).filter(|&row| plan.nodes[row].entries.len() > 1);
            let row = rng.pick(&rows.collect::<Vec<usize>>());
            let mut wrong = plan.clone();
            let entries = &mut wrong.nodes[row].entries;
            let [from, to] = repeat_places(&mut rng, entries.len());
            entries[to].number = entries[from].number;
            let wrong = unchecked::file(&wrong);
            for from in Edition::BOTH {
                for room in [0, good.len() - 1, longest(from.other())] {
                    let before = random(&mut rng, room);
                    let answer = convert(&mut ways, from, &wrong, &before);
                    assert_eq!(answer, Err(repeat(row, to)));
                    let _ = convert(&mut ways, from, &good, &before);
                }
            }
        }
    }
    say(format!("conversions of repeats: {ways}"));
    for way in [&ways.forward, &ways.back] {
        assert_eq!(way.met(REPEAT), 9 * times(300), "{way}");
        assert!(way.met(OPENING) >= 3 * times(300), "{way}");
        assert!(way.met(BUFFER) >= times(300), "{way}");
    }
    assert_eq!(ways.back.met(JITTER_LOST), 3 * times(300), "{ways}");
}

/// Every call that fills a buffer leaves it as it was.
#[test]
fn refused_plans_keep_every_buffer() {
    let mut tally = Tally::default();
    for edition in Edition::BOTH {
        let plan = plan_of(edition, vec![entries_with(&[3, 4, 3])]);
        let file = unchecked::file(&plan);
        for row_room in [0, 1, 5] {
            for word_room in [0, 17, 18, 99] {
                compare::read(&mut tally, &file, row_room, word_room);
            }
        }
        for room in [0, 2, 3, 64] {
            compare::map(&mut tally, &file, 0, room);
        }
        compare::list(&mut tally, &file);
        for room in [0, file.len() - 1, file.len(), 99] {
            let (rows, entries) = (plan.rows(), plan.entries());
            let answer = compare::write(&mut tally, edition.number(), &rows, &entries, room);
            assert_eq!(answer, Err(repeat(0, 2)));
        }
    }
    assert_eq!(tally.met(REPEAT), 2 * (12 + 4 + 4), "{tally}");
}

/// A session that is filled up with 64 different numbers maps as the same node
/// of a file, and takes no number twice on the way.
#[test]
fn sessions_filled_number_by_number() {
    let (mut rng, mut tally) = (rng(519), Tally::default());
    for _ in 0..times(30) {
        let numbers = different(&mut rng, MAX_ENTRIES);
        let node = with(entries::light(&mut rng, MAX_ENTRIES), &numbers);
        let open = Session::open(64).expect("64 is a level count");
        let mut both = Both::of(&oracle::lent::words_of(&open));
        for (at, entry) in node.iter().enumerate() {
            let done = both.step(&mut tally, &Op::Insert(at, *entry), 0);
            assert_eq!(done, Ok(Reply::Changed));
            if at < MAX_ENTRIES - 1 {
                let twice = Entry {
                    number: rng.pick(&node[..=at]).number,
                    ..*entry
                };
                let to = rng.count(0, at + 1);
                let refused = both.step(&mut tally, &Op::Insert(to, twice), 0);
                assert_eq!(refused, Err(repeat(0, to)));
            }
        }
        both.map(&mut tally);
    }
    assert_eq!(tally.met(REPEAT), 63 * times(30), "{tally}");
}
