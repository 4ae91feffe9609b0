//! Counts and lengths that would be valid if truncated to 8, 16 or 32 bits, and
//! numbers at the limits.

use oracle::cases;
use oracle::compare;
use oracle::compare::session::Both;
use oracle::ffi;
use oracle::file::{contents_end, encode, entry_length};
use oracle::gen::buffers::known;
use oracle::gen::lent::sound;
use oracle::gen::places::{
    full_plan, offset_faults, put_entry, put_words, row_faults, with_offset, with_row,
};
use oracle::lent::words_of;
use oracle::listing::{list, MAX_INPUT};
use oracle::model::{Edition, Entry, Plan, Row, MAX_ENTRIES, MAX_NODES, MAX_TICKS};
use oracle::options::rng;
use oracle::refusal::{Refusal, COUNT, LENGTH, NO_NODE, OFFSET, OPENING, POSITION, ROW};
use oracle::session::{Op, Session};
use oracle::tally::Tally;
use oracle::words::{self, ENTRY_WORDS};

/// What truncation to 8, 16 or 32 bits loses.
const CUTS: [usize; 3] = [1 << 8, 1 << 16, 1 << 32];

/// Rows without entries whose numbers rise.
fn empty_rows(count: usize) -> Vec<Row> {
    (0..count)
        .map(|number| Row {
            number: number as u16,
            levels: 1,
            entries: 0,
        })
        .collect()
}

/// Bytes that hold every plan file.
const ROOM: usize = 49_416;

/// Too many rows; truncated, some of the counts would be valid.
#[test]
fn rows_for_the_writer() {
    let mut tally = Tally::default();
    let mut rows = empty_rows(65_536);
    rows.extend(empty_rows(32));
    for count in [33, 256, 257, 288, 512, 65_535, 65_536, 65_537, 65_568] {
        for edition in [1, 2] {
            let answer = compare::write(&mut tally, edition, &rows[..count], &[], ROOM);
            assert_eq!(answer, Err(Refusal::plain(COUNT)), "{count} rows");
        }
    }
}

/// Numbers of editions that do not exist; truncated, some would be valid. Check
/// 2 comes before 3.
#[test]
fn editions_for_the_writer() {
    let mut tally = Tally::default();
    let rows = empty_rows(2);
    for edition in 1..=2 {
        let answer = compare::write(&mut tally, edition, &rows, &[], ROOM);
        assert_eq!(answer, Ok(contents_end(2)), "{edition}");
    }
    let near = [0, 3, 4, 0x31, 0x32, 255];
    let cut = [1 << 8, 1 << 16, 1 << 24, 1 << 31].into_iter();
    let cut = cut.flat_map(|high| [high, high + 1, high + 2]);
    for edition in near.into_iter().chain(cut).chain([u32::MAX]) {
        for rows in [&rows[..], &[], &[rows[0]; 33]] {
            for room in [0, ROOM] {
                let answer = compare::write(&mut tally, edition, rows, &[], room);
                assert_eq!(answer, Err(Refusal::plain(OPENING)), "{edition}");
            }
        }
    }
}

/// 256 and 65,536 entries too many, and as many words too many; 256 entries too
/// few, and no entries.
#[test]
fn entries_for_the_writer() {
    let mut tally = Tally::default();
    for plan in plans(320) {
        let (edition, rows) = (plan.edition.number(), plan.rows());
        for more in [256, 65_536] {
            let mut entries = plan.entries();
            entries.resize(entries.len() + more, entries[0]);
            let answer = compare::write(&mut tally, edition, &rows, &entries, ROOM);
            assert_eq!(answer, Err(Refusal::plain(LENGTH)), "{more} more");
            let mut words = words::of_entries(&plan.entries());
            words.resize(words.len() + more, 1);
            let mut file = known(ROOM);
            let answer = ffi::write(edition, &words::of_rows(&rows), &words, &mut file);
            assert_eq!(answer, Err(Refusal::plain(LENGTH)), "{more} words more");
            assert_eq!(file, known(ROOM));
        }
        // Five words an entry, as before entries had a J.
        let words = &words::of_entries(&plan.entries())[..plan.entries().len() * 5];
        let answer = ffi::write(edition, &words::of_rows(&rows), words, &mut known(ROOM));
        assert_eq!(answer, Err(Refusal::plain(LENGTH)));
        for given in [plan.entries().len().saturating_sub(256), 0] {
            let entries = &plan.entries()[..given];
            let answer = compare::write(&mut tally, edition, &rows, entries, ROOM);
            assert_eq!(answer, Err(Refusal::plain(LENGTH)), "{given} entries");
        }
    }
}

/// Case P and a full plan, in both editions.
fn plans(part: u64) -> [Plan; 4] {
    let [first, second] = Edition::BOTH.map(|edition| full_plan(&mut rng(part), edition));
    let p = || vec![cases::p()];
    [Plan::first(p()), Plan::second(p()), first, second]
}

/// Plans padded with zeros; truncated, most of the lengths would be right.
#[test]
fn padded_files() {
    let mut tally = Tally::default();
    let files = plans(325).map(|plan| encode(&plan).unwrap());
    assert_eq!(files.each_ref().map(Vec::len), [76, 88, 41_224, 49_416]);
    for more in [1, 256, 65_536, 131_072, 1 << 24] {
        for (file, number) in files.iter().zip([7, 7, 100, 100]) {
            let mut file = file.clone();
            file.resize(file.len() + more, 0);
            let due = Refusal::plain(LENGTH);
            assert_eq!(compare::check(&mut tally, &file), Err(due), "{more} more");
            compare::read(&mut tally, &file, MAX_NODES, 12_288);
            compare::map(&mut tally, &file, number, MAX_ENTRIES);
            compare::list(&mut tally, &file);
            assert_eq!(list(&file), format!("{due}\n"));
        }
    }
}

/// In a file that is far too long, a fault in a row is reported and a fault in
/// an entry is not: 6 is checked between them.
#[test]
fn faults_before_the_length() {
    for edition in Edition::BOTH {
        faults_before_the_length_in(&full_plan(&mut rng(321), edition));
    }
}

fn faults_before_the_length_in(plan: &Plan) {
    let mut tally = Tally::default();
    let long = |mut file: Vec<u8>| {
        file.resize(MAX_INPUT + 1, 0);
        file
    };
    for index in 0..MAX_NODES {
        let bodies = index * MAX_ENTRIES * entry_length(plan.edition);
        let required = contents_end(MAX_NODES) + bodies;
        let row = row_faults(plan.rows()[index], None)[0];
        let offset = offset_faults(required as u32)[16];
        let mut entry = plan.nodes[index].entries[63];
        entry.kind = 0;
        let mut file = encode(plan).unwrap();
        put_entry(plan.edition, &mut file, index, 63, &entry);
        for (file, due) in [
            (with_row(plan, index, &row), Refusal::at_row(ROW, index)),
            (
                with_offset(plan, index, offset),
                Refusal::at_row(OFFSET, index),
            ),
            (file, Refusal::plain(LENGTH)),
        ] {
            let file = long(file);
            assert_eq!(compare::check(&mut tally, &file), Err(due));
            compare::list(&mut tally, &file);
            assert_eq!(list(&file), format!("{due}\n"));
        }
    }
}

/// Long buffers whose lengths would be 0 or too short if truncated.
#[test]
fn long_buffers() {
    let mut tally = Tally::default();
    for plan in plans(322) {
        let file = encode(&plan).unwrap();
        let (rows, entries) = (plan.rows(), plan.entries());
        let words = entries.len() * ENTRY_WORDS;
        for more in [256, 65_536] {
            for (row_room, word_room) in [
                (more, words),
                (rows.len(), more.max(words)),
                (more, 65_536),
                (rows.len(), ENTRY_WORDS * 65_536),
                (rows.len() - 1, 65_536),
                (more, words - 1),
            ] {
                compare::read(&mut tally, &file, row_room, word_room);
            }
            compare::map(&mut tally, &file, plan.nodes[0].number, more);
            let edition = plan.edition.number();
            let _ = compare::write(&mut tally, edition, &rows, &entries, more);
        }
        let text = list(&file);
        for room in [65_536, 131_072, 1 << 24] {
            compare::list_into(&mut tally, &file, text.as_bytes(), room);
        }
    }
}

/// Check 9 (no such node) comes before 10 (short buffer).
#[test]
fn no_such_node_and_no_room() {
    for edition in Edition::BOTH {
        let mut tally = Tally::default();
        let file = encode(&full_plan(&mut rng(323), edition)).unwrap();
        for number in [0, 99, 101, 256 + 100, u16::MAX] {
            for room in [0, 1, 63, 64] {
                compare::map(&mut tally, &file, number, room);
            }
        }
        assert_eq!(tally.met(NO_NODE), 20);
        let answer = ffi::map(&file, 0, &mut []);
        assert_eq!(answer, Err(Refusal::plain(NO_NODE)));
    }
}

/// Positions that would be in the list if truncated.
#[test]
fn positions_in_a_session() {
    let (mut rng, mut tally) = (rng(324), Tally::default());
    let good = Entry::task(1, 1, 900, 900);
    for count in [1, 32, 63, 64] {
        let words = sound(&mut rng, count);
        let mut both = Both::of(&words);
        for far in CUTS {
            for position in [far, far + count / 2, far + count - 1] {
                for op in [
                    Op::Insert(position, good),
                    Op::Remove(position),
                    Op::Replace(position, good),
                    Op::Time(0, position, 0),
                    Op::Time(position, position, position),
                    Op::Time(0, position, position),
                    Op::MapTime(position),
                ] {
                    let answer = both.step(&mut tally, &op, 0);
                    assert_eq!(answer, Err(Refusal::plain(POSITION)), "{op:?}");
                }
            }
        }
        for room in [256, 65_536] {
            let _ = both.step(&mut tally, &Op::Map, room);
        }
        let _ = both.step(&mut tally, &Op::MapTime(count - 1), 0);
        assert_eq!(both.words(), &words);
    }
}

/// Numbers at and near both ends of every limit.
const TICKS: [u64; 12] = [
    0,
    1,
    2,
    255,
    65_536,
    MAX_TICKS - 2,
    MAX_TICKS - 1,
    MAX_TICKS,
    MAX_TICKS + 1,
    (1 << 30) + 1,
    (1 << 31) + 1,
    u32::MAX as u64,
];

/// Every combination of these as C, T, D and B, in files of both editions, for
/// the writer and in a session.
#[test]
fn ticks_at_the_limits() {
    let mut tally = Tally::default();
    let mut accepted = 0;
    let mut both = Both::of(&words_of(&Session::open(1).unwrap()));
    for c in TICKS {
        for t in TICKS {
            for d in TICKS {
                for b in TICKS {
                    let entry = Entry::task(1, c, t, d).blocked(b);
                    accepted += u64::from(ticks(&mut tally, &mut both, entry));
                }
            }
        }
    }
    assert_eq!(accepted, 84 * 8);
}

/// Whether the entry is accepted; compares checking, reading, mapping, listing,
/// writing and inserting it, putting it in the place of another, and lending a
/// session that holds it.
fn ticks(tally: &mut Tally, both: &mut Both, entry: Entry) -> bool {
    let [first, second] = Edition::BOTH.map(|edition| in_a_file(tally, edition, entry));
    let (checked, written) = second;
    if entry.j == 0 {
        assert_eq!(first, second, "{entry:?}");
    } else {
        assert!(!first.1, "{entry:?}: the first edition has no room for J");
    }
    let inserted = both.step(tally, &Op::Insert(0, entry), 0).is_ok();
    if inserted {
        let _ = both.step(tally, &Op::Time(0, 0, 0), 0);
        let _ = both.step(tally, &Op::Map, 1);
        let _ = both.step(tally, &Op::MapTime(0), 0);
        both.step(tally, &Op::Remove(0), 0).expect("it is there");
    }
    let mut held = words_of(&Session::holding(1, &[Entry::task(1, 1, 1, 1)]).unwrap());
    let replacing = Op::Replace(0, entry);
    let replaced = Both::of(&held).step(tally, &replacing, 0).is_ok();
    put_words(&mut held, 0, &entry);
    let lent = Both::of(&held).step(tally, &Op::SetLevels(2), 0).is_ok();
    assert_eq!(
        [written, inserted, replaced, lent],
        [checked; 4],
        "{entry:?}"
    );
    checked
}

/// Whether a file of this entry is accepted, and whether the entry is written;
/// compares checking, reading, mapping and listing too.
fn in_a_file(tally: &mut Tally, edition: Edition, entry: Entry) -> (bool, bool) {
    let nodes = vec![cases::node(1, &[Entry::task(1, 1, 1, 1)])];
    let mut file = encode(&Plan { edition, nodes }).unwrap();
    file[16..].copy_from_slice(&oracle::file::entry_bytes(edition, &entry));
    let rows = [cases::node(1, &[entry]).row()];
    let checked = compare::check(tally, &file).is_ok();
    compare::read(tally, &file, 1, ENTRY_WORDS);
    compare::map(tally, &file, 7, 1);
    compare::list(tally, &file);
    let written = compare::write(tally, edition.number(), &rows, &[entry], file.len());
    (checked, written.is_ok())
}

/// Every combination of C, D and J around their limits: J is accepted exactly up
/// to D - C.
#[test]
fn jitter_at_the_limits() {
    let mut tally = Tally::default();
    let mut both = Both::of(&words_of(&Session::open(1).unwrap()));
    let top = MAX_TICKS;
    let (mut accepted, mut refused) = (0, 0);
    for (c, d) in [
        (1, 1),
        (1, 2),
        (3, 10),
        (9, 10),
        (10, 10),
        (1, 65_537),
        (1, top),
        (top / 2, top),
        (top - 1, top),
        (top, top),
    ] {
        let near = [0, 1, (d - c).saturating_sub(1), d - c, d - c + 1, d - c + 2];
        let far = [d, d + 1, top, top + 1, 1 << 31, u64::from(u32::MAX)];
        for j in near.into_iter().chain(far) {
            for t in [d, top] {
                let entry = Entry::task(1, c, t, d).jittered(j);
                let inside = ticks(&mut tally, &mut both, entry);
                assert_eq!(inside, j <= d - c, "{entry:?}");
                accepted += u64::from(inside);
                refused += u64::from(!inside);
            }
        }
    }
    assert!(accepted > 60 && refused > 120, "{accepted} {refused}");
    assert!(tally.met(14) > refused, "{tally}");
}
