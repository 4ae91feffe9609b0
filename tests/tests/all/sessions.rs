//! Sequences of session operations, compared with changes to a plain list.

use oracle::cases;
use oracle::ffi;
use oracle::gen::buffers::{known, room};
use oracle::gen::ops::{levels, next_op, Course};
use oracle::model::Entry;
use oracle::options::{rng, times};
use oracle::refusal::Refusal;
use oracle::rng::Rng;
use oracle::session::{Op, Reply, Session};
use oracle::tally::Tally;
use oracle::timing::Timing;

/// The entries after an accepted change, made by cutting and joining lists.
fn changed(entries: &[Entry], op: &Op) -> Vec<Entry> {
    match *op {
        Op::Open(_) => Vec::new(),
        Op::Insert(at, entry) => [&entries[..at], &[entry], &entries[at..]].concat(),
        Op::Remove(at) => [&entries[..at], &entries[at + 1..]].concat(),
        Op::Replace(at, entry) => [&entries[..at], &[entry], &entries[at + 1..]].concat(),
        Op::SetLevels(_) | Op::Map | Op::Time(..) | Op::MapTime(_) => entries.to_vec(),
    }
}

/// The map of the same node in a file, by the proved library.
fn mapped_from_file(session: &Session, buffer: &mut [u8]) -> Result<u8, Refusal> {
    let file = cases::file(cases::node(session.levels(), session.entries()));
    ffi::map(&file, 7, buffer).map(|used| used as u8)
}

fn step(rng: &mut Rng, session: &mut Session, course: Course, tally: &mut Tally) {
    let op = next_op(rng, session, course);
    let before = session.clone();
    let lent = known(room(rng, before.entries().len()));
    let mut buffer = lent.clone();
    let answer = tally.note(session.apply(&op, &mut buffer));
    let Ok(reply) = answer else {
        assert_eq!(*session, before, "{op:?}");
        assert_eq!(buffer, lent, "{op:?}");
        if op == Op::Map {
            let from_file = mapped_from_file(session, &mut buffer);
            assert_eq!(from_file.err(), answer.err());
        }
        return;
    };
    assert_eq!(session.entries(), changed(before.entries(), &op));
    match (op, reply) {
        (Op::Open(levels) | Op::SetLevels(levels), Reply::Changed) => {
            assert_eq!(usize::from(session.levels()), levels);
            assert_eq!(buffer, lent);
        }
        (Op::Map, Reply::Mapped(used)) => {
            tally.map(used);
            let mut from_file = lent.clone();
            assert_eq!(mapped_from_file(session, &mut from_file), Ok(used));
            assert_eq!(buffer, from_file);
        }
        (Op::Time(..), Reply::Timed(_))
        | (Op::MapTime(_), Reply::MapTime(_))
        | (_, Reply::Changed) => {
            assert_eq!(session.levels(), before.levels());
            assert_eq!(buffer, lent);
        }
        _ => panic!("{op:?} answered {reply:?}"),
    }
}

fn walk(rng: &mut Rng, course: Course, steps: u64, tally: &mut Tally) -> usize {
    let mut session = loop {
        if let Ok(session) = tally.note(Session::open(levels(rng))) {
            break session;
        }
    };
    let mut longest = 0;
    for _ in 0..steps {
        step(rng, &mut session, course, tally);
        longest = longest.max(session.entries().len());
    }
    longest
}

#[test]
fn short_sessions() {
    let mut tally = Tally::default();
    let mut rng = rng(90);
    for _ in 0..times(300) {
        walk(&mut rng, Course::Short, 60, &mut tally);
    }
    for number in [4, 7, 8, 10, 11, 12, 14, 16] {
        assert!(tally.met(number) > times(50), "{tally}");
    }
    assert!(tally.accepted() > times(5_000), "{tally}");
    tally.assert_maps(times(100), times(100));
}

#[test]
fn sessions_that_fill_up() {
    let mut tally = Tally::default();
    let mut rng = rng(91);
    for _ in 0..times(20) {
        let longest = walk(&mut rng, Course::Growing, 600, &mut tally);
        assert_eq!(longest, 64);
    }
    assert!(tally.met(13) > times(100), "{tally}");
    tally.assert_maps(times(40), 0);
}

#[test]
fn cases_built_step_by_step() {
    for node in [cases::p(), cases::h(), cases::u(), cases::v(), cases::e()] {
        let mut session = Session::open(usize::from(node.levels)).unwrap();
        // From the last entry to the first, each inserted before the others.
        for entry in node.entries.iter().rev() {
            session.insert(0, *entry).unwrap();
        }
        assert_eq!(session.entries(), node.entries);
        let (mut mine, mut from_file) = (known(5), known(5));
        let answer = session.map(&mut mine);
        assert_eq!(answer, mapped_from_file(&session, &mut from_file));
        assert!(answer.is_ok());
        assert_eq!(mine, from_file);
    }
}

#[test]
fn timing_in_named_groups() {
    let mut session = Session::open(2).unwrap();
    for (position, entry) in cases::v().entries.into_iter().enumerate() {
        session.insert(position, entry).unwrap();
    }
    let on_time = |time, rounds| Ok(Timing::OnTime { time, rounds });
    assert_eq!(session.time(0, 1, 1), on_time(16, 2));
    assert_eq!(session.time(1, 1, 1), on_time(18, 3));
    assert_eq!(session.time(0, 0, 0), on_time(1, 1));
    assert_eq!(session.time(0, 1, 0), on_time(5, 1));
}
