//! Compares each answer of the proved library, and the contents of lent buffers
//! after the call, with the second implementation.
//!
//! Each buffer is lent with known contents, so a byte written beyond the
//! result, or by a refused call, is found.

pub mod convert;
pub mod session;

use crate::ffi;
use crate::file::{self, contents_end, entry_length};
use crate::gen::budget;
use crate::gen::buffers::known;
use crate::listing;
use crate::map::map_node;
use crate::model::{Edition, Entry, Node, Plan, Row};
use crate::refusal::{Refusal, BUFFER};
use crate::tally::Tally;
use crate::words::{self, ENTRY_WORDS};

/// Buffer lengths for a result of `needed`: 0, one too short, exact, and
/// longer.
pub fn rooms(needed: usize) -> [usize; 4] {
    [0, needed.saturating_sub(1), needed, needed + 9]
}

/// Compares the check of a file.
pub fn check(tally: &mut Tally, file: &[u8]) -> Result<(), Refusal> {
    let due = tally.note(file::check(file));
    assert_eq!(ffi::check(file), due, "check of {}", hex(file));
    due
}

/// Compares reading a file into `row_room` words for rows and `word_room` words
/// for entries.
pub fn read(tally: &mut Tally, file: &[u8], row_room: usize, word_room: usize) {
    let mut due_rows = vec![Row::default(); row_room];
    let mut due_entries = vec![Entry::default(); word_room / ENTRY_WORDS];
    let due = tally.note(file::read(file, &mut due_rows, &mut due_entries));
    let (row_count, entry_count, _) = due.unwrap_or((0, 0, Edition::First));
    let (mut rows, mut entries) = (words::known(row_room), words::known(word_room));
    let answer = ffi::read(file, &mut rows, &mut entries);
    let lent = || format!("{row_room}, {word_room} words: read of {}", hex(file));
    assert_eq!(answer, due, "{}", lent());
    let kept = begun(
        words::of_rows(&due_rows[..row_count]),
        words::known(row_room),
    );
    assert_eq!(rows, kept, "{}", lent());
    let kept = begun(
        words::of_entries(&due_entries[..entry_count]),
        words::known(word_room),
    );
    assert_eq!(entries, kept, "{}", lent());
}

/// Compares writing rows and entries into `room` bytes, in the edition with
/// this number.
pub fn write(
    tally: &mut Tally,
    edition: u32,
    rows: &[Row],
    entries: &[Entry],
    room: usize,
) -> Result<usize, Refusal> {
    let mut due_buffer = known(room);
    let due = tally.note(file::write(edition, rows, entries, &mut due_buffer));
    let mut buffer = known(room);
    let answer = ffi::write(
        edition,
        &words::of_rows(rows),
        &words::of_entries(entries),
        &mut buffer,
    );
    let lent = || format!("{room} bytes, edition {edition}: {rows:?} {entries:?}");
    assert_eq!(answer, due, "{}", lent());
    assert_eq!(buffer, due_buffer, "{}", lent());
    due
}

/// Compares mapping the node with this number into `room` bytes.
pub fn map(tally: &mut Tally, file: &[u8], number: u16, room: usize) {
    let mut due_buffer = known(room);
    let due = tally.note(map_node(file, u64::from(number), &mut due_buffer));
    tally.map(due.unwrap_or(0));
    let mut buffer = known(room);
    let answer = ffi::map(file, number, &mut buffer);
    let lent = || format!("{room} bytes: map of {number} in {}", hex(file));
    assert_eq!(answer, due.map(usize::from), "{}", lent());
    assert_eq!(buffer, due_buffer, "{}", lent());
}

/// Compares the listing of a file in buffers of each length of [`rooms`].
pub fn list(tally: &mut Tally, file: &[u8]) {
    let text = listing::list(file).into_bytes();
    for room in rooms(text.len()) {
        list_into(tally, file, &text, room);
    }
}

/// Compares the listing of a file in a buffer of `room` bytes; it must be
/// `text`.
pub fn list_into(tally: &mut Tally, file: &[u8], text: &[u8], room: usize) {
    let due = tally.note(match text.len() <= room {
        true => Ok(text.len()),
        false => Err(Refusal::plain(BUFFER)),
    });
    let mut buffer = known(room);
    let answer = ffi::list(file, &mut buffer);
    let lent = || format!("{room} bytes: listing of {}", hex(file));
    assert_eq!(answer, due, "{}", lent());
    let written = text[..due.unwrap_or(0)].to_vec();
    assert_eq!(buffer, begun(written, known(room)), "{}", lent());
}

/// Compares every call that takes a file, on any bytes.
///
/// A node whose tests would take long is neither mapped nor listed; the tally
/// counts it.
pub fn file(tally: &mut Tally, bytes: &[u8]) {
    match check(tally, bytes) {
        Ok(()) => plan(
            tally,
            &file::decode(bytes).expect("the file was accepted"),
            bytes,
        ),
        Err(_) => refused_file(tally, bytes),
    }
}

/// Every call refuses a refused file in the same way, whatever the buffers.
fn refused_file(tally: &mut Tally, bytes: &[u8]) {
    read(tally, bytes, 0, 0);
    read(tally, bytes, 8, 64);
    for (number, room) in [(7, 0), (7, 64), (0, 3)] {
        map(tally, bytes, number, room);
    }
    list(tally, bytes);
}

/// Compares every call on the file of a plan and on the plan itself.
fn plan(tally: &mut Tally, plan: &Plan, bytes: &[u8]) {
    let (rows, entries) = (plan.rows(), plan.entries());
    for row_room in rooms(rows.len()) {
        for word_room in rooms(entries.len() * ENTRY_WORDS) {
            read(tally, bytes, row_room, word_room);
        }
    }
    for room in rooms(bytes.len()) {
        let _ = write(tally, plan.edition.number(), &rows, &entries, room);
    }
    // In the other edition, and in one that does not exist.
    let other = plan.edition.other();
    let room = contents_end(rows.len()) + entries.len() * entry_length(other);
    for edition in [other.number(), 3] {
        let _ = write(tally, edition, &rows, &entries, room);
    }
    let mut short = Plan {
        nodes: Vec::new(),
        ..*plan
    };
    for node in &plan.nodes {
        let done = budget::fits(&node.entries);
        tally.node(done);
        if done {
            maps(tally, node, bytes);
            short.nodes.push(node.clone());
        }
    }
    if !short.nodes.is_empty() {
        list(tally, &file::encode(&short).expect("a part of a good plan"));
    }
}

/// Compares the map of a node of the file, and of numbers that the plan may not
/// have.
fn maps(tally: &mut Tally, node: &Node, bytes: &[u8]) {
    for room in rooms(node.entries.len()) {
        map(tally, bytes, node.number, room);
    }
    for room in [0, 64] {
        map(tally, bytes, node.number ^ 0x8000, room);
        map(tally, bytes, node.number.wrapping_add(1), room);
    }
}

/// `before` with its beginning replaced by what was written.
fn begun<T: Clone>(written: Vec<T>, before: Vec<T>) -> Vec<T> {
    let beyond = before[written.len()..].to_vec();
    [written, beyond].concat()
}

fn hex(bytes: &[u8]) -> String {
    bytes.iter().map(|byte| format!("{byte:02x}")).collect()
}
