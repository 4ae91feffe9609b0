//! The same work in plain Rust, to compare the speed of the proved library
//! with. It makes the same checks and the same search, with one division per
//! term and every round.
//!
//! It is written as one would write it by hand, with structs and slices. Only
//! its time is measured, and its answers are compared. [`crate::tuned`] is the
//! other program to compare with.

mod convert;
pub mod session;

pub use convert::{convert_back, convert_forward};

use std::io::Write;

/// Most entries of a node.
const MOST: usize = 64;
/// Largest period and blocking.
const TICKS: u32 = 1_000_000_000;

/// An entry as the search takes it.
#[derive(Clone, Copy, Default)]
struct Entry {
    number: u16,
    kind: u8,
    r: u32,
    c: u32,
    t: u32,
    d: u32,
    b: u32,
    j: u32,
}

/// A node, read from a file.
struct Node {
    number: u16,
    levels: u8,
    count: usize,
    entries: [Entry; MOST],
}

/// The word at byte `at`; the caller has checked that the file has it.
fn word(file: &[u8], at: usize) -> u32 {
    u32::from_le_bytes([file[at], file[at + 1], file[at + 2], file[at + 3]])
}

/// How many bytes an entry has, and the edition's number.
fn edition(file: &[u8]) -> Option<(usize, u32)> {
    match file.get(..4)? {
        b"LMP1" => Some((20, 1)),
        b"LMP2" => Some((24, 2)),
        _ => None,
    }
}

/// The entry in the bytes of a file; N is 20 or 24.
fn entry<const N: usize>(bytes: &[u8; N]) -> Entry {
    Entry {
        number: u16::from_le_bytes([bytes[0], bytes[1]]),
        kind: bytes[2],
        r: u32::from(bytes[3]),
        c: word(bytes, 4),
        t: word(bytes, 8),
        d: word(bytes, 12),
        b: word(bytes, 16),
        j: if N == 24 { word(bytes, 20) } else { 0 },
    }
}

fn entry_holds(e: &Entry) -> bool {
    let kind = match e.kind {
        1 => e.r <= 15,
        2 => e.r == 0,
        _ => false,
    };
    let times = 1 <= e.c && e.c <= e.d && e.d <= e.t && e.t <= TICKS && e.b <= TICKS;
    kind && times && e.j <= e.d - e.c
}

/// Marks of the numbers that a node's entries have, by their low bits. A mark
/// that is met means that an earlier entry has the same low bits; only then are
/// the earlier entries looked at. Each node has another mark, so the table is
/// cleared once.
struct Marks<const SLOTS: usize>([u8; SLOTS]);

impl<const SLOTS: usize> Marks<SLOTS> {
    fn new() -> Marks<SLOTS> {
        Marks([0; SLOTS])
    }

    /// Whether the numbers of these entries all differ.
    fn differ<E>(&mut self, mark: u8, entries: &[E], number: fn(&E) -> u16) -> bool {
        for (at, entry) in entries.iter().enumerate() {
            let own = number(entry);
            let slot = &mut self.0[usize::from(own) % SLOTS];
            if *slot == mark && entries[..at].iter().any(|e| number(e) == own) {
                return false;
            }
            *slot = mark;
        }
        true
    }
}

/// Whether all entries of the bodies are within the limits, and the numbers of
/// each node's entries differ.
fn bodies_hold<const N: usize>(rows: &[[u8; 8]], bodies: &[u8]) -> bool {
    let number = |bytes: &[u8; N]| u16::from_le_bytes([bytes[0], bytes[1]]);
    let mut marks = Marks::<2048>::new();
    let mut rest = bodies.as_chunks::<N>().0;
    for (mark, row) in (1..).zip(rows) {
        let (node, behind) = rest.split_at(usize::from(row[3]));
        if !node.iter().all(|bytes| entry_holds(&entry(bytes))) {
            return false;
        }
        if !marks.differ(mark, node, number) {
            return false;
        }
        rest = behind;
    }
    true
}

/// Whether the file is accepted.
#[inline(never)]
pub fn check(file: &[u8]) -> bool {
    if file.len() < 8 {
        return false;
    }
    let Some((length, _)) = edition(file) else {
        return false;
    };
    let nodes = usize::from(file[4]);
    if !(1..=32).contains(&nodes) || file[5..8] != [0; 3] || file.len() < 8 + nodes * 8 {
        return false;
    }
    let mut least = 0;
    let mut required = 8 + nodes * 8;
    let (contents, bodies) = file[8..].split_at(nodes * 8);
    let rows = contents.as_chunks::<8>().0;
    for row in rows {
        let number = u32::from(u16::from_le_bytes([row[0], row[1]]));
        if number < least || !(1..=64).contains(&row[2]) || row[3] > 64 {
            return false;
        }
        if word(row, 4) as usize != required {
            return false;
        }
        least = number + 1;
        required += usize::from(row[3]) * length;
    }
    if file.len() != required {
        return false;
    }
    if length == 20 {
        bodies_hold::<20>(rows, bodies)
    } else {
        bodies_hold::<24>(rows, bodies)
    }
}

/// Reads an accepted file into words, and returns how many rows and entries,
/// and the edition.
#[inline(never)]
pub fn read(file: &[u8], rows: &mut [u32], entries: &mut [u32]) -> Option<(usize, usize, u32)> {
    if !check(file) {
        return None;
    }
    let (length, edition) = edition(file)?;
    let nodes = usize::from(file[4]);
    let bodies = &file[8 + nodes * 8..];
    let count = bodies.len() / length;
    if rows.len() < nodes || entries.len() < count * 6 {
        return None;
    }
    for (row, bytes) in rows
        .iter_mut()
        .zip(file[8..8 + nodes * 8].as_chunks::<8>().0)
    {
        *row = word(bytes, 0);
    }
    if edition == 1 {
        read_bodies::<20>(bodies, entries);
    } else {
        read_bodies::<24>(bodies, entries);
    }
    Some((nodes, count, edition))
}

/// Reads each entry into six words; in the first edition the last one is 0.
fn read_bodies<const N: usize>(bodies: &[u8], entries: &mut [u32]) {
    let entries = entries.as_chunks_mut::<6>().0;
    for (target, bytes) in entries.iter_mut().zip(bodies.as_chunks::<N>().0) {
        for (at, word) in target.iter_mut().enumerate() {
            *word = if at * 4 < N {
                self::word(bytes, at * 4)
            } else {
                0
            };
        }
    }
}

/// How many entries good rows count.
fn count_entries(rows: &[u32]) -> Option<usize> {
    if !(1..=32).contains(&rows.len()) {
        return None;
    }
    let (mut least, mut count) = (0, 0);
    for row in rows {
        let (number, levels, entries) = (row & 0xFFFF, row >> 16 & 0xFF, row >> 24);
        if number < least || !(1..=64).contains(&levels) || entries > 64 {
            return None;
        }
        least = number + 1;
        count += entries as usize;
    }
    Some(count)
}

/// Writes words as a file of an edition, and returns its length.
#[inline(never)]
pub fn write(edition: u32, rows: &[u32], words: &[u32], file: &mut [u8]) -> Option<usize> {
    let (opening, length) = match edition {
        1 => (b"LMP1", 20),
        2 => (b"LMP2", 24),
        _ => return None,
    };
    let count = count_entries(rows)?;
    let entries = words.as_chunks::<6>().0;
    let writable = |words: &[u32; 6]| {
        let e = session::entry(words);
        entry_holds(&e) && (edition == 2 || e.j == 0)
    };
    if words.len() != count * 6 {
        return None;
    }
    let mut marks = Marks::<1024>::new();
    let mut rest = entries;
    for (mark, row) in (1..).zip(rows) {
        let (node, behind) = rest.split_at((row >> 24) as usize);
        if !node.iter().all(writable) || !marks.differ(mark, node, session::number) {
            return None;
        }
        rest = behind;
    }
    let bodies = 8 + rows.len() * 8;
    let file = file.get_mut(..bodies + count * length)?;
    file[..4].copy_from_slice(opening);
    file[4..8].copy_from_slice(&[rows.len() as u8, 0, 0, 0]);
    let mut offset = bodies as u32;
    for (target, row) in file[8..bodies].as_chunks_mut::<8>().0.iter_mut().zip(rows) {
        target[..4].copy_from_slice(&row.to_le_bytes());
        target[4..].copy_from_slice(&offset.to_le_bytes());
        offset += (row >> 24) * length as u32;
    }
    if edition == 1 {
        write_bodies::<20>(entries, &mut file[bodies..]);
    } else {
        write_bodies::<24>(entries, &mut file[bodies..]);
    }
    Some(file.len())
}

/// Writes as many words of each entry as the edition has.
fn write_bodies<const N: usize>(entries: &[[u32; 6]], bodies: &mut [u8]) {
    for (target, words) in bodies.as_chunks_mut::<N>().0.iter_mut().zip(entries) {
        for (bytes, word) in target.as_chunks_mut::<4>().0.iter_mut().zip(words) {
            *bytes = word.to_le_bytes();
        }
    }
}

fn load(file: &[u8], row: usize) -> Node {
    let at = 8 + row * 8;
    let mut node = Node {
        number: u16::from_le_bytes([file[at], file[at + 1]]),
        levels: file[at + 2],
        count: usize::from(file[at + 3]),
        entries: [Entry::default(); MOST],
    };
    let body = word(file, at + 4) as usize;
    let entries = &mut node.entries[..node.count];
    if file[3] == b'1' {
        load_entries::<20>(&file[body..], entries);
    } else {
        load_entries::<24>(&file[body..], entries);
    }
    node
}

fn load_entries<const N: usize>(body: &[u8], entries: &mut [Entry]) {
    for (target, bytes) in entries.iter_mut().zip(body.as_chunks::<N>().0) {
        *target = entry(bytes);
    }
}

/// The demand of the entry at `i` at time `t`, in the group from `first` to
/// `last`.
#[inline]
fn demand(entries: &[Entry], first: usize, last: usize, i: usize, t: u32) -> u64 {
    let own = entries[i];
    let mut sum = u64::from(own.c) + u64::from(own.b);
    for e in &entries[..first] {
        sum += u64::from(e.c) * u64::from((t + e.j + (e.t - 1)) / e.t);
    }
    for (j, e) in entries[..=last].iter().enumerate().skip(first) {
        if j != i {
            let runs = ((t + e.j + (e.t - 1)) / e.t).min(own.r + 1);
            sum += u64::from(e.c) * u64::from(runs);
        }
    }
    sum
}

/// The completion time and the rounds of the entry at `i`, in the group from
/// `first` to `last`, or only the rounds if it is late.
fn completion(entries: &[Entry], first: usize, last: usize, i: usize) -> Result<(u32, u32), u32> {
    let own = entries[i];
    let runs: u64 = entries[..=last].iter().map(|e| u64::from(e.c)).sum();
    let mut t = u64::from(own.b) + runs;
    let limit = u64::from(own.d - own.j);
    let mut rounds = 0;
    while t <= limit {
        let now = t as u32;
        let sum = demand(entries, first, last, i, now);
        rounds += 1;
        if sum == t {
            return Ok((now, rounds));
        }
        t = sum;
    }
    Err(rounds)
}

/// One past the last entry with D - J < B + sum of C over the entries before
/// `end`, or 0.
fn start_bound(entries: &[Entry], end: usize) -> usize {
    let runs: u64 = entries[..end].iter().map(|e| u64::from(e.c)).sum();
    let late = |e: &Entry| u64::from(e.d - e.j) < u64::from(e.b) + runs;
    entries[..end].iter().rposition(late).map_or(0, |i| i + 1)
}

fn least_start(entries: &[Entry], end: usize) -> Option<usize> {
    let mut start = start_bound(entries, end);
    'starts: while start < end {
        for i in (start..end).rev() {
            if completion(entries, start, end - 1, i).is_err() {
                // Entry i is late in every group that starts later and contains
                // it.
                start = i + 1;
                continue 'starts;
            }
        }
        return Some(start);
    }
    None
}

/// The levels of a node, and how many it uses.
fn map_entries(entries: &[Entry], levels: u8) -> Option<([u8; MOST], u8)> {
    let mut ranks = [0; MOST];
    let mut end = entries.len();
    let mut groups = 0;
    while end > 0 {
        if groups >= levels {
            return None;
        }
        let start = least_start(entries, end)?;
        ranks[start..end].fill(groups);
        groups += 1;
        end = start;
    }
    for rank in &mut ranks[..entries.len()] {
        *rank = groups - *rank;
    }
    Some((ranks, groups))
}

/// Maps the node of a file with this number, and returns the levels used.
#[inline(never)]
pub fn map(file: &[u8], number: u16, levels: &mut [u8]) -> Option<usize> {
    if !check(file) {
        return None;
    }
    let row = (0..usize::from(file[4])).find(|&row| {
        let at = 8 + row * 8;
        u16::from_le_bytes([file[at], file[at + 1]]) == number
    })?;
    let node = load(file, row);
    let target = levels.get_mut(..node.count)?;
    let (map, used) = map_entries(&node.entries[..node.count], node.levels)?;
    target.copy_from_slice(&map[..node.count]);
    Some(usize::from(used))
}

/// Lists an accepted file from the start of `text`, and returns the length.
#[inline(never)]
pub fn list(file: &[u8], text: &mut [u8]) -> Option<usize> {
    list_and_tell(file, text, || ())
}

/// The same, and calls `tell` after each node.
pub fn list_and_tell(file: &[u8], text: &mut [u8], mut tell: impl FnMut()) -> Option<usize> {
    if !check(file) {
        return None;
    }
    let room = text.len();
    let mut rest = text;
    let nodes = usize::from(file[4]);
    writeln!(rest, "plan {nodes}").ok()?;
    for row in 0..nodes {
        list_node(&load(file, row), &mut rest)?;
        tell();
    }
    Some(room - rest.len())
}

fn list_node(node: &Node, rest: &mut &mut [u8]) -> Option<()> {
    let (number, levels) = (node.number, node.levels);
    let entries = &node.entries[..node.count];
    let Some((map, used)) = map_entries(entries, levels) else {
        return writeln!(rest, "node {number} no map").ok();
    };
    writeln!(rest, "node {number} levels {used} of {levels}").ok()?;
    for (i, entry) in entries.iter().enumerate() {
        let level = map[i];
        let same = |j: &usize| map[*j] == level;
        let first = (0..=i).find(same)?;
        let last = (i..node.count).rev().find(same)?;
        let (time, rounds) = completion(entries, first, last, i).ok()?;
        let number = entry.number;
        writeln!(
            rest,
            "entry {number} level {level} time {time} rounds {rounds}"
        )
        .ok()?;
    }
    Some(())
}
