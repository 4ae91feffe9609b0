//! What the planner answered before entries could start late: without J, and
//! with the first edition of the plan file alone.
//!
//! It is a small implementation of its own, to compare with: if every J is 0,
//! all answers are still these. As now, a node may hold an entry number once. Only the time at which a test starts, which
//! never depended on J, is that of [`crate::timing`]. The map tries every
//! grouping, so it is for short lists. A late answer, which had no overrun then,
//! has that of the demand without J here.

use crate::model::{Entry, Node, Row};
use crate::refusal::Refusal;
use crate::timing::{initial_time, Timing};
use std::cmp::Reverse;
use std::collections::HashSet;

/// The demand of entry `i` at time `t`.
pub fn demand(entries: &[Entry], levels: &[u8], i: usize, t: u64) -> u64 {
    let own = &entries[i];
    let runs = |j: usize| match levels[j] == levels[i] {
        true => t.div_ceil(entries[j].t).min(u64::from(own.r) + 1),
        false => t.div_ceil(entries[j].t),
    };
    let interference = others(levels, i).map(|j| entries[j].c * runs(j));
    own.c + own.b + interference.sum::<u64>()
}

/// The completion time test of entry `i`.
pub fn completion(entries: &[Entry], levels: &[u8], i: usize) -> Timing {
    let (mut t, mut rounds) = (initial_time(entries, levels, i), 0);
    let limit = entries[i].d;
    while t <= limit {
        rounds += 1;
        let next = demand(entries, levels, i, t);
        if next == t {
            return Timing::OnTime { time: t, rounds };
        }
        t = next;
    }
    Timing::Late {
        rounds,
        overrun: demand(entries, levels, i, limit) - limit,
    }
}

/// The bound on the rounds of entry `i`.
pub fn rounds_bound(entries: &[Entry], levels: &[u8], i: usize) -> u64 {
    let further = others(levels, i).map(|j| entries[i].d.div_ceil(entries[j].t) - 1);
    1 + further.sum::<u64>()
}

/// The other entries on the own and on more urgent levels.
fn others(levels: &[u8], i: usize) -> impl Iterator<Item = usize> + '_ {
    (0..levels.len()).filter(move |&j| j != i && levels[j] <= levels[i])
}

/// The levels of the map; the last is the count of levels used.
pub fn map(entries: &[Entry], most: u8) -> Option<Vec<u8>> {
    let places = entries.len().saturating_sub(1);
    let maps = (0..1u64 << places).map(|cuts| levels_of(cuts, entries.len()));
    let used = |levels: &[u8]| levels.last().copied().unwrap_or(0);
    let on_time = |levels: &[u8], i| completion(entries, levels, i).is_on_time();
    maps.filter(|levels| used(levels) <= most)
        .filter(|levels| (0..entries.len()).all(|i| on_time(levels, i)))
        // Of equally many levels, longer groups at the end mean that high
        // levels begin earlier.
        .min_by_key(|levels| {
            let from_end = levels.iter().rev().map(|level| Reverse(*level));
            (used(levels), from_end.collect::<Vec<_>>())
        })
}

/// Levels that rise behind each position whose bit is set.
fn levels_of(cuts: u64, count: usize) -> Vec<u8> {
    let rises = |i: usize| (0..i).filter(|&before| cuts >> before & 1 == 1).count();
    (0..count).map(|i| 1 + rises(i) as u8).collect()
}

/// Accepts a file of the first edition, or returns its refusal.
pub fn check(file: &[u8]) -> Result<(), Refusal> {
    if file.len() < 8 {
        return Err(Refusal::plain(1));
    }
    if file[..4] != *b"LMP1" {
        return Err(Refusal::plain(2));
    }
    let nodes = usize::from(file[4]);
    if !(1..=32).contains(&nodes) || file[5..8] != [0; 3] {
        return Err(Refusal::plain(3));
    }
    if file.len() < 8 + 8 * nodes {
        return Err(Refusal::plain(1));
    }
    let (mut least, mut end) = (0, 8 + 8 * nodes);
    for row in 0..nodes {
        let [number, levels, count, offset] = row_at(file, row);
        if number < least || !(1..=64).contains(&levels) || count > 64 {
            return Err(Refusal::at_row(4, row));
        }
        if offset != end {
            return Err(Refusal::at_row(5, row));
        }
        (least, end) = (number + 1, end + 20 * count);
    }
    if file.len() != end {
        return Err(Refusal::plain(6));
    }
    (0..nodes).try_for_each(|row| check_entries(&node_at(file, row).entries, row))
}

/// Checks 7 and 8 on the entries of a row, entry by entry, then 16.
fn check_entries(entries: &[Entry], row: usize) -> Result<(), Refusal> {
    let mut places = entries.iter().enumerate();
    places.try_for_each(|(position, entry)| check_entry(entry, row, position))?;
    let mut met = HashSet::new();
    match entries.iter().position(|entry| !met.insert(entry.number)) {
        Some(position) => Err(Refusal::at_entry(16, row, position)),
        None => Ok(()),
    }
}

/// Check 7, then 8.
fn check_entry(e: &Entry, row: usize, position: usize) -> Result<(), Refusal> {
    if !matches!((e.kind, e.r), (1, 0..=15) | (2, 0)) {
        return Err(Refusal::at_entry(7, row, position));
    }
    let top = 1_000_000_000;
    if e.c < 1 || e.c > e.d || e.d > e.t || e.t > top || e.b > top {
        return Err(Refusal::at_entry(8, row, position));
    }
    Ok(())
}

/// Number, levels, entry count and offset of a row.
fn row_at(file: &[u8], row: usize) -> [usize; 4] {
    let bytes = &file[8 + 8 * row..16 + 8 * row];
    let number = u16::from_le_bytes([bytes[0], bytes[1]]);
    let offset = u32::from_le_bytes([bytes[4], bytes[5], bytes[6], bytes[7]]);
    let [levels, count] = [bytes[2], bytes[3]].map(usize::from);
    [usize::from(number), levels, count, offset as usize]
}

fn node_at(file: &[u8], row: usize) -> Node {
    let [number, levels, count, offset] = row_at(file, row);
    let bodies = file[offset..].chunks_exact(20).take(count);
    Node {
        number: number as u16,
        levels: levels as u8,
        entries: bodies.map(entry_of).collect(),
    }
}

fn entry_of(bytes: &[u8]) -> Entry {
    let words: Vec<u32> = bytes
        .chunks_exact(4)
        .map(|word| u32::from_le_bytes([word[0], word[1], word[2], word[3]]))
        .collect();
    let [c, t, d, b] = [1, 2, 3, 4].map(|at| u64::from(words[at]));
    Entry {
        number: words[0] as u16,
        kind: bytes[2],
        r: bytes[3],
        b,
        ..Entry::task(0, c, t, d)
    }
}

/// Writes a file from the buffer's start, and returns its length. Checks 3, then
/// 4 row by row, 6, then node by node 7 and 8 entry by entry and 16, then 10.
pub fn write(rows: &[Row], entries: &[Entry], buffer: &mut [u8]) -> Result<usize, Refusal> {
    if !(1..=32).contains(&rows.len()) {
        return Err(Refusal::plain(3));
    }
    let (mut least, mut counted) = (0, 0);
    for (index, row) in rows.iter().enumerate() {
        let [number, count] = [row.number, row.entries.into()].map(usize::from);
        if number < least || !(1..=64).contains(&row.levels) || count > 64 {
            return Err(Refusal::at_row(4, index));
        }
        (least, counted) = (number + 1, counted + count);
    }
    if entries.len() != counted {
        return Err(Refusal::plain(6));
    }
    let mut rest = entries;
    for (index, row) in rows.iter().enumerate() {
        let (own, behind) = rest.split_at(row.entries.into());
        check_entries(own, index)?;
        rest = behind;
    }
    let file = bytes_of(rows, entries);
    if buffer.len() < file.len() {
        return Err(Refusal::plain(10));
    }
    buffer[..file.len()].copy_from_slice(&file);
    Ok(file.len())
}

fn bytes_of(rows: &[Row], entries: &[Entry]) -> Vec<u8> {
    let mut file = b"LMP1".to_vec();
    file.extend([rows.len() as u8, 0, 0, 0]);
    let mut offset = 8 + 8 * rows.len() as u32;
    for row in rows {
        file.extend(row.number.to_le_bytes());
        file.extend([row.levels, row.entries]);
        file.extend(offset.to_le_bytes());
        offset += 20 * u32::from(row.entries);
    }
    for e in entries {
        file.extend(e.number.to_le_bytes());
        file.extend([e.kind, e.r]);
        for ticks in [e.c, e.t, e.d, e.b] {
            file.extend((ticks as u32).to_le_bytes());
        }
    }
    file
}

/// What a session that held these entries holds after an insert. Checks 12, 13,
/// 7, 8, 16.
pub fn inserted(held: &[Entry], position: usize, entry: Entry) -> Result<Vec<Entry>, Refusal> {
    if position > held.len() {
        return Err(Refusal::plain(12));
    }
    if held.len() == 64 {
        return Err(Refusal::plain(13));
    }
    check_entry(&entry, 0, position)?;
    beside(&held[..position], entry, &held[position..])
}

/// What a session that held these entries holds after a replacement. Checks 12,
/// 7, 8, 16.
pub fn replaced(held: &[Entry], position: usize, entry: Entry) -> Result<Vec<Entry>, Refusal> {
    if position >= held.len() {
        return Err(Refusal::plain(12));
    }
    check_entry(&entry, 0, position)?;
    beside(&held[..position], entry, &held[position + 1..])
}

/// The entry between these others, unless one of them has its number.
fn beside(before: &[Entry], entry: Entry, behind: &[Entry]) -> Result<Vec<Entry>, Refusal> {
    let others: HashSet<u16> = before.iter().chain(behind).map(|e| e.number).collect();
    match others.contains(&entry.number) {
        true => Err(Refusal::at_entry(16, 0, before.len())),
        false => Ok([before, &[entry], behind].concat()),
    }
}

/// The listing of a file of up to 65,536 bytes.
pub fn list(file: &[u8]) -> String {
    if let Err(Refusal { number, row, entry }) = check(file) {
        return format!("refused {number} row {row} entry {entry}\n");
    }
    let nodes = usize::from(file[4]);
    let lines: String = (0..nodes)
        .map(|row| node_lines(&node_at(file, row)))
        .collect();
    format!("plan {nodes}\n{lines}")
}

fn node_lines(node: &Node) -> String {
    let Some(map) = map(&node.entries, node.levels) else {
        return format!("node {} no map\n", node.number);
    };
    let used = map.last().unwrap_or(&0);
    let mut lines = format!("node {} levels {used} of {}\n", node.number, node.levels);
    for (i, (entry, level)) in node.entries.iter().zip(&map).enumerate() {
        let Timing::OnTime { time, rounds } = completion(&node.entries, &map, i) else {
            unreachable!("no entry of a map is late");
        };
        let number = entry.number;
        lines += &format!("entry {number} level {level} time {time} rounds {rounds}\n");
    }
    lines
}
