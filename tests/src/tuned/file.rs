//! Plan files.

use super::entry::{
    refusal_in, Entry, FileMarks, FirstBytes, InFile, SecondBytes, WordMarks, Words, MOST,
};
use crate::model::Edition;
use crate::refusal::{Refusal, BUFFER, COUNT, CUT_OFF, JITTER, LENGTH, OFFSET, OPENING, ROW};

/// Bytes before the contents.
pub const HEAD: usize = 8;
/// Most nodes of a plan.
const MOST_NODES: usize = 32;

/// A row of the contents.
type RowBytes = [u8; 8];

/// A row without its offset.
#[derive(Clone, Copy)]
pub struct Row {
    pub number: u16,
    pub levels: u8,
    pub count: usize,
}

impl Row {
    fn of(word: u32) -> Row {
        let [low, high, levels, count] = word.to_le_bytes();
        Row {
            number: u16::from_le_bytes([low, high]),
            levels,
            count: usize::from(count),
        }
    }

    /// Whether its number is at least `least`, and its counts are within the
    /// limits.
    fn holds(&self, least: u32) -> bool {
        u32::from(self.number) >= least && (1..=64).contains(&self.levels) && self.count <= MOST
    }
}

/// The edition of a file, by its opening bytes.
pub fn edition_of(file: &[u8]) -> Result<Edition, Refusal> {
    let head = file.first_chunk::<HEAD>().ok_or(Refusal::plain(CUT_OFF))?;
    match &head[..4] {
        b"LMP1" => Ok(Edition::First),
        b"LMP2" => Ok(Edition::Second),
        _ => Err(Refusal::plain(OPENING)),
    }
}

/// An accepted file: its rows, and the entries of all of them.
#[derive(Clone, Copy)]
pub struct Plan<'a, E> {
    rows: &'a [RowBytes],
    entries: &'a [E],
}

impl<'a, E: InFile> Plan<'a, E> {
    /// The plan of a file that opens as one of the edition, or its refusal.
    pub fn of(file: &'a [u8]) -> Result<Plan<'a, E>, Refusal> {
        let (head, rest) = file
            .split_first_chunk::<HEAD>()
            .ok_or(Refusal::plain(CUT_OFF))?;
        let [_, _, _, _, nodes, zeros @ ..] = head;
        let nodes = usize::from(*nodes);
        if nodes == 0 || nodes > MOST_NODES || *zeros != [0; 3] {
            return Err(Refusal::plain(COUNT));
        }
        let (contents, bodies) = rest
            .split_at_checked(nodes * 8)
            .ok_or(Refusal::plain(CUT_OFF))?;
        let plan = Plan {
            rows: contents.as_chunks().0,
            entries: E::in_bodies(bodies),
        };
        plan.check_rows(file.len())?;
        plan.check_nodes()?;
        Ok(plan)
    }

    fn check_rows(&self, length: usize) -> Result<(), Refusal> {
        let mut least = 0;
        let mut required = HEAD + self.rows.len() * 8;
        for (at, bytes) in self.rows.iter().enumerate() {
            let [word, offset] = words_of(bytes);
            let row = Row::of(word);
            if !row.holds(least) {
                return Err(Refusal::at_row(ROW, at));
            }
            if offset as usize != required {
                return Err(Refusal::at_row(OFFSET, at));
            }
            least = u32::from(row.number) + 1;
            required += row.count * size_of::<E>();
        }
        if length != required {
            return Err(Refusal::plain(LENGTH));
        }
        Ok(())
    }

    /// Checks node after node: the entries in one loop, then their numbers. Only
    /// a refused node needs a second pass, for the place.
    fn check_nodes(&self) -> Result<(), Refusal> {
        let mut marks = FileMarks::new();
        for (row, (_, entries)) in self.nodes().enumerate() {
            if !entries.iter().all(Entry::holds) {
                return Err(refusal_in(entries, row).expect("an entry is outside the limits"));
            }
            marks.check(entries, row)?;
        }
        Ok(())
    }

    /// How many nodes it has.
    pub fn node_count(&self) -> usize {
        self.rows.len()
    }

    /// How many entries it has.
    pub fn entry_count(&self) -> usize {
        self.entries.len()
    }

    /// The entries of all nodes.
    pub fn entries(&self) -> &'a [E] {
        self.entries
    }

    /// Each row without its offset, as a word.
    pub fn row_words(&self) -> impl ExactSizeIterator<Item = u32> + 'a {
        self.rows.iter().map(|bytes| words_of(bytes)[0])
    }

    /// Each row with its entries.
    pub fn nodes(&self) -> impl Iterator<Item = (Row, &'a [E])> {
        let mut rest = self.entries;
        self.rows.iter().map(move |bytes| {
            let row = Row::of(words_of(bytes)[0]);
            let (entries, behind) = rest.split_at(row.count);
            rest = behind;
            (row, entries)
        })
    }
}

fn words_of(row: &RowBytes) -> [u32; 2] {
    let (words, _) = row.as_chunks();
    [u32::from_le_bytes(words[0]), u32::from_le_bytes(words[1])]
}

/// Accepts a plan file, or refuses it.
#[inline(never)]
pub fn check(file: &[u8]) -> Result<(), Refusal> {
    match edition_of(file)? {
        Edition::First => Plan::<FirstBytes>::of(file).map(|_| ()),
        Edition::Second => Plan::<SecondBytes>::of(file).map(|_| ()),
    }
}

/// Reads a file into words, and returns how many rows and entries, and the
/// edition.
#[inline(never)]
pub fn read(
    file: &[u8],
    rows: &mut [u32],
    entries: &mut [u32],
) -> Result<(usize, usize, Edition), Refusal> {
    let edition = edition_of(file)?;
    let (rows, entries) = match edition {
        Edition::First => read_as::<FirstBytes>(file, rows, entries),
        Edition::Second => read_as::<SecondBytes>(file, rows, entries),
    }?;
    Ok((rows, entries, edition))
}

fn read_as<E: InFile>(
    file: &[u8],
    rows: &mut [u32],
    entries: &mut [u32],
) -> Result<(usize, usize), Refusal> {
    let plan = Plan::<E>::of(file)?;
    let (Some(rows), Some(entries)) = (
        rows.get_mut(..plan.rows.len()),
        entries.get_mut(..plan.entries.len() * 6),
    ) else {
        return Err(Refusal::plain(BUFFER));
    };
    for (row, bytes) in rows.iter_mut().zip(plan.rows) {
        *row = words_of(bytes)[0];
    }
    for (words, entry) in entries.as_chunks_mut().0.iter_mut().zip(plan.entries) {
        *words = entry.words();
    }
    Ok((plan.node_count(), plan.entry_count()))
}

/// Writes words as a file of the edition with this number, and returns its
/// length.
#[inline(never)]
pub fn write(edition: u32, rows: &[u32], words: &[u32], file: &mut [u8]) -> Result<usize, Refusal> {
    let edition = Edition::numbered(edition).ok_or(Refusal::plain(OPENING))?;
    let entries = check_parts(edition, rows, words)?;
    let (opening, size) = match edition {
        Edition::First => (b"LMP1", 20),
        Edition::Second => (b"LMP2", 24),
    };
    let bodies = HEAD + rows.len() * 8;
    let length = bodies + entries.len() * size;
    let file = file.get_mut(..length).ok_or(Refusal::plain(BUFFER))?;
    let (contents, bodies) = file.split_at_mut(bodies);
    put_contents(opening, rows.iter().copied(), contents, size);
    match edition {
        Edition::First => put_entries::<20>(entries, bodies),
        Edition::Second => put_entries::<24>(entries, bodies),
    }
    Ok(length)
}

/// Writes head and rows.
pub fn put_contents(
    opening: &[u8; 4],
    rows: impl ExactSizeIterator<Item = u32>,
    contents: &mut [u8],
    size: usize,
) {
    let mut offset = contents.len() as u32;
    let (head, contents) = contents.split_at_mut(HEAD);
    head[..4].copy_from_slice(opening);
    head[4..].copy_from_slice(&[rows.len() as u8, 0, 0, 0]);
    for (target, word) in contents.as_chunks_mut().0.iter_mut().zip(rows) {
        let both: u64 = u64::from(word) | u64::from(offset) << 32;
        *target = both.to_le_bytes();
        offset += (word >> 24) * size as u32;
    }
}

/// Writes as many words of each entry as its N bytes have.
fn put_entries<const N: usize>(entries: &[Words], bodies: &mut [u8]) {
    for (target, words) in bodies.as_chunks_mut::<N>().0.iter_mut().zip(entries) {
        for (bytes, word) in target.as_chunks_mut().0.iter_mut().zip(words) {
            *bytes = word.to_le_bytes();
        }
    }
}

/// The writer's checks; returns the entries.
fn check_parts<'a>(
    edition: Edition,
    rows: &[u32],
    words: &'a [u32],
) -> Result<&'a [Words], Refusal> {
    if rows.is_empty() || rows.len() > MOST_NODES {
        return Err(Refusal::plain(COUNT));
    }
    let mut least = 0;
    let mut total = 0;
    for (at, word) in rows.iter().enumerate() {
        let row = Row::of(*word);
        if !row.holds(least) {
            return Err(Refusal::at_row(ROW, at));
        }
        least = u32::from(row.number) + 1;
        total += row.count;
    }
    if words.len() != total * 6 {
        return Err(Refusal::plain(LENGTH));
    }
    let entries: &[Words] = words.as_chunks().0;
    let mut marks = WordMarks::new();
    let mut rest = entries;
    for (row, word) in rows.iter().enumerate() {
        let (node, behind) = rest.split_at(Row::of(*word).count);
        let hold = match edition {
            Edition::First => node.iter().all(|entry| refusal_in_first(entry).is_none()),
            Edition::Second => node.iter().all(Entry::holds),
        };
        if !hold {
            return Err(refusal_of_node(edition, node, row));
        }
        marks.check(node, row)?;
        rest = behind;
    }
    Ok(entries)
}

/// The number of an entry's refusal, if it can't be written in the first
/// edition, which has no room for J.
fn refusal_in_first(entry: &Words) -> Option<u8> {
    let jitter = (entry.jitter() > 0).then_some(JITTER);
    entry.refusal().or(jitter)
}

/// The refusal of the first bad entry of a node.
#[cold]
fn refusal_of_node(edition: Edition, entries: &[Words], row: usize) -> Refusal {
    let number = |entry: &Words| match edition {
        Edition::First => refusal_in_first(entry),
        Edition::Second => entry.refusal(),
    };
    let mut places = entries.iter().enumerate();
    places
        .find_map(|(at, entry)| Some(Refusal::at_entry(number(entry)?, row, at)))
        .expect("an entry is outside the limits")
}
