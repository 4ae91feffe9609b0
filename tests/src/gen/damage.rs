//! Damaged files, each with the expected refusal.

use super::faults::{break_jitter, break_kind, break_row, break_ticks};
use super::numbers::repeat_places;
use super::plans::in_edition;
use crate::file::{
    body_end, contents_end, encode, entry_at, entry_bytes, entry_length, opening_bytes, row_at,
    HEAD_BYTES,
};
use crate::model::{Edition, Entry, Plan, MAX_ENTRIES, MAX_NODES};
use crate::refusal::{
    Refusal, COUNT, CUT_OFF, JITTER, KIND, LENGTH, OFFSET, OPENING, REPEAT, ROW, TICKS,
};
use crate::rng::Rng;

/// The check that a fault aims at.
#[derive(Clone, Copy, Debug, PartialEq, Eq)]
pub enum Aim {
    /// 1: fewer than 8 bytes.
    Head,
    /// 2.
    Opening,
    /// 3.
    Count,
    /// 1: the contents cut off.
    Contents,
    /// 4.
    Row,
    /// 5.
    Offset,
    /// 6.
    Length,
    /// 7.
    Kind,
    /// 8.
    Ticks,
    /// 14.
    Jitter,
    /// 16.
    Repeat,
}

/// Every aim.
pub const AIMS: [Aim; 11] = [
    Aim::Head,
    Aim::Opening,
    Aim::Count,
    Aim::Contents,
    Aim::Row,
    Aim::Offset,
    Aim::Length,
    Aim::Kind,
    Aim::Ticks,
    Aim::Jitter,
    Aim::Repeat,
];

/// A damaged file.
#[derive(Clone, Debug)]
pub struct Damaged {
    /// Its bytes.
    pub file: Vec<u8>,
    /// The first check that it meets.
    pub due: Refusal,
}

/// The plan's file with one fault for each aim, made in that order. A fault of
/// J needs the second edition.
///
/// The plan must have a node of two entries.
pub fn damage(rng: &mut Rng, plan: &Plan, aims: &[Aim]) -> Damaged {
    let edition = match aims.contains(&Aim::Jitter) {
        true => Edition::Second,
        false => plan.edition,
    };
    let mut work = Work::new(in_edition(plan, edition));
    let faults: Vec<Fault> = aims.iter().map(|&aim| work.put_in(rng, aim)).collect();
    let first = faults.iter().min_by_key(|fault| fault.rank);
    let due = first.expect("there is an aim").refusal;
    Damaged {
        file: work.finish(),
        due,
    }
}

/// The file cut to every shorter length.
pub fn truncations(file: &[u8]) -> impl Iterator<Item = &[u8]> {
    (0..file.len()).map(|length| &file[..length])
}

/// The file with one byte changed, at every place and to every value.
pub fn byte_changes(file: &[u8]) -> impl Iterator<Item = (usize, Vec<u8>)> + '_ {
    let changes = (0..file.len()).flat_map(|at| (0..=255).map(move |byte| (at, byte)));
    changes
        .filter(|&(at, byte)| file[at] != byte)
        .map(|(at, byte)| {
            let mut changed = file.to_vec();
            changed[at] = byte;
            (at, changed)
        })
}

/// A check's place in the order: stage, row, entry, step within the row or
/// entry. 16 comes behind all entries of its row.
type Rank = (u8, usize, usize, u8);

struct Fault {
    rank: Rank,
    refusal: Refusal,
}

impl Fault {
    fn plain(stage: u8, number: u8) -> Fault {
        Fault {
            rank: (stage, 0, 0, 0),
            refusal: Refusal::plain(number),
        }
    }

    fn in_contents(row: usize, step: u8, number: u8) -> Fault {
        Fault {
            rank: (4, row, 0, step),
            refusal: Refusal::at_row(number, row),
        }
    }

    fn in_body(row: usize, entry: usize, step: u8, number: u8) -> Fault {
        Fault {
            rank: (6, row, entry, step),
            refusal: Refusal::at_entry(number, row, entry),
        }
    }

    fn of_numbers(row: usize, entry: usize) -> Fault {
        Fault {
            rank: (6, row, MAX_ENTRIES, entry as u8),
            refusal: Refusal::at_entry(REPEAT, row, entry),
        }
    }
}

/// A file while it is damaged; its length is changed only at the end.
struct Work {
    plan: Plan,
    file: Vec<u8>,
    cut: Option<usize>,
    more: usize,
}

impl Work {
    fn new(plan: Plan) -> Work {
        Work {
            file: encode(&plan).expect("only good plans are damaged"),
            plan,
            cut: None,
            more: 0,
        }
    }

    /// A cut wins over appended bytes.
    fn finish(mut self) -> Vec<u8> {
        match self.cut {
            Some(length) => self.file.truncate(length),
            None => self.file.resize(self.file.len() + self.more, 0),
        }
        self.file
    }

    fn put_in(&mut self, rng: &mut Rng, aim: Aim) -> Fault {
        match aim {
            Aim::Head => {
                self.cut_to(rng.index(HEAD_BYTES));
                Fault::plain(0, CUT_OFF)
            }
            Aim::Opening => self.break_opening(rng),
            Aim::Count => self.break_count(rng),
            Aim::Contents => {
                self.cut_to(rng.count(HEAD_BYTES, self.contents_end() - 1));
                Fault::plain(3, CUT_OFF)
            }
            Aim::Row => self.break_row(rng),
            Aim::Offset => self.break_offset(rng),
            Aim::Length => self.break_length(rng),
            Aim::Kind => {
                let (row, entry) = self.break_entry(rng, break_kind);
                Fault::in_body(row, entry, 0, KIND)
            }
            Aim::Ticks => {
                let (row, entry) = self.break_entry(rng, break_ticks);
                Fault::in_body(row, entry, 1, TICKS)
            }
            Aim::Jitter => {
                let (row, entry) = self.break_entry(rng, break_jitter);
                Fault::in_body(row, entry, 2, JITTER)
            }
            Aim::Repeat => self.repeat(rng),
        }
    }

    fn contents_end(&self) -> usize {
        contents_end(self.plan.nodes.len())
    }

    fn entry_length(&self) -> usize {
        entry_length(self.plan.edition)
    }

    /// The offset that the row requires.
    fn body_of(&self, row: usize) -> usize {
        let before = &self.plan.nodes[..row];
        before.iter().fold(self.contents_end(), |at, node| {
            body_end(self.plan.edition, at, node.row().entries)
        })
    }

    fn cut_to(&mut self, length: usize) {
        self.cut = Some(self.cut.map_or(length, |cut| cut.min(length)));
    }

    fn break_opening(&mut self, rng: &mut Rng) -> Fault {
        let at = rng.index(4);
        let byte = opening_bytes(self.plan.edition)[at];
        // A fourth byte of 32 hexadecimal opens a file too.
        let next = if at == 3 { 0x33 } else { byte.wrapping_add(1) };
        self.file[at] = rng.pick(&[0, byte ^ 0x20, next, byte ^ 0x80]);
        Fault::plain(1, OPENING)
    }

    fn break_count(&mut self, rng: &mut Rng) -> Fault {
        if rng.chance(1, 2) {
            self.file[4] = rng.pick(&[0, MAX_NODES as u8 + 1, 255]);
        } else {
            self.file[rng.count(5, 7)] = rng.byte(1, 255);
        }
        Fault::plain(2, COUNT)
    }

    fn break_row(&mut self, rng: &mut Rng) -> Fault {
        let index = rng.index(self.plan.nodes.len());
        let last = index
            .checked_sub(1)
            .map(|last| self.plan.nodes[last].number);
        let at = contents_end(index);
        let mut row = row_at(&self.file, index).0;
        break_row(rng, &mut row, last);
        self.file[at..at + 2].copy_from_slice(&row.number.to_le_bytes());
        self.file[at + 2] = row.levels;
        self.file[at + 3] = row.entries;
        Fault::in_contents(index, 0, ROW)
    }

    fn break_offset(&mut self, rng: &mut Rng) -> Fault {
        let index = rng.index(self.plan.nodes.len());
        let required = self.body_of(index) as u32;
        let at = contents_end(index) + 4;
        let wrong = rng.pick(&[
            0,
            required - 1,
            required + 1,
            required + self.entry_length() as u32,
            required + (1 << 24),
            u32::MAX,
        ]);
        self.file[at..at + 4].copy_from_slice(&wrong.to_le_bytes());
        Fault::in_contents(index, 1, OFFSET)
    }

    fn break_length(&mut self, rng: &mut Rng) -> Fault {
        if rng.chance(1, 2) {
            self.cut_to(rng.count(self.contents_end(), self.file.len() - 1));
        } else {
            self.more = rng.count(1, 2 * self.entry_length());
        }
        Fault::plain(5, LENGTH)
    }

    /// Gives an entry the number of an earlier one of its node.
    fn repeat(&mut self, rng: &mut Rng) -> Fault {
        let row = self.row_of(rng, 2);
        let [from, to] = repeat_places(rng, self.plan.nodes[row].entries.len());
        let [from, at] = [from, to].map(|entry| self.body_of(row) + entry * self.entry_length());
        self.file.copy_within(from..from + 2, at);
        Fault::of_numbers(row, to)
    }

    /// A random row with at least so many entries.
    fn row_of(&self, rng: &mut Rng, least: usize) -> usize {
        let rows: Vec<usize> = (0..self.plan.nodes.len())
            .filter(|&row| self.plan.nodes[row].entries.len() >= least)
            .collect();
        rng.pick(&rows)
    }

    /// Breaks a random entry and returns its row and position.
    fn break_entry(
        &mut self,
        rng: &mut Rng,
        break_one: fn(&mut Rng, &mut Entry),
    ) -> (usize, usize) {
        let row = self.row_of(rng, 1);
        let position = rng.index(self.plan.nodes[row].entries.len());
        let (edition, body) = (self.plan.edition, self.body_of(row));
        let mut entry = entry_at(edition, &self.file, body, position);
        break_one(rng, &mut entry);
        let bytes = entry_bytes(edition, &entry);
        let at = body + position * bytes.len();
        self.file[at..at + bytes.len()].copy_from_slice(&bytes);
        (row, position)
    }
}
