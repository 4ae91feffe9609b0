//! Entries, read in place.

use crate::refusal::{Refusal, JITTER, KIND, REPEAT, TICKS};

/// Most entries of a node.
pub const MOST: usize = 64;
/// Largest period and blocking.
const MOST_TICKS: u32 = 1_000_000_000;

/// An entry in a file of either edition, and one in words.
pub type FirstBytes = [u8; 20];
pub type SecondBytes = [u8; 24];
pub type Words = [u32; 6];

/// Access to an entry's words.
pub trait Entry {
    /// The word at an index, 0 to 5; an entry of the first edition has no last
    /// one.
    fn word(&self, at: usize) -> u32;

    fn number(&self) -> u32 {
        self.word(0) & 0xFFFF
    }

    fn calls(&self) -> u32 {
        self.word(0) >> 24
    }

    fn wcet(&self) -> u32 {
        self.word(1)
    }

    fn period(&self) -> u32 {
        self.word(2)
    }

    fn deadline(&self) -> u32 {
        self.word(3)
    }

    fn blocking(&self) -> u32 {
        self.word(4)
    }

    fn jitter(&self) -> u32 {
        self.word(5)
    }

    /// The last time by which it may end, counted from its start.
    fn limit(&self) -> u32 {
        self.deadline() - self.jitter()
    }

    /// Whether it is a task with up to 15 calls, or a section with none.
    fn kind_holds(&self) -> bool {
        let kind = self.word(0) >> 16;
        (kind & 0xF0FF == 1) | (kind == 2)
    }

    fn times_hold(&self) -> bool {
        self.wcet().wrapping_sub(1) < self.deadline()
            && self.deadline() <= self.period()
            && self.period() <= MOST_TICKS
            && self.blocking() <= MOST_TICKS
    }

    /// Of an entry whose times hold.
    fn jitter_holds(&self) -> bool {
        self.jitter() <= self.deadline() - self.wcet()
    }

    /// Whether it is within all limits.
    fn holds(&self) -> bool {
        self.kind_holds() && self.times_hold() && self.jitter_holds()
    }

    /// The number of its refusal, if it is outside the limits.
    fn refusal(&self) -> Option<u8> {
        if !self.kind_holds() {
            Some(KIND)
        } else if !self.times_hold() {
            Some(TICKS)
        } else if !self.jitter_holds() {
            Some(JITTER)
        } else {
            None
        }
    }
}

/// An entry in a file.
pub trait InFile: Entry + Sized + 'static {
    /// The entries in the bodies of a file.
    fn in_bodies(bodies: &[u8]) -> &[Self];

    /// Its words, with its jitter.
    fn words(&self) -> Words {
        let [a, b, c, d, e] = [0, 1, 2, 3, 4].map(|at| self.word(at));
        [a, b, c, d, e, self.jitter()]
    }
}

impl Entry for Words {
    fn word(&self, at: usize) -> u32 {
        self[at]
    }
}

impl Entry for FirstBytes {
    fn word(&self, at: usize) -> u32 {
        u32::from_le_bytes(self.as_chunks().0[at])
    }

    fn jitter(&self) -> u32 {
        0
    }
}

impl Entry for SecondBytes {
    fn word(&self, at: usize) -> u32 {
        u32::from_le_bytes(self.as_chunks().0[at])
    }
}

impl<const N: usize> InFile for [u8; N]
where
    [u8; N]: Entry,
{
    fn in_bodies(bodies: &[u8]) -> &[Self] {
        bodies.as_chunks().0
    }
}

/// A mark for each number that the entries of a node have, by its low bits.
///
/// A mark that is met only says that an earlier number has the same low bits;
/// then the earlier entries are looked at. The marks of rows differ, so the table
/// is cleared once for all of them.
pub struct Marks<const SLOTS: usize>([u8; SLOTS]);

/// Marks for a file.
pub type FileMarks = Marks<2048>;
/// Marks for entries in words: a session, or a plan to be written.
pub type WordMarks = Marks<1024>;

impl<const SLOTS: usize> Marks<SLOTS> {
    pub fn new() -> Marks<SLOTS> {
        Marks([0; SLOTS])
    }

    /// Checks that the numbers of a row's entries differ.
    pub fn check<E: Entry>(&mut self, entries: &[E], row: usize) -> Result<(), Refusal> {
        let mark = row as u8 + 1;
        for (at, entry) in entries.iter().enumerate() {
            let number = entry.number();
            let met = &mut self.0[number as usize % SLOTS];
            if *met == mark && has_number(&entries[..at], number) {
                return Err(Refusal::at_entry(REPEAT, row, at));
            }
            *met = mark;
        }
        Ok(())
    }
}

/// Whether one of the entries has this number. Mostly none has, so that all are
/// compared without a branch.
pub fn has_number<E: Entry>(entries: &[E], number: u32) -> bool {
    let same = entries.iter().map(|entry| entry.number() == number);
    same.fold(false, |any, same| any | same)
}

/// The refusal of the first of these entries that is outside the limits.
#[cold]
pub fn refusal_in<E: Entry>(entries: &[E], row: usize) -> Option<Refusal> {
    entries
        .iter()
        .enumerate()
        .find_map(|(at, entry)| Some(Refusal::at_entry(entry.refusal()?, row, at)))
}
