//! The numbers with which a call is refused.

use std::fmt;

/// Fewer than 8 bytes, or the contents cut off.
pub const CUT_OFF: u8 = 1;
/// The opening bytes differ, or the writer is given no edition.
pub const OPENING: u8 = 2;
/// Node count 0 or above 32, or a zero byte isn't 0.
pub const COUNT: u8 = 3;
/// A row's node number, levels or entry count is wrong.
pub const ROW: u8 = 4;
/// An offset isn't the required one.
pub const OFFSET: u8 = 5;
/// File length, or entries given to the writer, don't fit the rows.
pub const LENGTH: u8 = 6;
/// Kind or r is wrong.
pub const KIND: u8 = 7;
/// C, T, D or B is outside the limits.
pub const TICKS: u8 = 8;
/// The plan has no such node.
pub const NO_NODE: u8 = 9;
/// A lent buffer is too short.
pub const BUFFER: u8 = 10;
/// No map passes.
pub const NO_MAP: u8 = 11;
/// A position or group is outside the list.
pub const POSITION: u8 = 12;
/// The session is full.
pub const FULL: u8 = 13;
/// J is outside its range, or has no room in the edition to be written.
pub const JITTER: u8 = 14;
/// A conversion into the first edition would lose a J above zero.
pub const JITTER_LOST: u8 = 15;
/// An entry has the number of an earlier one of its node.
pub const REPEAT: u8 = 16;
/// How many numbers there are.
pub const NUMBERS: u8 = 16;

/// Why a call was refused, and where.
#[derive(Clone, Copy, Debug, PartialEq, Eq, Hash)]
pub struct Refusal {
    /// The number in the table, 1 to 16.
    pub number: u8,
    /// Row of the contents, from 0.
    pub row: usize,
    /// Position of the entry in its node, from 0.
    pub entry: usize,
}

impl Refusal {
    /// A refusal that names no place.
    pub const fn plain(number: u8) -> Refusal {
        Refusal::at_entry(number, 0, 0)
    }

    /// A refusal of a row.
    pub const fn at_row(number: u8, row: usize) -> Refusal {
        Refusal::at_entry(number, row, 0)
    }

    /// A refusal of an entry.
    pub const fn at_entry(number: u8, row: usize, entry: usize) -> Refusal {
        Refusal { number, row, entry }
    }
}

impl fmt::Display for Refusal {
    fn fmt(&self, f: &mut fmt::Formatter<'_>) -> fmt::Result {
        let Refusal { number, row, entry } = self;
        write!(f, "refused {number} row {row} entry {entry}")
    }
}
