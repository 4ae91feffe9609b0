//! Rows and entries as the C functions take them: words of 32 bits.

use crate::model::{Entry, Row};

/// Words of one entry.
pub const ENTRY_WORDS: usize = 6;

/// A row: number, levels and entry count from the low bits up.
pub fn row_word(row: &Row) -> u32 {
    packed(row.number, row.levels, row.entries)
}

/// An entry: number, kind and r, then C, T, D, B and J.
pub fn entry_words(entry: &Entry) -> [u32; ENTRY_WORDS] {
    let ticks =
        |value: u64| u32::try_from(value).expect("a word has no room for ticks above 2^32 - 1");
    [
        packed(entry.number, entry.kind, entry.r),
        ticks(entry.c),
        ticks(entry.t),
        ticks(entry.d),
        ticks(entry.b),
        ticks(entry.j),
    ]
}

/// The entry that six words hold.
pub fn entry_of(words: &[u32; ENTRY_WORDS]) -> Entry {
    let [head, c, t, d, b, j] = *words;
    let [low, high, kind, r] = head.to_le_bytes();
    Entry {
        number: u16::from_le_bytes([low, high]),
        kind,
        r,
        c: u64::from(c),
        t: u64::from(t),
        d: u64::from(d),
        b: u64::from(b),
        j: u64::from(j),
    }
}

/// A word for each row.
pub fn of_rows(rows: &[Row]) -> Vec<u32> {
    rows.iter().map(row_word).collect()
}

/// Six words for each entry.
pub fn of_entries(entries: &[Entry]) -> Vec<u32> {
    entries.iter().flat_map(entry_words).collect()
}

/// Words that differ from their neighbours, to show what a call has changed.
pub fn known(length: usize) -> Vec<u32> {
    (0..length)
        .map(|at| (at as u32).wrapping_mul(0x9E37_79B9) ^ 0xA5A5_A5A5)
        .collect()
}

fn packed(number: u16, low: u8, high: u8) -> u32 {
    u32::from(number) | u32::from(low) << 16 | u32::from(high) << 24
}
