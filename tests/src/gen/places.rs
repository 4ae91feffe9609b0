//! Single faults at a given place of a full plan or a full session.

use super::entries;
use super::faults::MOST_TICKS;
use super::jitter::{any, most};
use crate::file::{contents_end, encode, entry_bytes, entry_length};
use crate::lent::Words;
use crate::model::{
    Edition, Entry, Node, Plan, Row, MAX_ENTRIES, MAX_NODES, MAX_R, MAX_TICKS, SECTION,
};
use crate::refusal::{JITTER, KIND, TICKS};
use crate::rng::Rng;
use crate::words::{entry_words, ENTRY_WORDS};

/// 32 nodes of 64 entries. The node numbers grow from one byte to two, and
/// their low bytes sometimes fall from one node to the next.
pub fn full_plan(rng: &mut Rng, edition: Edition) -> Plan {
    let nodes = (0..MAX_NODES as u16)
        .map(|row| Node {
            number: 100 + 83 * row,
            levels: rng.byte(1, 64),
            entries: full_node(rng, edition),
        })
        .collect();
    Plan { edition, nodes }
}

fn full_node(rng: &mut Rng, edition: Edition) -> Vec<Entry> {
    let mut entries = entries::light(rng, MAX_ENTRIES);
    if edition == Edition::Second {
        for entry in &mut entries {
            entry.j = any(rng, entry);
        }
    }
    entries
}

/// The row with each fault that check 4 finds; `last` is the node number before
/// it.
pub fn row_faults(row: Row, last: Option<u16>) -> Vec<Row> {
    let levels = [0, 65, 66, 128, 255].map(|levels| Row { levels, ..row });
    let counts = [65, 66, 128, 192, 255].map(|entries| Row { entries, ..row });
    let numbers = last.into_iter().flat_map(|last| {
        // The last of these numbers has low byte 255, which is at least
        // `last`'s.
        let high = last & 0xFF00;
        [0, last - 1, last, high, high.wrapping_sub(1)]
            .into_iter()
            .filter(move |&number| number <= last)
            .map(|number| Row { number, ..row })
    });
    levels.into_iter().chain(counts).chain(numbers).collect()
}

/// Wrong offsets: each bit changed, one byte off, one entry of either edition
/// off, one node off.
pub fn offset_faults(required: u32) -> Vec<u32> {
    let bits = (0..32).map(|bit| required ^ 1 << bit);
    let near = [1, 20, 24, 1_280, 1_536].map(|off| required + off);
    let near = near.into_iter().chain([required - 1]);
    bits.chain(near).chain([0, u32::MAX]).collect()
}

/// How many faults of [`entry_faults`] are refused as 7; they come first.
pub const KIND_FAULTS: usize = 8;
/// How many are refused as 8; they come next.
pub const TICK_FAULTS: usize = 10;
/// How many are refused as 14; they come last, and only in the second edition.
pub const JITTER_FAULTS: usize = 5;

/// The entry with each fault that check 7, 8 or 14 finds, and the number.
pub fn entry_faults(edition: Edition, entry: Entry) -> Vec<(Entry, u8)> {
    let mut faults = kind_and_tick_faults(entry);
    if edition == Edition::Second {
        let wrong = [most(&entry) + 1, entry.d, entry.j | 1 << 31, MOST_TICKS];
        let wrong = wrong.into_iter().chain([most(&entry) + (1 << 16)]);
        faults.extend(wrong.map(|j| (entry.jittered(j), JITTER)));
    }
    faults
}

fn kind_and_tick_faults(entry: Entry) -> Vec<(Entry, u8)> {
    let top = MAX_TICKS + 1;
    let kinds = [0, 3, 255, entry.kind | 0x80].map(|kind| Entry { kind, ..entry });
    let calls = [MAX_R + 1, 255, entry.r | 0x80].map(|r| Entry { r, ..entry });
    let section = Entry {
        r: 1,
        kind: SECTION,
        ..entry
    };
    let ticks = [
        Entry { c: 0, ..entry },
        Entry {
            c: entry.d + 1,
            ..entry
        },
        Entry {
            d: entry.t + 1,
            ..entry
        },
        Entry { t: top, ..entry },
        Entry {
            t: top,
            d: top,
            ..entry
        },
        Entry { b: top, ..entry },
    ];
    let kinds = kinds.into_iter().chain(calls).chain([section]);
    let kinds = kinds.map(|entry| (entry, KIND));
    let ticks = ticks.into_iter().chain(high_bits(entry));
    kinds.chain(ticks.map(|entry| (entry, TICKS))).collect()
}

/// The entry with the top bit of C, T, D or B set: only code that drops that
/// bit accepts it.
fn high_bits(entry: Entry) -> [Entry; 4] {
    let high = 1 << 31;
    [
        Entry {
            c: entry.c | high,
            ..entry
        },
        Entry {
            t: entry.t | high,
            ..entry
        },
        Entry {
            d: entry.d | high,
            ..entry
        },
        Entry {
            b: entry.b | high,
            ..entry
        },
    ]
}

/// The plan's file with another row at an index; the offset there stays.
pub fn with_row(plan: &Plan, index: usize, row: &Row) -> Vec<u8> {
    let mut file = encode(plan).expect("only good plans are changed");
    let at = contents_end(index);
    file[at..at + 2].copy_from_slice(&row.number.to_le_bytes());
    file[at + 2] = row.levels;
    file[at + 3] = row.entries;
    file
}

/// The plan's file with another offset in the row at an index.
pub fn with_offset(plan: &Plan, index: usize, offset: u32) -> Vec<u8> {
    let mut file = encode(plan).expect("only good plans are changed");
    let at = contents_end(index) + 4;
    file[at..at + 4].copy_from_slice(&offset.to_le_bytes());
    file
}

/// Puts an entry into the file of a full plan.
pub fn put_entry(edition: Edition, file: &mut [u8], row: usize, position: usize, entry: &Entry) {
    let length = entry_length(edition);
    let at = contents_end(MAX_NODES) + (row * MAX_ENTRIES + position) * length;
    file[at..at + length].copy_from_slice(&entry_bytes(edition, entry));
}

/// Puts an entry into the words of a session.
pub fn put_words(words: &mut Words, position: usize, entry: &Entry) {
    let at = 2 + position * ENTRY_WORDS;
    words[at..at + ENTRY_WORDS].copy_from_slice(&entry_words(entry));
}
