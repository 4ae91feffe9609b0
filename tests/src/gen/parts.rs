//! Faulty calls of the writer, each with the expected refusal.

use super::faults::{break_jitter, break_kind, break_row, break_ticks, put_jitter};
use super::numbers::repeat_places;
use crate::file::encode;
use crate::model::{Edition, Entry, Plan, Row, MAX_ENTRIES, MAX_NODES};
use crate::refusal::{Refusal, BUFFER, COUNT, JITTER, KIND, LENGTH, OPENING, REPEAT, ROW, TICKS};
use crate::rng::Rng;

/// The check that a fault aims at, in the writer's order.
#[derive(Clone, Copy, Debug, PartialEq, Eq, PartialOrd, Ord)]
pub enum PartAim {
    /// 2.
    Edition,
    /// 3.
    Count,
    /// 4.
    Row,
    /// 6.
    Length,
    /// 7.
    Kind,
    /// 8.
    Ticks,
    /// 14.
    Jitter,
    /// 16.
    Repeat,
    /// 10.
    Buffer,
}

/// Every aim.
pub const PART_AIMS: [PartAim; 9] = [
    PartAim::Edition,
    PartAim::Count,
    PartAim::Row,
    PartAim::Length,
    PartAim::Kind,
    PartAim::Ticks,
    PartAim::Jitter,
    PartAim::Repeat,
    PartAim::Buffer,
];

/// A call of the writer.
#[derive(Clone, Debug)]
pub struct Parts {
    /// The number of the edition to write.
    pub edition: u32,
    /// The rows.
    pub rows: Vec<Row>,
    /// The entries of all rows.
    pub entries: Vec<Entry>,
    /// Bytes of the lent buffer.
    pub room: usize,
    /// The first check that is met.
    pub due: Refusal,
}

/// A check's place in the order: stage, row, entry, step within the row or
/// entry. 16 comes behind all entries of its row.
type Rank = (u8, usize, usize, u8);

/// The plan's parts with one fault for each aim. The plan must have a node of two
/// entries.
pub fn damage_parts(rng: &mut Rng, plan: &Plan, aims: &[PartAim]) -> Parts {
    let mut parts = Parts {
        edition: plan.edition.number(),
        rows: plan.rows(),
        entries: plan.entries(),
        room: file_bytes(plan),
        due: Refusal::plain(BUFFER),
    };
    // Faults of later checks first: an earlier one may cut the rows or entries
    // that they need.
    let mut aims = aims.to_vec();
    aims.sort();
    let faults: Vec<(Rank, Refusal)> = aims
        .iter()
        .rev()
        .map(|&aim| put_in(rng, plan, &mut parts, aim))
        .collect();
    let first = faults.iter().min_by_key(|fault| fault.0);
    parts.due = first.expect("there is an aim").1;
    parts
}

fn file_bytes(plan: &Plan) -> usize {
    encode(plan).expect("only good plans are damaged").len()
}

fn put_in(rng: &mut Rng, plan: &Plan, parts: &mut Parts, aim: PartAim) -> (Rank, Refusal) {
    match aim {
        PartAim::Edition => {
            parts.edition = rng.pick(&[0, 3, 0x31, 0x32, 257, 1 << 16 | 2, u32::MAX]);
            ((0, 0, 0, 0), Refusal::plain(OPENING))
        }
        PartAim::Count => {
            let rows = rng.pick(&[0, MAX_NODES + 1, 300]);
            parts.rows.resize(rows, Row::default());
            ((1, 0, 0, 0), Refusal::plain(COUNT))
        }
        PartAim::Row => {
            let index = rng.index(plan.nodes.len());
            let last = index.checked_sub(1).map(|last| plan.nodes[last].number);
            break_row(rng, &mut parts.rows[index], last);
            ((2, index, 0, 0), Refusal::at_row(ROW, index))
        }
        PartAim::Length => {
            let counted = plan.entries().len();
            let given = rng.pick(&[counted - 1, counted + 1, 0, 2 * counted]);
            parts.entries.resize(given, plan.entries()[0]);
            ((3, 0, 0, 0), Refusal::plain(LENGTH))
        }
        PartAim::Kind => break_entry(rng, plan, parts, (0, KIND), break_kind),
        PartAim::Ticks => break_entry(rng, plan, parts, (1, TICKS), break_ticks),
        PartAim::Jitter => {
            let break_one = match plan.edition {
                Edition::First => put_jitter,
                Edition::Second => break_jitter,
            };
            break_entry(rng, plan, parts, (2, JITTER), break_one)
        }
        PartAim::Repeat => repeat(rng, plan, parts),
        PartAim::Buffer => {
            let needed = file_bytes(plan);
            parts.room = rng.pick(&[needed - 1, needed - 1, 0]);
            ((5, 0, 0, 0), Refusal::plain(BUFFER))
        }
    }
}

/// Gives an entry the number of an earlier one of its node.
fn repeat(rng: &mut Rng, plan: &Plan, parts: &mut Parts) -> (Rank, Refusal) {
    let count = |row: usize| plan.nodes[row].entries.len();
    let rows: Vec<usize> = (0..plan.nodes.len())
        .filter(|&row| count(row) > 1)
        .collect();
    let row = rng.pick(&rows);
    let [from, to] = repeat_places(rng, count(row));
    let before: usize = (0..row).map(count).sum();
    parts.entries[before + to].number = parts.entries[before + from].number;
    let rank = (4, row, MAX_ENTRIES, to as u8);
    (rank, Refusal::at_entry(REPEAT, row, to))
}

/// Breaks a random entry, at a step of its checks and with its number.
fn break_entry(
    rng: &mut Rng,
    plan: &Plan,
    parts: &mut Parts,
    (step, number): (u8, u8),
    break_one: fn(&mut Rng, &mut Entry),
) -> (Rank, Refusal) {
    let at = rng.index(parts.entries.len());
    break_one(rng, &mut parts.entries[at]);
    let (row, entry) = place_of(plan, at);
    let refusal = Refusal::at_entry(number, row, entry);
    ((4, row, entry, step), refusal)
}

/// Row and position of the entry at `at` in the flat list.
fn place_of(plan: &Plan, at: usize) -> (usize, usize) {
    let mut position = at;
    for (row, node) in plan.nodes.iter().enumerate() {
        if position < node.entries.len() {
            return (row, position);
        }
        position -= node.entries.len();
    }
    unreachable!("the plan has the entry");
}
