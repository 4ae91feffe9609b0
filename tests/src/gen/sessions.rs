//! Sessions that hold generated nodes of plans, and changes as a user makes
//! them to see what fits.

use super::budget::{rounds_ceiling, ROUNDS};
use super::jitter::any;
use super::numbers::free;
use super::ops::{group, position};
use super::plans;
use crate::lent::words_of;
use crate::model::{Entry, Node, Plan, MAX_ENTRIES, MAX_R, MAX_TICKS, TASK};
use crate::rng::Rng;
use crate::sequences::Sequence;
use crate::session::{Op, Session};
use crate::tally::Tally;

/// A generator of the nodes that sessions hold.
#[derive(Clone, Copy, Debug)]
pub struct Family {
    /// What the nodes are like.
    pub name: &'static str,
    draw: fn(&mut Rng) -> Plan,
    /// Most rounds that a test may take.
    rounds: u64,
}

/// A family with the same limit of rounds as for files.
const fn of(name: &'static str, draw: fn(&mut Rng) -> Plan) -> Family {
    let rounds = ROUNDS;
    Family { name, draw, rounds }
}

/// Wide groups pass although narrower ones fail.
pub const WIDE: Family = of("wide after narrow", plans::wide);
/// Deadlines at completion times.
pub const TIGHT: Family = of("tight deadlines", plans::tight);
/// Usual periods.
pub const STATION: Family = of("stations", plans::station);
/// Usual periods of up to 10^9.
pub const LONG: Family = of("long periods", plans::long_periods);
/// Numbers at both ends of the limits.
pub const LIMITS: Family = of("at the limits", plans::at_limits);
/// 13 to 64 entries with blocking and remote sections.
pub const MANY: Family = of("13 to 64 entries", plans::many_entries);
/// Utilisations just below, at and just above 1.
pub const NEAR_ONE: Family = Family {
    rounds: 50_000,
    ..of("utilisations near 1", plans::near_one)
};

/// Every family.
pub const FAMILIES: [Family; 7] = [WIDE, TIGHT, STATION, LONG, LIMITS, MANY, NEAR_ONE];

impl Family {
    /// A node with at least one entry.
    pub fn node(&self, rng: &mut Rng) -> Node {
        loop {
            let plan = (self.draw)(rng);
            let node = plan.nodes[rng.index(plan.nodes.len())].clone();
            if !node.entries.is_empty() {
                return node;
            }
        }
    }

    /// A session that holds such a node.
    pub fn session(&self, rng: &mut Rng) -> Session {
        let Node {
            levels, entries, ..
        } = self.node(rng);
        Session::holding(usize::from(levels), &entries).expect("generators give good nodes")
    }

    /// A sequence of changes, maps and timings whose tests are all short
    /// enough; the tally counts the changes left out because their tests are
    /// too long.
    pub fn sequence(&self, rng: &mut Rng, tally: &mut Tally) -> Sequence {
        let mut held = self.session(rng);
        let start = words_of(&held);
        let mut ops = Vec::new();
        for _ in 0..rng.range(1, 8) {
            let mut changed = held.clone();
            let op = self.change(rng, &held);
            changed.apply(&op, &mut []).expect("the change is good");
            let fits = self.fits(changed.entries());
            tally.node(fits);
            if fits {
                held = changed;
                ops.push(op);
            }
            let len = held.entries().len();
            ops.extend([group(rng, len), Op::MapTime(position(rng, len))]);
        }
        ops.push(Op::Map);
        Sequence { start, ops }
    }

    /// Whether the tests of these entries are short enough.
    pub fn fits(&self, entries: &[Entry]) -> bool {
        rounds_ceiling(entries) <= self.rounds
    }

    /// A change that is not refused.
    pub fn change(&self, rng: &mut Rng, session: &Session) -> Op {
        let len = session.entries().len();
        match rng.below(8) {
            0 | 1 if len < MAX_ENTRIES => {
                let others = self.node(rng).entries;
                let (position, entry) = (rng.count(0, len), rng.pick(&others));
                let number = free(rng, session.entries());
                Op::Insert(position, Entry { number, ..entry })
            }
            2 if len > 1 => Op::Remove(rng.index(len)),
            3 | 4 => {
                let near = rng.count(1, (len + 1).min(64));
                Op::SetLevels(rng.pick(&[1, 2, 3, near, near, 64]))
            }
            _ => {
                let at = rng.index(len);
                Op::Replace(at, varied(rng, session.entries()[at]))
            }
        }
    }
}

/// The entry with one number changed, within the limits.
fn varied(rng: &mut Rng, entry: Entry) -> Entry {
    let Entry { c, t, d, j, .. } = entry;
    match rng.below(7) {
        0 => Entry {
            c: rng.range(1, (d - j).min(2 * c)),
            ..entry
        },
        1 => Entry {
            d: rng.range(c + j, t),
            ..entry
        },
        2 => Entry { d: t, ..entry },
        3 => Entry {
            t: rng.range(d, MAX_TICKS.min(2 * t)),
            ..entry
        },
        4 => Entry {
            b: rng.range(0, d - c) / rng.pick(&[1, 4, 16]),
            ..entry
        },
        5 => entry.jittered(any(rng, &entry)),
        _ => Entry {
            kind: TASK,
            r: rng.pick(&[0, 1, 2, MAX_R - 1, MAX_R]),
            ..entry
        },
    }
}
