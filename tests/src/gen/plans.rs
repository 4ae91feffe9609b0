//! Whole plans, in half of the draws of the second edition. The numbers of a
//! node's entries all differ.

use super::jitter::Jitter;
use super::numbers;
use super::{entries, odd};
use crate::model::{Edition, Entry, Node, Plan, MAX_ENTRIES, MAX_NODES};
use crate::rng::Rng;

/// A few nodes of a few entries with small numbers, some empty.
pub fn small(rng: &mut Rng) -> Plan {
    let nodes = rng.count(1, 4);
    plan(rng, nodes, |rng, jitter| {
        let count = rng.count(0, 6);
        let entries = match rng.below(3) {
            0 => entries::tiny(rng, count),
            1 => entries::scattered(rng, count),
            _ => return entries::at_limits(rng, count, jitter),
        };
        jitter.put(rng, entries)
    })
}

/// A small plan with a node of at least two entries.
pub fn filled(rng: &mut Rng) -> Plan {
    loop {
        let plan = small(rng);
        if plan.nodes.iter().any(|node| node.entries.len() > 1) {
            return plan;
        }
    }
}

/// Nodes whose wide groups pass although narrower ones fail.
pub fn wide(rng: &mut Rng) -> Plan {
    let nodes = rng.count(1, 3);
    plan(rng, nodes, |rng, jitter| {
        let count = rng.count(3, 8);
        entries::wide(rng, count, jitter)
    })
}

/// Nodes whose deadlines are at completion times.
pub fn tight(rng: &mut Rng) -> Plan {
    let nodes = rng.count(1, 3);
    plan(rng, nodes, |rng, jitter| {
        let count = rng.count(1, 10);
        let loose = match rng.below(2) {
            0 => entries::tiny(rng, count),
            _ => entries::realistic(rng, count),
        };
        let loose = jitter.put(rng, loose);
        entries::tighten(rng, loose)
    })
}

/// Nodes in which entries find others twice ahead on their level, in the second
/// edition sometimes by J alone.
pub fn queued(rng: &mut Rng) -> Plan {
    let nodes = rng.count(1, 3);
    plan(rng, nodes, |rng, jitter| {
        let count = rng.count(2, 8);
        entries::queued(rng, count, jitter)
    })
}

/// A station: 1 to 32 nodes of 3 to 20 entries.
pub fn station(rng: &mut Rng) -> Plan {
    let nodes = rng.count(1, MAX_NODES);
    plan(rng, nodes, |rng, jitter| {
        let count = rng.count(3, 20);
        let entries = entries::realistic(rng, count);
        jitter.put(rng, entries)
    })
}

/// One node of 64 entries.
pub fn full_node(rng: &mut Rng) -> Plan {
    plan(rng, 1, |rng, jitter| {
        let entries = match rng.below(3) {
            0 => entries::light(rng, MAX_ENTRIES),
            1 => entries::tiny(rng, MAX_ENTRIES),
            _ => entries::many(rng, MAX_ENTRIES),
        };
        let entries = jitter.put(rng, entries);
        if rng.chance(1, 2) {
            entries::tighten(rng, entries)
        } else {
            entries
        }
    })
}

/// One node of 13 to 64 entries with blocking and remote sections, some with
/// deadlines at completion times.
pub fn many_entries(rng: &mut Rng) -> Plan {
    plan(rng, 1, |rng, jitter| {
        let count = rng.count(13, MAX_ENTRIES);
        let entries = entries::many(rng, count);
        let entries = jitter.put(rng, entries);
        if rng.chance(1, 2) {
            entries::tighten(rng, entries)
        } else {
            entries
        }
    })
}

/// A few nodes with usual periods of up to 1,000,000,000.
pub fn long_periods(rng: &mut Rng) -> Plan {
    let nodes = rng.count(1, 3);
    plan(rng, nodes, |rng, jitter| {
        let count = rng.count(3, 20);
        let entries = entries::long_periods(rng, count);
        jitter.put(rng, entries)
    })
}

/// One node with a utilisation just below, at or just above 1; its tests may
/// take more rounds than those of the other plans.
pub fn near_one(rng: &mut Rng) -> Plan {
    plan(rng, 1, odd::near_one)
}

/// 32 nodes, each with few entries, or none.
pub fn many_nodes(rng: &mut Rng) -> Plan {
    plan(rng, MAX_NODES, |rng, jitter| {
        let count = rng.count(0, 5);
        let entries = entries::scattered(rng, count);
        jitter.put(rng, entries)
    })
}

/// The longest plan of an edition: 32 nodes of 64 entries.
pub fn longest(rng: &mut Rng) -> Plan {
    let edition = rng.pick(&Edition::BOTH);
    longest_in(rng, edition)
}

/// The longest plan of this edition.
pub fn longest_in(rng: &mut Rng, edition: Edition) -> Plan {
    plan_in(rng, edition, MAX_NODES, |rng, jitter| {
        let entries = entries::light(rng, MAX_ENTRIES);
        jitter.put(rng, entries)
    })
}

/// Nodes with numbers at both ends of the limits.
pub fn at_limits(rng: &mut Rng) -> Plan {
    let nodes = rng.count(1, 5);
    plan(rng, nodes, |rng, jitter| {
        let count = rng.count(1, 6);
        entries::at_limits(rng, count, jitter)
    })
}

/// Any plan, often a small one.
pub fn any(rng: &mut Rng) -> Plan {
    match rng.below(8) {
        0 => station(rng),
        1 => full_node(rng),
        2 => many_nodes(rng),
        3 => at_limits(rng),
        4 => wide(rng),
        _ => small(rng),
    }
}

/// A plan of this edition, by a generator that draws both.
pub fn drawn_in(rng: &mut Rng, edition: Edition, draw: fn(&mut Rng) -> Plan) -> Plan {
    loop {
        let plan = draw(rng);
        if plan.edition == edition {
            return plan;
        }
    }
}

/// The same nodes in this edition.
pub fn in_edition(plan: &Plan, edition: Edition) -> Plan {
    let nodes = plan.nodes.clone();
    Plan { edition, nodes }
}

/// The same nodes without J, in the first edition.
pub fn punctual(mut plan: Plan) -> Plan {
    for entry in plan.nodes.iter_mut().flat_map(|node| &mut node.entries) {
        entry.j = 0;
    }
    Plan::first(plan.nodes)
}

/// A small plan of the second edition with a node of at least two entries, in
/// which an entry has J.
pub fn late(rng: &mut Rng) -> Plan {
    loop {
        let plan = filled(rng);
        if !plan.is_punctual() {
            return plan;
        }
    }
}

/// A plan of either edition; `draw` draws the entries of a node, with the given
/// jitter.
fn plan(rng: &mut Rng, nodes: usize, draw: impl FnMut(&mut Rng, Jitter) -> Vec<Entry>) -> Plan {
    let edition = rng.pick(&Edition::BOTH);
    plan_in(rng, edition, nodes, draw)
}

fn plan_in(
    rng: &mut Rng,
    edition: Edition,
    nodes: usize,
    mut draw: impl FnMut(&mut Rng, Jitter) -> Vec<Entry>,
) -> Plan {
    let numbers = rising(rng, nodes);
    let nodes = numbers
        .into_iter()
        .map(|number| {
            let jitter = match edition {
                Edition::First => Jitter::Zero,
                Edition::Second => Jitter::draw(rng),
            };
            let entries = draw(rng, jitter);
            let entries = numbered(rng, entries);
            Node {
                number,
                levels: levels_for(rng, entries.len()),
                entries,
            }
        })
        .collect();
    Plan { edition, nodes }
}

/// In half of the draws the entries as they are, else with numbers of any kind.
/// These come from a generator of their own, so that the numbers change nothing
/// else of a plan.
fn numbered(rng: &Rng, entries: Vec<Entry>) -> Vec<Entry> {
    let mut rng = Rng::new(rng.clone().word());
    match rng.chance(1, 2) {
        true => entries,
        false => {
            let drawn = numbers::different(&mut rng, entries.len());
            numbers::with(entries, &drawn)
        }
    }
}

/// Level counts near what the entries need, and both ends of the limits.
fn levels_for(rng: &mut Rng, count: usize) -> u8 {
    let near = rng.count(1, count.clamp(1, 63) + 1) as u8;
    rng.pick(&[1, 2, 3, near, near, near, 64])
}

/// Node numbers that rise strictly; 0 and 65,535 occur.
fn rising(rng: &mut Rng, count: usize) -> Vec<u16> {
    let mut number = rng.pick(&[0, 0, 7, 900]);
    let step = rng.pick(&[1, 300, 2_000]);
    let mut numbers = Vec::new();
    for _ in 0..count {
        numbers.push(number);
        number += rng.range(1, step) as u16;
    }
    if rng.chance(1, 4) {
        *numbers.last_mut().expect("a plan has a node") = u16::MAX;
    }
    numbers
}
