//! Release jitter for generated entries, within the limits.

use crate::model::{Entry, Node, Plan};
use crate::rng::Rng;

/// How the entries of a node get their J.
#[derive(Clone, Copy, Debug, PartialEq, Eq)]
pub enum Jitter {
    /// Every J is 0.
    Zero,
    /// Up to three ticks each.
    Small,
    /// A third of the period each, cut to D - C.
    Third,
    /// D - C or a tick less on one entry, 0 on the others.
    Most,
    /// Any of these on each entry.
    Mixed,
}

impl Jitter {
    /// Any of them; the small one often, because it leaves most maps.
    pub fn draw(rng: &mut Rng) -> Jitter {
        rng.pick(&[
            Jitter::Zero,
            Jitter::Small,
            Jitter::Small,
            Jitter::Third,
            Jitter::Most,
            Jitter::Mixed,
        ])
    }

    /// Zero in half of the draws, else any of them.
    pub fn half_zero(rng: &mut Rng) -> Jitter {
        match rng.chance(1, 2) {
            true => Jitter::Zero,
            false => Jitter::draw(rng),
        }
    }

    /// The same entries with J.
    pub fn put(self, rng: &mut Rng, mut entries: Vec<Entry>) -> Vec<Entry> {
        let only = match self {
            Jitter::Zero => return entries,
            Jitter::Third => return thirds(entries),
            Jitter::Most => Some(rng.index(entries.len().max(1))),
            _ => None,
        };
        for (position, entry) in entries.iter_mut().enumerate() {
            entry.j = match self {
                Jitter::Small => rng.below(4).min(most(entry)),
                Jitter::Mixed => any(rng, entry),
                _ if only == Some(position) => most(entry) - rng.below(2).min(most(entry)),
                _ => 0,
            };
        }
        entries
    }
}

/// The largest J of an entry: D - C, or 0 where C is above D.
pub fn most(entry: &Entry) -> u64 {
    entry.d.saturating_sub(entry.c)
}

/// A third of the period, cut to D - C.
pub fn third(entry: &Entry) -> u64 {
    (entry.t / 3).min(most(entry))
}

/// The same entries, each with J of a third of its period, cut to D - C.
pub fn thirds(mut entries: Vec<Entry>) -> Vec<Entry> {
    for entry in &mut entries {
        entry.j = third(entry);
    }
    entries
}

/// Row and position of the first entry with J.
pub fn first_late(plan: &Plan) -> Option<(usize, usize)> {
    let late = |node: &Node| node.entries.iter().position(|entry| entry.j > 0);
    let mut rows = plan.nodes.iter().enumerate();
    rows.find_map(|(row, node)| Some((row, late(node)?)))
}

/// Any J of an entry, often 0.
pub fn any(rng: &mut Rng, entry: &Entry) -> u64 {
    let most = most(entry);
    let inside = rng.range(0, most);
    rng.pick(&[
        0,
        0,
        0,
        1.min(most),
        inside / 8,
        third(entry),
        most - 1.min(most),
        most,
    ])
}
