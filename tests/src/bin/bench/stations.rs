//! Nodes and stations that are measured.

use oracle::file::encode;
use oracle::gen::entries;
use oracle::gen::jitter::thirds;
use oracle::model::{Entry, Node, Plan};
use oracle::plain;
use oracle::rng::Rng;

/// Entries that are measured: punctual ones, or those with J of a third of
/// their period, cut to D - C.
#[derive(Clone, Copy, PartialEq, Eq)]
pub enum Starts {
    Punctual,
    Late,
}

impl Starts {
    /// The entries with their J.
    pub fn of(self, entries: Vec<Entry>) -> Vec<Entry> {
        match self {
            Starts::Punctual => entries,
            Starts::Late => thirds(entries),
        }
    }

    /// The end of a row's name.
    pub fn name(self) -> &'static str {
        match self {
            Starts::Punctual => "",
            Starts::Late => ", each with jitter",
        }
    }
}

/// `count` entries that have a map with at most `levels` levels.
pub fn mapped_entries(rng: &mut Rng, starts: Starts, count: usize, levels: u8) -> Vec<Entry> {
    loop {
        let entries = starts.of(entries::many(rng, count));
        if plain::map(&one_node(&entries, levels), 7, &mut [0; 64]).is_some() {
            return entries;
        }
    }
}

/// The file of a plan of one node, with the number 7, of the first edition if
/// every J is 0.
pub fn one_node(entries: &[Entry], levels: u8) -> Vec<u8> {
    let node = Node {
        number: 7,
        levels,
        entries: entries.to_vec(),
    };
    encode(&Plan::of(vec![node])).expect("a good plan")
}

/// The file of a station of `nodes` nodes with 16 levels each.
pub fn station(nodes: u16, mut draw: impl FnMut() -> Vec<Entry>) -> Vec<u8> {
    let nodes = (0..nodes)
        .map(|number| Node {
            number,
            levels: 16,
            entries: draw(),
        })
        .collect();
    encode(&Plan::of(nodes)).expect("a good plan")
}
