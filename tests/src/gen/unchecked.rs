//! Files and lent sessions of any entries, which no check has seen.

use super::numbers::from_one;
use super::places::put_words;
use crate::file::{contents_end, encode, entry_bytes, entry_length};
use crate::lent::{words_of, Words};
use crate::model::{Entry, Node, Plan};
use crate::session::Session;

/// The least good entry.
const LEAST: Entry = Entry::task(1, 1, 1, 1);

/// Good entries, as many as these.
fn good(entries: &[Entry]) -> Vec<Entry> {
    from_one(vec![LEAST; entries.len()])
}

/// The plan's file, whatever its entries. Its rows must be good.
pub fn file(plan: &Plan) -> Vec<u8> {
    let node = |node: &Node| Node {
        entries: good(&node.entries),
        ..*node
    };
    let nodes = plan.nodes.iter().map(node).collect();
    let mut file = encode(&Plan { nodes, ..*plan }).expect("the rows are good");
    let bodies = &mut file[contents_end(plan.nodes.len())..];
    let slots = bodies.chunks_exact_mut(entry_length(plan.edition));
    for (slot, entry) in slots.zip(plan.entries()) {
        slot.copy_from_slice(&entry_bytes(plan.edition, &entry));
    }
    file
}

/// The memory of a session with these entries, whatever they are; at most 64. It
/// is written by hand, so that its store is that of other entries.
pub fn session(levels: usize, entries: &[Entry]) -> Words {
    let held = Session::holding(levels, &good(entries)).expect("at most 64 entries");
    let mut words = words_of(&held);
    for (position, entry) in entries.iter().enumerate() {
        put_words(&mut words, position, entry);
    }
    words
}
