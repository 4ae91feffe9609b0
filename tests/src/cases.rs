//! The cases of docs/SPEC.md, each as a node with number 7.

use crate::file::encode;
use crate::model::{Edition, Entry, Node, Plan, SECTION};

/// The listing of case P.
pub const P_LISTING: &str = "\
plan 1
node 7 levels 2 of 2
entry 1 level 1 time 20 rounds 1
entry 2 level 2 time 138 rounds 2
entry 3 level 2 time 138 rounds 2
";

/// A node with number 7.
pub fn node(levels: u8, entries: &[Entry]) -> Node {
    Node {
        number: 7,
        levels,
        entries: entries.to_vec(),
    }
}

/// The file of a plan with this node alone, of the first edition if every J is
/// 0.
pub fn file(node: Node) -> Vec<u8> {
    encode(&Plan::of(vec![node])).expect("the case is inside the limits")
}

/// The file of a plan with this node alone, of the second edition.
pub fn second_file(node: Node) -> Vec<u8> {
    encode(&Plan::second(vec![node])).expect("the case is inside the limits")
}

/// Case P with another level count and another third deadline.
fn p_like(levels: u8, third_deadline: u64) -> Node {
    let entries = [
        Entry::task(1, 20, 100, 100),
        Entry::task(2, 30, 145, 145),
        Entry::task(3, 68, 150, third_deadline),
    ];
    node(levels, &entries)
}

/// Case P: two levels, times 20, 138, 138.
pub fn p() -> Node {
    p_like(2, 150)
}

/// Case Q: P with third D 138, the same times.
pub fn q() -> Node {
    p_like(2, 138)
}

/// Case R: P with third D 137, no map.
pub fn r() -> Node {
    p_like(2, 137)
}

/// Case F: P with 1 level, no map.
pub fn f() -> Node {
    p_like(1, 150)
}

/// Case H: all on level 1, though narrower last groups fail.
pub fn h() -> Node {
    let entries = [
        Entry::task(1, 2, 5, 5),
        Entry::task(2, 1, 20, 20),
        Entry::task(3, 2, 20, 8).blocked(3),
    ];
    node(3, &entries)
}

/// Case S: no map.
pub fn s() -> Node {
    let entries = [
        Entry::task(1, 20, 100, 100),
        Entry::task(2, 78, 150, 150),
        Entry::task(3, 30, 160, 145),
    ];
    node(3, &entries)
}

/// Case U: map 1, 1, 2.
pub fn u() -> Node {
    let entries = [
        Entry::task(1, 20, 100, 100).blocked(10),
        Entry::task(2, 30, 160, 145).blocked(10),
        Entry::task(3, 78, 150, 150),
    ];
    node(2, &entries)
}

/// Case V, with two levels, so that both of its groupings are possible.
pub fn v() -> Node {
    let entries = [
        Entry::task(1, 1, 5, 5),
        Entry::task(2, 4, 20, 20).calling(1).blocked(10),
    ];
    node(2, &entries)
}

/// Case E: an empty node.
pub fn e() -> Node {
    node(3, &[])
}

/// Case P, an empty node, and a node with a section.
pub fn three_nodes(edition: Edition) -> Plan {
    let section = Entry {
        kind: SECTION,
        ..Entry::task(9, 3, 300, 200).blocked(5)
    };
    let mut nodes = vec![p(), e(), node(1, &[section])];
    nodes[1].number = 300;
    nodes[2].number = 301;
    Plan { edition, nodes }
}

/// The node with release jitter `j` on the entry at `position`.
pub fn jittered(mut node: Node, position: usize, j: u64) -> Node {
    node.entries[position].j = j;
    node
}

/// A first entry that is released twice while the second one runs, if it
/// starts late: 3/10/10 and 5/20/20, with J on the first.
pub fn again(j: u64) -> Node {
    let entries = [
        Entry::task(1, 3, 10, 10).jittered(j),
        Entry::task(2, 5, 20, 20),
    ];
    node(2, &entries)
}

/// A first entry that the second one finds twice on its own level: 2/10/10
/// with J, and 3/30/30 with r 1.
pub fn twice_ahead(j: u64) -> Node {
    let entries = [
        Entry::task(1, 2, 10, 10).jittered(j),
        Entry::task(2, 3, 30, 30).calling(1),
    ];
    node(2, &entries)
}
