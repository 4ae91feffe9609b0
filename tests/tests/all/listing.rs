//! The listing, byte for byte.

use oracle::cases::{self, P_LISTING};
use oracle::ffi;
use oracle::file::{encode, longest};
use oracle::gen::damage::{damage, AIMS};
use oracle::gen::plans;
use oracle::lent::{words_with, NO_STORE};
use oracle::listing::{list, MAX_INPUT};
use oracle::model::{Edition, Entry, Node, Plan};
use oracle::options::{rng, times};
use oracle::session::Session;
use oracle::timing::Timing;

fn numbered(number: u16, node: Node) -> Node {
    Node { number, ..node }
}

#[test]
fn case_p() {
    assert_eq!(list(&cases::file(cases::p())), P_LISTING);
}

#[test]
fn file_of_case_p() {
    let bytes: Vec<u8> = [
        &[0x4C, 0x4D, 0x50, 0x31, 1, 0, 0, 0][..],
        &[7, 0, 2, 3, 16, 0, 0, 0],
        &[
            1, 0, 1, 0, 20, 0, 0, 0, 100, 0, 0, 0, 100, 0, 0, 0, 0, 0, 0, 0,
        ],
        &[
            2, 0, 1, 0, 30, 0, 0, 0, 145, 0, 0, 0, 145, 0, 0, 0, 0, 0, 0, 0,
        ],
        &[
            3, 0, 1, 0, 68, 0, 0, 0, 150, 0, 0, 0, 150, 0, 0, 0, 0, 0, 0, 0,
        ],
    ]
    .concat();
    assert_eq!(cases::file(cases::p()), bytes);
}

#[test]
fn file_of_case_p_in_the_second_edition() {
    let bytes: Vec<u8> = [
        &[0x4C, 0x4D, 0x50, 0x32, 1, 0, 0, 0][..],
        &[7, 0, 2, 3, 16, 0, 0, 0],
        &[1, 0, 1, 0, 20, 0, 0, 0, 100, 0, 0, 0],
        &[100, 0, 0, 0, 0, 0, 0, 0, 0, 0, 0, 0],
        &[2, 0, 1, 0, 30, 0, 0, 0, 145, 0, 0, 0],
        &[145, 0, 0, 0, 0, 0, 0, 0, 0, 0, 0, 0],
        &[3, 0, 1, 0, 68, 0, 0, 0, 150, 0, 0, 0],
        &[150, 0, 0, 0, 0, 0, 0, 0, 12, 0, 0, 0],
    ]
    .concat();
    let file = cases::second_file(cases::jittered(cases::p(), 2, 12));
    assert_eq!(file, bytes);
    // The completion time is listed without J.
    assert_eq!(list(&file), P_LISTING);
    assert_eq!(list(&cases::second_file(cases::p())), P_LISTING);
}

#[test]
fn node_without_a_map() {
    assert_eq!(list(&cases::file(cases::f())), "plan 1\nnode 7 no map\n");
}

#[test]
fn empty_node() {
    let listing = list(&cases::file(cases::e()));
    assert_eq!(listing, "plan 1\nnode 7 levels 0 of 3\n");
}

#[test]
fn nodes_follow_in_contents_order() {
    let nodes = vec![
        numbered(0, cases::e()),
        numbered(300, cases::f()),
        numbered(65_535, cases::v()),
    ];
    let expected = "\
plan 3
node 0 levels 0 of 3
node 300 no map
node 65535 levels 1 of 2
entry 1 level 1 time 5 rounds 1
entry 2 level 1 time 16 rounds 2
";
    for plan in [Plan::first(nodes.clone()), Plan::second(nodes)] {
        assert_eq!(list(&encode(&plan).unwrap()), expected);
    }
}

#[test]
fn refused_line() {
    let good = [Entry::task(1, 1, 9, 9), Entry::task(2, 5, 9, 5)];
    let mut file = cases::file(cases::node(1, &good));
    file[16 + 20 + 4] = 6;
    assert_eq!(list(&file), "refused 8 row 0 entry 1\n");
    assert_eq!(list(&[]), "refused 1 row 0 entry 0\n");
    let mut file = cases::second_file(cases::node(1, &good));
    file[16 + 24 + 20] = 1;
    assert_eq!(list(&file), "refused 14 row 0 entry 1\n");
}

/// The listing of case P's file after `edit`, padded with zeros to `length`.
fn padded(length: usize, edit: fn(&mut Vec<u8>)) -> String {
    let mut file = cases::file(cases::p());
    edit(&mut file);
    file.resize(length, 0);
    list(&file)
}

#[test]
fn longest_input_and_one_byte_more() {
    for length in [MAX_INPUT - 1, MAX_INPUT, MAX_INPUT + 1, 3 * MAX_INPUT] {
        assert_eq!(padded(length, |_| ()), "refused 6 row 0 entry 0\n");
        // A fault of a later check is not reported, one of an earlier check is.
        let kind = padded(length, |file| file[18] = 3);
        assert_eq!(kind, "refused 6 row 0 entry 0\n");
        let offset = padded(length, |file| file[12] = 17);
        assert_eq!(offset, "refused 5 row 0 entry 0\n");
        let count = padded(length, |file| file[4] = 33);
        assert_eq!(count, "refused 3 row 0 entry 0\n");
    }
    // No plan file comes near the program's limit.
    assert_eq!(Edition::BOTH.map(longest), [41_224, 49_416]);
}

/// A node's lines, made from other calls of the proved library.
fn node_lines(file: &[u8], node: &Node) -> Vec<String> {
    let (number, available) = (node.number, node.levels);
    let mut levels = vec![0; node.entries.len()];
    let Ok(used) = ffi::map(file, number, &mut levels) else {
        return vec![format!("node {number} no map")];
    };
    let held = Session::holding(usize::from(available), &node.entries).expect("a good node");
    let session = ffi::session::Session::of(&words_with(&held, &NO_STORE));
    let mut lines = vec![format!("node {number} levels {used} of {available}")];
    for (i, (entry, level)) in node.entries.iter().zip(&levels).enumerate() {
        let first = levels.iter().position(|other| other == level).unwrap();
        let last = levels.iter().rposition(|other| other == level).unwrap();
        let Ok(Timing::OnTime { time, rounds }) = session.time(first, last, i) else {
            panic!("an entry of a map is late");
        };
        let number = entry.number;
        lines.push(format!(
            "entry {number} level {level} time {time} rounds {rounds}"
        ));
    }
    lines
}

#[test]
fn listings_say_what_the_other_calls_say() {
    let mut rng = rng(140);
    let (mut mapped, mut none) = (0, 0);
    for round in 0..times(400) {
        let plan = match round % 20 {
            0 => plans::station(&mut rng),
            1 => plans::full_node(&mut rng),
            2..8 => plans::wide(&mut rng),
            8..12 => plans::tight(&mut rng),
            _ => plans::small(&mut rng),
        };
        let file = encode(&plan).unwrap();
        let mut lines = vec![format!("plan {}", plan.nodes.len())];
        lines.extend(plan.nodes.iter().flat_map(|node| node_lines(&file, node)));
        assert_eq!(list(&file), lines.join("\n") + "\n");
        mapped += lines.iter().filter(|line| line.contains(" of ")).count() as u64;
        none += lines.iter().filter(|line| line.ends_with("no map")).count() as u64;
    }
    assert!(mapped > times(300) && none > times(200), "{mapped} {none}");
}

#[test]
fn refused_files_give_one_line() {
    let mut rng = rng(141);
    for aim in AIMS {
        for _ in 0..times(20) {
            let plan = plans::filled(&mut rng);
            let damaged = damage(&mut rng, &plan, &[aim]);
            assert_eq!(list(&damaged.file), format!("{}\n", damaged.due));
        }
    }
}
