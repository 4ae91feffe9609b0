//! Writes the sample plans and their listings, `NAME.plan` and `NAME.txt`, into the directory given as first
//! argument.
//!
//! The listings come from the second implementation, so the program under test never writes its own expected output.

use oracle::cases;
use oracle::file::encode;
use oracle::gen::entries::realistic;
use oracle::gen::jitter::{most, third};
use oracle::listing::list;
use oracle::model::{Edition, Entry, Node, Plan};
use oracle::rng::Rng;
use std::path::Path;

/// A station of 32 controllers with usual utilisations and periods. In the second edition some entries may start late.
fn station(edition: Edition) -> Plan {
    let mut rng = Rng::new(32);
    let mut nodes: Vec<Node> = (0..32)
        .map(|row| {
            let count = rng.count(6, 18);
            Node {
                number: 101 + row,
                levels: rng.pick(&[4, 6, 8, 12]),
                entries: realistic(&mut rng, count),
            }
        })
        .collect();
    if edition == Edition::Second {
        for entry in nodes.iter_mut().flat_map(|node| &mut node.entries) {
            let late = rng.range(1, third(entry).max(1)).min(most(entry));
            entry.j = rng.pick(&[0, 0, 0, late]);
        }
    }
    Plan { edition, nodes }
}

fn write(folder: &Path, name: &str, file: &[u8]) {
    std::fs::write(folder.join(name).with_extension("plan"), file).expect("the folder is there");
    std::fs::write(folder.join(name).with_extension("txt"), list(file))
        .expect("the folder is there");
}

fn main() {
    let folder = std::env::args().nth(1).expect("the folder to write into");
    let folder = Path::new(&folder);
    let starred = [
        ("p", cases::p()),
        ("q", cases::q()),
        ("r", cases::r()),
        ("f", cases::f()),
        ("h", cases::h()),
        ("s", cases::s()),
        ("u", cases::u()),
        ("v", cases::v()),
        ("e", cases::e()),
    ];
    for (name, node) in starred {
        write(folder, name, &cases::file(node));
    }
    for (name, node) in late() {
        write(folder, name, &cases::second_file(node));
    }
    for (name, edition) in [
        ("station", Edition::First),
        ("station_jitter", Edition::Second),
    ] {
        let file = encode(&station(edition)).expect("the station is inside the limits");
        write(folder, name, &file);
    }
    let mut damaged = cases::file(cases::p());
    damaged[40] = 200;
    write(folder, "refused", &damaged);
    let mut damaged = cases::second_file(cases::node(1, &[Entry::task(1, 3, 10, 10)]));
    damaged[36] = 8;
    write(folder, "refused_jitter", &damaged);
    // The second entry of case P has the number of the first.
    let mut damaged = cases::file(cases::p());
    damaged[36] = 1;
    write(folder, "refused_repeat", &damaged);
}

/// Cases in which entries start late, in the second edition.
fn late() -> Vec<(&'static str, Node)> {
    vec![
        ("p_jitter_12", cases::jittered(cases::p(), 2, 12)),
        ("p_jitter_13", cases::jittered(cases::p(), 2, 13)),
        ("h_jitter_15", cases::jittered(cases::h(), 1, 15)),
        ("h_jitter_16", cases::jittered(cases::h(), 1, 16)),
        ("h_jitter_first", cases::jittered(cases::h(), 0, 1)),
        ("h_jitter_third", cases::jittered(cases::h(), 2, 1)),
        ("v_jitter_2", cases::jittered(cases::v(), 0, 2)),
        ("v_jitter_4", cases::jittered(cases::v(), 0, 4)),
        ("again", cases::again(4)),
        ("twice_ahead", cases::twice_ahead(8)),
    ]
}
