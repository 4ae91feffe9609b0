//! Compares the speed of the proved library with two Rust programs that do the
//! same work in this process: one tuned by hand with the same decisions, and a
//! plain one. A ratio below 1 means that the proved library is faster.
//!
//! Arguments are parts of names: only rows whose names contain one are
//! measured.

mod measure;
mod odd;
mod planner;
mod rows;
mod sessions;
mod stations;

use measure::Table;
use oracle::ffi;
use oracle::file::{decode, edition_of, encode};
use oracle::gen::entries;
use oracle::gen::numbers;
use oracle::gen::plans;
use oracle::listing::MOST_TEXT;
use oracle::model::{Edition, Entry, Plan, MAX_ENTRIES};
use oracle::rng::Rng;
use rows::{Checking, Converting, Listing, Mapping, Reading, Writing};
use stations::{mapped_entries, one_node, station, Starts};

/// Entries of a node of a station.
const COUNT: usize = 12;

/// Files without jitter; returns what [`longest`] does.
fn files(table: &mut Table) -> Option<String> {
    let mut rng = Rng::new(7);
    maps(table, &mut rng, Starts::Punctual);
    let ratio = longest(table, &mut rng, Edition::First);
    let any = [1, 4, 8, 16, 32].map(|nodes| station(nodes, || entries::many(&mut rng, COUNT)));
    let mapped =
        [1, 4, 8, 16, 32].map(|nodes| station(nodes, || drawn(&mut rng, Starts::Punctual)));
    for file in any.iter().chain(&mapped) {
        table.row(&listing(file, Room::Any));
    }
    for file in [&any[0], &mapped[0], &mapped[4]] {
        table.row(&listing(file, Room::Exact));
    }
    ratio
}

/// The same with entries that start late, in the second edition.
fn late_files(table: &mut Table) -> Option<String> {
    let mut rng = Rng::new(9);
    maps(table, &mut rng, Starts::Late);
    let ratio = longest(table, &mut rng, Edition::Second);
    for nodes in [1, 32] {
        let file = station(nodes, || drawn(&mut rng, Starts::Late));
        table.row(&listing(&file, Room::Any));
    }
    ratio
}

/// The entries of a node of a station with a map.
fn drawn(rng: &mut Rng, starts: Starts) -> Vec<Entry> {
    mapped_entries(rng, starts, COUNT, 16)
}

fn maps(table: &mut Table, rng: &mut Rng, starts: Starts) {
    for count in [8, 16, 32, 64] {
        let mut file = || one_node(&mapped_entries(rng, starts, count, 64), 64);
        table.row(&Mapping {
            name: format!("map a node of {count} entries{}", starts.name()),
            files: (0..16).map(|_| file()).collect(),
        });
    }
}

/// Checking, reading, writing and converting the longest plan of an edition, with
/// random numbers of the entries; checking and writing it also with others.
/// Returns how the times of converting and of reading compare.
fn longest(table: &mut Table, rng: &mut Rng, edition: Edition) -> Option<String> {
    let plan = plans::longest_in(rng, edition);
    // From another generator: the stations that are drawn later stay the same.
    let mut others = Rng::new(14);
    let plan = numbered(plan, || numbers::random(&mut others, MAX_ENTRIES));
    let file = &encode(&plan).expect("a good plan");
    let what = match edition {
        Edition::First => "the longest plan, 32 nodes of 64 entries",
        Edition::Second => "the longest plan of the second edition, 32 nodes of 64 entries",
    };
    table.row(&Checking { file, what });
    let read = table.row(&Reading { file, what });
    table.row(&Writing::of(file, what));
    // The second kind has the same low bits, so that marks by low bits tell
    // nothing.
    let kinds = [
        ("numbered 1 to 64", (1..=64).collect()),
        (
            "with numbers congruent modulo 1,024",
            numbers::congruent(MAX_ENTRIES, 1_024, 7),
        ),
    ];
    for (kind, drawn) in kinds {
        let plan: Plan = numbered(plan.clone(), || Vec::clone(&drawn));
        let (file, what) = (
            &encode(&plan).expect("a good plan"),
            &format!("{what}, {kind}"),
        );
        table.row(&Checking { file, what });
        table.row(&Writing::of(file, what));
    }
    let way = way(edition);
    let name = format!("convert the longest plan {way}, 32 nodes of 64 entries");
    let converted = table.row(&Converting::of(plan, edition, name));
    let ratio = converted? / read?;
    Some(format!(
        "converting the longest plan {way}: {ratio:.2} of the time of reading it, goal 2.00 or less"
    ))
}

/// The plan with these numbers in each node.
fn numbered(mut plan: Plan, mut draw: impl FnMut() -> Vec<u16>) -> Plan {
    for node in &mut plan.nodes {
        node.entries = numbers::with(node.entries.clone(), &draw());
    }
    plan
}

/// The way out of an edition.
fn way(from: Edition) -> &'static str {
    match from {
        Edition::First => "forward",
        Edition::Second => "back",
    }
}

/// Converting a station of 8 nodes both ways.
fn conversions(table: &mut Table) {
    let mut rng = Rng::new(11);
    let file = station(8, || entries::many(&mut rng, COUNT));
    for from in Edition::BOTH {
        let plan = decode(&file).expect("a good plan");
        let way = way(from);
        let name = format!("convert a station of 8 nodes of {COUNT} entries {way}");
        table.row(&Converting::of(plan, from, name));
    }
}

/// How long a lent buffer is.
enum Room {
    /// As long as any listing.
    Any,
    /// As long as its text.
    Exact,
}

/// The row of a station; its name says how many of its nodes have a map.
fn listing(file: &[u8], room: Room) -> Listing {
    let mut text = vec![0; MOST_TEXT];
    let length = ffi::list(file, &mut text).expect("the text fits");
    let text = String::from_utf8_lossy(&text[..length]);
    let nodes = match file[4] {
        1 => "1 node".into(),
        nodes => format!("{nodes} nodes"),
    };
    let maps = match text.matches(" levels ").count() {
        0 => "none".into(),
        maps if maps == usize::from(file[4]) => "all".into(),
        maps => maps.to_string(),
    };
    let (into, room) = match room {
        Room::Any => ("", MOST_TEXT),
        Room::Exact => (", into a buffer of just its text", length),
    };
    let late = match edition_of(file) {
        Some(Edition::Second) => Starts::Late.name(),
        _ => "",
    };
    Listing {
        name: format!(
            "list a station of {nodes} of {COUNT} entries{late}, {maps} with a map{into}"
        ),
        file: file.to_vec(),
        room,
    }
}

fn main() {
    let arguments: Vec<String> = std::env::args().skip(1).collect();
    if let [work, who, family] = &arguments[..] {
        match work.as_str() {
            odd::LISTING => return odd::list_child(who, family),
            odd::CHANGE => return odd::change_child(who, family),
            _ => {}
        }
    }
    let mut table = Table::new(&arguments);
    let forward = files(&mut table);
    conversions(&mut table);
    let asked = sessions::rows(&mut table);
    let back = late_files(&mut table);
    let asked_late = sessions::late_rows(&mut table);
    for ratio in [forward, back, asked, asked_late].into_iter().flatten() {
        println!("\n{ratio}");
    }
    odd::rounds(&mut Table::of_long_calls(&arguments), 8);
    let asked = |word: &String| "change a node of an odd plan".contains(word.as_str());
    if arguments.is_empty() || arguments.iter().any(asked) {
        odd::changes();
    }
    if arguments.is_empty() {
        odd::families();
    }
}
