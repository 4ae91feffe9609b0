//! Odd plans: their listings, and changes of a session that holds one of their
//! nodes, compared with plain ones, which make every round.
//!
//! Each listing and each change runs in a process of its own, with a limit,
//! because it may take hours.

use crate::measure::Table;
use crate::planner::{Plain, Planner, Proved, Tuned};
use crate::rows::{Listing, Mapping};
use crate::stations::one_node;
use oracle::ffi::session::Session;
use oracle::file::encode;
use oracle::gen::jitter::thirds;
use oracle::gen::odd::{full_plan, many_rounds, FAMILIES, JUST_LATE, LATE_STARTS};
use oracle::lent::{words_with, NO_STORE};
use oracle::listing::MOST_TEXT;
use oracle::model::{Entry, MAX_ENTRIES};
use oracle::plain;
use oracle::programs::run_within;
use oracle::words::entry_words;
use std::env;
use std::process::Command;
use std::time::{Duration, Instant};

/// The argument of a process that lists one plan.
pub const LISTING: &str = "odd";
/// The argument of a process that changes one session.
pub const CHANGE: &str = "odd-change";
/// Seconds after which a listing or a change is killed.
const LIMIT: u64 = 20;
const PLAIN_LIMIT: u64 = 2;
/// A listing that takes less than this many seconds is measured again.
const SHORT: f64 = 0.1;

/// The table of the families.
pub fn families() {
    println!("\n| Listing of 32 nodes of 64 entries | proved | tuned | plain, every round |");
    println!("|---|---|---|---|");
    for (at, (name, _)) in all().into_iter().enumerate() {
        let (proved, _) = in_child(LISTING, "proved", at, LIMIT);
        let (tuned, _) = in_child(LISTING, "tuned", at, LIMIT);
        let (plain, nodes) = in_child(LISTING, "plain", at, PLAIN_LIMIT);
        println!("| {name} | {proved} | {tuned} | {plain}, {nodes} of 32 nodes |");
    }
}

/// The table of changes: the 64th entry of a node is inserted.
pub fn changes() {
    println!(
        "\n| Insert the last of 64 entries into a session | proved | tuned | plain, every round |"
    );
    println!("|---|---|---|---|");
    for (at, (name, _)) in changed().into_iter().enumerate() {
        let (proved, _) = in_child(CHANGE, "proved", at, LIMIT);
        let (tuned, _) = in_child(CHANGE, "tuned", at, LIMIT);
        let (plain, _) = in_child(CHANGE, "plain", at, PLAIN_LIMIT);
        println!("| {name} | {proved} | {tuned} | {plain} |");
    }
}

/// The nodes of the odd plans, and the one whose listing takes half a minute.
fn changed() -> Vec<(String, Vec<Entry>)> {
    let slow = (
        "on time after millions of rounds".to_string(),
        many_rounds(MAX_ENTRIES),
    );
    all().into_iter().chain([slow]).collect()
}

/// The child process: inserts the last entry of a node, once if that takes long,
/// and prints the seconds.
pub fn change_child(who: &str, family: &str) {
    let family: usize = family.parse().expect("the place of a family");
    let (name, mut entries) = changed().swap_remove(family);
    let last = entry_words(&entries.pop().expect("it is full"));
    let held = oracle::session::Session::holding(64, &entries).expect("good entries");
    let before = Session::of(&words_with(&held, &NO_STORE));
    let mut session = before.clone();
    let insert = match who {
        "proved" => Proved::insert,
        "tuned" => Tuned::insert,
        _ => Plain::insert,
    };
    let best = best_of(|_| {
        session.clone_from(&before);
        assert!(insert(&mut session, MAX_ENTRIES - 1, &last), "{name}");
    });
    let due = match family + 1 == changed().len() {
        true => (1, 5, 59 * 3_263_442),
        false => (0, 0, 0),
    };
    let stored = (session.mapped, session.used, session.times[63]);
    assert_eq!(stored, due, "{name}");
    println!("{best}");
}

/// Every family, and each once more with J of a third of its periods.
fn all() -> Vec<(String, Vec<Entry>)> {
    let families = || FAMILIES.into_iter().chain(JUST_LATE);
    let as_they_are = families().chain([LATE_STARTS]);
    let late = families().map(|(name, entries)| {
        let name = format!("{name}, each entry with jitter");
        (name, thirds(entries()))
    });
    as_they_are
        .map(|(name, entries)| (name.to_string(), entries()))
        .chain(late)
        .collect()
}

/// How long a listing or a change takes, and how many nodes a listing reports as
/// done.
fn in_child(work: &str, who: &str, family: usize, limit: u64) -> (String, usize) {
    let program = env::current_exe().expect("this program has a path");
    let mut command = Command::new(program);
    command.args([work, who, &family.to_string()]);
    let (text, ended) = run_within(&mut command, &[], Duration::from_secs(limit));
    let text = String::from_utf8(text).expect("the child writes text");
    let nodes = text.lines().filter(|line| *line == "node").count();
    match ended {
        None => (format!("more than {limit} s"), nodes),
        Some(ended) => {
            assert!(ended, "the child fails");
            let seconds: f64 = text.lines().last().unwrap_or("").parse().expect("seconds");
            (format!("{:.3} ms", seconds * 1e3), nodes)
        }
    }
}

/// The child process: lists a plan of a family and prints the seconds.
pub fn list_child(who: &str, family: &str) {
    let family: usize = family.parse().expect("the place of a family");
    let file = encode(&full_plan(&all()[family].1)).expect("a good plan");
    let mut text = vec![0; MOST_TEXT];
    let best = match who {
        "proved" => best_of(|_| assert!(Proved::list(&file, &mut text).is_some())),
        "tuned" => best_of(|_| assert!(Tuned::list(&file, &mut text).is_some())),
        _ => best_of(|first| {
            let tell = || {
                if first {
                    println!("node");
                }
            };
            assert!(plain::list_and_tell(&file, &mut text, tell).is_some());
        }),
    };
    let lines = (1..=32).map(|number| format!("node {number} no map\n"));
    let due = "plan 32\n".to_string() + &lines.collect::<String>();
    assert!(
        text.starts_with(due.as_bytes()),
        "{who} lists something else"
    );
    println!("{best}");
}

/// The least time of several calls, or the time of one long call. `list` learns
/// whether its call is the first.
fn best_of(mut list: impl FnMut(bool)) -> f64 {
    let mut seconds = |first| {
        let begin = Instant::now();
        list(first);
        begin.elapsed().as_secs_f64()
    };
    let mut best = seconds(true);
    if best < SHORT {
        for _ in 0..30 {
            best = best.min(seconds(false));
        }
    }
    best
}

/// The table for a node whose last entries take millions of rounds.
pub fn rounds(table: &mut Table, count: usize) {
    let file = one_node(&many_rounds(count), 64);
    let what = format!("a node of {count} entries with millions of rounds");
    table.row(&Mapping {
        name: format!("map {what}"),
        files: vec![file.clone()],
    });
    table.row(&Listing {
        name: format!("list {what}"),
        file,
        room: MOST_TEXT,
    });
}
