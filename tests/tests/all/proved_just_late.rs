//! Deadlines just below a completion time: only the rounds show that the entry
//! is late. The smaller nodes are compared with the second implementation; it
//! would take hours for the full ones.

use crate::say;
use oracle::cases;
use oracle::compare;
use oracle::compare::session::Both;
use oracle::ffi;
use oracle::gen::buffers::known;
use oracle::gen::jitter::thirds;
use oracle::gen::just_late::just_late;
use oracle::gen::odd::JUST_LATE;
use oracle::lent::{words_with, NO_STORE};
use oracle::options::{rng, times};
use oracle::refusal::{Refusal, NO_MAP};
use oracle::session::{Op, Reply, Session};
use oracle::tally::Tally;
use oracle::timing::Timing;

/// With deadlines a tick before the completion time there is no map, and with
/// deadlines at it there is one; also if entries start late.
#[test]
fn at_the_completion_time_and_a_tick_before() {
    let (mut rng, mut tally) = (rng(320), Tally::default());
    let mut least = u64::MAX;
    for round in 0..times(24) {
        let early = round % 2;
        let entries = just_late(&mut rng, early, round % 4 > 1);
        let last = entries.len() - 1;
        let words = words_with(&Session::holding(64, &entries).unwrap(), &NO_STORE);
        let first = entries.iter().position(|e| e.t == entries[last].t).unwrap();
        let timed = Both::of(&words).step(&mut tally, &Op::Time(first, last, last), 0);
        let Ok(Reply::Timed(timing)) = timed else {
            panic!("{timed:?}");
        };
        match timing {
            Timing::OnTime { .. } => assert_eq!(early, 0, "{entries:?}"),
            Timing::Late { overrun, .. } => assert_eq!((early, overrun), (1, 1), "{entries:?}"),
        }
        least = least.min(timing.rounds());
        let file = cases::file(cases::node(rng.pick(&[8, 64]), &entries));
        compare::map(&mut tally, &file, 7, entries.len());
        compare::list(&mut tally, &file);
    }
    say(format!("just late: {least} rounds or more; {tally}"));
    assert!(least > 10_000, "{least}");
    assert_eq!(tally.met(NO_MAP), times(12), "{tally}");
}

/// One full node of each family has no map, also with J of a third of each
/// period. The second takes seconds.
#[test]
fn full_nodes() {
    for (name, entries) in JUST_LATE {
        for entries in [entries(), thirds(entries())] {
            let file = cases::file(cases::node(8, &entries));
            let mut levels = known(64);
            let answer = ffi::map(&file, 7, &mut levels);
            assert_eq!(answer, Err(Refusal::plain(NO_MAP)), "{name}");
            assert_eq!(levels, known(64), "{name}");
        }
    }
}

/// The full plan of the first family, listed by the program.
#[cfg(list_plan)]
#[test]
fn a_full_plan() {
    use oracle::file::encode;
    use oracle::gen::odd::full_plan;
    use oracle::programs::{root, run_within};
    use std::process::Command;
    use std::time::Duration;

    let plan = full_plan(&JUST_LATE[0].1());
    let mut program = Command::new(root().join("target/bin/list_plan"));
    let file = encode(&plan).unwrap();
    let (text, ended) = run_within(&mut program, &file, Duration::from_secs(20));
    assert_eq!(ended, Some(true), "the listing takes milliseconds");
    let lines = plan.nodes.iter().map(|node| node.number);
    let due: String = lines
        .map(|number| format!("node {number} no map\n"))
        .collect();
    assert_eq!(String::from_utf8_lossy(&text), format!("plan 32\n{due}"));
}
