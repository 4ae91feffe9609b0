//! The generated plans have the properties that they are meant to have.

use crate::say;
use oracle::file::encode;
use oracle::gen::budget::{fits, rounds_ceiling, ROUNDS};
use oracle::gen::entries::{self, wide_passes_after_narrow};
use oracle::gen::jitter::{most, third, Jitter};
use oracle::gen::plans;
use oracle::gen::sessions::{LONG, MANY};
use oracle::map::map_entries;
use oracle::model::{Edition, Entry, Node, Plan, MAX_R, MAX_TICKS, SECTION};
use oracle::options::{rng, times};
use oracle::rng::Rng;
use oracle::timing::completion;

type Draw = fn(&mut Rng) -> Plan;

const ALL: [(&str, Draw); 11] = [
    ("queued", plans::queued),
    ("small", plans::small),
    ("wide", plans::wide),
    ("tight", plans::tight),
    ("station", plans::station),
    ("full node", plans::full_node),
    ("many nodes", plans::many_nodes),
    ("longest", plans::longest),
    ("at limits", plans::at_limits),
    ("13 to 64 entries", plans::many_entries),
    ("long periods", plans::long_periods),
];

fn drawn(part: u64, count: u64, draw: Draw) -> Vec<Plan> {
    let mut rng = rng(part);
    (0..count).map(|_| draw(&mut rng)).collect()
}

fn nodes(plans: &[Plan]) -> impl Iterator<Item = &Node> {
    plans.iter().flat_map(|plan| &plan.nodes)
}

#[test]
fn plans_are_good_and_short_to_test() {
    for (part, (name, draw)) in (100..).zip(ALL) {
        for plan in drawn(part, times(100), draw) {
            assert!(encode(&plan).is_ok(), "{name}");
            for node in &plan.nodes {
                let ceiling = rounds_ceiling(&node.entries);
                assert!(ceiling <= ROUNDS, "{name}: {ceiling} rounds");
            }
        }
    }
}

#[test]
fn the_ceiling_is_one() {
    let mut rng = rng(110);
    for _ in 0..times(500) {
        let count = rng.count(1, 12);
        let entries = match rng.below(3) {
            0 => entries::realistic(&mut rng, count),
            1 => entries::at_limits(&mut rng, count.min(6), Jitter::Zero),
            _ => entries::scattered(&mut rng, count),
        };
        let jitter = Jitter::draw(&mut rng);
        let entries = jitter.put(&mut rng, entries);
        let mut levels: Vec<u8> = entries.iter().map(|_| rng.byte(1, 4)).collect();
        levels.sort();
        for i in 0..entries.len() {
            let rounds = completion(&entries, &levels, i).rounds();
            assert!(rounds <= rounds_ceiling(&entries));
        }
    }
    // The budget excludes a short period before a long deadline.
    let long = [
        Entry::task(1, 1, 2, 2),
        Entry::task(2, 1, MAX_TICKS, MAX_TICKS),
    ];
    assert!(!fits(&long));
}

#[test]
fn same_seed_same_plans() {
    for (_, draw) in ALL {
        let mut first = Rng::new(5);
        let mut again = Rng::new(5);
        let mut other = Rng::new(6);
        let plan = draw(&mut first);
        assert_eq!(plan, draw(&mut again));
        assert_ne!(plan, draw(&mut other));
    }
}

#[test]
fn wide_groups_pass_after_narrow_ones_failed() {
    let plans = drawn(120, times(500), plans::wide);
    let mut mapped = 0;
    for node in nodes(&plans) {
        assert!(wide_passes_after_narrow(&node.entries));
        mapped += u64::from(map_entries(&node.entries, node.levels).is_some());
    }
    assert!(mapped > times(300), "{mapped}");
}

#[test]
fn stations_are_as_described() {
    let plans = drawn(121, times(100), plans::station);
    assert!(plans
        .iter()
        .all(|plan| (1..=32).contains(&plan.nodes.len())));
    assert!(plans.iter().any(|plan| plan.nodes.len() <= 2));
    assert!(plans.iter().any(|plan| plan.nodes.len() >= 31));
    for node in nodes(&plans) {
        assert!((3..=20).contains(&node.entries.len()));
        // In millionths; rounding C to whole ticks changes it a little.
        let utilisation: u64 = node.entries.iter().map(|e| e.c * 1_000_000 / e.t).sum();
        assert!((250_000..=960_000).contains(&utilisation), "{utilisation}");
    }
}

#[test]
fn full_nodes_use_few_and_many_levels() {
    let plans = drawn(122, times(150), plans::full_node);
    let used: Vec<u8> = nodes(&plans)
        .filter_map(|node| map_entries(&node.entries, node.levels))
        .map(|map| map.used)
        .collect();
    assert!(nodes(&plans).all(|node| node.entries.len() == 64));
    assert!(used.iter().any(|&levels| levels <= 2), "{used:?}");
    assert!(used.iter().any(|&levels| levels >= 20), "{used:?}");
}

#[test]
fn both_ends_of_the_limits_are_met() {
    let plans = drawn(123, times(300), plans::at_limits);
    let all: Vec<Entry> = plans.iter().flat_map(Plan::entries).collect();
    let met = |what: fn(&Entry) -> bool| all.iter().filter(|e| what(e)).count() as u64;
    for (name, count) in [
        ("C = D = T", met(|e| e.c == e.d && e.d == e.t)),
        ("all 1", met(|e| e.c == 1 && e.d == 1 && e.t == 1)),
        ("all 10^9", met(|e| e.c == MAX_TICKS && e.t == MAX_TICKS)),
        ("C 1 in T 10^9", met(|e| e.c == 1 && e.t == MAX_TICKS)),
        ("B 10^9", met(|e| e.b == MAX_TICKS)),
        ("r 15", met(|e| e.r == 15)),
        ("kind 2", met(|e| e.kind == 2)),
    ] {
        assert!(count > times(10), "{name}: {count}");
    }
}

#[test]
fn counts_and_numbers_reach_their_ends() {
    let mut plans = drawn(124, times(200), plans::many_nodes);
    plans.extend(drawn(125, times(200), plans::small));
    assert!(plans.iter().any(|plan| plan.nodes.len() == 32));
    assert!(plans.iter().any(|plan| plan.nodes.len() == 1));
    for what in [
        |node: &Node| node.number == 0,
        |node: &Node| node.number == u16::MAX,
        |node: &Node| node.levels == 1,
        |node: &Node| node.levels == 64,
        |node: &Node| node.entries.is_empty(),
    ] {
        assert!(nodes(&plans).any(what));
    }
}

/// Sessions hold long lists with blocking and remote sections, and long
/// periods.
#[test]
fn sessions_hold_what_plans_do() {
    let mut rng = rng(126);
    let nodes: Vec<Node> = (0..times(50)).map(|_| MANY.node(&mut rng)).collect();
    assert!(nodes.iter().all(|n| (13..=64).contains(&n.entries.len())));
    let many: Vec<Entry> = nodes.into_iter().flat_map(|n| n.entries).collect();
    let long: Vec<Entry> = (0..times(50))
        .flat_map(|_| LONG.node(&mut rng).entries)
        .collect();
    let met = |all: &[Entry], what: fn(&Entry) -> bool| all.iter().filter(|e| what(e)).count();
    for count in [
        met(&many, |e| e.b > 0 && e.r > 0),
        met(&many, |e| e.b > 0 && e.r == MAX_R),
        met(&many, |e| e.kind == SECTION),
        met(&long, |e| e.t > 1 << 20 && e.r == MAX_R),
        met(&long, |e| e.t > 1 << 20 && e.b > 1 << 20),
        met(&long, |e| e.t == MAX_TICKS),
    ] {
        assert!(count as u64 >= times(5), "{count}");
    }
}

/// Fewer than three in five of the draws at the limits are dropped for their
/// cost.
#[test]
fn few_draws_are_dropped() {
    let mut rng = rng(127);
    let (drawn, mut dropped) = (times(1_000), 0);
    for _ in 0..drawn {
        let count = rng.count(1, 6);
        let jitter = Jitter::draw(&mut rng);
        dropped += entries::at_limits_counted(&mut rng, count, jitter).1;
    }
    let all = drawn + dropped;
    say(format!("{dropped} of {all} draws at the limits dropped"));
    assert!(dropped * 5 < all * 3, "{dropped} of {all}");
}

/// Half of the plans are of each edition. In the second, J is 0, small, a third
/// of the period, and at its limit.
#[test]
fn both_editions_and_every_jitter_are_met() {
    let any = ALL.into_iter().filter(|(name, _)| *name != "queued");
    for (part, (name, draw)) in (128..).zip(any) {
        let plans = drawn(part, times(60), draw);
        let (second, first): (Vec<Plan>, Vec<Plan>) = plans
            .into_iter()
            .partition(|plan| plan.edition == Edition::Second);
        let least = times(60) / 4;
        assert!(
            first.len() as u64 > least && second.len() as u64 > least,
            "{name}"
        );
        assert!(first.iter().all(Plan::is_punctual), "{name}");
        let all: Vec<Entry> = second.iter().flat_map(Plan::entries).collect();
        for what in [
            |e: &Entry| e.j == 0 && e.d > e.c,
            |e: &Entry| e.j == 1 && e.d > e.c + 1,
            |e: &Entry| e.j > 0 && e.j == third(e),
            |e: &Entry| e.j > 0 && e.j == most(e),
        ] {
            assert!(all.iter().any(what), "{name}");
        }
        assert!(
            second.iter().any(Plan::is_punctual) || name != "small",
            "{name}"
        );
    }
}
