//! Conversion between the editions, in the proved library and in the second
//! implementation: every answer, and every byte of buffers with any contents.

use crate::say;
use oracle::cases;
use oracle::compare::convert::{both, convert, needed, rooms_of, Ways};
use oracle::corpus;
use oracle::ffi;
use oracle::file::{check, decode, encode, longest};
use oracle::gen::budget::plan_fits;
use oracle::gen::buffers::{known, random};
use oracle::gen::damage::{byte_changes, damage, truncations, Aim, AIMS};
use oracle::gen::jitter::{first_late, most};
use oracle::gen::numbers::from_one;
use oracle::gen::places::{full_plan, put_entry};
use oracle::gen::plans::{self, in_edition, punctual};
use oracle::listing::{list, MOST_TEXT};
use oracle::model::{Edition, Entry, Node, Plan, MAX_ENTRIES, MAX_NODES, MAX_TICKS};
use oracle::options::{rng, times};
use oracle::refusal::{Refusal, BUFFER, JITTER, JITTER_LOST, LENGTH, OPENING};
use oracle::rng::Rng;
use oracle::tally::Tally;

type Draw = fn(&mut Rng) -> Plan;

/// The numbers of a file's own checks.
const OWN: [u8; 10] = [1, 2, 3, 4, 5, 6, 7, 8, 14, 16];

/// The file, converted into a buffer that always suffices.
fn converted(
    ways: &mut Ways,
    rng: &mut Rng,
    from: Edition,
    file: &[u8],
) -> Result<Vec<u8>, Refusal> {
    convert(ways, from, file, &random(rng, longest(from.other())))
}

/// The refusal of a plan that goes back, if an entry has J.
fn lost(plan: &Plan) -> Option<Refusal> {
    let (row, position) = first_late(plan)?;
    Some(Refusal::at_entry(JITTER_LOST, row, position))
}

/// Converts the file of a plan into the other edition, and what comes out of it
/// back again; compares both conversions of both files.
fn there_and_again(ways: &mut Ways, rng: &mut Rng, plan: &Plan) {
    let (from, to) = (plan.edition, plan.edition.other());
    let file = encode(plan).expect("generators give good plans");
    both(ways, rng, &file);
    let answer = converted(ways, rng, from, &file);
    if let Some(due) = lost(plan) {
        assert_eq!(answer, Err(due), "{plan:?}");
        return;
    }
    let other = answer.expect("a good plan without J");
    assert_eq!(Ok(&other), encode(&in_edition(plan, to)).as_ref());
    let more = 4 * plan.entries().len();
    let lengths = [file.len(), other.len()];
    assert_eq!(lengths[0].abs_diff(lengths[1]), more);
    assert_eq!(lengths[0] <= lengths[1], to == Edition::Second || more == 0);
    both(ways, rng, &other);
    assert_eq!(converted(ways, rng, to, &other), Ok(file));
}

/// Asserts least counts of these numbers in one way.
fn assert_met(tally: &Tally, numbers: impl IntoIterator<Item = u8>, least: u64) {
    for number in numbers {
        assert!(tally.met(number) >= least, "{number}: {tally}");
    }
}

#[test]
fn every_kept_file() {
    let (mut rng, mut ways) = (rng(410), Ways::default());
    let (mut good, mut refused) = (0, 0);
    for file in corpus::kept() {
        both(&mut ways, &mut rng, &file);
        match decode(&file) {
            Ok(plan) => {
                there_and_again(&mut ways, &mut rng, &plan);
                there_and_again(&mut ways, &mut rng, &punctual(plan));
                good += 1;
            }
            Err(due) => {
                for from in Edition::BOTH {
                    let answer = converted(&mut ways, &mut rng, from, &file);
                    assert_eq!(answer, Err(due));
                }
                refused += 1;
            }
        }
    }
    say(format!("conversions of the samples: {ways}"));
    assert!(good >= 21 && refused >= 2, "{good} {refused}");
    assert_met(&ways.back, [JITTER_LOST], 30);
}

#[test]
fn generated_plans() {
    let (mut rng, mut ways) = (rng(411), Ways::default());
    let draws: [(Draw, u64); 12] = [
        (plans::small, 600),
        (plans::filled, 300),
        (plans::wide, 100),
        (plans::tight, 100),
        (plans::queued, 100),
        (plans::station, 40),
        (plans::full_node, 60),
        (plans::many_entries, 60),
        (plans::many_nodes, 100),
        (plans::at_limits, 300),
        (plans::long_periods, 60),
        (plans::longest, 6),
    ];
    for (draw, count) in draws {
        for _ in 0..times(count) {
            let plan = draw(&mut rng);
            there_and_again(&mut ways, &mut rng, &plan);
            let on_time = in_edition(&punctual(plan), Edition::Second);
            there_and_again(&mut ways, &mut rng, &on_time);
        }
    }
    say(format!("conversions of good plans: {ways}"));
    for tally in [&ways.forward, &ways.back] {
        assert!(tally.accepted() > times(8_000), "{tally}");
        assert_met(tally, [OPENING, BUFFER], times(5_000));
    }
    assert_met(&ways.back, [JITTER_LOST], times(3_000));
    assert_eq!(ways.forward.met(JITTER_LOST), 0, "{ways}");
}

/// The two files of a pair list alike byte for byte, and every node maps alike,
/// whatever the buffers held.
#[test]
fn pairs_list_and_map_alike() {
    let (mut rng, mut ways) = (rng(412), Ways::default());
    let kept = corpus::kept().into_iter().flat_map(|file| decode(&file));
    let drawn = (0..times(400)).map(|_| plans::any(&mut rng));
    let plans: Vec<Plan> = kept.chain(drawn).map(punctual).collect();
    let (mut maps, mut none) = (0, 0);
    for plan in plans.into_iter().filter(plan_fits) {
        let first = encode(&plan).unwrap();
        let second = converted(&mut ways, &mut rng, Edition::First, &first).unwrap();
        let due = list(&first).into_bytes();
        for file in [&first, &second] {
            let mut text = random(&mut rng, MOST_TEXT);
            assert_eq!(ffi::list(file, &mut text), Ok(due.len()));
            assert!(text.starts_with(&due), "{plan:?}");
        }
        for node in &plan.nodes {
            let room = node.entries.len() + rng.count(0, 3);
            let before = random(&mut rng, room);
            let [one, other] = [&first, &second].map(|file| {
                let mut levels = before.clone();
                let used = ffi::map(file, node.number, &mut levels);
                (used, levels)
            });
            assert_eq!(one, other, "{node:?}");
            maps += u64::from(one.0.is_ok_and(|used| used > 0));
            none += u64::from(one.0.is_err());
        }
    }
    say(format!("pairs of files: {maps} maps, {none} nodes without"));
    assert!(maps > times(700) && none > times(1_000), "{maps} {none}");
}

/// Converts damaged files of drawn plans, out of their own edition or out of
/// the other one, into short buffers and long ones. All are refused with their
/// own check.
fn damaged_files(part: u64, draw: Draw, out_of: fn(Edition) -> Edition) -> Ways {
    let (mut rng, mut ways) = (rng(part), Ways::default());
    for _ in 0..times(100) {
        let plan = draw(&mut rng);
        for aim in AIMS {
            for aims in [vec![aim], vec![aim, rng.pick(&AIMS)]] {
                let damaged = damage(&mut rng, &plan, &aims);
                // A fault of J is made in the second edition.
                let from = out_of(match aims.contains(&Aim::Jitter) {
                    true => Edition::Second,
                    false => plan.edition,
                });
                for room in rooms_of(from, &damaged.file) {
                    let before = random(&mut rng, room);
                    let answer = convert(&mut ways, from, &damaged.file, &before);
                    assert_eq!(answer, Err(damaged.due), "{aims:?} in {plan:?}");
                }
            }
        }
    }
    ways
}

/// A small plan of the first edition with at least one entry.
fn first(rng: &mut Rng) -> Plan {
    punctual(plans::filled(rng))
}

/// A small plan of the second edition with at least one entry, without J.
fn second(rng: &mut Rng) -> Plan {
    in_edition(&first(rng), Edition::Second)
}

/// Files of the wrong edition, with a fault: 2 and often 10 are met too. (A file
/// that opens as the first edition never has 14.)
#[test]
fn own_checks_before_2() {
    let back = damaged_files(426, first, Edition::other).back;
    say(format!("damaged files of the first edition, back: {back}"));
    assert_met(&back, [1, 2, 3, 4, 5, 6, 7, 8, 16], times(500));
    for draw in [second, plans::late] {
        let forward = damaged_files(427, draw, Edition::other).forward;
        say(format!(
            "damaged files of the second edition, forward: {forward}"
        ));
        assert_met(&forward, OWN, times(500));
    }
}

/// Files with a fault and an entry with J: 15 and often 10 are met too.
#[test]
fn own_checks_before_15() {
    let back = damaged_files(428, plans::late, |edition| edition).back;
    say(format!("damaged files with J, back: {back}"));
    assert_met(&back, OWN, times(500));
    assert_eq!(back.met(JITTER_LOST), 0);
}

/// Files of the right edition without J, with a fault: often 10 is met too.
#[test]
fn own_checks_before_10() {
    let forward = damaged_files(429, first, |edition| edition).forward;
    assert_met(&forward, [1, 2, 3, 4, 5, 6, 7, 8, 16], times(500));
    let back = damaged_files(430, second, |edition| edition).back;
    assert_met(&back, OWN, times(500));
    assert_eq!([forward.met(BUFFER), back.met(BUFFER)], [0; 2]);
}

/// Of good plans: 2, then 15, each before 10, into buffers of every length up to
/// that of the converted file.
///
/// 2 and 15 never meet: 15 is a check of the way back alone, and there a file of
/// the wrong edition is of the first, in which every J is 0.
#[test]
fn then_2_then_15_then_10() {
    let (mut rng, mut ways) = (rng(414), Ways::default());
    for _ in 0..times(40) {
        let late = plans::late(&mut rng);
        let on_time = in_edition(&punctual(late.clone()), Edition::Second);
        let first = punctual(late.clone());
        let wrong = Some(Refusal::plain(OPENING));
        for (from, plan, due) in [
            (Edition::First, &late, wrong),
            (Edition::First, &on_time, wrong),
            (Edition::Second, &first, wrong),
            (Edition::Second, &late, lost(&late)),
            (Edition::First, &first, None),
            (Edition::Second, &on_time, None),
        ] {
            let file = encode(plan).unwrap();
            let length = needed(from, &file);
            for room in 0..=length {
                let answer = convert(&mut ways, from, &file, &random(&mut rng, room));
                let short = (room < length).then_some(Refusal::plain(BUFFER));
                assert_eq!(answer.err(), due.or(short), "{room} bytes for {plan:?}");
            }
        }
    }
    say(format!("conversions into short buffers: {ways}"));
    assert_met(&ways.forward, [OPENING, BUFFER], times(5_000));
    assert_met(&ways.back, [OPENING, JITTER_LOST, BUFFER], times(5_000));
}

/// A full plan without J, in the second edition, and its file.
fn full_on_time(rng: &mut Rng) -> (Plan, Vec<u8>) {
    let plan = in_edition(&punctual(full_plan(rng, Edition::Second)), Edition::Second);
    let file = encode(&plan).unwrap();
    (plan, file)
}

/// The plan's file with J on the entries at these places of a full plan.
fn with_jitter(plan: &Plan, file: &[u8], places: &[(usize, usize)], rng: &mut Rng) -> Vec<u8> {
    let mut file = file.to_vec();
    for &(row, at) in places {
        let entry = plan.nodes[row].entries[at];
        let j = rng.pick(&[1, most(&entry)]);
        assert!(j > 0 && j <= most(&entry), "{entry:?}");
        put_entry(Edition::Second, &mut file, row, at, &entry.jittered(j));
    }
    file
}

/// J in one entry alone, in every place of the longest plan.
#[test]
fn jitter_in_every_place() {
    let (mut rng, mut ways) = (rng(415), Ways::default());
    let (plan, file) = full_on_time(&mut rng);
    for row in 0..MAX_NODES {
        for at in 0..MAX_ENTRIES {
            let late = with_jitter(&plan, &file, &[(row, at)], &mut rng);
            let room = rng.pick(&[0, 41_223, 41_224]);
            let answer = convert(&mut ways, Edition::Second, &late, &random(&mut rng, room));
            let due = Refusal::at_entry(JITTER_LOST, row, at);
            assert_eq!(answer, Err(due));
        }
    }
    assert_eq!(ways.back.met(JITTER_LOST), 2_048);
}

/// The first of two or three entries with J is reported, in one node and in
/// several.
#[test]
fn jitter_in_several_places() {
    let (mut rng, mut ways) = (rng(416), Ways::default());
    let (plan, file) = full_on_time(&mut rng);
    let (mut same, mut apart) = (0, 0);
    for _ in 0..times(600) {
        let mut places = Vec::new();
        let row = rng.index(MAX_NODES);
        for _ in 0..rng.count(2, 3) {
            let row = match rng.chance(1, 2) {
                true => row,
                false => rng.index(MAX_NODES),
            };
            places.push((row, rng.index(MAX_ENTRIES)));
        }
        let late = with_jitter(&plan, &file, &places, &mut rng);
        let (row, at) = *places.iter().min().expect("there are places");
        let answer = converted(&mut ways, &mut rng, Edition::Second, &late);
        let due = Refusal::at_entry(JITTER_LOST, row, at);
        assert_eq!(answer, Err(due), "{places:?}");
        // A later row may have an earlier position.
        let others = places.iter().filter(|place| place.0 > row);
        apart += u64::from(others.clone().any(|place| place.1 < at));
        let in_row = places.iter().filter(|place| place.0 == row);
        same += u64::from(in_row.clone().any(|place| place.1 > at));
    }
    assert!(same > times(100) && apart > times(100), "{same} {apart}");
}

/// J of 0, 1 and D - C, and above: 14, not 15.
#[test]
fn jitter_at_its_limits() {
    let (mut rng, mut ways) = (rng(417), Ways::default());
    let top = MAX_TICKS;
    for (c, d) in [(1, 1), (1, 2), (3, 10), (1, 65_537), (1, top), (top, top)] {
        let entry = Entry::task(1, c, top, d);
        let good = cases::second_file(cases::node(1, &from_one(vec![entry; 2])));
        let most = d - c;
        let near = [0, 1, 1 << 8, 1 << 16, 1 << 24, most, most + 1];
        for j in near.into_iter().chain([1 << 31, u64::from(u32::MAX)]) {
            for at in 0..2 {
                let mut file = good.clone();
                let place = 16 + 24 * at + 20;
                file[place..place + 4].copy_from_slice(&(j as u32).to_le_bytes());
                let due = match j {
                    0 => None,
                    j if j <= most => Some(Refusal::at_entry(JITTER_LOST, 0, at)),
                    _ => Some(Refusal::at_entry(JITTER, 0, at)),
                };
                let answer = converted(&mut ways, &mut rng, Edition::Second, &file);
                assert_eq!(answer.err(), due, "{j} of {most}");
                let short = convert(&mut ways, Edition::Second, &file, &[]);
                let due = due.unwrap_or(Refusal::plain(BUFFER));
                assert_eq!(short, Err(due), "{j} of {most}");
                both(&mut ways, &mut rng, &file);
            }
        }
    }
    assert_met(&ways.back, [JITTER, JITTER_LOST], 150);
}

/// An empty node with a number.
fn empty(number: u16) -> Node {
    Node {
        number,
        ..cases::e()
    }
}

/// Without entries the converted file differs only in its opening.
#[test]
fn plans_without_entries() {
    let (mut rng, mut ways) = (rng(418), Ways::default());
    for count in 1..=MAX_NODES as u16 {
        let plan = Plan::first((0..count).map(empty).collect());
        let first = encode(&plan).unwrap();
        let second = converted(&mut ways, &mut rng, Edition::First, &first).unwrap();
        assert_eq!((&first[..3], first[3]), (&b"LMP"[..], b'1'));
        assert_eq!((&second[..3], second[3]), (&b"LMP"[..], b'2'));
        assert_eq!(first[4..], second[4..]);
        for edition in Edition::BOTH {
            there_and_again(&mut ways, &mut rng, &in_edition(&plan, edition));
        }
    }
}

/// Empty nodes before, between and behind others: the offsets, and the row of
/// the first J.
#[test]
fn empty_nodes_between_others() {
    let (mut rng, mut ways) = (rng(419), Ways::default());
    for _ in 0..times(300) {
        let nodes = rng.count(2, 8);
        let late = rng.chance(1, 2);
        let nodes: Vec<Node> = (0..nodes as u16)
            .map(|number| match rng.chance(1, 2) {
                true => empty(number),
                false => {
                    let j = rng.pick(&[0, 0, 1, 4]) * u64::from(late);
                    let at = rng.index(2);
                    let node = cases::jittered(cases::v(), at, j);
                    Node { number, ..node }
                }
            })
            .collect();
        there_and_again(&mut ways, &mut rng, &Plan::second(nodes.clone()));
        let first = punctual(Plan::second(nodes));
        there_and_again(&mut ways, &mut rng, &first);
    }
    assert_met(&ways.back, [JITTER_LOST], times(300));
    assert!(ways.back.accepted() > times(300), "{ways}");
}

/// The longest plan, into the buffers that always suffice, and a byte shorter.
#[test]
fn the_longest_plan() {
    let (mut rng, mut ways) = (rng(420), Ways::default());
    for _ in 0..times(10) {
        let first = encode(&plans::longest_in(&mut rng, Edition::First)).unwrap();
        let second = convert(&mut ways, Edition::First, &first, &random(&mut rng, 49_416));
        let second = second.expect("the buffer suffices");
        let again = convert(
            &mut ways,
            Edition::Second,
            &second,
            &random(&mut rng, 41_224),
        );
        assert_eq!([first.len(), second.len()], [41_224, 49_416]);
        assert_eq!(again, Ok(first.clone()));
        for (from, file, room) in [
            (Edition::First, &first, 49_415),
            (Edition::Second, &second, 41_223),
        ] {
            let short = convert(&mut ways, from, file, &random(&mut rng, room));
            assert_eq!(short, Err(Refusal::plain(BUFFER)));
        }
    }
}

/// Lengths that would be too short, or right, if truncated to 16 bits.
#[test]
fn long_buffers_and_long_files() {
    let (mut rng, mut ways) = (rng(421), Ways::default());
    let (_, full) = full_on_time(&mut rng);
    let p = [cases::file(cases::p()), cases::second_file(cases::p())];
    let other = converted(&mut ways, &mut rng, Edition::Second, &full).unwrap();
    for file in [&p[0], &p[1], &other, &full] {
        let from = decode(file).unwrap().edition;
        let length = needed(from, file);
        for room in [256, 65_536, 65_536 + length - 1, 131_072, 1 << 24] {
            let answer = convert(&mut ways, from, file, &random(&mut rng, room));
            assert_eq!(
                answer.map(|file| file.len()).ok(),
                (room >= length).then_some(length)
            );
        }
        for more in [1, 256, 65_536, 131_072] {
            let mut padded = file.clone();
            padded.resize(file.len() + more, 0);
            for from in Edition::BOTH {
                let answer = converted(&mut ways, &mut rng, from, &padded);
                assert_eq!(answer, Err(Refusal::plain(LENGTH)));
            }
        }
    }
}

#[test]
fn truncated_at_every_length() {
    let (mut rng, mut ways) = (rng(422), Ways::default());
    let draws: [Draw; 4] = [
        plans::small,
        plans::late,
        plans::full_node,
        plans::many_nodes,
    ];
    for draw in draws {
        for _ in 0..times(3) {
            let file = encode(&draw(&mut rng)).unwrap();
            for cut in truncations(&file) {
                let due = check(cut).expect_err("the file is cut");
                for from in Edition::BOTH {
                    let room = rng.pick(&[0, file.len(), 2 * file.len()]);
                    let answer = convert(&mut ways, from, cut, &random(&mut rng, room));
                    assert_eq!(answer, Err(due));
                }
            }
        }
    }
}

#[test]
fn one_byte_changed_at_every_place_to_every_value() {
    let (mut rng, mut ways) = (rng(423), Ways::default());
    let late = cases::jittered(cases::p(), 2, 12);
    for file in [
        cases::file(cases::p()),
        cases::second_file(cases::p()),
        cases::second_file(late),
        encode(&cases::three_nodes(Edition::First)).unwrap(),
        encode(&cases::three_nodes(Edition::Second)).unwrap(),
    ] {
        for (_, changed) in byte_changes(&file) {
            for from in Edition::BOTH {
                let length = needed(from, &changed);
                let room = rng.pick(&[length - 1, length, length + 9]);
                let _ = convert(&mut ways, from, &changed, &random(&mut rng, room));
            }
        }
    }
    say(format!("conversions with one byte changed: {ways}"));
    for tally in [&ways.forward, &ways.back] {
        assert!(tally.accepted() > 5_000, "{tally}");
        assert_met(tally, [OPENING, BUFFER], 2_500);
    }
    assert_met(&ways.back, [JITTER_LOST], 500);
}

/// Random bytes behind a good head.
#[test]
fn random_bytes() {
    let (mut rng, mut ways) = (rng(424), Ways::default());
    for _ in 0..times(6_000) {
        let plan = plans::small(&mut rng);
        let plan = match rng.chance(1, 2) {
            true => in_edition(&punctual(plan), Edition::Second),
            false => plan,
        };
        let mut file = encode(&plan).unwrap();
        for _ in 0..rng.range(1, 4) {
            let at = rng.index(file.len());
            file[at] = rng.word() as u8;
        }
        both(&mut ways, &mut rng, &file);
    }
    say(format!("conversions of random bytes: {ways}"));
    for tally in [&ways.forward, &ways.back] {
        assert!(tally.accepted() > times(400), "{tally}");
        assert_met(tally, [2, 3, 4, 5, 7, 8, 14], times(500));
    }
    assert_met(&ways.back, [JITTER_LOST], times(500));
}

/// File and buffer may begin at any address, and nothing around the buffer is
/// written.
#[test]
fn any_address() {
    let mut rng = rng(425);
    for plan in [
        cases::three_nodes(Edition::First),
        punctual(plans::station(&mut rng)),
    ] {
        for from in Edition::BOTH {
            let file = encode(&in_edition(&plan, from)).unwrap();
            let due = encode(&in_edition(&plan, from.other())).unwrap();
            for (shift, out_shift) in (0..8).flat_map(|a| (0..8).map(move |b| (a, b))) {
                let shifted = [&known(shift)[..], &file].concat();
                let before = random(&mut rng, out_shift + due.len() + 8);
                let mut around = before.clone();
                let out = &mut around[out_shift..out_shift + due.len()];
                let answer = match from {
                    Edition::First => ffi::convert_forward(&shifted[shift..], out),
                    Edition::Second => ffi::convert_back(&shifted[shift..], out),
                };
                assert_eq!(answer, Ok(due.len()));
                let end = out_shift + due.len();
                let kept = [&before[..out_shift], &due, &before[end..]].concat();
                assert_eq!(around, kept);
            }
        }
    }
}
