//! The generated nodes expose wrong readings of docs/SPEC.md.
//!
//! A generated set is useful only if it catches a mapper with a likely mistake.
//! Here each mistake is made, and caught many times.

use oracle::assignments::{all_assignments, different_levels, is_map};
use oracle::gen::entries::{queued, tighten, tiny, wide};
use oracle::gen::jitter::Jitter;
use oracle::map::{by_groupings, group_passes, map_entries, passes};
use oracle::model::Entry;
use oracle::options::{rng, times};
use oracle::rng::Rng;

type Demand = fn(&[Entry], &[u8], usize, u64) -> u64;

/// A reading of the demand, and of the last time by which an entry may end.
#[derive(Clone, Copy)]
struct Reading {
    demand: Demand,
    limit: fn(&Entry) -> u64,
}

/// A reading of the demand alone.
fn of(demand: Demand) -> Reading {
    let limit = |own: &Entry| own.d - own.j;
    Reading { demand, limit }
}

/// Levels of a list whose groups begin at `starts`.
fn levels_of(starts: &[usize], count: usize) -> Vec<u8> {
    (0..count)
        .map(|i| starts.iter().filter(|&&start| start <= i).count() as u8)
        .collect()
}

/// The entries of a small node, and its level count.
fn draw(rng: &mut Rng) -> (Vec<Entry>, u8) {
    let count = rng.count(2, 7);
    let jitter = Jitter::half_zero(rng);
    let entries = match rng.below(4) {
        0 => {
            let entries = tiny(rng, count);
            jitter.put(rng, entries)
        }
        1 => wide(rng, count, jitter),
        2 => queued(rng, count, jitter),
        _ => {
            let entries = tiny(rng, count);
            let loose = jitter.put(rng, entries);
            tighten(rng, loose)
        }
    };
    (entries, rng.byte(1, 7))
}

/// For how many generated nodes the wrong mapper gives another answer.
fn told_apart(part: u64, wrong: impl Fn(&[Entry], u8) -> Option<Vec<u8>>) -> u64 {
    let mut rng = rng(part);
    let mut apart = 0;
    for _ in 0..times(4_000) {
        let (entries, levels) = draw(&mut rng);
        let right = map_entries(&entries, levels).map(|map| map.levels);
        apart += u64::from(wrong(&entries, levels) != right);
    }
    apart
}

/// The least t up to the limit whose demand, by the given reading, is at most
/// t.
fn least_time(reading: Reading, entries: &[Entry], levels: &[u8], i: usize) -> Option<u64> {
    let Reading { demand, limit } = reading;
    (1..=limit(&entries[i])).find(|&t| demand(entries, levels, i, t) <= t)
}

/// The map by another reading; tries every grouping.
fn map_by(reading: Reading, entries: &[Entry], levels: u8) -> Option<Vec<u8>> {
    let count = entries.len();
    let mut best: Option<(usize, Vec<u8>)> = None;
    for cuts in 0..1u32 << (count - 1) {
        let starts: Vec<usize> = (0..count)
            .filter(|&i| i == 0 || cuts >> (i - 1) & 1 == 1)
            .collect();
        let map = levels_of(&starts, count);
        let on_time = |i| least_time(reading, entries, &map, i).is_some();
        if starts.len() > usize::from(levels) || !(0..count).all(on_time) {
            continue;
        }
        // Compared from the end, the map with larger levels has longer groups
        // there.
        let better = best.as_ref().is_none_or(|(used, kept)| {
            let later = map.iter().rev().gt(kept.iter().rev());
            starts.len() < *used || starts.len() == *used && later
        });
        if better {
            best = Some((starts.len(), map));
        }
    }
    best.map(|(_, map)| map)
}

/// Sum of C × `runs(other, on the same level)` over the other entries on the
/// own and more urgent levels.
fn sum_of(entries: &[Entry], levels: &[u8], i: usize, runs: impl Fn(&Entry, bool) -> u64) -> u64 {
    (0..entries.len())
        .filter(|&j| j != i && levels[j] <= levels[i])
        .map(|j| entries[j].c * runs(&entries[j], levels[j] == levels[i]))
        .sum()
}

/// How often an entry is released in `t` ticks.
fn releases(other: &Entry, t: u64) -> u64 {
    (t + other.j).div_ceil(other.t)
}

/// The demand, if an entry counts `releases(own, other, on the same level)`.
fn counting(
    entries: &[Entry],
    levels: &[u8],
    i: usize,
    releases: impl Fn(&Entry, &Entry, bool) -> u64,
) -> u64 {
    let own = &entries[i];
    let most = u64::from(own.r) + 1;
    let runs = |other: &Entry, same: bool| {
        let all = releases(own, other, same);
        if same {
            all.min(most)
        } else {
            all
        }
    };
    own.c + own.b + sum_of(entries, levels, i, runs)
}

fn right(entries: &[Entry], levels: &[u8], i: usize, t: u64) -> u64 {
    counting(entries, levels, i, |_, other, _| releases(other, t))
}

fn floor_on_own_level(entries: &[Entry], levels: &[u8], i: usize, t: u64) -> u64 {
    counting(entries, levels, i, |_, other, same| match same {
        true => (t + other.j) / other.t,
        false => releases(other, t),
    })
}

fn one_run_on_own_level(entries: &[Entry], levels: &[u8], i: usize, t: u64) -> u64 {
    let own = &entries[i];
    let runs = |other: &Entry, same: bool| if same { 1 } else { releases(other, t) };
    own.c + own.b + sum_of(entries, levels, i, runs)
}

fn own_level_without_a_cap(entries: &[Entry], levels: &[u8], i: usize, t: u64) -> u64 {
    let own = &entries[i];
    own.c + own.b + sum_of(entries, levels, i, |other, _| releases(other, t))
}

fn r_of_the_other(entries: &[Entry], levels: &[u8], i: usize, t: u64) -> u64 {
    let own = &entries[i];
    let runs = |other: &Entry, same: bool| {
        let all = releases(other, t);
        if same {
            all.min(u64::from(other.r) + 1)
        } else {
            all
        }
    };
    own.c + own.b + sum_of(entries, levels, i, runs)
}

fn jitter_of_the_timed_entry(entries: &[Entry], levels: &[u8], i: usize, t: u64) -> u64 {
    counting(entries, levels, i, |own, other, _| {
        (t + own.j).div_ceil(other.t)
    })
}

fn no_jitter_of_others(entries: &[Entry], levels: &[u8], i: usize, t: u64) -> u64 {
    counting(entries, levels, i, |_, other, _| t.div_ceil(other.t))
}

fn no_jitter_on_own_level(entries: &[Entry], levels: &[u8], i: usize, t: u64) -> u64 {
    counting(entries, levels, i, |_, other, same| match same {
        true => t.div_ceil(other.t),
        false => releases(other, t),
    })
}

fn jitter_on_own_level_alone(entries: &[Entry], levels: &[u8], i: usize, t: u64) -> u64 {
    counting(entries, levels, i, |_, other, same| match same {
        true => releases(other, t),
        false => t.div_ceil(other.t),
    })
}

fn jitter_behind_the_ceiling(entries: &[Entry], levels: &[u8], i: usize, t: u64) -> u64 {
    counting(entries, levels, i, |_, other, _| {
        t.div_ceil(other.t) + other.j.div_ceil(other.t)
    })
}

fn without_blocking(entries: &[Entry], levels: &[u8], i: usize, t: u64) -> u64 {
    right(entries, levels, i, t) - entries[i].b
}

fn deadline_left_out(entries: &[Entry], levels: &[u8], i: usize, t: u64) -> u64 {
    let needed = right(entries, levels, i, t);
    needed + u64::from(needed == entries[i].d - entries[i].j)
}

#[test]
fn right_reading_is_never_told_apart() {
    assert_eq!(told_apart(20, |e, l| map_by(of(right), e, l)), 0);
}

#[test]
fn wrong_demands_are_told_apart() {
    let readings: [(&str, Demand); 11] = [
        ("floor", floor_on_own_level),
        ("one run", one_run_on_own_level),
        ("no cap", own_level_without_a_cap),
        ("other's r", r_of_the_other),
        ("no blocking", without_blocking),
        ("before the deadline", deadline_left_out),
        ("J of the timed entry", jitter_of_the_timed_entry),
        ("no J of others", no_jitter_of_others),
        ("no J on the own level", no_jitter_on_own_level),
        ("J on the own level alone", jitter_on_own_level_alone),
        ("J behind the ceiling", jitter_behind_the_ceiling),
    ];
    for (part, (name, demand)) in (41..).zip(readings) {
        let apart = told_apart(part, |e, l| map_by(of(demand), e, l));
        println!("{name}: {apart}");
        assert!(apart >= times(40), "{name}: {apart}");
    }
}

#[test]
fn wrong_limits_are_told_apart() {
    let limits: [fn(&Entry) -> u64; 3] =
        [|own| own.d, |own| own.t - own.j, |own| own.d - own.j / 2];
    for (part, limit) in (60..).zip(limits) {
        let demand = right;
        let apart = told_apart(part, |e, l| map_by(Reading { demand, limit }, e, l));
        println!("limit {part}: {apart}");
        assert!(apart >= times(40), "limit {part}: {apart}");
    }
}

/// The start of the last group, if the search stops at the first failing merge.
fn stops_at_a_failing_merge(entries: &[Entry], end: usize) -> Option<usize> {
    let alone = end - 1;
    let failing = (0..end)
        .rev()
        .find(|&start| !group_passes(entries, start, end));
    match failing {
        Some(start) if start == alone => None,
        Some(start) => Some(start + 1),
        None => Some(0),
    }
}

/// The same for a search that stops after two failing merges.
fn stops_after_two(entries: &[Entry], end: usize) -> Option<usize> {
    let mut failed = 0;
    let mut longest = None;
    for start in (0..end).rev() {
        if group_passes(entries, start, end) {
            longest = Some(start);
        } else {
            failed += 1;
        }
        if failed == 2 {
            break;
        }
    }
    longest
}

/// A map made group by group from the end.
fn upward(
    step: fn(&[Entry], usize) -> Option<usize>,
    entries: &[Entry],
    levels: u8,
) -> Option<Vec<u8>> {
    let mut starts = Vec::new();
    let mut end = entries.len();
    while end > 0 {
        end = step(entries, end)?;
        starts.push(end);
    }
    (starts.len() <= usize::from(levels)).then(|| levels_of(&starts, entries.len()))
}

#[test]
fn hasty_searches_are_told_apart() {
    type Step = fn(&[Entry], usize) -> Option<usize>;
    let steps: [(&str, Step); 2] = [
        ("first failing merge", stops_at_a_failing_merge),
        ("two failing merges", stops_after_two),
    ];
    for (part, (name, step)) in (30..).zip(steps) {
        let apart = told_apart(part, |e, l| upward(step, e, l));
        println!("{name}: {apart}");
        assert!(apart >= times(40), "{name}: {apart}");
    }
}

/// The fewest levels, but with the longest most urgent group.
#[test]
fn other_end_of_the_rule_is_told_apart() {
    let apart = told_apart(40, |entries, levels| {
        let used = by_groupings(entries, levels)?.used;
        all_assignments(entries.len(), used)
            .into_iter()
            .filter(|one| is_map(one, used))
            .filter(|one| different_levels(one) == used)
            .find(|one| passes(entries, one))
    });
    println!("most urgent longest: {apart}");
    assert!(apart >= times(40), "{apart}");
}
