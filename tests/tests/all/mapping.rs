//! Compares the mapper's two ways to a map with each other and with all
//! assignments.

use oracle::assignments::{all_assignments, different_levels, fewest_levels, is_map};
use oracle::gen::entries;
use oracle::gen::jitter::Jitter;
use oracle::gen::plans::{self, drawn_in};
use oracle::map::{by_groupings, by_groups, map_entries, passes};
use oracle::model::{Edition, Entry, Node, Plan};
use oracle::options::{rng, times};
use oracle::rng::Rng;

/// Entries of any kind that a small node may have.
fn draw(rng: &mut Rng, count: usize) -> Vec<Entry> {
    let jitter = Jitter::half_zero(rng);
    let entries = match rng.below(5) {
        0 => entries::tiny(rng, count),
        1 => entries::scattered(rng, count),
        2 => entries::realistic(rng, count),
        3 => return entries::at_limits(rng, count, jitter),
        _ => return entries::wide(rng, count.max(2), jitter),
    };
    jitter.put(rng, entries)
}

fn assert_both_ways_agree(entries: &[Entry], levels: u8) {
    let every_grouping = by_groupings(entries, levels);
    let every_group = by_groups(entries, levels);
    assert_eq!(every_grouping, every_group, "{levels} levels, {entries:?}");
}

#[test]
fn groups_agree_with_groupings() {
    let mut rng = rng(1);
    for _ in 0..times(9_000) {
        let count = rng.count(0, 8);
        let entries = draw(&mut rng, count);
        for levels in (1..=count as u8).chain([64]) {
            assert_both_ways_agree(&entries, levels);
        }
    }
}

#[test]
fn groups_agree_with_groupings_of_longer_lists() {
    let mut rng = rng(2);
    for _ in 0..times(900) {
        let count = rng.count(9, 12);
        let entries = draw(&mut rng, count);
        let levels = rng.byte(1, 12);
        assert_both_ways_agree(&entries, levels);
    }
    for _ in 0..times(45) {
        let count = rng.count(13, 15);
        let entries = draw(&mut rng, count);
        assert_both_ways_agree(&entries, 64);
    }
}

#[test]
fn groupings_agree_with_assignments() {
    let mut rng = rng(3);
    let (mut mapped, mut unmapped) = (0, 0);
    for _ in 0..times(5_000) {
        let count = rng.count(0, 6);
        let entries = draw(&mut rng, count);
        let levels = rng.byte(1, 5);
        let map = by_groupings(&entries, levels);
        let used = map.map(|map| map.used);
        assert_eq!(used, fewest_levels(&entries, levels), "{entries:?}");
        match used {
            Some(_) => mapped += 1,
            None => unmapped += 1,
        }
    }
    assert!(mapped > times(200) && unmapped > times(200));
}

/// The answer is the best passing map by the rule of docs/SPEC.md. Here the
/// rule is applied to the levels instead of the groups.
#[test]
fn answer_is_first_by_the_rule() {
    let mut rng = rng(4);
    for _ in 0..times(3_000) {
        let count = rng.count(1, 6);
        let entries = draw(&mut rng, count);
        let levels = rng.byte(1, 6);
        let passing = all_assignments(entries.len(), levels)
            .into_iter()
            .filter(|one| is_map(one, levels) && passes(&entries, one));
        // With equally many levels, longer groups at the end mean that high
        // levels begin earlier. So compared from the end, the better map is
        // larger.
        let first = passing.min_by_key(|one| {
            let from_end: Vec<u8> = one.iter().rev().map(|level| 64 - level).collect();
            (different_levels(one), from_end)
        });
        let answer = by_groupings(&entries, levels).map(|map| map.levels);
        assert_eq!(answer, first, "{levels} levels, {entries:?}");
    }
}

fn assert_map_is_sound(node: &Node) -> bool {
    let Some(map) = map_entries(&node.entries, node.levels) else {
        return false;
    };
    assert_eq!(map.levels.len(), node.entries.len());
    assert!(is_map(&map.levels, node.levels));
    assert_eq!(map.used, different_levels(&map.levels));
    assert!(passes(&node.entries, &map.levels));
    true
}

/// Every map of `plans` plans of each edition is sound, and in each edition more
/// nodes than the least numbers have a map, and have none.
fn assert_sound_maps(part: u64, plans: u64, draw: fn(&mut Rng) -> Plan, least: [usize; 2]) {
    let mut rng = rng(part);
    for edition in Edition::BOTH {
        let nodes: Vec<Node> = (0..times(plans))
            .flat_map(|_| drawn_in(&mut rng, edition, draw).nodes)
            .collect();
        let sound = nodes.iter().filter(|node| assert_map_is_sound(node));
        let mapped = sound.count();
        let unmapped = nodes.len() - mapped;
        let enough = mapped > least[0] && unmapped > least[1];
        assert!(enough, "{edition:?}: {mapped} {unmapped}");
    }
}

#[test]
fn maps_of_small_plans() {
    assert_sound_maps(5, 1_000, plans::small, [500, 500]);
}

#[test]
fn maps_of_stations() {
    assert_sound_maps(6, 200, plans::station, [200, 100]);
}

#[test]
fn maps_of_full_nodes() {
    assert_sound_maps(7, 100, plans::full_node, [5, 5]);
}

#[test]
fn maps_at_the_limits() {
    assert_sound_maps(8, 1_000, plans::at_limits, [200, 200]);
}

#[test]
fn maps_of_many_nodes() {
    assert_sound_maps(9, 50, plans::many_nodes, [200, 200]);
}

#[test]
fn maps_of_the_longest_plan() {
    assert_sound_maps(10, 2, plans::longest, [8, 8]);
}

#[test]
fn maps_of_tight_nodes() {
    assert_sound_maps(11, 500, plans::tight, [200, 200]);
}

#[test]
fn maps_of_wide_nodes() {
    assert_sound_maps(12, 500, plans::wide, [200, 200]);
}

/// Each entry has just enough time for itself and the entries before it.
#[test]
fn a_map_may_need_64_levels() {
    let entries: Vec<Entry> = (1..=64)
        .map(|number| Entry::task(number, 10, 1_000_000, 10 * u64::from(number)))
        .collect();
    let map = map_entries(&entries, 64).expect("one entry a level passes");
    assert_eq!(map.levels, (1..=64).collect::<Vec<u8>>());
    assert_eq!(map.used, 64);
    assert_eq!(map_entries(&entries, 63), None);
}

#[test]
fn a_map_of_64_may_need_one_level() {
    let entries = [Entry::task(1, 10, 640, 640); 64];
    let map = map_entries(&entries, 1).expect("there is time for all");
    assert_eq!((map.levels, map.used), (vec![1; 64], 1));
}
