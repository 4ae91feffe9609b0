//! The proved mapper on nodes of up to 64 entries in which narrow groups fail
//! and wide ones pass, compared with the second implementation.

use crate::say;
use oracle::assignments::is_map;
use oracle::cases;
use oracle::compare;
use oracle::compare::session::Both;
use oracle::gen::blocks::{blocks, hurry_one, needs_wide_groups, telling_levels};
use oracle::gen::entries::wide_passes_after_narrow;
use oracle::gen::numbers::from_one;
use oracle::lent::words_of;
use oracle::map::{by_groupings, by_groups, map_entries, passes};
use oracle::model::{Entry, MAX_TICKS};
use oracle::options::{rng, times};
use oracle::rng::Rng;
use oracle::session::{Op, Session};
use oracle::tally::Tally;
use oracle::timing::{completion, Timing};

/// Counts of nodes and maps.
#[derive(Debug, Default)]
struct Met {
    nodes: u64,
    /// Nodes in which some entry may start late.
    late: u64,
    maps: u64,
    none: u64,
    wide_after_narrow: u64,
    wide_in_the_map: u64,
    most_in_a_group: usize,
}

impl Met {
    /// Compares both implementations on a node, in a file and in a session.
    fn compare(&mut self, tally: &mut Tally, levels: u8, entries: &[Entry]) {
        let file = cases::file(cases::node(levels, entries));
        compare::map(tally, &file, 7, entries.len());
        compare::list(tally, &file);
        let held = Session::holding(usize::from(levels), entries).expect("the entries are good");
        let _ = Both::of(&words_of(&held)).step(tally, &Op::Map, entries.len());
        self.nodes += 1;
        self.late += u64::from(entries.iter().any(|entry| entry.j > 0));
        self.wide_after_narrow += u64::from(wide_passes_after_narrow(entries));
        match by_groups(entries, levels) {
            None => self.none += 1,
            Some(map) => {
                assert!(passes(entries, &map.levels) && is_map(&map.levels, levels));
                self.maps += 1;
                self.wide_in_the_map += u64::from(needs_wide_groups(entries, &map));
                let groups = map.levels.chunk_by(|a, b| a == b);
                let most = groups.map(<[u8]>::len).max().unwrap_or(0);
                self.most_in_a_group = self.most_in_a_group.max(most);
            }
        }
    }

    /// Asserts that more than half of the nodes have a map, some have none, and
    /// most have a wide group that passes where a narrow one fails. More than a
    /// third have an entry that may start late.
    fn assert_shares(&self, name: &str) {
        say(format!("{name}: {self:?}"));
        assert!(2 * self.maps > self.nodes, "{self:?}");
        assert!(10 * self.none > self.nodes, "{self:?}");
        assert!(3 * self.late > self.nodes, "{self:?}");
        assert!(4 * self.wide_after_narrow > 3 * self.nodes, "{self:?}");
        assert!(10 * self.wide_in_the_map > 7 * self.maps, "{self:?}");
    }
}

fn compare_blocks(part: u64, name: &str, nodes: u64, count: fn(&mut Rng) -> usize) {
    let (mut rng, mut tally) = (rng(part), Tally::default());
    let mut met = Met::default();
    for _ in 0..times(nodes) {
        let count = count(&mut rng);
        let parts = rng.count(1, (count / 3).min(8));
        let mut entries = blocks(&mut rng, count, parts);
        if rng.chance(1, 4) {
            hurry_one(&mut rng, &mut entries);
        }
        let levels = telling_levels(&mut rng, &entries);
        met.compare(&mut tally, levels, &entries);
    }
    met.assert_shares(name);
}

#[test]
fn blocks_of_3_to_12() {
    compare_blocks(310, "3 to 12 entries", 300, |rng| rng.count(3, 12));
}

#[test]
fn blocks_of_13_to_30() {
    compare_blocks(311, "13 to 30 entries", 900, |rng| rng.count(13, 30));
}

#[test]
fn blocks_of_31_to_63() {
    compare_blocks(312, "31 to 63 entries", 180, |rng| rng.count(31, 63));
}

#[test]
fn blocks_of_64() {
    compare_blocks(313, "64 entries", 120, |_| 64);
}

/// For more than 12 entries the second implementation tries groups instead of
/// whole maps. On blocks of up to 15 entries both ways are compared.
#[test]
fn groups_agree_with_groupings_on_blocks() {
    let mut rng = rng(314);
    let (mut nodes, mut wide) = (0, 0);
    for _ in 0..times(400) {
        let count = rng.pick(&[3, 5, 7, 9, 10, 11, 12]);
        let parts = rng.count(1, count / 3);
        let entries = blocks(&mut rng, count, parts);
        let levels = telling_levels(&mut rng, &entries);
        let map = by_groups(&entries, levels);
        assert_eq!(by_groupings(&entries, levels), map, "{levels}: {entries:?}");
        nodes += 1;
        wide += u64::from(map.is_some_and(|map| needs_wide_groups(&entries, &map)));
    }
    for _ in 0..times(10) {
        let count = rng.count(13, 15);
        let entries = blocks(&mut rng, count, 3);
        let map = by_groups(&entries, 64);
        assert_eq!(by_groupings(&entries, 64), map, "{entries:?}");
        assert!(map.is_some_and(|map| needs_wide_groups(&entries, &map)));
    }
    assert!(2 * wide > nodes, "{wide} of {nodes}");
}

/// One group of 64 passes, and some narrower group fails.
#[test]
fn a_group_of_64() {
    let (mut rng, mut tally) = (rng(315), Tally::default());
    for _ in 0..times(10) {
        let entries = blocks(&mut rng, 64, 1);
        let map = map_entries(&entries, 1).expect("the block is a map");
        assert_eq!(map.levels, [1; 64]);
        assert!(needs_wide_groups(&entries, &map));
        for levels in [1, 2, 64] {
            let file = cases::file(cases::node(levels, &entries));
            compare::map(&mut tally, &file, 7, 64);
        }
    }
    assert_eq!(tally.accepted(), 3 * times(10));
}

/// In a group of 64 only the last entry is late, by one tick.
#[test]
fn late_by_the_64th_entry() {
    let (mut rng, mut tally) = (rng(316), Tally::default());
    for _ in 0..times(10) {
        let mut entries = blocks(&mut rng, 64, 1);
        let time = match completion(&entries, &[1; 64], 63) {
            Timing::OnTime { time, .. } => time,
            late => panic!("the block is a map: {late:?}"),
        };
        entries[63].d = time - 1 + entries[63].j;
        assert!((0..63).all(|i| completion(&entries, &[1; 64], i).is_on_time()));
        for levels in [1, 2, 64] {
            let file = cases::file(cases::node(levels, &entries));
            compare::map(&mut tally, &file, 7, 64);
            compare::list(&mut tally, &file);
        }
    }
    assert!(tally.met(11) >= times(10), "{tally}");
}

/// 64 entries with the longest run, and with the longest runs that still leave
/// room for all of them.
#[test]
fn sixty_four_of_the_longest_run() {
    let mut tally = Tally::default();
    for c in [MAX_TICKS, MAX_TICKS / 2, MAX_TICKS / 13, MAX_TICKS / 64] {
        for levels in [1, 2, 63, 64] {
            let all = from_one(vec![Entry::task(1, c, MAX_TICKS, MAX_TICKS); 64]);
            let file = cases::file(cases::node(levels, &all));
            compare::map(&mut tally, &file, 7, 64);
            compare::list(&mut tally, &file);
        }
    }
    assert_eq!(tally.met(11), 12, "only the last runs leave room");
}
