//! The mapper. It tries every grouping, or for long lists every group.

use crate::file::decode;
use crate::model::Entry;
use crate::refusal::{Refusal, BUFFER, NO_MAP, NO_NODE};
use crate::timing::{completion, group_levels};
use std::cmp::Ordering;

/// Up to this many entries, every grouping is tried.
pub const EXHAUSTIVE_ENTRIES: usize = 12;

/// A passing map.
#[derive(Clone, Debug, PartialEq, Eq)]
pub struct Map {
    /// One level per entry, from 1.
    pub levels: Vec<u8>,
    /// How many different levels it uses.
    pub used: u8,
}

/// A split of the list into neighbouring groups: their lengths, most urgent
/// group first.
type Grouping = Vec<usize>;

/// The map of a node with these entries and at most `levels` levels.
pub fn map_entries(entries: &[Entry], levels: u8) -> Option<Map> {
    if entries.len() <= EXHAUSTIVE_ENTRIES {
        by_groupings(entries, levels)
    } else {
        by_groups(entries, levels)
    }
}

/// Maps the node with this number. Checks the whole file, then 9, 10 and 11.
pub fn map_node(file: &[u8], number: u64, buffer: &mut [u8]) -> Result<u8, Refusal> {
    let plan = decode(file)?;
    let node = plan
        .nodes
        .iter()
        .find(|node| u64::from(node.number) == number)
        .ok_or(Refusal::plain(NO_NODE))?;
    map_into(&node.entries, node.levels, buffer)
}

/// Fills one byte per entry with the map, and returns the levels used.
///
/// Check 10 comes before 11. Bytes beyond the map are kept, and all bytes if
/// the call is refused.
pub fn map_into(entries: &[Entry], levels: u8, buffer: &mut [u8]) -> Result<u8, Refusal> {
    let Some(target) = buffer.get_mut(..entries.len()) else {
        return Err(Refusal::plain(BUFFER));
    };
    let map = map_entries(entries, levels).ok_or(Refusal::plain(NO_MAP))?;
    target.copy_from_slice(&map.levels);
    Ok(map.used)
}

/// The map by trying every grouping of the list.
pub fn by_groupings(entries: &[Entry], levels: u8) -> Option<Map> {
    let mut best = None;
    for grouping in all_groupings(entries.len()) {
        if grouping.len() <= usize::from(levels) && passes(entries, &levels_of(&grouping)) {
            keep_preferred(&mut best, grouping);
        }
    }
    best.map(|grouping| map_of(&grouping))
}

/// The map by trying every group of neighbours once. A group is tested only if
/// the grouping that ends with it would be preferred to the one found so far.
///
/// The best grouping of the entries before `end` consists of a last group and
/// the best grouping of the entries before that group: with a given last group,
/// fewer levels before it mean fewer in all, and the rule then compares the
/// groups before it.
pub fn by_groups(entries: &[Entry], levels: u8) -> Option<Map> {
    let mut best: Vec<Option<Grouping>> = vec![Some(Vec::new())];
    for end in 1..=entries.len() {
        let mut best_here = None;
        for (start, before) in best.iter().enumerate() {
            let Some(before) = before else {
                continue;
            };
            let grouping = [before.as_slice(), &[end - start]].concat();
            if !is_preferred(&best_here, &grouping) {
                continue;
            }
            let passing = group_passes(entries, start, end);
            if passing {
                best_here = Some(grouping);
            }
        }
        best.push(best_here);
    }
    let grouping = best.pop().flatten()?;
    (grouping.len() <= usize::from(levels)).then(|| map_of(&grouping))
}

/// Whether no entry is late with these levels; stops at the first late entry.
pub fn passes(entries: &[Entry], levels: &[u8]) -> bool {
    (0..entries.len()).all(|i| completion(entries, levels, i).is_on_time())
}

/// Whether no entry of the group `start..end` is late; entries before the
/// group are more urgent, entries after it less.
pub fn group_passes(entries: &[Entry], start: usize, end: usize) -> bool {
    let levels = group_levels(entries.len(), start, end - 1);
    (start..end).all(|i| completion(entries, &levels, i).is_on_time())
}

/// Every way to cut a list of `count` entries into groups of neighbours.
fn all_groupings(count: usize) -> impl Iterator<Item = Grouping> {
    let places = count.saturating_sub(1);
    (0..1u64 << places).map(move |cuts| {
        let mut lengths = Vec::new();
        for position in 0..count {
            let opens = position == 0 || cuts >> (position - 1) & 1 == 1;
            if opens {
                lengths.push(1);
            } else {
                *lengths.last_mut().expect("the first entry opened a group") += 1;
            }
        }
        lengths
    })
}

fn keep_preferred(best: &mut Option<Grouping>, grouping: Grouping) {
    if is_preferred(best, &grouping) {
        *best = Some(grouping);
    }
}

fn is_preferred(best: &Option<Grouping>, grouping: &[usize]) -> bool {
    match best {
        None => true,
        Some(kept) => preference(grouping, kept) == Ordering::Less,
    }
}

/// `Less` if `a` is preferred to `b`: fewest levels, then the longest least
/// urgent group, then the longest next group, upward.
fn preference(a: &[usize], b: &[usize]) -> Ordering {
    let upward_a = a.iter().rev();
    let upward_b = b.iter().rev();
    a.len().cmp(&b.len()).then(upward_b.cmp(upward_a))
}

fn levels_of(grouping: &[usize]) -> Vec<u8> {
    let mut levels = Vec::new();
    for (level, &length) in (1..).zip(grouping) {
        levels.extend(std::iter::repeat_n(level, length));
    }
    levels
}

fn map_of(grouping: &[usize]) -> Map {
    Map {
        levels: levels_of(grouping),
        used: grouping.len() as u8,
    }
}

#[cfg(test)]
mod tests {
    use super::*;

    #[test]
    fn groupings_of_four() {
        let all: Vec<_> = all_groupings(4).collect();
        assert_eq!(all.len(), 8);
        assert!(all.iter().all(|lengths| lengths.iter().sum::<usize>() == 4));
        for (k, one) in all.iter().enumerate() {
            assert!(!all[..k].contains(one));
        }
    }

    #[test]
    fn one_grouping_of_none() {
        assert_eq!(all_groupings(0).collect::<Vec<_>>(), [vec![]]);
    }

    #[test]
    fn rule_of_preference() {
        let falling: [&[usize]; 6] = [&[4], &[1, 3], &[3, 1], &[1, 1, 2], &[2, 1, 1], &[1; 4]];
        for (k, a) in falling.iter().enumerate() {
            for b in &falling[k + 1..] {
                assert_eq!(preference(a, b), Ordering::Less);
                assert_eq!(preference(b, a), Ordering::Greater);
            }
        }
        // With the same last group, the next group upward decides.
        assert_eq!(preference(&[1, 2, 1], &[2, 1, 1]), Ordering::Less);
    }

    #[test]
    fn levels_follow_lengths() {
        assert_eq!(levels_of(&[2, 1, 3]), [1, 1, 2, 3, 3, 3]);
    }
}
