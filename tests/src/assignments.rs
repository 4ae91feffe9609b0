//! Assignments: levels that never fall, but may begin above 1 and may skip.
//!
//! They check the map: no passing assignment uses fewer levels than the map,
//! and there is no map exactly if no assignment passes.

use crate::map::passes;
use crate::model::Entry;

/// Whether these are levels from 1 to `levels` that never fall.
pub fn is_assignment(assignment: &[u8], levels: u8) -> bool {
    let inside = assignment.iter().all(|level| (1..=levels).contains(level));
    inside && assignment.is_sorted()
}

/// Whether these are levels of a map: they never fall, begin at 1, skip none.
pub fn is_map(assignment: &[u8], levels: u8) -> bool {
    let used = different_levels(assignment);
    is_assignment(assignment, levels) && assignment.last().is_none_or(|&last| last == used)
}

/// How many different levels are used; equal levels must be neighbours.
pub fn different_levels(assignment: &[u8]) -> u8 {
    let mut levels = assignment.to_vec();
    levels.dedup();
    levels.len() as u8
}

/// Every assignment of `count` entries to levels 1 to `levels`.
pub fn all_assignments(count: usize, levels: u8) -> Vec<Vec<u8>> {
    let mut all: Vec<Vec<u8>> = vec![Vec::new()];
    for _ in 0..count {
        all = all
            .iter()
            .flat_map(|head| {
                let least = head.last().copied().unwrap_or(1);
                (least..=levels).map(|level| [head.as_slice(), &[level]].concat())
            })
            .collect();
    }
    all
}

/// Fewest different levels of any passing assignment.
pub fn fewest_levels(entries: &[Entry], levels: u8) -> Option<u8> {
    all_assignments(entries.len(), levels)
        .iter()
        .filter(|assignment| passes(entries, assignment))
        .map(|assignment| different_levels(assignment))
        .min()
}

#[cfg(test)]
mod tests {
    use super::*;

    #[test]
    fn assignments_of_three_on_two() {
        let all = all_assignments(3, 2);
        assert_eq!(all, [[1, 1, 1], [1, 1, 2], [1, 2, 2], [2, 2, 2]]);
        assert!(all.iter().all(|one| is_assignment(one, 2)));
        assert!(!is_assignment(&[0, 1], 2));
        assert!(!is_assignment(&[1, 3], 2));
        assert!(!is_assignment(&[2, 1], 2));
    }

    #[test]
    fn maps_begin_at_one_and_skip_none() {
        assert!(is_map(&[], 1));
        assert!(is_map(&[1, 1, 2], 2));
        assert!(!is_map(&[2, 2, 2], 2));
        assert!(!is_map(&[1, 3], 3));
        assert!(!is_map(&[1, 2], 1));
        assert!(!is_map(&[1, 2, 1], 2));
        assert_eq!(different_levels(&[2, 2, 5]), 2);
    }
}
