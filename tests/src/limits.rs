//! The checks of one entry, of the numbers of a node, of one row and one level
//! count.
//!
//! File, writer and session share them, each in its own order.

use crate::model::{Entry, Row, MAX_ENTRIES, MAX_LEVELS, MAX_R, MAX_TICKS, SECTION, TASK};
use crate::refusal::{Refusal, JITTER, KIND, REPEAT, ROW, TICKS};

/// Checks 7, 8 and 14 on the entry at `position` of row `row`.
pub fn check_entry(entry: &Entry, row: usize, position: usize) -> Result<(), Refusal> {
    if !kind_fits(entry) {
        return Err(Refusal::at_entry(KIND, row, position));
    }
    if !ticks_fit(entry) {
        return Err(Refusal::at_entry(TICKS, row, position));
    }
    if !jitter_fits(entry) {
        return Err(Refusal::at_entry(JITTER, row, position));
    }
    Ok(())
}

/// Check 14 on an entry to be written in the first edition, which has no room
/// for J.
pub fn check_no_jitter(entry: &Entry, row: usize, position: usize) -> Result<(), Refusal> {
    if entry.j == 0 {
        Ok(())
    } else {
        Err(Refusal::at_entry(JITTER, row, position))
    }
}

/// Check 16 on the entries of row `row`: the first whose number an earlier one
/// has.
pub fn check_numbers(entries: &[Entry], row: usize) -> Result<(), Refusal> {
    for position in 0..entries.len() {
        for earlier in 0..position {
            if entries[earlier].number == entries[position].number {
                return Err(Refusal::at_entry(REPEAT, row, position));
            }
        }
    }
    Ok(())
}

/// Check 16 on an entry for `position` of a session that holds these others.
pub fn check_number(entry: &Entry, others: &[Entry], position: usize) -> Result<(), Refusal> {
    for other in others {
        if other.number == entry.number {
            return Err(Refusal::at_entry(REPEAT, 0, position));
        }
    }
    Ok(())
}

/// Check 4 on the row at `index`; `last` is the number of the row before it.
pub fn check_row(row: &Row, last: Option<u16>, index: usize) -> Result<(), Refusal> {
    let rises = last.is_none_or(|number| row.number > number);
    let few = usize::from(row.entries) <= MAX_ENTRIES;
    if rises && few && levels_fit(usize::from(row.levels)) {
        Ok(())
    } else {
        Err(Refusal::at_row(ROW, index))
    }
}

/// Check 4 on a session's level count.
pub fn check_levels(levels: usize) -> Result<(), Refusal> {
    if levels_fit(levels) {
        Ok(())
    } else {
        Err(Refusal::at_row(ROW, 0))
    }
}

fn levels_fit(levels: usize) -> bool {
    (1..=MAX_LEVELS).contains(&levels)
}

fn kind_fits(entry: &Entry) -> bool {
    match entry.kind {
        TASK => entry.r <= MAX_R,
        SECTION => entry.r == 0,
        _ => false,
    }
}

fn ticks_fit(entry: &Entry) -> bool {
    let Entry { c, t, d, b, .. } = *entry;
    1 <= c && c <= d && d <= t && t <= MAX_TICKS && b <= MAX_TICKS
}

/// Of an entry whose other ticks fit.
fn jitter_fits(entry: &Entry) -> bool {
    entry.j <= entry.d - entry.c
}

#[cfg(test)]
mod tests {
    use super::*;

    const TOP: u64 = MAX_TICKS;

    fn ticks(c: u64, t: u64, d: u64, b: u64) -> bool {
        check_entry(&Entry::task(1, c, t, d).blocked(b), 2, 3).is_ok()
    }

    #[test]
    fn ticks_at_the_limits() {
        assert!(ticks(1, 1, 1, 0));
        assert!(ticks(TOP, TOP, TOP, TOP));
        assert!(!ticks(0, 1, 1, 0));
        assert!(!ticks(2, 2, 1, 0));
        assert!(!ticks(1, 1, 2, 0));
        assert!(!ticks(1, TOP + 1, 1, 0));
        assert!(!ticks(1, 1, 1, TOP + 1));
        assert!(!ticks(1, u64::MAX, 1, 0));
    }

    #[test]
    fn kinds_at_the_limits() {
        let entry = |kind, r| Entry {
            kind,
            r,
            ..Entry::task(1, 1, 1, 1)
        };
        let number = |kind, r| check_entry(&entry(kind, r), 0, 0).map_err(|e| e.number);
        assert_eq!(number(TASK, MAX_R), Ok(()));
        assert_eq!(number(SECTION, 0), Ok(()));
        assert_eq!(number(TASK, MAX_R + 1), Err(KIND));
        assert_eq!(number(SECTION, 1), Err(KIND));
        assert_eq!(number(0, 0), Err(KIND));
        assert_eq!(number(3, 0), Err(KIND));
    }

    #[test]
    fn kind_comes_before_ticks() {
        let both = Entry {
            kind: 3,
            ..Entry::task(1, 6, 5, 5)
        };
        assert_eq!(check_entry(&both, 2, 3), Err(Refusal::at_entry(KIND, 2, 3)));
    }

    #[test]
    fn jitter_at_the_limits() {
        let number = |j| check_entry(&Entry::task(1, 3, 12, 10).jittered(j), 0, 0);
        for j in [0, 1, 6, 7] {
            assert_eq!(number(j), Ok(()), "{j}");
        }
        for j in [8, 9, 10, TOP, 4_294_967_295, u64::MAX] {
            assert_eq!(number(j), Err(Refusal::at_entry(JITTER, 0, 0)), "{j}");
        }
        let longest = Entry::task(1, 1, TOP, TOP);
        assert!(check_entry(&longest.jittered(TOP - 1), 0, 0).is_ok());
        assert!(check_entry(&longest.jittered(TOP), 0, 0).is_err());
        let no_room = Entry::task(1, TOP, TOP, TOP);
        assert!(check_entry(&no_room, 0, 0).is_ok());
        assert!(check_entry(&no_room.jittered(1), 0, 0).is_err());
    }

    #[test]
    fn kind_and_ticks_come_before_jitter() {
        let ticks = Entry::task(1, 6, 5, 5).jittered(9);
        let refused = |entry, number| {
            let due = Refusal::at_entry(number, 2, 3);
            assert_eq!(check_entry(&entry, 2, 3), Err(due));
        };
        refused(ticks, TICKS);
        refused(Entry { kind: 3, ..ticks }, KIND);
        refused(Entry { c: 1, ..ticks }, JITTER);
    }

    #[test]
    fn the_first_with_an_equal_before_it() {
        let numbers = |numbers: &[u16]| {
            let entries: Vec<Entry> = numbers
                .iter()
                .map(|&number| Entry::task(number, 1, 1, 1))
                .collect();
            check_numbers(&entries, 5).map_err(|refusal| (refusal.row, refusal.entry))
        };
        assert_eq!(numbers(&[]), Ok(()));
        assert_eq!(numbers(&[0, u16::MAX, 255, 256]), Ok(()));
        assert_eq!(numbers(&[0, 0]), Err((5, 1)));
        assert_eq!(numbers(&[1, 2, 3, 1]), Err((5, 3)));
        assert_eq!(numbers(&[1, 2, 2, 1, 1]), Err((5, 2)));
    }

    #[test]
    fn rows_at_the_limits() {
        let row = |number, levels, entries| Row {
            number,
            levels,
            entries,
        };
        assert!(check_row(&row(0, 1, 0), None, 0).is_ok());
        assert!(check_row(&row(9, 64, 64), Some(8), 1).is_ok());
        for (bad, last) in [
            (row(8, 1, 0), Some(8)),
            (row(7, 1, 0), Some(8)),
            (row(9, 0, 0), None),
            (row(9, 65, 0), None),
            (row(9, 1, 65), None),
        ] {
            assert_eq!(check_row(&bad, last, 5), Err(Refusal::at_row(ROW, 5)));
        }
    }
}
