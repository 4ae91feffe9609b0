//! Plans with long listings.

use crate::model::{Edition, Entry, Node, Plan, MAX_ENTRIES, MAX_TICKS};
use crate::timing::{completion_in_group, Timing};

/// Nodes of 64 entries, each on a level of its own. Numbers have five digits,
/// times nine, most levels two, and most rounds three. In the second edition
/// the entries may start late.
pub fn long_listing(edition: Edition, nodes: u16) -> Plan {
    let late = match edition {
        Edition::First => 0,
        Edition::Second => 1_000_000,
    };
    let entries = one_a_level(late);
    let nodes = (0..nodes)
        .map(|row| Node {
            number: 65_000 + row,
            levels: 64,
            entries: entries.clone(),
        })
        .collect();
    Plan { edition, nodes }
}

/// The first entry has a utilisation of 0.9, so the tests of the others take
/// many rounds. Each deadline is the entry's completion time on a level of its
/// own, or `late` ticks behind it, so no two entries can share a level.
fn one_a_level(late: u64) -> Vec<Entry> {
    let mut entries = vec![Entry::task(65_001, 9, 10, 10)];
    for number in 65_002..65_001 + MAX_ENTRIES as u16 {
        let run = if entries.len() == 1 {
            10_000_000
        } else {
            1_400_000
        };
        entries.push(Entry::task(number, run, MAX_TICKS, MAX_TICKS));
    }
    for i in 1..MAX_ENTRIES {
        let Timing::OnTime { time, .. } = completion_in_group(&entries, i, i, i) else {
            unreachable!("ten times the runs are less than a period");
        };
        entries[i].d = time + late;
        entries[i].j = late;
    }
    entries
}
