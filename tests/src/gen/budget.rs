//! Keeps generated tests short, because the rounds of a test may grow with D.

use crate::model::{Entry, Plan};

/// Most rounds that a generated test may take.
pub const ROUNDS: u64 = 4_000;

/// A bound on the rounds of any entry's test, whatever the grouping.
pub fn rounds_ceiling(entries: &[Entry]) -> u64 {
    (0..entries.len())
        .map(|i| rounds_ceiling_of(entries, i))
        .max()
        .unwrap_or(0)
}

/// Whether no test on these entries takes more than [`ROUNDS`] rounds.
pub fn fits(entries: &[Entry]) -> bool {
    rounds_ceiling(entries) <= ROUNDS
}

/// Whether each node of the plan fits.
pub fn plan_fits(plan: &Plan) -> bool {
    plan.nodes.iter().all(|node| fits(&node.entries))
}

/// Draws until the entries fit the budget; also returns how many draws did not.
pub fn draw_fitting(mut draw: impl FnMut() -> Vec<Entry>) -> (Vec<Entry>, u64) {
    let mut dropped = 0;
    loop {
        let entries = draw();
        if fits(&entries) {
            return (entries, dropped);
        }
        dropped += 1;
    }
}

fn rounds_ceiling_of(entries: &[Entry], i: usize) -> u64 {
    let deadline = entries[i].d;
    let others = || (0..entries.len()).filter(|&j| j != i).map(|j| entries[j]);
    let by_periods: u64 = others()
        .map(|other| (deadline + other.j).div_ceil(other.t) - 1)
        .sum();
    // From round to round t grows by at least one run of another entry.
    let by_runs = match others().map(|other| other.c).min() {
        Some(least_run) => deadline / least_run,
        None => 0,
    };
    1 + by_periods.min(by_runs)
}
