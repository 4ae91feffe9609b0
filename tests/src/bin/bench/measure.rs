//! Tables: each row makes the same calls of all three planners. They run in
//! turns, so that other load on the machine affects all alike, and the best of
//! many runs counts.

use crate::planner::{Plain, Planner, Proved, Tuned};
use std::time::Instant;

/// The least duration of one run, in seconds.
const LONG: f64 = 0.004;

/// What is measured.
pub trait Row {
    /// The buffers that are lent to the calls, and the answers of the calls.
    type Lent: PartialEq;

    /// The text of the row's first column.
    fn name(&self) -> String;

    /// How often `call` does the work that the name describes.
    fn parts(&self) -> usize {
        1
    }

    /// The buffers before the first call.
    fn lent(&self) -> Self::Lent;

    /// The calls.
    fn call<P: Planner>(&self, lent: &mut Self::Lent);
}

/// A table of rows.
pub struct Table<'a> {
    /// Parts of names: a row whose name contains none of them is left out.
    asked: &'a [String],
    unit: &'static str,
    units_a_second: f64,
    turns: usize,
    begun: bool,
}

impl<'a> Table<'a> {
    /// A table in microseconds; if `asked` is not empty, only these rows.
    pub fn new(asked: &'a [String]) -> Table<'a> {
        Table {
            asked,
            unit: "µs",
            units_a_second: 1e6,
            turns: 30,
            begun: false,
        }
    }

    /// The same for long calls: in milliseconds, with few turns.
    pub fn of_long_calls(asked: &'a [String]) -> Table<'a> {
        Table {
            unit: "ms",
            units_a_second: 1e3,
            turns: 3,
            ..Table::new(asked)
        }
    }

    /// Compares the answers, then measures, and writes the line. Returns the
    /// seconds of the proved library, unless the row is left out.
    pub fn row<R: Row>(&mut self, row: &R) -> Option<f64> {
        let name = row.name();
        if !self.asked.is_empty() && !self.asked.iter().any(|part| name.contains(part)) {
            return None;
        }
        let all: [Run<R>; 3] = [run::<R, Proved>, run::<R, Tuned>, run::<R, Plain>];
        let mut lent = all.map(|run| {
            let mut lent = row.lent();
            run(row, &mut lent, 1);
            lent
        });
        assert!(lent[1] == lent[0], "{name}: the tuned one differs");
        assert!(lent[2] == lent[0], "{name}: the plain one differs");
        // Each planner makes enough calls for one run: one may be far slower.
        let mut calls = [1; 3];
        for who in 0..3 {
            while all[who](row, &mut lent[who], calls[who]) < LONG {
                calls[who] *= 2;
            }
        }
        let mut best = [f64::MAX; 3];
        for _ in 0..self.turns {
            for who in 0..3 {
                let seconds = all[who](row, &mut lent[who], calls[who]);
                best[who] = best[who].min(seconds / f64::from(calls[who]));
            }
        }
        let best = best.map(|seconds| seconds / row.parts() as f64);
        self.line(&name, best);
        Some(best[0])
    }

    /// Writes a row, and before the first one the head of the table.
    fn line(&mut self, name: &str, [proved, tuned, plain]: [f64; 3]) {
        if !self.begun {
            self.begun = true;
            let unit = self.unit;
            println!(
                "\n| Work | proved, {unit} | tuned, {unit} | plain, {unit} | of tuned | of plain |"
            );
            println!("|---|---|---|---|---|---|");
        }
        let [a, b, c] = [proved, tuned, plain].map(|seconds| {
            let time = seconds * self.units_a_second;
            format!("{time:.*}", decimals(time, 2, 0))
        });
        let [d, e] = [proved / tuned, proved / plain]
            .map(|ratio| format!("{ratio:.*}", decimals(ratio, 0, 2)));
        println!("| {name} | {a} | {b} | {c} | {d} | {e} |");
    }
}

/// Makes a number of calls, and returns the seconds that they take.
type Run<R> = fn(&R, &mut <R as Row>::Lent, u32) -> f64;

fn run<R: Row, P: Planner>(row: &R, lent: &mut R::Lent, calls: u32) -> f64 {
    let begin = Instant::now();
    for _ in 0..calls {
        row.call::<P>(lent);
    }
    begin.elapsed().as_secs_f64()
}

/// How many decimals show `digits` digits after the first significant one, but
/// at least `least` decimals.
fn decimals(number: f64, digits: i32, least: i32) -> usize {
    let first = number.log10().floor() as i32;
    (digits - first).max(least) as usize
}
