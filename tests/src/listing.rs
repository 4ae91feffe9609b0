//! The listing.

use crate::file::{check, decode};
use crate::map::{map_entries, Map};
use crate::model::{Node, Plan};
use crate::refusal::{Refusal, LENGTH};
use crate::timing::{completion, Timing};
use std::fmt::Write;

/// The longest input that the program reads as a plan.
pub const MAX_INPUT: usize = 65_536;
/// Bytes that suffice for every listing.
pub const MOST_TEXT: usize = 115_625;

/// What the program prints for this standard input.
pub fn list(input: &[u8]) -> String {
    match accept(input) {
        Ok(plan) => list_plan(&plan),
        Err(refusal) => format!("{refusal}\n"),
    }
}

/// A longer input is refused as 6, unless an earlier check applies.
fn accept(input: &[u8]) -> Result<Plan, Refusal> {
    if input.len() <= MAX_INPUT {
        return decode(input);
    }
    match check(input) {
        Err(earlier) if earlier.number < LENGTH => Err(earlier),
        _ => Err(Refusal::plain(LENGTH)),
    }
}

fn list_plan(plan: &Plan) -> String {
    let mut text = format!("plan {}\n", plan.nodes.len());
    for node in &plan.nodes {
        match map_entries(&node.entries, node.levels) {
            Some(map) => list_node(&mut text, node, &map),
            None => push_line(&mut text, format_args!("node {} no map", node.number)),
        }
    }
    text
}

fn list_node(text: &mut String, node: &Node, map: &Map) {
    let (number, levels) = (node.number, node.levels);
    let used = map.used;
    push_line(
        text,
        format_args!("node {number} levels {used} of {levels}"),
    );
    for (i, entry) in node.entries.iter().enumerate() {
        let Timing::OnTime { time, rounds } = completion(&node.entries, &map.levels, i) else {
            unreachable!("no entry of a passing map is late");
        };
        let (number, level) = (entry.number, map.levels[i]);
        push_line(
            text,
            format_args!("entry {number} level {level} time {time} rounds {rounds}"),
        );
    }
}

fn push_line(text: &mut String, line: std::fmt::Arguments<'_>) {
    writeln!(text, "{line}").expect("text takes any line");
}
