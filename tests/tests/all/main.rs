//! All tests are one program, which is compiled and linked once and runs them side by side.

use std::fmt::Display;
use std::io::Write;

mod calls;
mod converting;
mod examples;
mod files;
mod generators;
mod jitter;
mod listing;
mod mapping;
mod numbers;
mod odd;
mod overrun;
mod proved_carry;
mod proved_carry_files;
mod proved_converting;
mod proved_counts;
mod proved_damage;
mod proved_editions;
mod proved_fuzz;
mod proved_jitter;
mod proved_just_late;
mod proved_kept;
mod proved_maps;
mod proved_numbers;
mod proved_overrun;
mod proved_places;
mod proved_plans;
mod proved_program;
mod proved_punctual;
mod proved_session_plans;
mod proved_sessions;
mod proved_store;
mod proved_streams;
mod proved_table;
mod proved_text_room;
mod proved_timing;
mod proved_writer;
mod readings;
mod refusals;
mod sessions;
mod starred;
mod store;
mod table;
mod timing;
mod tuned;
mod writer;
mod wrong_programs;

/// Prints a line of its own. Not `println!`: the harness hides what passing
/// tests print with it.
fn say(line: impl Display) {
    writeln!(std::io::stdout(), "\n{line}").expect("output is open");
}
