//! What the program that converts plans writes.

use crate::file::{convert, longest};
use crate::listing::MAX_INPUT;
use crate::model::Edition;
use crate::refusal::{Refusal, LENGTH};

/// The argument that asks for the conversion out of this edition.
pub fn way(from: Edition) -> &'static str {
    match from {
        Edition::First => "forward",
        Edition::Second => "back",
    }
}

/// What goes to standard output for this standard input, or why nothing does.
/// An input longer than any plan is refused as 6, unless an earlier check
/// applies.
pub fn carry(from: Edition, input: &[u8]) -> Result<Vec<u8>, Refusal> {
    let mut file = vec![0; longest(from.other())];
    let answer = convert(from, input, &mut file);
    if input.len() > MAX_INPUT {
        return Err(match answer {
            Err(earlier) if earlier.number < LENGTH => earlier,
            _ => Refusal::plain(LENGTH),
        });
    }
    file.truncate(answer?);
    Ok(file)
}

/// What goes to standard error: the line of a refused input, else nothing.
pub fn complaint(from: Edition, input: &[u8]) -> String {
    match carry(from, input) {
        Ok(_) => String::new(),
        Err(refusal) => format!("{refusal}\n"),
    }
}
