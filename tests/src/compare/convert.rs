//! Conversions between the editions, in both implementations.

use super::{hex, rooms};
use crate::ffi;
use crate::file::{self, contents_end, entry_length, longest};
use crate::gen::buffers::random;
use crate::model::Edition;
use crate::refusal::Refusal;
use crate::rng::Rng;
use crate::tally::Tally;
use std::fmt;

/// The answers of the conversions each way.
#[derive(Clone, Debug, Default)]
pub struct Ways {
    /// Out of the first edition.
    pub forward: Tally,
    /// Out of the second edition.
    pub back: Tally,
}

impl Ways {
    /// The answers of the conversion out of this edition.
    pub fn out_of(&mut self, from: Edition) -> &mut Tally {
        match from {
            Edition::First => &mut self.forward,
            Edition::Second => &mut self.back,
        }
    }
}

impl fmt::Display for Ways {
    fn fmt(&self, f: &mut fmt::Formatter<'_>) -> fmt::Result {
        write!(f, "forward: {}; back: {}", self.forward, self.back)
    }
}

/// Compares the conversion of a file out of this edition, forward or back, into
/// a buffer that holds `before`, and returns the converted file.
pub fn convert(
    ways: &mut Ways,
    from: Edition,
    file: &[u8],
    before: &[u8],
) -> Result<Vec<u8>, Refusal> {
    let (mut buffer, mut due_buffer) = (before.to_vec(), before.to_vec());
    let due = ways
        .out_of(from)
        .note(file::convert(from, file, &mut due_buffer));
    let answer = match from {
        Edition::First => ffi::convert_forward(file, &mut buffer),
        Edition::Second => ffi::convert_back(file, &mut buffer),
    };
    let lent = || {
        let room = before.len();
        format!("{room} bytes: out of {from:?}, {}", hex(file))
    };
    assert_eq!(answer, due, "{}", lent());
    assert!(buffer == due_buffer, "{}", lent());
    buffer.truncate(due?);
    Ok(buffer)
}

/// Compares both conversions of any bytes, into buffers of any contents: each
/// length of [`rooms`], and one that suffices for every plan.
pub fn both(ways: &mut Ways, rng: &mut Rng, file: &[u8]) {
    for from in Edition::BOTH {
        for room in rooms_of(from, file) {
            let _ = convert(ways, from, file, &random(rng, room));
        }
    }
}

/// The buffer lengths of [`both`].
pub fn rooms_of(from: Edition, file: &[u8]) -> impl Iterator<Item = usize> {
    let most = longest(from.other());
    rooms(needed(from, file)).into_iter().chain([most])
}

/// Bytes that the plan of an accepted file has in the edition that it would be
/// converted into; of a refused file, its own length.
pub fn needed(from: Edition, file: &[u8]) -> usize {
    match file::decode(file) {
        Ok(plan) => {
            let bodies = plan.entries().len() * entry_length(from.other());
            contents_end(plan.nodes.len()) + bodies
        }
        Err(_) => file.len(),
    }
}
