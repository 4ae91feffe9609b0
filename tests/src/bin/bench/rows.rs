//! Rows about plan files.

use crate::measure::Row;
use crate::planner::Planner;
use oracle::ffi;
use oracle::file::encode;
use oracle::gen::plans::{in_edition, punctual};
use oracle::model::{Edition, Plan, MAX_ENTRIES, MAX_NODES};
use oracle::words::ENTRY_WORDS;
use std::hint::black_box;

/// Words of the entries of the longest plan.
const MOST_WORDS: usize = MAX_NODES * MAX_ENTRIES * ENTRY_WORDS;

/// Mapping node 7 of several files, because nodes differ in cost.
pub struct Mapping {
    pub name: String,
    pub files: Vec<Vec<u8>>,
}

impl Row for Mapping {
    type Lent = Vec<(Option<usize>, [u8; 64])>;

    fn name(&self) -> String {
        self.name.clone()
    }

    fn parts(&self) -> usize {
        self.files.len()
    }

    fn lent(&self) -> Self::Lent {
        vec![(None, [0; 64]); self.files.len()]
    }

    fn call<P: Planner>(&self, lent: &mut Self::Lent) {
        for (file, (used, levels)) in self.files.iter().zip(lent) {
            *used = P::map(black_box(file), 7, levels);
        }
    }
}

/// Checking a file.
pub struct Checking<'a> {
    pub file: &'a [u8],
    pub what: &'a str,
}

impl Row for Checking<'_> {
    type Lent = bool;

    fn name(&self) -> String {
        format!("check {}", self.what)
    }

    fn lent(&self) -> bool {
        false
    }

    fn call<P: Planner>(&self, accepted: &mut bool) {
        *accepted = P::check(black_box(self.file));
    }
}

/// Reading a file into words.
pub struct Reading<'a> {
    pub file: &'a [u8],
    pub what: &'a str,
}

/// A plan in words, how many rows and entries were read, and the edition.
type InWords = (Vec<u32>, Vec<u32>, Option<(usize, usize, u32)>);

impl Row for Reading<'_> {
    type Lent = InWords;

    fn name(&self) -> String {
        format!("read {}", self.what)
    }

    fn lent(&self) -> InWords {
        (vec![0; MAX_NODES], vec![0; MOST_WORDS], None)
    }

    fn call<P: Planner>(&self, (rows, words, read): &mut InWords) {
        *read = P::read(black_box(self.file), rows, words);
    }
}

/// Writing a plan that was read from a file.
pub struct Writing<'a> {
    edition: u32,
    rows: Vec<u32>,
    words: Vec<u32>,
    length: usize,
    what: &'a str,
}

impl<'a> Writing<'a> {
    /// Writing the plan of a file.
    pub fn of(file: &[u8], what: &'a str) -> Writing<'a> {
        let (mut rows, mut words) = (vec![0; MAX_NODES], vec![0; MOST_WORDS]);
        let read = ffi::read(file, &mut rows, &mut words);
        let (nodes, entries, edition) = read.expect("a good plan");
        rows.truncate(nodes);
        words.truncate(entries * ENTRY_WORDS);
        Writing {
            edition: edition.number(),
            rows,
            words,
            length: file.len(),
            what,
        }
    }
}

impl Row for Writing<'_> {
    type Lent = (Vec<u8>, Option<usize>);

    fn name(&self) -> String {
        format!("write {}", self.what)
    }

    fn lent(&self) -> Self::Lent {
        (vec![0; self.length], None)
    }

    fn call<P: Planner>(&self, (file, written): &mut Self::Lent) {
        *written = P::write(self.edition, black_box(&self.rows), &self.words, file);
    }
}

/// Converting a file out of this edition into the other, into an exact buffer.
pub struct Converting {
    pub name: String,
    from: Edition,
    file: Vec<u8>,
    length: usize,
}

impl Converting {
    /// The conversion of this plan, without J.
    pub fn of(plan: Plan, from: Edition, name: String) -> Converting {
        let plan = punctual(plan);
        let in_bytes = |edition| encode(&in_edition(&plan, edition)).expect("a good plan");
        Converting {
            name,
            from,
            file: in_bytes(from),
            length: in_bytes(from.other()).len(),
        }
    }
}

impl Row for Converting {
    type Lent = (Vec<u8>, Option<usize>);

    fn name(&self) -> String {
        self.name.clone()
    }

    fn lent(&self) -> Self::Lent {
        (vec![0; self.length], None)
    }

    fn call<P: Planner>(&self, (out, length): &mut Self::Lent) {
        *length = P::convert(self.from, black_box(&self.file), out);
    }
}

/// Listing a file into a buffer of a given length.
pub struct Listing {
    pub name: String,
    pub file: Vec<u8>,
    pub room: usize,
}

impl Row for Listing {
    type Lent = (Vec<u8>, Option<usize>);

    fn name(&self) -> String {
        self.name.clone()
    }

    fn lent(&self) -> Self::Lent {
        (vec![0; self.room], None)
    }

    fn call<P: Planner>(&self, (text, length): &mut Self::Lent) {
        *length = P::list(black_box(&self.file), text);
    }
}
