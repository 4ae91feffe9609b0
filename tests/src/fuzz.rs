//! Random files and sequences of session operations, one after the other,
//! compared with the second implementation.
//!
//! Files with a new kind of answer are kept and changed further.

use crate::compare;
use crate::compare::convert::Ways;
use crate::corpus;
use crate::file::{check, decode, encode};
use crate::gen::budget;
use crate::gen::jitter::thirds;
use crate::gen::ops::sequence;
use crate::gen::plans::{self, in_edition, punctual};
use crate::listing::list;
use crate::model::{Edition, Plan};
use crate::mutate::mutate;
use crate::rng::Rng;
use crate::tally::Tally;
use std::collections::HashSet;
use std::fmt;
use std::panic::{self, AssertUnwindSafe};

/// Most files that are kept for further changes.
const MOST: usize = 300;

/// A run, and counts of its answers.
#[derive(Clone, Debug)]
pub struct Fuzz {
    rng: Rng,
    pool: Vec<Vec<u8>>,
    kinds: HashSet<String>,
    files: u64,
    sequences: u64,
    tally: Tally,
    conversions: Ways,
    sessions: Tally,
}

/// An input on which the implementations differ, as a file to be kept.
#[derive(Clone, Debug)]
pub struct Difference {
    /// The end of the file's name: `plan` or `session`.
    pub end: &'static str,
    /// A plan file, or a sequence of session operations as text.
    pub contents: Vec<u8>,
}

impl Fuzz {
    /// A run that starts with the kept files and a few generated ones.
    pub fn new(mut rng: Rng) -> Fuzz {
        let mut pool = corpus::kept();
        for draw in [
            plans::small,
            plans::wide,
            plans::tight,
            plans::queued,
            plans::at_limits,
        ] {
            for _ in 0..5 {
                let plans = for_both_ways(draw(&mut rng));
                pool.extend(plans.map(|plan| encode(&plan).expect("a good plan")));
            }
        }
        Fuzz {
            rng,
            pool,
            kinds: HashSet::new(),
            files: 0,
            sequences: 0,
            tally: Tally::default(),
            conversions: Ways::default(),
            sessions: Tally::default(),
        }
    }

    /// One file, and now and then a sequence of session operations before it.
    pub fn step(&mut self) -> Result<(), Difference> {
        if self.rng.chance(1, 10) {
            self.sequence()?;
        }
        self.file()
    }

    /// Files so far.
    pub fn files(&self) -> u64 {
        self.files
    }

    /// Sequences of session operations so far.
    pub fn sequences(&self) -> u64 {
        self.sequences
    }

    /// Different kinds of answers so far.
    pub fn kinds(&self) -> usize {
        self.kinds.len()
    }

    /// The answers for files.
    pub fn tally(&self) -> &Tally {
        &self.tally
    }

    /// The answers of the conversions of files.
    pub fn conversions(&self) -> &Ways {
        &self.conversions
    }

    /// The answers for session operations.
    pub fn sessions(&self) -> &Tally {
        &self.sessions
    }

    fn sequence(&mut self) -> Result<(), Difference> {
        let tally = &mut self.sessions;
        let sequence = sequence(&mut self.rng, tally);
        self.sequences += 1;
        let compared = panic::catch_unwind(AssertUnwindSafe(|| {
            compare::session::sequence(tally, &sequence)
        }));
        compared.map_err(|_| Difference {
            end: "session",
            contents: sequence.to_text().into_bytes(),
        })
    }

    fn file(&mut self) -> Result<(), Difference> {
        let (one, other) = (
            self.rng.index(self.pool.len()),
            self.rng.index(self.pool.len()),
        );
        let file = mutate(&mut self.rng, &self.pool[one], &self.pool[other]);
        self.files += 1;
        let (tally, ways) = (&mut self.tally, &mut self.conversions);
        let rng = &mut self.rng;
        let compared = panic::catch_unwind(AssertUnwindSafe(|| {
            compare::file(tally, &file);
            compare::convert::both(ways, rng, &file);
        }));
        if compared.is_err() {
            return Err(Difference {
                end: "plan",
                contents: file,
            });
        }
        if self.kinds.insert(kind(&file)) {
            self.keep(file);
        }
        Ok(())
    }

    /// In a full pool the file replaces a random one.
    fn keep(&mut self, file: Vec<u8>) {
        if self.pool.len() < MOST {
            self.pool.push(file);
        } else {
            let at = self.rng.index(self.pool.len());
            self.pool[at] = file;
        }
    }
}

impl fmt::Display for Fuzz {
    fn fmt(&self, f: &mut fmt::Formatter<'_>) -> fmt::Result {
        let (files, kinds, sequences) = (self.files, self.kinds.len(), self.sequences);
        writeln!(f, "{files} files, {kinds} kinds of answers: {}", self.tally)?;
        writeln!(f, "conversions of these files: {}", self.conversions)?;
        write!(
            f,
            "{sequences} sequences of session operations: {}",
            self.sessions
        )
    }
}

/// The plan, the same without J in both editions, which goes forward and back,
/// and the same with J, which does not go back.
fn for_both_ways(plan: Plan) -> [Plan; 4] {
    let first = punctual(plan.clone());
    let second = in_edition(&first, Edition::Second);
    let mut late = second.clone();
    for node in &mut late.nodes {
        node.entries = thirds(node.entries.clone());
    }
    [plan, first, second, late]
}

/// The kind of an answer: the refusal with its places, or the levels that each
/// node uses.
fn kind(file: &[u8]) -> String {
    if let Err(refusal) = check(file) {
        return refusal.to_string();
    }
    if !budget::plan_fits(&decode(file).expect("the file was accepted")) {
        return "long".to_string();
    }
    let text = list(file);
    let nodes = text.lines().filter(|line| line.starts_with("node"));
    let used = nodes.map(|line| line.split(' ').nth(3).unwrap_or(""));
    used.collect::<Vec<&str>>().join(" ")
}
