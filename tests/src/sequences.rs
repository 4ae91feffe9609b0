//! Sequences of session operations, and their form as text.

use crate::lent::{Words, SESSION_WORDS};
use crate::session::Op;
use crate::words::{entry_of, entry_words};
use std::fmt::Write;

/// The memory lent to the first operation, and the operations.
#[derive(Clone, Debug, PartialEq, Eq)]
pub struct Sequence {
    /// All 516 words.
    pub start: Words,
    /// The operations.
    pub ops: Vec<Op>,
}

impl Sequence {
    /// The words on one line, without the zeros at the end, then a line for
    /// each operation. An entry is its six words.
    pub fn to_text(&self) -> String {
        let used = self.start.iter().rposition(|word| *word != 0);
        let words = &self.start[..used.map_or(0, |last| last + 1)];
        let mut text = line("words", words.iter().map(|word| *word as usize));
        for op in &self.ops {
            text += &op_line(op);
        }
        text
    }

    /// The sequence in a text, which must be well formed.
    pub fn from_text(text: &str) -> Sequence {
        let mut sequence = Sequence {
            start: [0; SESSION_WORDS],
            ops: Vec::new(),
        };
        for line in text.lines() {
            let mut parts = line.split(' ');
            let name = parts.next().unwrap_or("");
            let numbers: Vec<usize> = parts.map(|part| part.parse().expect("a number")).collect();
            match name {
                "words" => {
                    for (target, number) in sequence.start.iter_mut().zip(numbers) {
                        *target = word(number);
                    }
                }
                _ => sequence.ops.push(op_of(name, &numbers)),
            }
        }
        sequence
    }
}

fn op_line(op: &Op) -> String {
    let with_entry = |name, position, entry| {
        let words = entry_words(entry).map(|word| word as usize);
        line(name, [position].into_iter().chain(words))
    };
    match op {
        Op::Open(levels) => line("open", [*levels]),
        Op::SetLevels(levels) => line("levels", [*levels]),
        Op::Insert(position, entry) => with_entry("insert", *position, entry),
        Op::Replace(position, entry) => with_entry("replace", *position, entry),
        Op::Remove(position) => line("remove", [*position]),
        Op::Map => line("map", []),
        Op::Time(first, last, i) => line("time", [*first, *last, *i]),
        Op::MapTime(position) => line("maptime", [*position]),
    }
}

fn op_of(name: &str, numbers: &[usize]) -> Op {
    match (name, numbers) {
        ("open", &[levels]) => Op::Open(levels),
        ("levels", &[levels]) => Op::SetLevels(levels),
        ("remove", &[position]) => Op::Remove(position),
        ("map", &[]) => Op::Map,
        ("time", &[first, last, i]) => Op::Time(first, last, i),
        ("maptime", &[position]) => Op::MapTime(position),
        ("insert" | "replace", &[position, head, c, t, d, b, j]) => {
            let entry = entry_of(&[head, c, t, d, b, j].map(word));
            match name {
                "insert" => Op::Insert(position, entry),
                _ => Op::Replace(position, entry),
            }
        }
        _ => panic!("{name} {numbers:?} is no operation"),
    }
}

fn line(name: &str, numbers: impl IntoIterator<Item = usize>) -> String {
    let mut line = name.to_string();
    for number in numbers {
        write!(line, " {number}").expect("text takes any number");
    }
    line + "\n"
}

fn word(number: usize) -> u32 {
    u32::try_from(number).expect("a word has 32 bits")
}

#[cfg(test)]
mod tests {
    use super::*;
    use crate::gen::ops::sequence;
    use crate::rng::Rng;
    use crate::tally::Tally;

    #[test]
    fn a_sequence_is_kept_by_its_text() {
        let mut rng = Rng::new(3);
        for _ in 0..50 {
            let sequence = sequence(&mut rng, &mut Tally::default());
            assert_eq!(Sequence::from_text(&sequence.to_text()), sequence);
        }
    }

    #[test]
    fn missing_words_are_zeros() {
        let text = "words 2 1 65537 1 5 5\nmaptime 0\n";
        let Sequence { start, ops } = Sequence::from_text(text);
        assert_eq!(start[..6], [2, 1, 65_537, 1, 5, 5]);
        assert_eq!(start[6..], [0; SESSION_WORDS - 6]);
        assert_eq!(ops, [Op::MapTime(0)]);
    }
}
