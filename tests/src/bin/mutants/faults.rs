//! The kept faults: text files with a few lines for each.
//!
//! `file src/map.rs` names the file in which the faults below it are made, and
//! `== name` begins a fault. Its lines follow as in a patch: a blank in front
//! of lines that stay, `-` in front of old lines and `+` in front of new ones.
//! A line `changes nothing: ` with a reason marks a fault that no test can
//! notice.

use oracle::programs::root;
use std::fs;
use std::path::PathBuf;

/// A change of a few lines of one file.
#[derive(Default)]
pub struct Fault {
    /// The name of the list and of the fault.
    pub name: String,
    /// The file, relative to tests/.
    pub file: String,
    /// Why no test can notice it, if none can.
    pub nothing: Option<String>,
    old: Vec<String>,
    new: Vec<String>,
}

impl Fault {
    /// The text with the fault, or why it cannot be made there.
    pub fn made_in(&self, text: &str) -> Result<String, String> {
        let lines: Vec<&str> = text.lines().collect();
        let places: Vec<usize> = (0..lines.len())
            .filter(|&at| lines[at..].starts_with_all(&self.old))
            .collect();
        if self.old.is_empty() || self.old == self.new {
            return Err(format!("{}: no change is given", self.name));
        }
        let [at] = places[..] else {
            let (name, file) = (&self.name, &self.file);
            let count = places.len();
            return Err(format!(
                "{name}: its old lines stand {count} times in {file}"
            ));
        };
        let new: Vec<&str> = self.new.iter().map(String::as_str).collect();
        let after = &lines[at + self.old.len()..];
        Ok([&lines[..at], &new, after].concat().join("\n") + "\n")
    }

    fn take(&mut self, line: &str) {
        let (mark, rest) = line.split_at(1);
        if mark != "+" {
            self.old.push(rest.to_string());
        }
        if mark != "-" {
            self.new.push(rest.to_string());
        }
    }
}

/// Comparison of the beginning of a list of lines.
trait Lines {
    fn starts_with_all(&self, first: &[String]) -> bool;
}

impl Lines for [&str] {
    fn starts_with_all(&self, first: &[String]) -> bool {
        self.len() >= first.len() && self.iter().zip(first).all(|(a, b)| a == b)
    }
}

/// Every kept fault, or those whose names contain one of these parts, list by
/// list.
pub fn kept(parts: &[String]) -> Vec<Fault> {
    let folder = root().join("tests/mutants");
    let mut lists: Vec<PathBuf> = fs::read_dir(&folder)
        .expect("tests/mutants can be read")
        .map(|item| item.expect("tests/mutants can be read").path())
        .filter(|path| path.extension().is_some_and(|end| end == "txt"))
        .collect();
    lists.sort();
    let mut faults: Vec<Fault> = lists.iter().flat_map(in_list).collect();
    for (at, fault) in faults.iter().enumerate() {
        let before = &faults[..at];
        assert!(
            before.iter().all(|other| other.name != fault.name),
            "{} is there twice",
            fault.name
        );
    }
    let any = parts.is_empty();
    faults.retain(|fault| any || parts.iter().any(|part| fault.name.contains(part)));
    faults
}

fn in_list(path: &PathBuf) -> Vec<Fault> {
    let text = fs::read_to_string(path).expect("a list can be read");
    let list = path
        .file_stem()
        .expect("a list has a name")
        .to_string_lossy();
    let mut file = String::new();
    let mut faults: Vec<Fault> = Vec::new();
    for line in text.lines() {
        if let Some(name) = line.strip_prefix("== ") {
            faults.push(Fault {
                name: format!("{list}/{name}"),
                file: file.clone(),
                ..Fault::default()
            });
        } else if let Some(named) = line.strip_prefix("file ") {
            file = named.to_string();
        } else if !line.is_empty() && !line.starts_with('#') {
            let fault = faults.last_mut().expect("a fault is open");
            match line.strip_prefix("changes nothing: ") {
                Some(reason) => fault.nothing = Some(reason.to_string()),
                None if line.starts_with(['-', '+', ' ']) => fault.take(line),
                None => panic!("{}: '{line}' is no part of a fault", path.display()),
            }
        }
    }
    faults
}
