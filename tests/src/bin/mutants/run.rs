//! Builds the copy and runs its tests up to the first failure.

use crate::copy::Copy;
use std::io::{BufRead, BufReader};
use std::path::{Path, PathBuf};
use std::process::{Child, Command, Stdio};
use std::sync::mpsc::{channel, Receiver, RecvTimeoutError};
use std::thread;
use std::time::{Duration, Instant};

/// The outcome of the tests with a fault.
pub enum Verdict {
    /// This test fails.
    Noticed(String),
    /// No test fails.
    Unnoticed,
    /// The copy does not build with the fault, so the fault is useless.
    Unbuilt(String),
}

impl Verdict {
    /// The outcome as text, for a fault with an unexpected one.
    pub fn failing(&self) -> String {
        match self {
            Verdict::Noticed(by) => format!("noticed by {by}"),
            Verdict::Unnoticed => "not noticed".to_string(),
            Verdict::Unbuilt(why) => format!("not built: {why}"),
        }
    }
}

/// The tests of one file, and how long they take.
struct Part {
    names: Vec<String>,
    comparing: bool,
    time: Duration,
}

/// All tests except the unit tests inside the second implementation.
pub struct Suite {
    parts: Vec<Part>,
}

impl Suite {
    /// The tests of the copy, which must pass before a fault is made. Tests
    /// that use the proved library or program come first, the shortest of them
    /// first.
    pub fn without_a_fault(copy: &Copy) -> Result<Suite, String> {
        let program = build(copy, &["--test", "all"])?;
        let mut parts = parts(copy, &program);
        for part in &mut parts {
            let begun = Instant::now();
            if let Some(test) = first_failing(copy, &program, part) {
                return Err(format!("{test} fails"));
            }
            part.time = begun.elapsed();
        }
        parts.sort_by_key(|part| (!part.comparing, part.time));
        let suite = Suite { parts };
        match suite.inside(copy) {
            Verdict::Unnoticed => Ok(suite),
            verdict => Err(verdict.failing()),
        }
    }

    /// The first test that fails: among those that use the proved library or
    /// program, else among the others, else among the unit tests.
    pub fn verdict(&self, copy: &Copy) -> Verdict {
        let program = match build(copy, &["--test", "all"]) {
            Ok(program) => program,
            Err(why) => return Verdict::Unbuilt(why),
        };
        for part in &self.parts {
            if let Some(test) = first_failing(copy, &program, part) {
                return match part.comparing {
                    true => Verdict::Noticed(test),
                    false => alone(&test),
                };
            }
        }
        self.inside(copy)
    }

    /// The outcome of the unit tests inside the second implementation.
    fn inside(&self, copy: &Copy) -> Verdict {
        let all = Part {
            names: Vec::new(),
            comparing: false,
            time: Duration::ZERO,
        };
        match build(copy, &["--lib"]) {
            Ok(program) => match first_failing(copy, &program, &all) {
                Some(test) => alone(&test),
                None => Verdict::Unnoticed,
            },
            Err(why) => Verdict::Unbuilt(why),
        }
    }
}

fn alone(test: &str) -> Verdict {
    Verdict::Noticed(format!("{test}, without what is proved"))
}

/// The tests of the program, file by file.
fn parts(copy: &Copy, program: &Path) -> Vec<Part> {
    let listed = Command::new(program)
        .arg("--list")
        .output()
        .expect("the tests can be listed");
    let text = String::from_utf8_lossy(&listed.stdout).into_owned();
    let names: Vec<String> = text
        .lines()
        .filter_map(|line| line.strip_suffix(": test"))
        .map(str::to_string)
        .collect();
    let file = |name: &String| name.split("::").next().unwrap_or("").to_string();
    names
        .chunk_by(|a, b| file(a) == file(b))
        .map(|names| Part {
            names: names.to_vec(),
            comparing: copy.comparing.contains(&file(&names[0])),
            time: Duration::from_secs(600),
        })
        .collect()
}

/// Runs the tests of a part, or all tests if the part names none. Stops at the
/// first failure, or if they take far too long.
fn first_failing(copy: &Copy, program: &Path, part: &Part) -> Option<String> {
    let mut child = Command::new(program)
        .args(["--exact", "--test-threads", "2"])
        .args(&part.names)
        .current_dir(&copy.tests)
        .env_remove("MAIPLUR_SEED")
        .env_remove("MAIPLUR_SCALE")
        .stdin(Stdio::null())
        .stdout(Stdio::piped())
        .stderr(Stdio::null())
        .spawn()
        .expect("the tests start");
    let until = Instant::now() + 5 * part.time + Duration::from_secs(60);
    let failing = watch(&lines_of(&mut child), until);
    if failing.is_some() {
        // An error only means that it has already ended.
        let _ = child.kill();
    }
    let status = child.wait().expect("the tests end");
    let ended = || part.names.first().map_or("", |name| name).to_string();
    failing.or((!status.success()).then(|| format!("{} or a test behind it: {status}", ended())))
}

/// The lines of the tests' output, as they come.
fn lines_of(child: &mut Child) -> Receiver<String> {
    let output = child.stdout.take().expect("standard output is a pipe");
    let (sender, lines) = channel();
    thread::spawn(move || {
        for line in BufReader::new(output).split(b'\n').map_while(Result::ok) {
            if sender
                .send(String::from_utf8_lossy(&line).into_owned())
                .is_err()
            {
                return;
            }
        }
    });
    lines
}

/// The first test reported as failed, or a note that the tests do not end.
fn watch(lines: &Receiver<String>, until: Instant) -> Option<String> {
    let mut in_list = false;
    loop {
        let left = until.saturating_duration_since(Instant::now());
        let line = match lines.recv_timeout(left) {
            Ok(line) => line,
            Err(RecvTimeoutError::Timeout) => return Some("a test without an end".to_string()),
            Err(RecvTimeoutError::Disconnected) => return None,
        };
        let said = line
            .strip_prefix("test ")
            .and_then(|rest| rest.strip_suffix(" ... FAILED"));
        if let Some(name) = said {
            return Some(name.to_string());
        }
        // Output of a test may come between its name and its result. Then only
        // the list of failures at the end names it.
        if in_list && line.starts_with("    ") {
            return Some(line.trim().to_string());
        }
        in_list = line == "failures:" || in_list && line.is_empty();
    }
}

/// Builds a test program with little optimisation, and returns its path.
fn build(copy: &Copy, target: &[&str]) -> Result<PathBuf, String> {
    let done = Command::new("cargo")
        .args(["test", "--release", "--offline", "--locked", "--no-run"])
        .args(["--message-format", "json-render-diagnostics"])
        .args(target)
        .current_dir(&copy.tests)
        .env("CARGO_TARGET_DIR", copy.tests.with_file_name("built"))
        .env("CARGO_PROFILE_RELEASE_OPT_LEVEL", "1")
        .env("CARGO_PROFILE_RELEASE_CODEGEN_UNITS", "16")
        .env("CARGO_PROFILE_RELEASE_INCREMENTAL", "true")
        .output()
        .expect("cargo is on the path");
    if !done.status.success() {
        let said = String::from_utf8_lossy(&done.stderr).into_owned();
        let first = said.lines().find(|line| line.starts_with("error"));
        return Err(first.unwrap_or("cargo fails").to_string());
    }
    let said = String::from_utf8_lossy(&done.stdout).into_owned();
    let paths = said
        .lines()
        .filter_map(|line| line.split(r#""executable":""#).nth(1));
    let path = paths.filter_map(|rest| rest.split('"').next()).next_back();
    path.map(PathBuf::from)
        .ok_or_else(|| "cargo names no test program".to_string())
}
