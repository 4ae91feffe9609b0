//! Runs programs with a file on standard input.

use crate::rng::Rng;
use std::io::{ErrorKind, Read, Write};
use std::path::{Path, PathBuf};
use std::process::{Child, Command, Output, Stdio};
use std::thread;
use std::time::{Duration, Instant};

/// The repository's root.
pub fn root() -> PathBuf {
    let tests = Path::new(env!("CARGO_MANIFEST_DIR"));
    tests
        .parent()
        .expect("tests/ lies in the repository")
        .to_path_buf()
}

/// The file in pieces of up to `most` bytes.
pub fn pieces<'a>(rng: &mut Rng, mut file: &'a [u8], most: usize) -> Vec<&'a [u8]> {
    let mut pieces = Vec::new();
    while !file.is_empty() {
        let (piece, rest) = file.split_at(rng.count(1, most.min(file.len())));
        pieces.push(piece);
        file = rest;
    }
    pieces
}

/// The program's output if its input comes in these pieces, with a pause after
/// each, and whether its exit status is 0.
pub fn run(program: &Path, pieces: &[&[u8]], pause: Duration) -> (Vec<u8>, bool) {
    let done = feed(&mut Command::new(program), pieces, pause);
    (done.stdout, done.status.success())
}

/// What the command writes if its input comes in these pieces, with a pause
/// after each. Standard error is only in it if the command lends a pipe.
pub fn feed(command: &mut Command, pieces: &[&[u8]], pause: Duration) -> Output {
    let mut child = command
        .stdin(Stdio::piped())
        .stdout(Stdio::piped())
        .spawn()
        .expect("the program starts");
    let mut input = child.stdin.take().expect("standard input is a pipe");
    for piece in pieces {
        match input.write_all(piece) {
            Ok(()) => thread::sleep(pause),
            // The program need not read what lies beyond the longest plan.
            Err(error) if error.kind() == ErrorKind::BrokenPipe => break,
            Err(error) => panic!("{error}"),
        }
    }
    drop(input);
    child.wait_with_output().expect("the program ends")
}

/// The command's output on this input, and whether its exit status is 0. A
/// command that runs to the time limit is killed, and the second value is
/// `None`. The input must fit into a pipe.
pub fn run_within(command: &mut Command, input: &[u8], limit: Duration) -> (Vec<u8>, Option<bool>) {
    let mut child = command
        .stdin(Stdio::piped())
        .stdout(Stdio::piped())
        .spawn()
        .expect("the program starts");
    let mut lent = child.stdin.take().expect("standard input is a pipe");
    lent.write_all(input).expect("the program takes its input");
    drop(lent);
    let mut output = child.stdout.take().expect("standard output is a pipe");
    let reader = thread::spawn(move || {
        let mut text = Vec::new();
        output.read_to_end(&mut text).expect("output can be read");
        text
    });
    let ended = wait_within(&mut child, limit);
    (reader.join().expect("the reader ends"), ended)
}

/// Whether the program's exit status is 0, once it ends. A program that runs to
/// the time limit is killed, and the value is `None`.
pub fn wait_within(child: &mut Child, limit: Duration) -> Option<bool> {
    let until = Instant::now() + limit;
    loop {
        if let Some(status) = child.try_wait().expect("the program can be waited for") {
            return Some(status.success());
        }
        if Instant::now() >= until {
            child.kill().expect("the program can be ended");
            child.wait().expect("the program ends");
            return None;
        }
        thread::sleep(Duration::from_millis(2));
    }
}
