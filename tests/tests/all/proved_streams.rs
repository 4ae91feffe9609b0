//! The program with a standard input or output that does not work.

#![cfg(list_plan)]

use oracle::programs::root;
use std::fs::{File, OpenOptions};
use std::process::{Command, Output, Stdio};

/// Runs the program with this input and this output.
fn run(input: Stdio, output: Stdio) -> Output {
    Command::new(root().join("target/bin/list_plan"))
        .stdin(input)
        .stdout(output)
        .stderr(Stdio::piped())
        .output()
        .expect("the program starts")
}

fn sample() -> Stdio {
    let plan = root().join("samples/p.plan");
    Stdio::from(File::open(plan).expect("the sample is there"))
}

#[test]
fn output_that_cannot_be_written_is_told_on_standard_error() {
    let full = OpenOptions::new().write(true).open("/dev/full").unwrap();
    let done = run(sample(), Stdio::from(full));
    assert_eq!(
        String::from_utf8_lossy(&done.stderr),
        "list_plan: the listing could not be written\n"
    );
}

#[test]
fn nothing_on_standard_error_where_all_is_well() {
    let done = run(sample(), Stdio::piped());
    assert!(done.stdout.starts_with(b"plan 1\n"));
    assert!(done.stderr.is_empty() && done.status.success());
}

/// A directory can be opened but not read; a read that fails ends the input.
#[test]
fn input_that_cannot_be_read_is_an_empty_file() {
    let folder = File::open(root()).expect("the folder is there");
    let done = run(Stdio::from(folder), Stdio::piped());
    assert_eq!(
        String::from_utf8_lossy(&done.stdout),
        "refused 1 row 0 entry 0\n"
    );
    assert!(done.stderr.is_empty());
}
