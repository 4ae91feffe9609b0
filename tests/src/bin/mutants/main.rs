//! Mutation testing: makes small faults in the second implementation, one at a
//! time, and finds the test that notices each.
//!
//! A fault that no test notices shows a gap in the tests. The faults are kept
//! in tests/mutants. Arguments are parts of names: only faults with one of them
//! are tried. Each fault is made in a copy among the temporary files, which uses
//! the library and the program as already proved. The exit status is 0 exactly if
//! every fault is noticed, except those marked as changing nothing, which must
//! not be noticed.

mod copy;
mod faults;
mod run;

use copy::Copy;
use faults::Fault;
use run::{Suite, Verdict};
use std::process::ExitCode;

fn main() -> ExitCode {
    let only: Vec<String> = std::env::args().skip(1).collect();
    let faults = faults::kept(&only);
    if faults.is_empty() {
        println!("no fault has '{}' in its name", only.join(" "));
        return ExitCode::FAILURE;
    }
    let copy = Copy::new();
    let unfit = unfit(&copy, &faults);
    if !unfit.is_empty() {
        println!("{}", unfit.join("\n"));
        println!("{} of {} faults do not fit", unfit.len(), faults.len());
        return ExitCode::FAILURE;
    }
    let suite = match Suite::without_a_fault(&copy) {
        Ok(suite) => suite,
        Err(why) => {
            println!("without a fault: {why}");
            return ExitCode::FAILURE;
        }
    };
    println!("{} faults; without a fault every test passes", faults.len());
    try_all(&copy, &suite, &faults)
}

/// The faults whose old lines do not occur exactly once in their file.
fn unfit(copy: &Copy, faults: &[Fault]) -> Vec<String> {
    faults
        .iter()
        .filter_map(|fault| fault.made_in(&copy.text(&fault.file)).err())
        .collect()
}

fn try_all(copy: &Copy, suite: &Suite, faults: &[Fault]) -> ExitCode {
    let (mut noticed, mut nothing, mut wrong) = (0, 0, Vec::new());
    for (at, fault) in (1..).zip(faults) {
        let verdict = with_fault(copy, suite, fault);
        let said = match (&verdict, &fault.nothing) {
            (Verdict::Noticed(by), None) => {
                noticed += 1;
                format!("noticed by {by}")
            }
            (Verdict::Unnoticed, Some(reason)) => {
                nothing += 1;
                format!("changes nothing: {reason}")
            }
            (verdict, nothing) => {
                let mark = nothing.as_ref().map_or("", |_| ", said to change nothing");
                let said = format!("{}{mark}", verdict.failing());
                wrong.push(format!("{}: {said}", fault.name));
                said
            }
        };
        println!("{at}/{} {}: {said}", faults.len(), fault.name);
    }
    if !wrong.is_empty() {
        println!("\nTo mend:\n{}\n", wrong.join("\n"));
    }
    println!(
        "{noticed} noticed, {} not, {nothing} change nothing",
        wrong.len()
    );
    match wrong.is_empty() {
        true => ExitCode::SUCCESS,
        false => ExitCode::FAILURE,
    }
}

/// Makes the fault, runs the tests, and takes the fault back.
fn with_fault(copy: &Copy, suite: &Suite, fault: &Fault) -> Verdict {
    let good = copy.text(&fault.file);
    let made = fault.made_in(&good).expect("every fault was seen to fit");
    copy.put(&fault.file, &made);
    let verdict = suite.verdict(copy);
    copy.put(&fault.file, &good);
    verdict
}
