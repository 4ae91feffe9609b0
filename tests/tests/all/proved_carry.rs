//! The program that converts plans: both of its outputs, byte for byte.

#![cfg(carry_plan)]

use crate::say;
use oracle::carrying::{carry, complaint, way};
use oracle::cases;
use oracle::corpus;
use oracle::file::{decode, encode};
use oracle::gen::damage::{damage, AIMS};
use oracle::gen::listings::long_listing;
use oracle::gen::numbers::from_one;
use oracle::gen::places::put_entry;
use oracle::gen::plans::{self, in_edition, punctual};
use oracle::listing::list;
use oracle::model::{Edition, Node, Plan};
use oracle::options::{rng, times};
use oracle::programs::{feed, pieces, root, run, wait_within};
use oracle::refusal::{Refusal, JITTER_LOST, LENGTH, OPENING};
use oracle::rng::Rng;
use oracle::tally::Tally;
use std::ffi::{OsStr, OsString};
use std::fs::{self, File, OpenOptions};
use std::os::unix::ffi::OsStrExt;
use std::path::Path;
use std::process::{Command, Output, Stdio};
use std::time::Duration;

/// The line of a plan that is accepted, but cannot be written.
const NOT_WRITTEN: &str = "carry_plan: the plan could not be written\n";

fn program() -> Command {
    let mut program = Command::new(root().join("target/bin/carry_plan"));
    program.stderr(Stdio::piped());
    program
}

/// The program writes the expected file and nothing else, or only the expected
/// line; returns the file.
fn assert_carried(from: Edition, pieces: &[&[u8]], pause: Duration) -> Result<Vec<u8>, Refusal> {
    let input = pieces.concat();
    let due = carry(from, &input);
    let done = feed(program().arg(way(from)), pieces, pause);
    assert!(done.status.success(), "{:?}", done.status);
    let said = String::from_utf8_lossy(&done.stderr);
    assert_eq!(said, complaint(from, &input));
    let file = due.clone().unwrap_or_default();
    assert_eq!(done.stdout.len(), file.len());
    assert!(done.stdout == file, "{from:?}: {input:?}");
    due
}

/// The same, with the input in random pieces.
fn carried(rng: &mut Rng, from: Edition, file: &[u8]) -> Result<Vec<u8>, Refusal> {
    let most = rng.pick(&[50, 5_000, 100_000]);
    assert_carried(from, &pieces(rng, file, most), Duration::ZERO)
}

/// Converts the file of a plan both ways: out of its edition, and what comes
/// out of that back again; out of the other edition it is 2. Notes the answers.
fn there_and_again(rng: &mut Rng, tally: &mut Tally, plan: &Plan) {
    let (from, to) = (plan.edition, plan.edition.other());
    let file = encode(plan).expect("a good plan");
    let wrong = tally.note(carried(rng, to, &file));
    assert_eq!(wrong, Err(Refusal::plain(OPENING)));
    match tally.note(carried(rng, from, &file)) {
        Ok(other) => {
            assert_eq!(Ok(&other), encode(&in_edition(plan, to)).as_ref());
            assert_eq!(tally.note(carried(rng, to, &other)), Ok(file));
        }
        Err(refusal) => {
            assert_eq!(refusal.number, JITTER_LOST);
            assert!(!plan.is_punctual());
        }
    }
}

#[test]
fn samples() {
    let (mut rng, mut tally) = (rng(430), Tally::default());
    for file in corpus::kept() {
        match decode(&file) {
            Ok(plan) => {
                there_and_again(&mut rng, &mut tally, &plan);
                let on_time = in_edition(&punctual(plan), Edition::Second);
                there_and_again(&mut rng, &mut tally, &on_time);
            }
            Err(due) => {
                for from in Edition::BOTH {
                    let answer = tally.note(carried(&mut rng, from, &file));
                    assert_eq!(answer, Err(due));
                }
            }
        }
    }
    say(format!("samples through the program: {tally}"));
    assert!(tally.accepted() >= 62 && tally.met(JITTER_LOST) >= 11);
}

#[test]
fn generated_plans() {
    let (mut rng, mut tally) = (rng(431), Tally::default());
    for draw in [
        plans::small,
        plans::wide,
        plans::tight,
        plans::station,
        plans::full_node,
        plans::many_entries,
        plans::many_nodes,
        plans::at_limits,
    ] {
        for _ in 0..times(20) {
            let plan = draw(&mut rng);
            there_and_again(&mut rng, &mut tally, &plan);
            let on_time = punctual(plan);
            for edition in Edition::BOTH {
                there_and_again(&mut rng, &mut tally, &in_edition(&on_time, edition));
            }
        }
    }
    say(format!("generated plans through the program: {tally}"));
    assert!(tally.accepted() > times(700), "{tally}");
    assert!(tally.met(JITTER_LOST) > times(50), "{tally}");
}

/// One program's output is the other's input.
#[test]
fn forward_and_back_in_one_pipe() {
    let both = r#""$0" forward | "$0" back"#;
    let mut rng = rng(432);
    for _ in 0..times(20) {
        let file = encode(&punctual(plans::station(&mut rng))).unwrap();
        let mut shell = Command::new("sh");
        let shell = shell.args(["-c", both]).arg(program().get_program());
        let done = feed(shell.stderr(Stdio::piped()), &[&file], Duration::ZERO);
        assert!(done.status.success() && done.stderr.is_empty());
        assert!(done.stdout == file);
    }
}

/// Both files list alike.
#[cfg(list_plan)]
#[test]
fn pairs_list_alike() {
    let mut rng = rng(433);
    let lister = root().join("target/bin/list_plan");
    for _ in 0..times(40) {
        let first = encode(&punctual(plans::station(&mut rng))).unwrap();
        let second = carried(&mut rng, Edition::First, &first).unwrap();
        let [one, other] = [&first, &second].map(|file| run(&lister, &[file], Duration::ZERO));
        assert_eq!(String::from_utf8_lossy(&one.0), list(&first));
        assert_eq!(one, other);
    }
}

#[test]
fn the_longest_plan() {
    let mut rng = rng(434);
    for _ in 0..times(5) {
        let first = encode(&plans::longest_in(&mut rng, Edition::First)).unwrap();
        let second = carried(&mut rng, Edition::First, &first).unwrap();
        assert_eq!([first.len(), second.len()], [41_224, 49_416]);
        assert_eq!(carried(&mut rng, Edition::Second, &second), Ok(first));
    }
}

/// Every check of a file's own, in a file of the right edition and of the wrong
/// one.
#[test]
fn damaged_files() {
    let (mut rng, mut tally) = (rng(435), Tally::default());
    for aim in AIMS {
        for _ in 0..times(10) {
            let plan = plans::filled(&mut rng);
            let damaged = damage(&mut rng, &plan, &[aim]);
            for from in Edition::BOTH {
                let answer = tally.note(carried(&mut rng, from, &damaged.file));
                assert_eq!(answer, Err(damaged.due), "{aim:?} in {plan:?}");
            }
        }
    }
    say(format!("damaged files through the program: {tally}"));
    for number in [1, 2, 3, 4, 5, 6, 7, 8, 14, 16] {
        assert!(tally.met(number) >= times(20), "{number}: {tally}");
    }
}

/// Each number as the line that a bureau reads.
#[test]
fn the_lines_of_refusals() {
    let first = encode(&cases::three_nodes(Edition::First)).unwrap();
    let second = encode(&cases::three_nodes(Edition::Second)).unwrap();
    let with = |file: &[u8], at: usize, byte: u8| {
        let mut file = file.to_vec();
        file[at] = byte;
        file
    };
    for (from, file, due) in [
        (Edition::First, first[..7].to_vec(), "1 row 0 entry 0"),
        (Edition::First, first[..31].to_vec(), "1 row 0 entry 0"),
        (Edition::First, with(&first, 0, 0), "2 row 0 entry 0"),
        (Edition::First, second.clone(), "2 row 0 entry 0"),
        (Edition::Second, first.clone(), "2 row 0 entry 0"),
        (Edition::First, with(&first, 4, 33), "3 row 0 entry 0"),
        (Edition::First, with(&first, 18, 0), "4 row 1 entry 0"),
        (Edition::First, with(&first, 28, 0), "5 row 2 entry 0"),
        (Edition::First, first[..111].to_vec(), "6 row 0 entry 0"),
        (Edition::First, with(&first, 74, 3), "7 row 0 entry 2"),
        (Edition::First, with(&first, 96, 201), "8 row 2 entry 0"),
        (Edition::Second, with(&second, 124, 198), "14 row 2 entry 0"),
        (Edition::Second, with(&second, 124, 197), "15 row 2 entry 0"),
        (Edition::Second, with(&second, 76, 1), "15 row 0 entry 1"),
    ] {
        let done = feed(program().arg(way(from)), &[&file], Duration::ZERO);
        assert!(done.stdout.is_empty() && done.status.success(), "{due}");
        let said = String::from_utf8_lossy(&done.stderr);
        assert_eq!(said, format!("refused {due}\n"));
        assert_eq!(said, complaint(from, &file));
    }
}

/// J on one entry of a full plan: first and last, and some between.
#[test]
fn lost_jitter_has_its_place() {
    let mut rng = rng(436);
    let nodes = |number| Node {
        number,
        ..cases::node(1, &from_one(vec![cases::p().entries[0]; 64]))
    };
    let plan = Plan::second((0..32).map(nodes).collect());
    let file = encode(&plan).unwrap();
    for (row, at) in [(0, 0), (0, 63), (9, 10), (17, 0), (31, 0), (31, 63)] {
        let mut late = file.clone();
        let entry = plan.nodes[row].entries[at].jittered(80);
        put_entry(Edition::Second, &mut late, row, at, &entry);
        let due = Refusal::at_entry(JITTER_LOST, row, at);
        assert_eq!(carried(&mut rng, Edition::Second, &late), Err(due));
    }
}

#[test]
fn a_byte_at_a_time() {
    for edition in Edition::BOTH {
        let file = encode(&in_edition(&Plan::first(vec![cases::p()]), edition)).unwrap();
        let bytes: Vec<&[u8]> = file.chunks(1).collect();
        let other = assert_carried(edition, &bytes, Duration::from_millis(1));
        assert!(other.is_ok());
        let empty = assert_carried(edition, &[], Duration::ZERO);
        assert_eq!(empty, Err(Refusal::plain(1)));
    }
}

/// Files whose checks are met before the length is, and files that are good up
/// to their length.
fn to_be_lengthened() -> Vec<Vec<u8>> {
    let p = cases::file(cases::p());
    let mut files = vec![p.clone(), cases::second_file(cases::p())];
    for (at, byte) in [(0, 0), (4, 33), (10, 0), (12, 17), (18, 3), (20, 0)] {
        let mut file = p.clone();
        file[at] = byte;
        files.push(file);
    }
    for edition in Edition::BOTH {
        let full = encode(&long_listing(edition, 32)).unwrap();
        let mut last_offset = full.clone();
        last_offset[8 + 31 * 8 + 6] ^= 1;
        files.extend([full, last_offset]);
    }
    files
}

/// A plan with more bytes behind it is refused as 6 if no earlier check
/// applies, and so is an input longer than 65,536 bytes.
#[test]
fn long_input() {
    let (mut rng, mut tally) = (rng(437), Tally::default());
    for length in [
        41_225, 49_417, 65_535, 65_536, 65_537, 65_538, 65_612, 500_000,
    ] {
        for mut file in to_be_lengthened() {
            file.resize(length.max(file.len() + 1), 0);
            for from in Edition::BOTH {
                let answer = tally.note(carried(&mut rng, from, &file));
                assert!(answer.is_err_and(|refusal| refusal.number <= LENGTH));
            }
        }
    }
    for number in [2, 3, 4, 5, LENGTH] {
        assert!(tally.met(number) >= 16, "{number}: {tally}");
    }
}

/// What the program writes with these arguments and an input that stays open,
/// if it ends within a time limit.
fn run_open(arguments: &[OsString]) -> Output {
    let mut child = program()
        .args(arguments)
        .stdin(Stdio::piped())
        .stdout(Stdio::piped())
        .spawn()
        .expect("the program starts");
    let input = child.stdin.take().expect("standard input is a pipe");
    let ended = wait_within(&mut child, Duration::from_secs(60));
    drop(input);
    assert_eq!(ended, Some(true), "{arguments:?}");
    child.wait_with_output().expect("its output can be read")
}

/// Without the one word that it knows, the program says how to call it, and
/// waits for no input.
#[test]
fn other_arguments() {
    let mut calls: Vec<Vec<OsString>> = vec![
        vec![],
        vec!["forward".into(), "x".into()],
        vec!["back".into(), "back".into()],
        vec!["forward".into(), "".into()],
        vec!["".into(), "forward".into()],
        vec!["forward".into(); 300],
        vec![OsStr::from_bytes(&[0xFF; 4]).into()],
        vec!["forward".repeat(10_000).into()],
        vec!["back".repeat(20_000).into()],
    ];
    for other in [
        "",
        "x",
        "f",
        "forwar",
        "forwards",
        "forward ",
        " forward",
        "forward\n",
        "Forward",
        "FORWARD",
        "-forward",
        "--help",
        "bac",
        "backs",
        "back ",
        "backward",
        "BACK",
        "both",
    ] {
        calls.push(vec![other.into()]);
    }
    for arguments in calls {
        let done = run_open(&arguments);
        assert!(done.stdout.is_empty());
        let said = String::from_utf8_lossy(&done.stderr);
        assert!(said.starts_with("usage: carry_plan"), "{said}");
        assert!(said.ends_with('\n') && said.lines().count() == 1, "{said}");
    }
}

/// What the program writes with this input and this output.
fn run_on(way: &str, input: Stdio, output: Stdio) -> Output {
    let mut program = program();
    let program = program.arg(way).stdin(input).stdout(output);
    program.output().expect("the program starts")
}

fn sample(name: &str) -> Stdio {
    let plan = root().join("samples").join(name);
    Stdio::from(File::open(plan).expect("the sample is there"))
}

fn sample_bytes(name: &str) -> Vec<u8> {
    fs::read(root().join("samples").join(name)).expect("the sample is there")
}

/// A refused plan has nothing to write.
#[test]
fn output_that_cannot_be_written_is_told_on_standard_error() {
    for (way, name, due) in [
        ("forward", "p.plan", NOT_WRITTEN),
        ("forward", "station.plan", NOT_WRITTEN),
        ("back", "p_jitter_12.plan", "refused 15 row 0 entry 2\n"),
    ] {
        let full = OpenOptions::new().write(true).open("/dev/full").unwrap();
        let done = run_on(way, sample(name), Stdio::from(full));
        assert_eq!(String::from_utf8_lossy(&done.stderr), due);
        assert!(done.status.success());
    }
}

/// What the program writes to a file, and to standard error, if the shell first
/// runs a command.
fn run_after(before: &str, way: &str, plan: &str) -> (Vec<u8>, String) {
    let place = Path::new(env!("CARGO_TARGET_TMPDIR")).join("carry_output");
    let output = File::create(&place).expect("a file can be made");
    let mut shell = Command::new("sh");
    shell.args(["-c", &format!(r#"{before}; exec "$0" "$1""#)]);
    shell.arg(program().get_program()).arg(way);
    let done = shell.stdin(sample(plan)).stdout(output).output();
    let done = done.expect("the shell starts");
    let file = fs::read(place).expect("the file can be read");
    (file, String::from_utf8_lossy(&done.stderr).into_owned())
}

/// Where only a part can be written, as on a disk that fills up, standard error
/// says so; the part stays. A closed output cannot be written either.
#[test]
fn a_part_of_the_plan_is_told_on_standard_error() {
    let whole = carry(Edition::First, &sample_bytes("station.plan")).unwrap();
    let (part, said) = run_after("trap '' XFSZ; ulimit -f 2", "forward", "station.plan");
    assert!(!part.is_empty() && part.len() < whole.len());
    assert!(whole.starts_with(&part));
    assert_eq!(said, NOT_WRITTEN);
    let all = run_after("ulimit -f 200", "forward", "station.plan");
    assert!(all == (whole, String::new()));
    let closed = run_after("exec >&-", "forward", "p.plan");
    assert_eq!(closed, (Vec::new(), NOT_WRITTEN.to_string()));
    let input = run_after("exec <&-", "forward", "p.plan");
    let refused = "refused 1 row 0 entry 0\n".to_string();
    assert_eq!(input, (Vec::new(), refused));
}

/// A directory can be opened but not read; a read that fails ends the input.
#[test]
fn input_that_cannot_be_read_is_an_empty_file() {
    let folder = File::open(root()).expect("the folder is there");
    let done = run_on("forward", Stdio::from(folder), Stdio::piped());
    let said = String::from_utf8_lossy(&done.stderr);
    assert_eq!(said, "refused 1 row 0 entry 0\n");
    assert!(done.stdout.is_empty() && done.status.success());
}
