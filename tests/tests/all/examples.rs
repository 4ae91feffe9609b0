//! The examples in C and in Rust are compiled, linked and run. Examples in
//! documents are compared with the files and the output that they show.

use crate::say;
use oracle::carrying::{carry, complaint, way};
use oracle::cases;
use oracle::file::{encode, longest};
use oracle::gen::plans::{self, in_edition};
use oracle::listing::{list, MOST_TEXT};
use oracle::map::map_entries;
use oracle::model::{Edition, Entry, Plan, MAX_ENTRIES, MAX_NODES};
use oracle::options::rng;
use oracle::programs::{feed, root, run};
use oracle::refusal::{
    Refusal, BUFFER, COUNT, CUT_OFF, FULL, JITTER, JITTER_LOST, KIND, LENGTH, NO_MAP, NO_NODE,
    NUMBERS, OFFSET, OPENING, POSITION, REPEAT, ROW, TICKS,
};
use oracle::session::Session;
use oracle::timing::Timing;
use oracle::words::ENTRY_WORDS;
use std::fs;
use std::io::ErrorKind;
use std::path::{Path, PathBuf};
use std::process::{Command, Stdio};
use std::time::Duration;

fn built(name: &str) -> PathBuf {
    Path::new(env!("CARGO_TARGET_TMPDIR")).join(name)
}

fn compile(command: &mut Command) {
    let done = command
        .current_dir(root())
        .status()
        .expect("the compiler starts");
    assert!(done.success(), "{command:?}");
}

/// Case P with J 12 on its third entry, in the second edition.
fn late_p() -> Vec<u8> {
    cases::second_file(cases::jittered(cases::p(), 2, 12))
}

/// Plans to list: two cases in the first edition and one in the second, whatever
/// the seed draws, then a station, and a file that is refused.
fn files() -> Vec<Vec<u8>> {
    let mut rng = rng(240);
    let station = encode(&plans::station(&mut rng)).unwrap();
    let cut = station[..station.len() - 1].to_vec();
    vec![
        cases::file(cases::p()),
        cases::file(cases::f()),
        late_p(),
        station,
        cut,
    ]
}

/// Compiles an example in C, and returns the program.
fn compiled_c(source: &str, name: &str) -> PathBuf {
    let program = built(name);
    compile(
        Command::new("cc")
            .args(["-std=c11", "-Wall", "-Wextra", "-Wpedantic", "-Werror"])
            .args(["-Wconversion", "-Wshadow", "-Wstrict-prototypes"])
            .args(["-Iinclude", source])
            .args(["target/staticlib/libplanner_c.a", "-o"])
            .arg(&program),
    );
    program
}

fn map_line(session: &Session) -> String {
    let mut levels = vec![0; session.entries().len()];
    match session.map(&mut levels) {
        Ok(used) => {
            let levels: Vec<String> = levels.iter().map(u8::to_string).collect();
            format!("map: {used} levels, {}\n", levels.join(" "))
        }
        Err(refusal) => format!("map: refused {}\n", refusal.number),
    }
}

fn map_time_line(session: &Session, i: usize) -> String {
    match session.map_time(i) {
        Ok(time) => format!("entry {i}: time {time}\n"),
        Err(refusal) => format!("entry {i}: refused {}\n", refusal.number),
    }
}

/// The map, and the time of each entry under it.
fn map_time_lines(session: &Session) -> String {
    let times = (0..session.entries().len()).map(|i| map_time_line(session, i));
    map_line(session) + &times.collect::<String>()
}

fn time_line(session: &Session) -> String {
    match session.time(1, 2, 2) {
        Ok(Timing::OnTime { time, rounds }) => format!("time: {time}, rounds {rounds}\n"),
        Ok(Timing::Late { rounds, overrun }) => {
            format!("time: late by {overrun}, rounds {rounds}\n")
        }
        Err(refusal) => format!("time: refused {}\n", refusal.number),
    }
}

fn change_line(name: &str, answer: Result<(), Refusal>) -> String {
    match answer {
        Ok(()) => format!("{name}: done\n"),
        Err(refusal) => format!("{name}: {refusal}\n"),
    }
}

/// Case P, also with one level and again with two, then case R, then R without
/// its second task and with one level, then with jitter, then with a copied row,
/// then refused changes.
#[test]
fn c_session() {
    let program = compiled_c("examples/session.c", "session_c");
    let (text, ended) = run(&program, &[], Duration::ZERO);
    assert!(ended);
    let mut session = Session::holding(2, &cases::p().entries).unwrap();
    let mut due = map_time_lines(&session) + &time_line(&session);
    for levels in [1, 2] {
        due += &change_line("set levels", session.set_levels(levels));
        due += &map_time_lines(&session);
    }
    due += &change_line("replace", session.replace(2, cases::r().entries[2]));
    due += &(map_time_lines(&session) + &time_line(&session));
    due += &change_line("remove", session.remove(1));
    due += &change_line("set levels", session.set_levels(1));
    due += &(map_time_lines(&session) + &time_line(&session));
    let late = |j| cases::r().entries[2].jittered(j);
    due += &change_line("replace", session.replace(1, late(49)));
    due += &map_line(&session);
    due += &change_line("replace", session.replace(1, late(70)));
    let tail = |number| Entry::task(number, 1, 500, 500);
    due += &change_line("insert", session.insert(2, tail(1)));
    due += &change_line("insert", session.insert(2, tail(4)));
    due += &change_line("replace", session.replace(2, tail(4)));
    due += &change_line("replace", session.replace(2, tail(1)));
    due += &change_line("remove", session.remove(2));
    due += &change_line("insert", session.insert(1, Entry::task(4, 6, 10, 5)));
    due += &change_line("remove", session.remove(2));
    due += &change_line("set levels", session.set_levels(0));
    due += &(map_time_lines(&session) + &map_time_line(&session, 2));
    assert_eq!(String::from_utf8_lossy(&text), due);
}

/// The example writes case P, or in the second edition P with J 12 on its third
/// task, byte for byte as the samples. With that J it also tries the first
/// edition, and fails unless the library refuses it.
#[test]
fn c_write() {
    let program = compiled_c("examples/write.c", "write_c");
    let (file, ended) = run(&program, &[], Duration::ZERO);
    assert!(ended);
    assert_eq!(file, cases::file(cases::p()));
    assert_eq!(file, bytes("samples/p.plan"));
    let second = Command::new(&program).arg("2").output().unwrap();
    assert!(second.status.success());
    assert_eq!(second.stdout, late_p());
    assert_eq!(second.stdout, bytes("samples/p_jitter_12.plan"));
}

/// What the example in C that converts plans writes for an input, and its
/// status.
fn converted(program: &Path, arguments: &[&str], input: &[u8]) -> (Vec<u8>, String, i32) {
    let mut command = Command::new(program);
    let command = command.args(arguments).stderr(Stdio::piped());
    let done = feed(command, &[input], Duration::ZERO);
    let said = String::from_utf8_lossy(&done.stderr).into_owned();
    (done.stdout, said, done.status.code().expect("no signal"))
}

/// The example converts each plan both ways, or says why not.
#[test]
fn c_convert() {
    let program = compiled_c("examples/convert.c", "convert_c");
    let mut rng = rng(241);
    let longest = plans::longest_in(&mut rng, Edition::First);
    let mut files = files();
    for edition in Edition::BOTH {
        for plan in [&longest, &Plan::first(vec![cases::e()])] {
            files.push(encode(&in_edition(plan, edition)).unwrap());
        }
    }
    let longer = files.iter().map(|file| [&file[..], &[0; 50_000]].concat());
    files.extend(longer.collect::<Vec<Vec<u8>>>());
    let mut written = 0;
    for (file, from) in files
        .iter()
        .flat_map(|file| Edition::BOTH.map(|e| (file, e)))
    {
        let due = carry(from, file);
        written += u32::from(due.is_ok());
        let status = i32::from(due.is_err());
        let due = (due.unwrap_or_default(), complaint(from, file), status);
        assert!(converted(&program, &[way(from)], file) == due);
    }
    assert!(written >= 6, "{written}");
    for arguments in [vec![], vec!["on"], vec!["back", "back"]] {
        let (file, said, status) = converted(&program, &arguments, &files[0]);
        assert!(file.is_empty() && status == 2);
        assert!(said.starts_with("usage: convert "), "{said}");
    }
}

/// The examples call every function that the header declares.
#[test]
fn every_function_is_called_from_c() {
    let header = text("include/maiplur.h");
    let declared: Vec<&str> = header
        .lines()
        .filter_map(|line| line.strip_prefix("uint32_t "))
        .map(|line| line.split('(').next().unwrap())
        .collect();
    assert_eq!(declared.len(), 15);
    let examples = ["convert.c", "list.c", "session.c", "write.c"];
    let examples = examples.map(|name| text(&format!("examples/{name}")));
    for name in declared {
        let call = format!("{name}(");
        assert!(
            examples.iter().any(|example| example.contains(&call)),
            "{name}"
        );
    }
}

/// The sizes that the header gives are those that the tests lend the library.
#[test]
fn sizes_in_the_header() {
    let header = text("include/maiplur.h");
    let words = MAX_ENTRIES * ENTRY_WORDS;
    for size in [
        format!("MAIPLUR_MOST_ROWS = {MAX_NODES},"),
        format!("MAIPLUR_MOST_WORDS = {},", MAX_NODES * words),
        format!("MAIPLUR_MOST_FILE = {},", longest(Edition::Second)),
        format!("MAIPLUR_MOST_FIRST = {},", longest(Edition::First)),
        format!("MAIPLUR_MOST_LEVELS = {MAX_ENTRIES},"),
        format!("MAIPLUR_MOST_TEXT = {MOST_TEXT} "),
        format!("uint32_t words[{words}];"),
        format!("uint32_t map[{MAX_ENTRIES}];"),
        format!("uint32_t times[{MAX_ENTRIES}];"),
        format!("const uint32_t entry[{ENTRY_WORDS}], size_t values[3]"),
    ] {
        assert!(header.contains(&size), "{size}");
    }
}

/// The header has a name for every number of a refusal, and no other.
#[test]
fn refusals_in_the_header() {
    let header = text("include/maiplur.h");
    let (_, names) = header.split_once("/* The refusals. */\nenum {\n").unwrap();
    let (names, _) = names.split_once("\n};").unwrap();
    let named = |line: &str| {
        let (name, rest) = line.trim().split_once(" = ").unwrap();
        let number = rest.split([' ', ',']).next().unwrap();
        (name.to_string(), number.parse().unwrap())
    };
    let names: Vec<(String, u8)> = names.lines().map(named).collect();
    let due = [
        ("SHORT_FILE", CUT_OFF),
        ("OPENING_BYTES", OPENING),
        ("NODE_COUNT", COUNT),
        ("ROW", ROW),
        ("OFFSET", OFFSET),
        ("FILE_LENGTH", LENGTH),
        ("KIND", KIND),
        ("TIMES", TICKS),
        ("NO_SUCH_NODE", NO_NODE),
        ("SHORT_BUFFER", BUFFER),
        ("NO_MAP", NO_MAP),
        ("OUTSIDE_LIST", POSITION),
        ("FULL_LIST", FULL),
        ("JITTER", JITTER),
        ("JITTER_LOST", JITTER_LOST),
        ("REPEAT", REPEAT),
    ];
    assert_eq!(names, due.map(|(name, n)| (format!("MAIPLUR_{name}"), n)));
    assert_eq!(due.map(|(_, n)| n).to_vec(), Vec::from_iter(1..=NUMBERS));
}

/// The example in docs/SPEC.md equals the sample of case P and its listing.
#[test]
fn spec_example() {
    let spec = text("docs/SPEC.md");
    let (_, example) = spec.split_once("### An example").unwrap();
    let (bytes, rest) = example.split_once("Its listing:").unwrap();
    let bytes: Vec<u8> = bytes
        .lines()
        .filter_map(|line| line.strip_prefix("    "))
        .flat_map(hexadecimal)
        .collect();
    assert_eq!(bytes, self::bytes("samples/p.plan"));
    let listing: String = rest
        .lines()
        .map_while(|line| line.strip_prefix("    ").or(line.is_empty().then_some("")))
        .filter(|line| !line.is_empty())
        .map(|line| format!("{line}\n"))
        .collect();
    assert_eq!(listing, text("samples/p.txt"));
}

/// The Python program of docs/SPEC.md writes the sample of case P. Its function
/// also gives the sample of the second edition, if a task has its J as last
/// number. Without python3 on the path this test is skipped, and says so.
#[test]
fn python() {
    let spec = text("docs/SPEC.md");
    let (_, program) = spec.split_once("```python\n").unwrap();
    let (program, _) = program.split_once("```").unwrap();
    let late = "\
late = [task + (j,) for task, j in zip(tasks, [0, 0, 12])]
sys.stdout.buffer.write(plan_file([(7, 2, late)], 2))
";
    let samples = ["samples/p.plan", "samples/p_jitter_12.plan"].map(bytes);
    for (program, due) in [
        (program.to_string(), samples[0].clone()),
        (format!("{program}{late}"), samples.concat()),
    ] {
        let done = match Command::new("python3").args(["-c", &program]).output() {
            Err(error) if error.kind() == ErrorKind::NotFound => {
                say("python3 is not on the path: the example in docs/SPEC.md is not run");
                return;
            }
            done => done.expect("python3 starts"),
        };
        let said = String::from_utf8_lossy(&done.stderr);
        assert!(done.status.success(), "{said}");
        assert_eq!(done.stdout, due);
    }
}

/// `make list` says what is wrong with the name that it is given.
#[test]
fn make_list_names_the_problem() {
    for (plan, due) in [
        ("", "make list: PLAN is empty"),
        (
            "samples/no such.plan",
            "make list: there is no file 'samples/no such.plan'",
        ),
        ("samples", "make list: 'samples' is a directory"),
    ] {
        let done = Command::new("make")
            .arg("list")
            .arg(format!("PLAN={plan}"))
            .current_dir(root())
            // As from a shell, even if make runs the tests.
            .env_remove("MAKELEVEL")
            .env_remove("MAKEFLAGS")
            .output()
            .expect("make starts");
        assert!(!done.status.success());
        assert!(done.stdout.is_empty());
        let said = String::from_utf8_lossy(&done.stderr);
        assert!(said.starts_with(due), "{said}");
    }
}

/// The bytes at the start of a line, up to their description.
fn hexadecimal(line: &str) -> impl Iterator<Item = u8> + '_ {
    line.split_whitespace()
        .map_while(|word| u8::from_str_radix(word, 16).ok())
}

/// A file of the repository.
fn text(path: &str) -> String {
    fs::read_to_string(root().join(path)).unwrap()
}

/// A file of the repository, in bytes.
fn bytes(path: &str) -> Vec<u8> {
    fs::read(root().join(path)).unwrap()
}

#[test]
fn c() {
    let program = compiled_c("examples/list.c", "list_c");
    for file in files() {
        let (text, ended) = run(&program, &[&file], Duration::ZERO);
        let plan = oracle::file::decode(&file);
        assert_eq!(ended, plan.is_ok());
        let due = list(&file) + &map_lines(&plan.unwrap_or_default());
        assert_eq!(String::from_utf8_lossy(&text), due);
    }
}

/// What the example in C writes after the listing.
fn map_lines(plan: &Plan) -> String {
    plan.nodes
        .iter()
        .map(|node| {
            let number = node.number;
            match map_entries(&node.entries, node.levels) {
                Some(map) => format!("map of {number}: {} levels\n", map.used),
                None => format!("map of {number}: refused 11\n"),
            }
        })
        .collect()
}

#[test]
fn rust() {
    let program = built("list_rust");
    compile(
        Command::new("rustc")
            .args(["--edition", "2021", "-D", "warnings", "examples/list.rs"])
            .args(["-L", "target/staticlib", "-l", "static=planner_c", "-o"])
            .arg(&program),
    );
    for file in files() {
        let (text, ended) = run(&program, &[&file], Duration::ZERO);
        assert!(ended);
        assert_eq!(String::from_utf8_lossy(&text), list(&file));
    }
}
