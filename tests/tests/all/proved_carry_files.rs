//! Plan files converted as files: tools/carry, `make carry`, and the example
//! that converts a folder.

#![cfg(carry_plan)]

use oracle::carrying::{carry, complaint, way};
use oracle::cases;
use oracle::model::Edition;
use oracle::programs::root;
use std::collections::BTreeMap;
use std::fs::{self, File};
use std::io::Write;
use std::os::unix::fs::{symlink, MetadataExt, PermissionsExt};
use std::path::{Path, PathBuf};
use std::process::{Command, Output, Stdio};
use std::time::{Duration, SystemTime};

/// A folder's files, by their names.
type Files = BTreeMap<String, Vec<u8>>;

/// An empty folder.
fn fresh(name: &str) -> PathBuf {
    let folder = Path::new(env!("CARGO_TARGET_TMPDIR")).join(name);
    if folder.exists() {
        fs::remove_dir_all(&folder).expect("an old folder can be removed");
    }
    fs::create_dir(&folder).expect("a folder can be made");
    folder
}

/// An empty folder, then with these files.
fn filled(name: &str, files: &Files) -> PathBuf {
    let folder = fresh(name);
    for (name, bytes) in files {
        fs::write(folder.join(name), bytes).expect("a file can be written");
    }
    folder
}

/// The files of a folder.
fn files(folder: &Path) -> Files {
    let items = fs::read_dir(folder).expect("a folder can be read");
    items
        .map(|item| {
            let item = item.expect("a folder can be read");
            let name = item.file_name().into_string().expect("a name is text");
            (name, fs::read(item.path()).expect("a file can be read"))
        })
        .collect()
}

/// The plans of samples/.
fn samples() -> Files {
    let mut samples = files(&root().join("samples"));
    samples.retain(|name, _| name.ends_with(".plan"));
    assert_eq!(samples.len(), 24);
    samples
}

/// Case P in an edition.
fn p(edition: Edition) -> Vec<u8> {
    match edition {
        Edition::First => cases::file(cases::p()),
        Edition::Second => cases::second_file(cases::p()),
    }
}

/// Case P with J, which cannot go back.
fn late_p() -> Vec<u8> {
    cases::second_file(cases::jittered(cases::p(), 2, 12))
}

/// Runs tools/carry in a folder.
fn run_in(folder: &Path, way: &str, from: &str, to: &str) -> Output {
    let mut tool = Command::new(root().join("tools/carry"));
    let tool = tool.args([way, from, to]).current_dir(folder);
    tool.output().expect("the shell starts")
}

fn said(done: &Output) -> String {
    assert!(done.stdout.is_empty());
    String::from_utf8_lossy(&done.stderr).into_owned()
}

/// What must not change of a file that is left alone.
fn state(file: &Path) -> (Vec<u8>, SystemTime, u64, u32) {
    let of = fs::metadata(file).expect("the file is there");
    let bytes = fs::read(file).expect("the file can be read");
    let changed = of.modified().expect("the system has times");
    (bytes, changed, of.ino(), of.mode())
}

/// Writes a file that was last changed long ago.
fn put_old(file: &Path, bytes: &[u8]) {
    fs::write(file, bytes).expect("a file can be written");
    let long_ago = SystemTime::UNIX_EPOCH + Duration::from_secs(1_000_000_000);
    let open = File::options().write(true).open(file);
    open.and_then(|file| file.set_modified(long_ago))
        .expect("the time can be set");
}

/// Every sample, both ways, to a new file: it is made exactly if the plan is
/// accepted.
#[test]
fn a_new_target() {
    for (name, bytes) in samples() {
        for from in Edition::BOTH {
            let start = Files::from([(name.clone(), bytes.clone())]);
            let folder = filled("carry_new", &start);
            let done = run_in(&folder, way(from), &name, "new");
            let due = carry(from, &bytes);
            assert_eq!(said(&done), complaint(from, &bytes), "{name}");
            assert_eq!(done.status.code(), Some(i32::from(due.is_err())));
            let made = due.ok().map(|file| ("new".to_string(), file));
            let end: Files = start.into_iter().chain(made).collect();
            assert!(files(&folder) == end, "{name}");
        }
    }
}

/// An existing target is replaced by an accepted plan, and left alone by a
/// refused one.
#[test]
fn an_existing_target() {
    for (name, bytes) in samples() {
        for from in Edition::BOTH {
            let folder = filled(
                "carry_existing",
                &Files::from([(name.clone(), bytes.clone())]),
            );
            let target = folder.join("old.plan");
            put_old(&target, b"as it was");
            let before = state(&target);
            let done = run_in(&folder, way(from), &name, "old.plan");
            assert_eq!(said(&done), complaint(from, &bytes), "{name}");
            match carry(from, &bytes) {
                Ok(file) => {
                    assert!(done.status.success());
                    assert!(fs::read(&target).unwrap() == file, "{name}");
                }
                Err(_) => {
                    assert_eq!(done.status.code(), Some(1));
                    assert_eq!(state(&target), before, "{name}");
                }
            }
            assert_eq!(files(&folder).len(), 2, "{name}");
        }
    }
}

/// A plan can be converted in its place, and is kept there if it is refused.
#[test]
fn from_is_the_target() {
    let folder = fresh("carry_in_place");
    let plan = folder.join("p.plan");
    fs::write(&plan, p(Edition::First)).unwrap();
    for from in Edition::BOTH {
        let done = run_in(&folder, way(from), "p.plan", "p.plan");
        assert!(done.status.success() && said(&done).is_empty());
        assert_eq!(fs::read(&plan).unwrap(), p(from.other()));
    }
    put_old(&plan, &late_p());
    let before = state(&plan);
    let done = run_in(&folder, "back", "p.plan", "p.plan");
    assert_eq!(said(&done), "refused 15 row 0 entry 2\n");
    assert_eq!(done.status.code(), Some(1));
    assert_eq!(state(&plan), before);
    assert_eq!(files(&folder).len(), 1);
}

/// Names that a careless script takes apart.
const NAMES: [&str; 9] = [
    "a b.plan",
    " .plan",
    "-n.plan",
    "--.plan",
    "it's \"one\".plan",
    "$HOME.plan",
    "*.plan",
    "a\nb.plan",
    "ä;\\t.plan",
];

#[test]
fn any_name() {
    for name in NAMES {
        let start = Files::from([(name.to_string(), p(Edition::First))]);
        let folder = filled("carry_names", &start);
        let to = format!("{name} {name}");
        let done = run_in(&folder, "forward", name, &to);
        assert!(done.status.success() && said(&done).is_empty(), "{name}");
        let made = (to.clone(), p(Edition::Second));
        let end: Files = start.into_iter().chain([made]).collect();
        assert_eq!(files(&folder), end);
        let done = run_in(&folder, "forward", &to, name);
        assert_eq!(said(&done), "refused 2 row 0 entry 0\n");
        assert_eq!(files(&folder), end);
    }
}

/// A target that cannot be made: nothing is made.
#[test]
fn no_place_for_the_target() {
    let start = Files::from([("p.plan".to_string(), p(Edition::First))]);
    let folder = filled("carry_no_place", &start);
    for to in ["no/such/folder.plan", "p.plan/new", ""] {
        let done = run_in(&folder, "forward", "p.plan", to);
        assert!(!done.status.success() && !said(&done).is_empty(), "{to}");
        assert_eq!(files(&folder), start, "{to}");
    }
}

/// A folder, a pipe or a device is no target, not even behind a link: it stays
/// what it is.
#[test]
fn a_target_that_is_no_file() {
    let folder = fresh("carry_no_file");
    fs::write(folder.join("p.plan"), p(Edition::First)).unwrap();
    fs::create_dir(folder.join("folder")).unwrap();
    let made = Command::new("mkfifo").arg(folder.join("pipe")).status();
    assert!(made.expect("mkfifo starts").success());
    symlink("/dev/null", folder.join("device")).unwrap();
    for to in ["folder", "pipe", "device"] {
        let before = fs::symlink_metadata(folder.join(to)).unwrap();
        let done = run_in(&folder, "forward", "p.plan", to);
        assert_eq!(done.status.code(), Some(1), "{to}");
        assert_eq!(said(&done), format!("carry: '{to}' is not a file\n"));
        let after = fs::symlink_metadata(folder.join(to)).unwrap();
        assert_eq!(after.file_type(), before.file_type());
        assert_eq!(after.ino(), before.ino());
    }
    assert_eq!(fs::read_dir(&folder).unwrap().count(), 4);
    assert_eq!(fs::read_dir(folder.join("folder")).unwrap().count(), 0);
}

#[test]
fn no_plan_to_read() {
    let folder = fresh("carry_no_plan");
    put_old(&folder.join("old.plan"), b"as it was");
    let before = state(&folder.join("old.plan"));
    for to in ["old.plan", "new.plan"] {
        let done = run_in(&folder, "forward", "no.plan", to);
        assert_eq!(done.status.code(), Some(1));
        assert!(said(&done).contains("no.plan"));
    }
    assert_eq!(state(&folder.join("old.plan")), before);
    assert_eq!(files(&folder).len(), 1);
}

#[test]
fn another_way() {
    let start = Files::from([("p.plan".to_string(), p(Edition::First))]);
    let folder = filled("carry_way", &start);
    for way in ["", "forwards", "Back"] {
        let done = run_in(&folder, way, "p.plan", "new.plan");
        assert_eq!(done.status.code(), Some(1));
        assert!(said(&done).starts_with("usage: carry_plan"));
        assert_eq!(files(&folder), start);
    }
}

/// Runs tools/carry on two files after a command of the shell.
fn run_after(before: &str, from: &Path, to: &Path) -> Output {
    let mut shell = Command::new("sh");
    shell.args(["-c", &format!(r#"{before}; exec "$0" "$@""#)]);
    shell.arg(root().join("tools/carry")).arg("forward");
    shell.args([from, to]).output().expect("the shell starts")
}

/// A new file may be read and written by whom the umask lets, whatever it
/// replaces.
#[test]
fn permissions() {
    let folder = fresh("carry_permissions");
    let from = root().join("samples/p.plan");
    let to = folder.join("new.plan");
    for (umask, due) in [
        ("022", 0o644),
        ("077", 0o600),
        ("027", 0o640),
        ("002", 0o664),
        ("000", 0o666),
    ] {
        for start in [None, Some(0o600), Some(0o444), Some(0o777)] {
            let _ = fs::remove_file(&to);
            if let Some(mode) = start {
                fs::write(&to, b"old").unwrap();
                fs::set_permissions(&to, fs::Permissions::from_mode(mode)).unwrap();
            }
            let done = run_after(&format!("umask {umask}"), &from, &to);
            assert!(done.status.success() && said(&done).is_empty());
            let mode = fs::metadata(&to).unwrap().mode();
            assert_eq!(mode & 0o7777, due, "{umask} {start:?}");
        }
    }
}

/// Where a file grows above a limit, a signal ends the program, or it is told
/// that it cannot write. A part of the plan is no plan: the target is left
/// alone.
#[test]
fn a_part_of_the_plan_is_not_kept() {
    let folder = fresh("carry_part");
    let from = root().join("samples/station.plan");
    let to = folder.join("old.plan");
    put_old(&to, b"as it was");
    let before = state(&to);
    for (limit, due) in [
        ("ulimit -c 0; ulimit -f 2", "the plan was not written\n"),
        (
            "trap '' XFSZ; ulimit -f 2",
            "the plan could not be written\n",
        ),
    ] {
        let done = run_after(limit, &from, &to);
        assert_eq!(done.status.code(), Some(1));
        assert!(said(&done).ends_with(&format!("carry_plan: {due}")));
        assert_eq!(state(&to), before);
        assert_eq!(files(&folder).len(), 1);
    }
    let done = run_after("ulimit -f 200", &from, &to);
    assert!(done.status.success());
    let file = fs::read(&from).unwrap();
    assert!(fs::read(&to).unwrap() == carry(Edition::First, &file).unwrap());
}

/// Ended by a signal while it waits for the plan, it leaves the target alone
/// and no other file behind. A shell cannot trap a signal that its caller
/// ignores, as a job in the background ignores INT, so `env` resets them.
#[test]
fn ended_by_a_signal() {
    for signal in ["HUP", "INT", "TERM"] {
        let folder = fresh("carry_signal");
        let (from, to) = (folder.join("pipe"), folder.join("old.plan"));
        let made = Command::new("mkfifo").arg(&from).status();
        assert!(made.expect("mkfifo starts").success());
        put_old(&to, b"as it was");
        let before = state(&to);
        let mut tool = Command::new("env");
        tool.arg(format!("--default-signal={signal}"));
        let tool = tool.arg(root().join("tools/carry")).arg("forward");
        let tool = tool.args([&from, &to]);
        let mut child = tool.stderr(Stdio::null()).spawn().unwrap();
        // Waits until the program has the other end.
        let mut plan = File::options().write(true).open(&from).unwrap();
        let kill = ["-s", signal, &child.id().to_string()].map(String::from);
        assert!(Command::new("kill").args(kill).status().unwrap().success());
        plan.write_all(&p(Edition::First)).unwrap();
        drop(plan);
        assert!(!child.wait().unwrap().success(), "{signal}");
        assert_eq!(state(&to), before, "{signal}");
        assert_eq!(fs::read_dir(&folder).unwrap().count(), 2, "{signal}");
    }
}

/// Runs `make carry` as from a shell, even if make runs the tests.
fn make_carry(variables: &[String]) -> Output {
    let mut make = Command::new("make");
    make.args(["--no-print-directory", "carry"]).args(variables);
    make.env_remove("MAKELEVEL").env_remove("MAKEFLAGS");
    for name in ["WAY", "FROM", "TO"] {
        make.env_remove(name);
    }
    make.current_dir(root()).output().expect("make starts")
}

#[test]
fn make_carry_names_the_problem() {
    let new = fresh("carry_make_problem").join("new.plan");
    let to = format!("TO={}", new.display());
    for (way, from, to, due) in [
        ("", "", to.as_str(), "say WAY=forward or WAY=back"),
        ("WAY=on", "FROM=samples/p.plan", &to, "say WAY=forward or"),
        ("WAY=forward", "", &to, "FROM is empty"),
        ("WAY=back", "FROM=a b", &to, "there is no file 'a b'"),
        ("WAY=back", "FROM=samples", &to, "'samples' is a directory"),
        ("WAY=back", "FROM=samples/p.plan", "", "TO is empty"),
        (
            "WAY=forward",
            "FROM=samples/p.plan",
            "TO=samples",
            "'samples' is a directory",
        ),
    ] {
        let variables = [way, from, to].map(String::from);
        let given = variables.into_iter().filter(|text| !text.is_empty());
        let done = make_carry(&given.collect::<Vec<String>>());
        assert!(!done.status.success());
        let said = said(&done);
        assert!(said.starts_with(&format!("make carry: {due}")), "{said}");
        assert!(!new.exists());
    }
}

/// `make carry` converts a plan forward and back, and leaves the target alone
/// where the plan is refused. (The copy of `make mutants` has no crates to
/// prove.)
#[test]
fn make_carry_converts() {
    if !root().join("crates/carry_plan/src").exists() {
        return;
    }
    let folder = fresh("carry make");
    let [old, new, late] = ["an old.plan", "a new.plan", "late.plan"].map(|name| folder.join(name));
    fs::write(&old, p(Edition::First)).unwrap();
    fs::write(&late, late_p()).unwrap();
    let make = |way: &str, from: &Path, to: &Path| {
        let [from, to] = [from, to].map(|path| path.display());
        make_carry(&[
            format!("WAY={way}"),
            format!("FROM={from}"),
            format!("TO={to}"),
        ])
    };
    for (way, from, to, edition) in [
        ("forward", &old, &new, Edition::Second),
        ("back", &new, &old, Edition::First),
    ] {
        let done = make(way, from, to);
        assert_eq!(said(&done), "");
        assert!(done.status.success());
        assert_eq!(fs::read(to).unwrap(), p(edition));
    }
    put_old(&new, b"as it was");
    let before = state(&new);
    for (way, from, due) in [
        ("forward", &late, "refused 2 row 0 entry 0\n"),
        ("back", &old, "refused 2 row 0 entry 0\n"),
        ("back", &late, "refused 15 row 0 entry 2\n"),
    ] {
        let done = make(way, from, &new);
        assert!(!done.status.success());
        assert!(said(&done).starts_with(due), "{}", said(&done));
        assert_eq!(state(&new), before);
    }
    assert_eq!(files(&folder).len(), 3);
}

/// Runs the example on folders.
fn carry_folder(arguments: &[&str]) -> Output {
    let mut script = Command::new(root().join("examples/carry_folder.sh"));
    let script = script.args(arguments).env("LC_ALL", "C");
    script.output().expect("the shell starts")
}

/// Converts a folder into another, and compares what it then holds and what is
/// printed.
fn assert_folder(from: Edition, folder: &Path, to: &Path) {
    let (start, mut end) = (files(folder), Files::new());
    if to.exists() {
        end = files(to);
    }
    let mut due = String::new();
    for (name, plan) in start.iter().filter(|(name, _)| name.ends_with(".plan")) {
        match carry(from, plan) {
            Ok(file) => drop(end.insert(name.clone(), file)),
            Err(refusal) => due += &format!("{name}: {refusal}\n"),
        }
    }
    let names = [folder, to].map(|path| path.to_str().expect("a name is text"));
    let done = carry_folder(&[way(from), names[0], names[1]]);
    assert_eq!(String::from_utf8_lossy(&done.stdout), due);
    assert!(done.stderr.is_empty());
    assert_eq!(done.status.code(), Some(i32::from(!due.is_empty())));
    assert!(files(to) == end);
    assert!(files(folder) == start || folder == to);
}

/// The samples: plans of both editions, and refused ones. A second time the
/// folder is there and has plans.
#[test]
fn the_folder_of_samples() {
    let folder = fresh("carry samples");
    for from in Edition::BOTH {
        let to = folder.join(way(from));
        for _ in 0..2 {
            assert_folder(from, &root().join("samples"), &to);
        }
    }
    // What went forward goes back, all of it.
    let (new, again) = (folder.join("forward"), folder.join("again"));
    assert_folder(Edition::Second, &new, &again);
    let samples = samples();
    let old = files(&again);
    assert_eq!(old.len(), 10);
    assert!(old.iter().all(|(name, plan)| samples[name] == *plan));
}

/// Plans with any names, in a folder of another such name; other files are left
/// out.
#[test]
fn a_folder_of_any_names() {
    let plans = NAMES.map(|name| (name.to_string(), p(Edition::First)));
    let mut start = Files::from(plans);
    start.insert("p.txt".to_string(), p(Edition::First));
    for name in ["-carry a folder", "carry $HOME *"] {
        let from = filled(name, &start);
        let to = fresh(&format!("{name} to")).join("a/new folder");
        assert_folder(Edition::First, &from, &to);
        assert_folder(Edition::First, &from, &from);
    }
}

/// A target that is there stays as it was if the plan is turned back.
#[test]
fn a_folder_with_old_targets() {
    let names = ["a.plan", "b.plan", "c d.plan"].map(String::from);
    let plans = [p(Edition::Second), late_p(), p(Edition::First)];
    let from = filled(
        "carry_old_from",
        &names.clone().into_iter().zip(plans).collect(),
    );
    let to = fresh("carry_old_to");
    for name in &names {
        put_old(&to.join(name), b"as it was");
    }
    let before = names.clone().map(|name| state(&to.join(name)));
    assert_folder(Edition::Second, &from, &to);
    assert_ne!(state(&to.join(&names[0])), before[0]);
    for at in [1, 2] {
        assert_eq!(state(&to.join(&names[at])), before[at]);
    }
}

#[test]
fn a_folder_without_plans() {
    let from = filled("carry_none", &Files::from([("p.txt".into(), vec![1])]));
    let to = fresh("carry_none_to").join("new");
    assert_folder(Edition::First, &from, &to);
    assert!(to.is_dir());
}

#[test]
fn a_folder_with_a_plan_that_is_not_there() {
    let (from, to) = (fresh("carry_gone"), fresh("carry_gone_to"));
    symlink("no such plan", from.join("gone.plan")).unwrap();
    let names = [&from, &to].map(|path| path.to_str().unwrap());
    let done = carry_folder(&["forward", names[0], names[1]]);
    assert_eq!(done.status.code(), Some(1));
    assert!(done.stdout.starts_with(b"gone.plan: ") && done.stderr.is_empty());
    assert!(files(&to).is_empty());
}

#[test]
fn the_example_for_folders_says_how_to_call_it() {
    let folder = fresh("carry_usage");
    let to = folder.join("new");
    let to = to.to_str().unwrap();
    for (arguments, due) in [
        (vec![], "usage: carry_folder.sh"),
        (vec!["samples", to], "usage: carry_folder.sh"),
        (vec!["on", "samples", to], "usage: carry_folder.sh"),
        (vec!["back", "samples", to, to], "usage: carry_folder.sh"),
        (
            vec!["back", "no such", to],
            "carry_folder.sh: there is no folder 'no such'",
        ),
    ] {
        let done = carry_folder(&arguments);
        assert_eq!(done.status.code(), Some(2));
        assert!(said(&done).starts_with(due), "{}", said(&done));
        assert!(files(&folder).is_empty());
    }
}
