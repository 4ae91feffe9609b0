//! The edits of the crates fit their code, and docs/WRONG_PROGRAMS.md agrees with
//! them.

use oracle::programs::root;
use std::fs;
use std::path::{Path, PathBuf};
use std::process::Command;

/// The page must be what the tool writes. The tool fails, and names the edit,
/// if an edit does not have one line `why: ` and one line `refused: `.
#[test]
fn the_page_is_made_from_the_edits() {
    let made = Command::new("bash")
        .args(["tools/wrong", "--table", "/dev/stdout"])
        .current_dir(root())
        .output()
        .expect("bash runs");
    let said = String::from_utf8_lossy(&made.stderr);
    assert!(made.status.success(), "{said}");
    let page =
        fs::read_to_string(root().join("docs/WRONG_PROGRAMS.md")).expect("the page is there");
    assert!(
        String::from_utf8_lossy(&made.stdout) == page,
        "docs/WRONG_PROGRAMS.md is not what the edits say; `tools/wrong --table` writes it"
    );
}

/// The edits of a crate: those that the gate tries, and the others.
fn edits(of: &Path) -> Vec<PathBuf> {
    let folders = ["must-fail", "wrong"].map(|name| of.join(name));
    let files = folders
        .iter()
        .filter_map(|folder| fs::read_dir(folder).ok());
    let files = files.flatten().map(|file| file.expect("a file").path());
    files
        .filter(|file| file.extension().is_some_and(|e| e == "edit"))
        .collect()
}

/// Every edit still fits its crate: each old text occurs exactly once when its
/// turn comes. Only `make wrong` tries the edits of `wrong/`, and one that no
/// longer fits would rule out nothing. (The copy of `make mutants` has no code
/// of the crates, and nothing to compare.)
#[test]
fn every_edit_fits() {
    if !root().join("crates/refusals/src").exists() {
        return;
    }
    let mut fit = 0;
    for folder in fs::read_dir(root().join("crates")).expect("there are crates") {
        let of = folder.expect("a folder").path();
        for edit in edits(&of) {
            let said = fs::read_to_string(&edit).expect("the edit is text");
            let (mut text, mut old) = (String::new(), "");
            for line in said.lines() {
                match line.split_once(": ") {
                    Some(("file", name)) => text = fs::read_to_string(of.join(name)).expect(name),
                    Some(("old", part)) => old = part,
                    Some(("new", part)) => {
                        let found = text.matches(old).count();
                        assert_eq!(found, 1, "{}: '{old}'", edit.display());
                        text = text.replacen(old, part, 1);
                    }
                    _ => {}
                }
            }
            fit += 1;
        }
    }
    assert!(fit > 150, "{fit} edits");
}
