//! The copy of the tests in which the faults are made.

use oracle::programs::root;
use std::env::temp_dir;
use std::fs;
use std::hash::{DefaultHasher, Hash, Hasher};
use std::path::{Path, PathBuf};

/// A test file that contains one of these compares the second implementation
/// with the proved library or program.
const COMPARING: [&str; 5] = [
    "::compare",
    "::ffi",
    "list_plan",
    "carry_plan",
    "libplanner_c",
];

/// What is not copied, or not unchanged.
const APART: [&str; 4] = [".git", "crates", "target", "tests"];

/// Replaces the build script, which would prove everything again: this one
/// links the library as it is.
const BUILD: &str = r#"fn main() {
    for program in ["list_plan", "carry_plan"] {
        println!("cargo:rustc-check-cfg=cfg({program})");
        println!("cargo:rustc-cfg={program}");
    }
    println!("cargo:rustc-link-search=native={}", LIBRARY);
    println!("cargo:rustc-link-lib=static=planner_c");
}
"#;

/// A repository with only the tests, all of them in one test program.
pub struct Copy {
    /// Its directory of tests.
    pub tests: PathBuf,
    /// Names of the test files that use the proved library or program.
    pub comparing: Vec<String>,
}

impl Copy {
    /// A fresh copy, apart from the repository: there `rt ci` refuses a second
    /// `crates.txt`. Only earlier build results are kept.
    pub fn new() -> Copy {
        let from = root();
        let to = temp_dir().join(format!("maiplur-mutants-{:x}", hash(&from)));
        if to.exists() {
            let old = items(&to)
                .into_iter()
                .filter(|item| !item.ends_with("built"));
            old.for_each(|item| clear(&item));
        }
        let beside = |item: &PathBuf| !APART.iter().any(|name| item.ends_with(name));
        for item in items(&from).into_iter().filter(beside) {
            copy_item(&item, &to);
        }
        for folder in ["target/bin", "target/staticlib"] {
            copy_item(&from.join(folder), &to.join("target"));
        }
        for edits in edit_folders(&from) {
            let place = edits.strip_prefix(&from).expect("it lies below");
            copy_item(&edits, &to.join(place.parent().expect("a crate")));
        }
        let tests = to.join("tests");
        for item in ["src", "corpus", "Cargo.toml", "Cargo.lock"] {
            copy_item(&from.join("tests").join(item), &tests);
        }
        clear(&tests.join("src/bin"));
        let library = format!("{:?}", to.join("target/staticlib"));
        write(&tests.join("build.rs"), &BUILD.replace("LIBRARY", &library));
        let comparing = copy_tests(&from.join("tests/tests/all"), &tests.join("tests/all"));
        Copy { tests, comparing }
    }

    /// The text of a file, named relative to tests/.
    pub fn text(&self, file: &str) -> String {
        let path = self.tests.join(file);
        fs::read_to_string(&path).unwrap_or_else(|error| panic!("{}: {error}", path.display()))
    }

    /// Writes a file, named relative to tests/.
    pub fn put(&self, file: &str, text: &str) {
        write(&self.tests.join(file), text);
    }
}

/// Copies the tests, and returns the names of those that use the proved library
/// or program.
fn copy_tests(from: &Path, to: &Path) -> Vec<String> {
    let mut comparing = Vec::new();
    for path in items(from) {
        copy_item(&path, to);
        let text = fs::read_to_string(&path).expect("a test file can be read");
        if COMPARING.iter().any(|word| text.contains(word)) {
            let stem = path.file_stem().expect("a file has a name");
            comparing.push(stem.to_string_lossy().to_string());
        }
    }
    comparing
}

/// A number for a checkout, so that two of them have copies of their own.
fn hash(root: &Path) -> u64 {
    let mut hasher = DefaultHasher::new();
    root.hash(&mut hasher);
    hasher.finish()
}

/// The crates' directories of wrong programs, which a test reads. No test
/// reads anything else of the crates.
fn edit_folders(root: &Path) -> Vec<PathBuf> {
    let both = |item: &PathBuf| ["must-fail", "wrong"].map(|name| item.join(name));
    let all = items(&root.join("crates"));
    let folders = all.iter().flat_map(both);
    folders.filter(|folder| folder.exists()).collect()
}

fn items(folder: &Path) -> Vec<PathBuf> {
    let mut items: Vec<PathBuf> = fs::read_dir(folder)
        .unwrap_or_else(|error| panic!("{}: {error}", folder.display()))
        .map(|item| item.expect("a folder can be read").path())
        .collect();
    items.sort();
    items
}

/// Copies a file or a directory into a directory.
fn copy_item(from: &Path, folder: &Path) {
    let to = folder.join(from.file_name().expect("an item has a name"));
    if from.is_dir() {
        fs::create_dir_all(&to).expect("a folder can be made");
        items(from).iter().for_each(|item| copy_item(item, &to));
    } else {
        fs::create_dir_all(folder).expect("a folder can be made");
        fs::copy(from, &to).unwrap_or_else(|error| panic!("{}: {error}", from.display()));
    }
}

/// Removes a file or a directory, if it exists.
fn clear(item: &Path) {
    let done = match item.is_dir() {
        true => fs::remove_dir_all(item),
        false if item.exists() => fs::remove_file(item),
        false => Ok(()),
    };
    done.unwrap_or_else(|error| panic!("{}: {error}", item.display()));
}

fn write(path: &Path, text: &str) {
    fs::write(path, text).unwrap_or_else(|error| panic!("{}: {error}", path.display()));
}
