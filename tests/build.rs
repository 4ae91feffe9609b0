//! Proves and builds the static library and the programs, and links the library.

use std::env;
use std::path::{Path, PathBuf};
use std::process::Command;

/// The programs that are tested.
const PROGRAMS: [&str; 2] = ["list_plan", "carry_plan"];

/// If this is set, the gate has built everything: what lies below target/ is
/// taken as it is.
const BUILT: &str = "MAIPLUR_BUILT";

fn main() {
    let tests = PathBuf::from(env::var_os("CARGO_MANIFEST_DIR").expect("cargo says where"));
    let root = tests.parent().expect("tests/ lies in the repository");
    let crates = root.join("crates");
    // Without a program, its tests are left out.
    for program in PROGRAMS {
        println!("cargo:rustc-check-cfg=cfg({program})");
        if crates.join(program).exists() {
            println!("cargo:rustc-cfg={program}");
        }
    }
    let programs = PROGRAMS
        .into_iter()
        .filter(|name| crates.join(name).exists());
    let programs: Vec<&str> = programs.collect();
    println!("cargo:rerun-if-env-changed={BUILT}");
    if env::var_os(BUILT).is_none() {
        build(root, "planner_c");
        programs.iter().for_each(|program| build(root, program));
    }
    let library = root.join("target/staticlib");
    let built = programs
        .iter()
        .map(|program| root.join("target/bin").join(program));
    let archive = library.join("libplanner_c.a");
    let listed = root.join("crates.txt");
    for used in sources(&crates)
        .into_iter()
        .chain(built)
        .chain([archive, listed])
    {
        println!("cargo:rerun-if-changed={}", used.display());
    }
    println!("cargo:rustc-link-search=native={}", library.display());
    println!("cargo:rustc-link-lib=static=planner_c");
}

/// What the crates are proved and built from. What a check keeps lies beside it,
/// and changes with each.
fn sources(crates: &Path) -> Vec<PathBuf> {
    let folders = crates.read_dir().expect("there are crates");
    let folders = folders.map(|folder| folder.expect("a folder").path());
    let parts = folders.flat_map(|folder| ["src", "specs", "proofs"].map(|part| folder.join(part)));
    parts.filter(|part| part.exists()).collect()
}

fn build(root: &Path, name: &str) {
    let done = Command::new("bash")
        .args(["tools/build", name])
        .current_dir(root)
        .status()
        .expect("bash runs");
    assert!(done.success(), "tools/build {name}");
}
