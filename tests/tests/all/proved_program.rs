//! The program, with its standard input in pieces.

#![cfg(list_plan)]

use oracle::cases;
use oracle::file::encode;
use oracle::gen::damage::{damage, AIMS};
use oracle::gen::listings::long_listing;
use oracle::gen::plans;
use oracle::listing::list;
use oracle::model::Edition;
use oracle::options::{rng, times};
use oracle::programs::{pieces, root, run};
use std::path::PathBuf;
use std::time::Duration;

fn program() -> PathBuf {
    root().join("target/bin/list_plan")
}

/// The program writes the expected listing of the file; returns it.
fn assert_listed(pieces: &[&[u8]], pause: Duration) -> String {
    let (text, ended) = run(&program(), pieces, pause);
    assert!(ended);
    let due = list(&pieces.concat());
    assert_eq!(String::from_utf8_lossy(&text), due);
    due
}

/// Each sample is compared with the listing kept beside it.
#[test]
fn samples() {
    let folder = root().join("samples");
    let mut seen = 0;
    for item in std::fs::read_dir(&folder).unwrap() {
        let plan = item.unwrap().path();
        if plan.extension().is_none_or(|kind| kind != "plan") {
            continue;
        }
        let file = std::fs::read(&plan).unwrap();
        let due = std::fs::read(plan.with_extension("txt")).unwrap();
        let (text, ended) = run(&program(), &[&file], Duration::ZERO);
        assert!(ended, "{}", plan.display());
        assert!(text == due, "{}", plan.display());
        seen += 1;
    }
    assert_eq!(seen, 24);
}

#[test]
fn generated_plans() {
    let mut rng = rng(230);
    let (mut maps, mut none) = (0, 0);
    for draw in [
        plans::small,
        plans::wide,
        plans::tight,
        plans::station,
        plans::full_node,
        plans::many_nodes,
        plans::at_limits,
    ] {
        for _ in 0..times(20) {
            let file = encode(&draw(&mut rng)).unwrap();
            let most = rng.pick(&[7, 100, 100_000]);
            let text = assert_listed(&pieces(&mut rng, &file, most), Duration::ZERO);
            maps += text.matches(" of ").count() as u64;
            none += text.matches(" no map\n").count() as u64;
        }
    }
    assert!(maps > times(200) && none > times(300), "{maps} {none}");
}

#[test]
fn the_longest_plan() {
    let mut rng = rng(231);
    for edition in Edition::BOTH {
        let file = encode(&plans::longest_in(&mut rng, edition)).unwrap();
        assert_listed(&pieces(&mut rng, &file, 5_000), Duration::ZERO);
    }
}

/// Listings of 3,000 to 97,000 bytes, some longer than a pipe takes at once,
/// are written completely.
#[test]
fn long_listings() {
    let mut longest = 0;
    let first = (1..=32).map(|nodes| (Edition::First, nodes));
    let second = [1, 8, 31, 32].map(|nodes| (Edition::Second, nodes));
    for (edition, nodes) in first.chain(second) {
        let file = encode(&long_listing(edition, nodes)).unwrap();
        let due = list(&file);
        let (text, ended) = run(&program(), &[&file], Duration::ZERO);
        assert!(ended, "{nodes} nodes");
        assert_eq!(text.len(), due.len(), "{nodes} nodes");
        assert!(text == due.as_bytes(), "{nodes} nodes");
        longest = longest.max(text.len());
    }
    assert!(longest > 96_000, "{longest} bytes");
}

#[test]
fn damaged_files() {
    let mut rng = rng(232);
    for aim in AIMS {
        for _ in 0..times(10) {
            let plan = plans::filled(&mut rng);
            let file = damage(&mut rng, &plan, &[aim]).file;
            assert_listed(&pieces(&mut rng, &file, 50), Duration::ZERO);
        }
    }
}

#[test]
fn a_byte_at_a_time() {
    let file = cases::file(cases::p());
    let bytes: Vec<&[u8]> = file.chunks(1).collect();
    assert_listed(&bytes, Duration::from_millis(1));
    assert_listed(&[], Duration::ZERO);
}

/// An input longer than 65,536 bytes is refused as 6 if no earlier check
/// applies.
#[test]
fn long_input() {
    let mut rng = rng(233);
    for length in [
        41_224, 41_225, 49_416, 49_417, 65_535, 65_536, 65_537, 65_538, 65_612, 500_000,
    ] {
        let p = cases::file(cases::p());
        let mut opening = p.clone();
        opening[0] = 0;
        let mut offset = p.clone();
        offset[12] = 17;
        let mut kind = p.clone();
        kind[18] = 3;
        let [full, late] = Edition::BOTH.map(|edition| encode(&long_listing(edition, 32)).unwrap());
        let mut last_offset = full.clone();
        last_offset[8 + 31 * 8 + 6] ^= 1;
        for mut file in [p, opening, offset, kind, full, late, last_offset] {
            file.resize(length, 0);
            assert_listed(&pieces(&mut rng, &file, 9_000), Duration::ZERO);
        }
    }
}
