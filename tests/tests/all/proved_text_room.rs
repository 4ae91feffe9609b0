//! The listing in buffers of about 115,625 bytes. From that length on the
//! library writes every listing straight into the buffer. The text is at the
//! start, and the bytes beyond it are kept.

use oracle::cases;
use oracle::compare;
use oracle::file::encode;
use oracle::gen::listings::long_listing;
use oracle::gen::plans;
use oracle::listing::{list, MOST_TEXT};
use oracle::model::Edition;
use oracle::options::{rng, times};
use oracle::tally::Tally;

/// Lists into a buffer a byte too short, an exact one, and long ones; returns
/// the text.
fn assert_kept(tally: &mut Tally, file: &[u8]) -> String {
    let listing = list(file);
    let text = listing.as_bytes();
    let rooms = [
        text.len() - 1,
        text.len(),
        MOST_TEXT - 1,
        MOST_TEXT,
        MOST_TEXT + 1,
        2 * MOST_TEXT,
    ];
    for room in rooms {
        compare::list_into(tally, file, text, room);
    }
    listing
}

#[test]
fn short_texts() {
    let mut tally = Tally::default();
    for node in [cases::p(), cases::f(), cases::e()] {
        assert_kept(&mut tally, &cases::file(node));
    }
    let mut refused = cases::file(cases::p());
    refused[18] = 3;
    assert_kept(&mut tally, &refused);
    assert_kept(&mut tally, &[]);
    refused.resize(70_000, 0);
    assert_kept(&mut tally, &refused);
}

#[test]
fn long_texts() {
    let mut tally = Tally::default();
    for nodes in [1, 16, 31, 32] {
        for edition in Edition::BOTH {
            assert_kept(&mut tally, &encode(&long_listing(edition, nodes)).unwrap());
        }
    }
    let longest = list(&encode(&long_listing(Edition::First, 32)).unwrap());
    assert!(
        (96_000..MOST_TEXT).contains(&longest.len()),
        "{}",
        longest.len()
    );
}

#[test]
fn generated_plans() {
    let (mut rng, mut tally) = (rng(330), Tally::default());
    let (mut maps, mut none) = (0, 0);
    for draw in [plans::small, plans::wide, plans::station, plans::many_nodes] {
        for _ in 0..times(20) {
            let text = assert_kept(&mut tally, &encode(&draw(&mut rng)).unwrap());
            maps += text.matches(" of ").count() as u64;
            none += text.matches(" no map\n").count() as u64;
        }
    }
    assert_eq!(tally.met(10), times(80));
    assert!(maps > times(200) && none > times(300), "{maps} {none}");
}
