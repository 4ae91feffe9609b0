//! Conversion between the editions, by the second implementation alone: files
//! written by hand, round trips, and the order of the checks.

use oracle::cases;
use oracle::file::{convert, convert_back, convert_forward, encode, longest};
use oracle::gen::buffers::known;
use oracle::gen::damage::{damage, AIMS};
use oracle::gen::jitter::first_late;
use oracle::gen::numbers::settle;
use oracle::gen::plans::{self, in_edition, punctual};
use oracle::listing::list;
use oracle::model::{Edition, Entry, Node, Plan, MAX_ENTRIES, MAX_NODES, SECTION};
use oracle::options::{rng, times};
use oracle::refusal::{Refusal, BUFFER, JITTER, JITTER_LOST, OPENING};
use oracle::rng::Rng;

/// The example of docs/SPEC.md.
const P: &str = "
    4c 4d 50 31  01  00 00 00
    07 00  02  03  10 00 00 00
    01 00  01  00  14 00 00 00  64 00 00 00  64 00 00 00  00 00 00 00
    02 00  01  00  1e 00 00 00  91 00 00 00  91 00 00 00  00 00 00 00
    03 00  01  00  44 00 00 00  96 00 00 00  96 00 00 00  00 00 00 00";

/// The same in the second edition.
const P_SECOND: &str = "
    4c 4d 50 32  01  00 00 00
    07 00  02  03  10 00 00 00
    01 00  01  00  14 00 00 00  64 00 00 00  64 00 00 00  00 00 00 00  00 00 00 00
    02 00  01  00  1e 00 00 00  91 00 00 00  91 00 00 00  00 00 00 00  00 00 00 00
    03 00  01  00  44 00 00 00  96 00 00 00  96 00 00 00  00 00 00 00  00 00 00 00";

/// Two entries, an empty node, and a section: the bodies begin at 32, 72 and 72.
const THREE: &str = "
    4c 4d 50 31  03  00 00 00
    07 00  02  02  20 00 00 00
    2c 01  40  00  48 00 00 00
    ff ff  01  01  48 00 00 00
    01 00  01  00  14 00 00 00  64 00 00 00  64 00 00 00  00 00 00 00
    02 00  01  0f  1e 00 00 00  00 ca 9a 3b  ff c9 9a 3b  00 ca 9a 3b
    ff ff  02  00  03 00 00 00  2c 01 00 00  c8 00 00 00  05 00 00 00";

/// The same in the second edition: the bodies begin at 32, 80 and 80.
const THREE_SECOND: &str = "
    4c 4d 50 32  03  00 00 00
    07 00  02  02  20 00 00 00
    2c 01  40  00  50 00 00 00
    ff ff  01  01  50 00 00 00
    01 00  01  00  14 00 00 00  64 00 00 00  64 00 00 00  00 00 00 00  00 00 00 00
    02 00  01  0f  1e 00 00 00  00 ca 9a 3b  ff c9 9a 3b  00 ca 9a 3b  00 00 00 00
    ff ff  02  00  03 00 00 00  2c 01 00 00  c8 00 00 00  05 00 00 00  00 00 00 00";

fn bytes(hexadecimal: &str) -> Vec<u8> {
    let words = hexadecimal.split_whitespace();
    words
        .map(|word| u8::from_str_radix(word, 16).expect("two digits"))
        .collect()
}

/// The converted file, from a buffer that always suffices.
fn converted(from: Edition, file: &[u8]) -> Result<Vec<u8>, Refusal> {
    let mut buffer = known(longest(from.other()));
    let length = convert(from, file, &mut buffer)?;
    assert_eq!(buffer[length..], known(buffer.len())[length..]);
    buffer.truncate(length);
    Ok(buffer)
}

#[test]
fn files_written_by_hand() {
    for [first, second] in [[P, P_SECOND], [THREE, THREE_SECOND]] {
        let [first, second] = [first, second].map(bytes);
        assert_eq!(converted(Edition::First, &first), Ok(second.clone()));
        assert_eq!(converted(Edition::Second, &second), Ok(first.clone()));
        assert_eq!(list(&first), list(&second));
    }
    assert_eq!(bytes(P), cases::file(cases::p()));
    assert_eq!([bytes(P).len(), bytes(P_SECOND).len()], [76, 88]);
    assert_eq!([bytes(THREE).len(), bytes(THREE_SECOND).len()], [92, 104]);
    assert_eq!(list(&bytes(P_SECOND)), cases::P_LISTING);
}

/// The converted file lies at the buffer's start, and what lies beyond is kept.
/// A buffer that is a byte too short is refused and kept, an exact one is not.
#[test]
fn buffers() {
    for (from, file, due) in [
        (Edition::First, bytes(THREE), bytes(THREE_SECOND)),
        (Edition::Second, bytes(THREE_SECOND), bytes(THREE)),
    ] {
        for room in 0..due.len() + 20 {
            let mut buffer = known(room);
            let answer = convert(from, &file, &mut buffer);
            if room < due.len() {
                assert_eq!(answer, Err(Refusal::plain(BUFFER)), "{room}");
                assert_eq!(buffer, known(room));
            } else {
                assert_eq!(answer, Ok(due.len()), "{room}");
                assert_eq!(buffer[..due.len()], due);
                assert_eq!(buffer[due.len()..], known(room)[due.len()..]);
            }
        }
    }
}

#[test]
fn there_and_again() {
    let mut rng = rng(400);
    let (mut carried, mut lost) = (0, 0);
    let longest = Edition::BOTH.map(|edition| plans::longest_in(&mut rng, edition));
    let drawn: Vec<Plan> = (0..times(1_500)).map(|_| plans::any(&mut rng)).collect();
    for plan in drawn.iter().chain(&longest) {
        let file = encode(plan).unwrap();
        let due = match first_late(plan) {
            Some((row, at)) => Err(Refusal::at_entry(JITTER_LOST, row, at)),
            None => encode(&in_edition(plan, plan.edition.other())),
        };
        lost += u64::from(due.is_err());
        assert_eq!(converted(plan.edition, &file), due);
        // Without J every plan goes both ways.
        let first = encode(&punctual(plan.clone())).unwrap();
        let second = converted(Edition::First, &first).unwrap();
        assert_eq!(second.len(), first.len() + 4 * plan.entries().len());
        assert_eq!(converted(Edition::Second, &second), Ok(first.clone()));
        carried += 1;
        for (from, file) in [(Edition::First, &second), (Edition::Second, &first)] {
            let wrong = Err(Refusal::plain(OPENING));
            assert_eq!(converted(from, file), wrong);
        }
    }
    assert!(carried > times(1_500) && lost > times(300), "{lost}");
}

#[test]
fn the_buffers_that_always_suffice() {
    let mut rng = rng(401);
    let first = encode(&plans::longest_in(&mut rng, Edition::First)).unwrap();
    let mut second = vec![0; 49_416];
    assert_eq!(convert_forward(&first, &mut second), Ok(49_416));
    let mut again = vec![0; 41_224];
    assert_eq!(convert_back(&second, &mut again), Ok(41_224));
    assert_eq!(again, first);
}

/// Plans without entries differ only in their opening.
#[test]
fn plans_without_entries() {
    for count in [1, 2, 31, 32] {
        let nodes = (0..count).map(|number| Node {
            number,
            ..cases::e()
        });
        let first = encode(&Plan::first(nodes.collect())).unwrap();
        let mut second = first.clone();
        second[3] = 0x32;
        assert_eq!(converted(Edition::First, &first), Ok(second.clone()));
        assert_eq!(converted(Edition::Second, &second), Ok(first));
    }
}

/// Case V between empty nodes, in the second edition: rows 1 and 4 have entries.
fn between_empty_nodes(j: [[u64; 2]; 2]) -> Vec<u8> {
    let mut nodes = [cases::e, cases::v, cases::e, cases::e, cases::v, cases::e].map(|case| case());
    for (number, node) in (0..).zip(&mut nodes) {
        node.number = number;
    }
    for (row, j) in [1, 4].into_iter().zip(j) {
        for (entry, j) in nodes[row].entries.iter_mut().zip(j) {
            entry.j = j;
        }
    }
    encode(&Plan::second(nodes.to_vec())).unwrap()
}

/// V has J up to 4 on its first entry and up to 16 on its second.
#[test]
fn the_first_jitter_is_reported() {
    for (j, place) in [
        ([[0, 0], [0, 0]], None),
        ([[0, 0], [0, 1]], Some((4, 1))),
        ([[0, 0], [0, 16]], Some((4, 1))),
        ([[0, 0], [4, 1]], Some((4, 0))),
        ([[0, 1], [0, 1]], Some((1, 1))),
        ([[0, 16], [4, 0]], Some((1, 1))),
        ([[1, 0], [0, 0]], Some((1, 0))),
        ([[1, 1], [1, 1]], Some((1, 0))),
    ] {
        let file = between_empty_nodes(j);
        let due = place.map(|(row, at)| Refusal::at_entry(JITTER_LOST, row, at));
        assert_eq!(converted(Edition::Second, &file).err(), due, "{j:?}");
        // 15 comes before 10.
        let short = due.unwrap_or(Refusal::plain(BUFFER));
        assert_eq!(convert_back(&file, &mut []), Err(short), "{j:?}");
    }
}

/// A J above D - C is a fault of the file: 14, also behind an entry with 15.
#[test]
fn jitter_beyond_its_limit_is_14() {
    let entry = Entry::task(1, 3, 12, 10);
    for first in [0, 1, 7] {
        let entries = settle(vec![entry.jittered(first), entry.jittered(7)]);
        let mut file = cases::second_file(cases::node(1, &entries));
        let place = usize::from(first == 0);
        let due = Refusal::at_entry(JITTER_LOST, 0, place);
        assert_eq!(converted(Edition::Second, &file), Err(due));
        file[16 + 24 + 20] = 8;
        let due = Refusal::at_entry(JITTER, 0, 1);
        assert_eq!(converted(Edition::Second, &file), Err(due));
        assert_eq!(converted(Edition::First, &file), Err(due));
        assert_eq!(convert_back(&file, &mut []), Err(due));
    }
}

/// A small plan with an entry that has J, the same without J, and the latter in
/// the first edition.
fn three_plans(rng: &mut Rng) -> [Plan; 3] {
    let late = plans::late(rng);
    let first = punctual(late.clone());
    [late, in_edition(&first, Edition::Second), first]
}

/// Asserts the refusal of a file, and that it leaves a buffer as it was: one
/// without any room, and one that always suffices.
fn assert_refused(from: Edition, file: &[u8], due: Refusal) {
    for room in [0, longest(Edition::Second)] {
        let mut buffer = known(room);
        assert_eq!(convert(from, file, &mut buffer), Err(due), "{file:?}");
        assert_eq!(buffer, known(room));
    }
}

/// The file's own checks come before 2, 15 and 10, whatever the edition.
#[test]
fn own_checks_come_first() {
    let mut rng = rng(402);
    for _ in 0..times(100) {
        for plan in three_plans(&mut rng) {
            for aim in AIMS {
                let damaged = damage(&mut rng, &plan, &[aim]);
                for from in Edition::BOTH {
                    assert_refused(from, &damaged.file, damaged.due);
                }
            }
        }
    }
}

/// 2 and 15 never meet: 15 is a check of the way back alone, and there a file of
/// the wrong edition is of the first, in which every J is 0.
#[test]
fn then_2_then_15_then_10() {
    let mut rng = rng(403);
    let wrong = Refusal::plain(OPENING);
    for _ in 0..times(100) {
        let plans = three_plans(&mut rng);
        let (row, at) = first_late(&plans[0]).expect("an entry has J");
        let [late, second, first] = plans.map(|plan| encode(&plan).unwrap());
        assert_refused(Edition::First, &late, wrong);
        assert_refused(Edition::First, &second, wrong);
        assert_refused(Edition::Second, &first, wrong);
        let lost = Refusal::at_entry(JITTER_LOST, row, at);
        assert_refused(Edition::Second, &late, lost);
        for (from, file) in [(Edition::First, &first), (Edition::Second, &second)] {
            let answer = convert(from, file, &mut []);
            assert_eq!(answer, Err(Refusal::plain(BUFFER)));
        }
    }
}

/// Every field of an entry comes over as it is, at its limits too.
#[test]
fn fields_at_their_limits() {
    let top = 1_000_000_000;
    let most = Entry::task(u16::MAX, top, top, top)
        .blocked(top)
        .calling(15);
    let section = Entry {
        kind: SECTION,
        ..Entry::task(0, 1, top, top - 1)
    };
    let nodes = (0..MAX_NODES as u16).map(|row| Node {
        number: u16::MAX - 31 + row,
        levels: 64,
        entries: settle([most, section].repeat(MAX_ENTRIES / 2)),
    });
    let plan = Plan::first(nodes.collect());
    let [first, second] = Edition::BOTH.map(|e| encode(&in_edition(&plan, e)).unwrap());
    assert_eq!(converted(Edition::First, &first), Ok(second.clone()));
    assert_eq!(converted(Edition::Second, &second), Ok(first));
}
