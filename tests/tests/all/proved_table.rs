//! The examples of the table of refusals, by name, for the proved library.

use oracle::cases;
use oracle::ffi::session::Session;
use oracle::ffi::{check, convert_back, convert_forward, list, map, write};
use oracle::file::encode;
use oracle::lent::SESSION_WORDS;
use oracle::model::{Entry, Plan};
use oracle::refusal::Refusal;
use oracle::words;

const PLAIN: fn(u8) -> Refusal = Refusal::plain;

/// Case P's file with one byte set.
fn p_with(at: usize, byte: u8) -> Vec<u8> {
    let mut file = cases::file(cases::p());
    file[at] = byte;
    file
}

#[test]
fn example_1_empty_file() {
    assert_eq!(check(&[]), Err(PLAIN(1)));
}

#[test]
fn example_2_first_byte_00() {
    assert_eq!(check(&p_with(0, 0)), Err(PLAIN(2)));
}

#[test]
fn example_3_count_33() {
    assert_eq!(check(&p_with(4, 33)), Err(PLAIN(3)));
}

#[test]
fn example_4_levels_0() {
    assert_eq!(check(&p_with(10, 0)), Err(Refusal::at_row(4, 0)));
}

#[test]
fn example_5_one_node_offset_17() {
    assert_eq!(check(&p_with(12, 17)), Err(Refusal::at_row(5, 0)));
}

#[test]
fn example_6_one_byte_more() {
    let mut file = cases::file(cases::p());
    file.push(0);
    assert_eq!(check(&file), Err(PLAIN(6)));
}

#[test]
fn example_7_kind_3() {
    assert_eq!(check(&p_with(18, 3)), Err(Refusal::at_entry(7, 0, 0)));
    assert_eq!(check(&p_with(58, 3)), Err(Refusal::at_entry(7, 0, 2)));
}

#[test]
fn example_8_c_6_d_5() {
    let entries = [Entry::task(1, 1, 9, 9), Entry::task(2, 5, 9, 5)];
    let plan = Plan::first(vec![cases::node(1, &entries)]);
    let mut file = encode(&plan).unwrap();
    file[16 + 20 + 4] = 6;
    assert_eq!(check(&file), Err(Refusal::at_entry(8, 0, 1)));
    let mut entries = words::of_entries(&entries);
    entries[6 + 1] = 6;
    let answer = write(1, &words::of_rows(&plan.rows()), &entries, &mut file);
    assert_eq!(answer, Err(Refusal::at_entry(8, 0, 1)));
}

#[test]
fn example_9_ask_for_8_plan_has_7() {
    let file = cases::file(cases::p());
    assert_eq!(map(&file, 8, &mut [0; 3]), Err(PLAIN(9)));
    let mut levels = [0; 3];
    assert_eq!(map(&file, 7, &mut levels), Ok(2));
    assert_eq!(levels, [1, 2, 2]);
}

#[test]
fn example_10_three_entries_two_bytes() {
    let mut buffer = [0xAA; 2];
    let answer = map(&cases::file(cases::p()), 7, &mut buffer);
    assert_eq!(answer, Err(PLAIN(10)));
    assert_eq!(buffer, [0xAA; 2]);
}

#[test]
fn example_11_case_f() {
    let mut buffer = [0xAA; 3];
    let answer = map(&cases::file(cases::f()), 7, &mut buffer);
    assert_eq!(answer, Err(PLAIN(11)));
    assert_eq!(buffer, [0xAA; 3]);
}

#[test]
fn example_12_remove_0_when_empty() {
    let mut session = Session::of(&[0; SESSION_WORDS]);
    session.open(3).unwrap();
    let empty = session.clone();
    assert_eq!(session.remove(0), Err(PLAIN(12)));
    assert_eq!(session, empty);
}

#[test]
fn example_13_65th_insert() {
    let mut session = Session::of(&[0; SESSION_WORDS]);
    session.open(3).unwrap();
    let entry = |number| words::entry_words(&Entry::task(number, 1, 900, 900));
    for position in 0..64 {
        let entry = entry(position as u16);
        assert_eq!(session.insert(position, &entry), Ok(()));
    }
    let (full, entry) = (session.clone(), entry(64));
    assert_eq!(session.insert(64, &entry), Err(PLAIN(13)));
    assert_eq!(session.insert(0, &entry), Err(PLAIN(13)));
    assert_eq!(session, full);
    assert_eq!((full.levels, full.count), (3, 64));
}

#[test]
fn example_14_3_10_10_with_j_8() {
    let due = Err(Refusal::at_entry(14, 0, 0));
    let entry = Entry::task(1, 3, 10, 10);
    let mut file = cases::second_file(cases::node(1, &[entry.jittered(7)]));
    assert_eq!(check(&file), Ok(()));
    file[16 + 20] = 8;
    assert_eq!(check(&file), due);
    let rows = words::of_rows(&[cases::node(1, &[entry]).row()]);
    let entry_words = |j| words::entry_words(&entry.jittered(j));
    assert_eq!(write(2, &rows, &entry_words(8), &mut file), due.map(|()| 0));
    assert_eq!(write(2, &rows, &entry_words(7), &mut file), Ok(40));
    // In the first edition no J above zero is written.
    assert_eq!(write(1, &rows, &entry_words(1), &mut file), due.map(|()| 0));
    assert_eq!(write(1, &rows, &entry_words(0), &mut file), Ok(36));
    let mut session = Session::of(&[0; SESSION_WORDS]);
    session.open(1).unwrap();
    assert_eq!(session.insert(0, &entry_words(8)), due);
    assert_eq!(session.insert(0, &entry_words(7)), Ok(()));
    assert_eq!(session.replace(0, &entry_words(8)), due);
    session.words[5] = 8;
    assert_eq!(session.map(&mut [0]).map(|_| ()), due);
    assert_eq!(session.time(0, 0, 0).map(|_| ()), due);
}

#[test]
fn example_15_p_with_j_12_sent_back() {
    let file = cases::second_file(cases::jittered(cases::p(), 2, 12));
    let mut buffer = [0xAA; 76];
    let due = Err(Refusal::at_entry(15, 0, 2));
    assert_eq!(convert_back(&file, &mut buffer), due);
    assert_eq!(convert_back(&file, &mut []), due);
    assert_eq!(buffer, [0xAA; 76]);
    let (first, second) = (cases::file(cases::p()), cases::second_file(cases::p()));
    assert_eq!(convert_back(&second, &mut buffer), Ok(76));
    assert_eq!(buffer[..], first);
    let mut buffer = [0xAA; 88];
    assert_eq!(convert_forward(&first, &mut buffer), Ok(88));
    assert_eq!(buffer[..], second);
    // A file of the wrong edition is 2, and a short buffer 10.
    assert_eq!(convert_forward(&second, &mut buffer), Err(PLAIN(2)));
    assert_eq!(convert_back(&first, &mut buffer), Err(PLAIN(2)));
    assert_eq!(convert_forward(&first, &mut buffer[1..]), Err(PLAIN(10)));
    assert_eq!(buffer[..], second);
}

#[test]
fn example_16_two_entries_numbered_12() {
    let entry = |number| Entry::task(number, 1, 900, 900);
    let mut file = cases::file(cases::node(1, &[entry(12), entry(13)]));
    assert_eq!(check(&file), Ok(()));
    file[16 + 20] = 12;
    let due = |at| Refusal::at_entry(16, 0, at);
    assert_eq!(check(&file), Err(due(1)));
    let mut buffer = [0xAA; 64];
    assert_eq!(convert_forward(&file, &mut buffer), Err(due(1)));
    assert_eq!(convert_back(&file, &mut buffer), Err(due(1)));
    let rows = words::of_rows(&[cases::node(1, &[entry(12); 2]).row()]);
    let entries = |number| words::of_entries(&[entry(12), entry(number)]);
    assert_eq!(write(1, &rows, &entries(12), &mut buffer), Err(due(1)));
    assert_eq!(buffer, [0xAA; 64]);
    assert_eq!(write(1, &rows, &entries(13), &mut buffer), Ok(56));
    let mut session = Session::of(&[0; SESSION_WORDS]);
    session.open(1).unwrap();
    let words = |number| words::entry_words(&entry(number));
    assert_eq!(session.insert(0, &words(12)), Ok(()));
    assert_eq!(session.insert(1, &words(12)), Err(due(1)));
    assert_eq!(session.insert(0, &words(12)), Err(due(0)));
    assert_eq!(session.insert(1, &words(13)), Ok(()));
    assert_eq!(session.replace(1, &words(12)), Err(due(1)));
    assert_eq!(session.replace(0, &words(12)), Ok(()));
    session.words[6] = words(12)[0];
    assert_eq!(session.map(&mut [0; 2]).map(|_| ()), Err(due(1)));
    assert_eq!(session.time(0, 0, 0).map(|_| ()), Err(due(1)));
}

#[test]
fn listing_of_case_p() {
    let mut text = [0; 200];
    let length = list(&cases::file(cases::p()), &mut text).unwrap();
    assert_eq!(&text[..length], cases::P_LISTING.as_bytes());
}
