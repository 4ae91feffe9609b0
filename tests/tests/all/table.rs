//! The examples of the table of refusals, by name.

use oracle::cases;
use oracle::file::{check, convert_back, encode, write};
use oracle::map::map_node;
use oracle::model::{Entry, Node, Plan};
use oracle::refusal::Refusal;
use oracle::session::Session;

const PLAIN: fn(u8) -> Refusal = Refusal::plain;

/// Case P's file with one byte set.
fn p_with(at: usize, byte: u8) -> Vec<u8> {
    let mut file = cases::file(cases::p());
    file[at] = byte;
    file
}

#[test]
fn example_1_empty_file() {
    assert_eq!(check(&[]), Err(PLAIN(1)));
}

#[test]
fn example_2_first_byte_00() {
    assert_eq!(check(&p_with(0, 0)), Err(PLAIN(2)));
}

#[test]
fn example_3_count_33() {
    assert_eq!(check(&p_with(4, 33)), Err(PLAIN(3)));
}

#[test]
fn example_4_levels_0() {
    assert_eq!(check(&p_with(10, 0)), Err(Refusal::at_row(4, 0)));
    assert_eq!(Session::open(0), Err(Refusal::at_row(4, 0)));
}

#[test]
fn example_5_one_node_offset_17() {
    assert_eq!(check(&p_with(12, 17)), Err(Refusal::at_row(5, 0)));
}

#[test]
fn example_6_one_byte_more() {
    let mut file = cases::file(cases::p());
    file.push(0);
    assert_eq!(check(&file), Err(PLAIN(6)));
}

#[test]
fn example_7_kind_3() {
    assert_eq!(check(&p_with(18, 3)), Err(Refusal::at_entry(7, 0, 0)));
    assert_eq!(check(&p_with(58, 3)), Err(Refusal::at_entry(7, 0, 2)));
}

#[test]
fn example_8_c_6_d_5() {
    let entries = |c| [Entry::task(1, 1, 9, 9), Entry::task(2, c, 9, 5)];
    let plan = |c| Plan::first(vec![cases::node(1, &entries(c))]);
    let refusal = Err(Refusal::at_entry(8, 0, 1));
    assert_eq!(encode(&plan(6)).map(|_| ()), refusal);
    let mut file = encode(&plan(5)).unwrap();
    file[16 + 20 + 4] = 6;
    assert_eq!(check(&file), refusal);
}

#[test]
fn example_9_ask_for_8_plan_has_7() {
    let file = cases::file(cases::p());
    assert_eq!(map_node(&file, 8, &mut [0; 3]), Err(PLAIN(9)));
    assert_eq!(map_node(&file, 7, &mut [0; 3]), Ok(2));
}

#[test]
fn example_10_three_entries_two_bytes() {
    let file = cases::file(cases::p());
    let mut buffer = [0xAA; 2];
    assert_eq!(map_node(&file, 7, &mut buffer), Err(PLAIN(10)));
    assert_eq!(buffer, [0xAA; 2]);
}

#[test]
fn example_11_case_f() {
    let file = cases::file(cases::f());
    let mut buffer = [0xAA; 3];
    assert_eq!(map_node(&file, 7, &mut buffer), Err(PLAIN(11)));
    assert_eq!(buffer, [0xAA; 3]);
}

#[test]
fn example_12_remove_0_when_empty() {
    let mut session = Session::open(3).unwrap();
    assert_eq!(session.remove(0), Err(PLAIN(12)));
}

#[test]
fn example_13_65th_insert() {
    let mut session = Session::open(3).unwrap();
    for position in 0..64 {
        let entry = Entry::task(position as u16, 1, 9, 9);
        assert_eq!(session.insert(position, entry), Ok(()));
    }
    let full = session.clone();
    for position in 0..=64 {
        assert_eq!(
            session.insert(position, Entry::task(1, 6, 9, 5)),
            Err(PLAIN(13))
        );
    }
    assert_eq!(session.insert(65, Entry::task(1, 1, 9, 9)), Err(PLAIN(12)));
    assert_eq!(session, full);
}

#[test]
fn examples_of_the_writer() {
    let (rows, entries) = ([cases::p().row()], cases::p().entries);
    for (edition, file) in [
        (1, cases::file(cases::p())),
        (2, cases::second_file(cases::p())),
    ] {
        let mut buffer = vec![0xAA; file.len() + 3];
        let short = file.len() - 1;
        let mut write = |edition, rows, entries, room| {
            let answer = write(edition, rows, entries, &mut buffer[..room]);
            (answer, buffer.clone())
        };
        for (answer, number) in [
            (write(0, &[], &[], short), 2),
            (write(3, &rows, &entries, short), 2),
            (write(edition, &[], &[], short), 3),
            (write(edition, &rows, &entries[1..], short), 6),
            (write(edition, &rows, &entries, short), 10),
        ] {
            assert_eq!(answer.0, Err(PLAIN(number)));
            assert!(answer.1.iter().all(|&byte| byte == 0xAA));
        }
        let (answer, buffer) = write(edition, &rows, &entries, file.len() + 3);
        assert_eq!(answer, Ok(file.len()));
        assert_eq!(buffer, [file.as_slice(), &[0xAA; 3]].concat());
    }
}

#[test]
fn example_14_3_10_10_with_j_8() {
    let node = |j| cases::node(1, &[Entry::task(1, 3, 10, 10).jittered(j)]);
    let due = Err(Refusal::at_entry(14, 0, 0));
    assert_eq!(encode(&Plan::second(vec![node(8)])).map(|_| ()), due);
    assert_eq!(encode(&Plan::first(vec![node(1)])).map(|_| ()), due);
    let mut file = encode(&Plan::second(vec![node(7)])).unwrap();
    assert_eq!(check(&file), Ok(()));
    file[36] = 8;
    assert_eq!(check(&file), due);
    let mut session = Session::open(1).unwrap();
    assert_eq!(session.insert(0, node(8).entries[0]), due);
    assert_eq!(session.insert(0, node(7).entries[0]), Ok(()));
    assert_eq!(session.replace(0, node(8).entries[0]), due);
    assert_eq!(Session::holding(1, &node(8).entries).map(|_| ()), due);
}

#[test]
fn example_15_p_with_j_12_sent_back() {
    let file = cases::second_file(cases::jittered(cases::p(), 2, 12));
    let mut buffer = [0xAA; 76];
    let due = Err(Refusal::at_entry(15, 0, 2));
    assert_eq!(convert_back(&file, &mut buffer), due);
    assert_eq!(buffer, [0xAA; 76]);
    let on_time = cases::second_file(cases::p());
    assert_eq!(convert_back(&on_time, &mut buffer), Ok(76));
    assert_eq!(buffer[..], cases::file(cases::p()));
}

#[test]
fn example_16_two_entries_numbered_12() {
    let entries = |number| [Entry::task(12, 1, 9, 9), Entry::task(number, 2, 9, 9)];
    let plan = |number| Plan::first(vec![cases::e(), node_8(&entries(number))]);
    let due = Refusal::at_entry(16, 1, 1);
    assert_eq!(encode(&plan(12)), Err(due));
    let mut file = encode(&plan(13)).unwrap();
    assert_eq!(check(&file), Ok(()));
    file[24 + 20] = 12;
    assert_eq!(check(&file), Err(due));
    assert_eq!(convert_back(&file, &mut []), Err(due));
    let due = |at| Err(Refusal::at_entry(16, 0, at));
    let mut session = Session::holding(1, &entries(13)).unwrap();
    assert_eq!(Session::holding(1, &entries(12)).map(|_| ()), due(1));
    assert_eq!(session.insert(2, entries(12)[1]), due(2));
    assert_eq!(session.replace(1, entries(12)[1]), due(1));
    assert_eq!(session.replace(0, entries(12)[1]), Ok(()));
}

/// A node with number 8 and one level.
fn node_8(entries: &[Entry]) -> Node {
    Node {
        number: 8,
        ..cases::node(1, entries)
    }
}
