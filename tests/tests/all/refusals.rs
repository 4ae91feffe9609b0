//! Each refusal number comes up many times; the run prints how often.

use crate::say;
use oracle::file::{check, convert, encode, write};
use oracle::gen::buffers::room;
use oracle::gen::damage::{damage, AIMS};
use oracle::gen::ops::{levels, next_op, Course};
use oracle::gen::parts::{damage_parts, PART_AIMS};
use oracle::gen::plans;
use oracle::map::map_node;
use oracle::model::Edition;
use oracle::options::{rng, times};
use oracle::refusal::NUMBERS;
use oracle::rng::Rng;
use oracle::session::Session;
use oracle::tally::Tally;

fn note_files(rng: &mut Rng, tally: &mut Tally) {
    for aim in AIMS {
        let plan = plans::filled(rng);
        let _ = tally.note(check(&damage(rng, &plan, &[aim]).file));
        let _ = tally.note(check(&encode(&plan).expect("a good plan")));
    }
}

fn note_writer(rng: &mut Rng, tally: &mut Tally) {
    for aim in PART_AIMS {
        let plan = plans::filled(rng);
        let parts = damage_parts(rng, &plan, &[aim]);
        let mut buffer = vec![0; parts.room];
        let (edition, rows) = (parts.edition, &parts.rows);
        let _ = tally.note(write(edition, rows, &parts.entries, &mut buffer));
    }
}

fn note_conversions(rng: &mut Rng, tally: &mut Tally) {
    let file = encode(&plans::late(rng)).expect("a good plan");
    for from in Edition::BOTH {
        let mut buffer = vec![0; room(rng, file.len())];
        let _ = tally.note(convert(from, &file, &mut buffer));
    }
}

fn note_maps(rng: &mut Rng, tally: &mut Tally) {
    let plan = plans::small(rng);
    let file = encode(&plan).expect("a good plan");
    for node in &plan.nodes {
        let number = u64::from(node.number);
        let mut buffer = vec![0; room(rng, node.entries.len())];
        let _ = tally.note(map_node(&file, number, &mut buffer));
        let _ = tally.note(map_node(&file, number + 1, &mut buffer));
    }
}

fn note_session(rng: &mut Rng, course: Course, steps: u64, tally: &mut Tally) {
    let Ok(mut session) = tally.note(Session::open(levels(rng))) else {
        return;
    };
    for _ in 0..steps {
        let op = next_op(rng, &session, course);
        let mut buffer = vec![0; room(rng, session.entries().len())];
        let _ = tally.note(session.apply(&op, &mut buffer));
    }
}

#[test]
fn every_number_is_met() {
    let mut rng = rng(130);
    let mut tally = Tally::default();
    for _ in 0..times(200) {
        note_files(&mut rng, &mut tally);
        note_writer(&mut rng, &mut tally);
        note_conversions(&mut rng, &mut tally);
        note_maps(&mut rng, &mut tally);
        note_session(&mut rng, Course::Short, 30, &mut tally);
    }
    for _ in 0..times(20) {
        note_session(&mut rng, Course::Growing, 600, &mut tally);
    }
    say(&tally);
    for number in 1..=NUMBERS {
        assert!(tally.met(number) >= times(100), "{number}: {tally}");
    }
}
