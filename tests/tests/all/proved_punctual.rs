//! With every J zero all results are the earlier ones: those of a small
//! implementation that knows neither J nor the second edition.

use crate::say;
use oracle::cases;
use oracle::compare::{rooms, session::Both};
use oracle::ffi::{self, session::Session as Proved};
use oracle::file::{check, edition_of, encode, write};
use oracle::gen::buffers::known;
use oracle::gen::damage::{byte_changes, damage, Aim, AIMS};
use oracle::gen::entries;
use oracle::gen::faults::{break_kind, break_ticks};
use oracle::gen::jitter::Jitter;
use oracle::gen::numbers::{free, held as held_number};
use oracle::gen::overruns;
use oracle::gen::parts::{damage_parts, PartAim, PART_AIMS};
use oracle::gen::plans::{self, punctual as without_jitter};
use oracle::lent::words_of;
use oracle::listing::{list, MOST_TEXT};
use oracle::map::map_entries;
use oracle::model::{Edition, Entry, Plan, Row};
use oracle::mutate::mutate;
use oracle::options::{rng, times};
use oracle::punctual;
use oracle::refusal::Refusal;
use oracle::rng::Rng;
use oracle::session::{Op, Session};
use oracle::tally::Tally;
use oracle::timing::{completion, demand, group_levels, initial_time, rounds_bound};
use oracle::words;

/// Entries without J.
fn draw(rng: &mut Rng, most: usize) -> Vec<Entry> {
    let count = rng.count(1, most);
    match rng.below(6) {
        0 => entries::scattered(rng, count),
        1 => entries::realistic(rng, count),
        2 => entries::at_limits(rng, count.min(6), Jitter::Zero),
        3 => entries::wide(rng, count.max(2), Jitter::Zero),
        4 => {
            let loose = entries::tiny(rng, count);
            entries::tighten(rng, loose)
        }
        _ => entries::tiny(rng, count),
    }
}

/// Demand, test and bound, in the second implementation and by a session of the
/// library.
#[test]
fn timing_is_as_before() {
    let mut rng = rng(370);
    for _ in 0..times(2_000) {
        let entries = draw(&mut rng, 10);
        let session = Session::holding(9, &entries).expect("a good node");
        let proved = Proved::of(&words_of(&session));
        let (first, last) = (rng.index(entries.len()), rng.index(entries.len()));
        let (first, last) = (first.min(last), first.max(last));
        let levels = group_levels(entries.len(), first, last);
        for i in first..=last {
            let due = punctual::completion(&entries, &levels, i);
            assert_eq!(completion(&entries, &levels, i), due, "{entries:?}");
            assert_eq!(proved.time(first, last, i), Ok(due), "{entries:?}");
            let start = initial_time(&entries, &levels, i);
            for t in [1, start, entries[i].d, rng.range(1, entries[i].t)] {
                let due = punctual::demand(&entries, &levels, i, t);
                assert_eq!(demand(&entries, &levels, i, t), due);
            }
            let bound = punctual::rounds_bound(&entries, &levels, i);
            assert_eq!(rounds_bound(&entries, &levels, i), bound);
        }
    }
}

/// The same for entries that are late by more than 32 bits hold.
#[test]
fn long_overruns_are_those_without_jitter() {
    let mut rng = rng(379);
    let mut far = 0;
    for round in 0..times(600) {
        let mut timed = match round % 2 {
            0 => overruns::heavy(&mut rng),
            _ => overruns::crowded(&mut rng),
        };
        timed.entries.iter_mut().for_each(|entry| entry.j = 0);
        let due = punctual::completion(&timed.entries, &timed.levels(), timed.i);
        assert_eq!(timed.timing(), due, "{timed:?}");
        let proved = Proved::of(&timed.words());
        let answer = proved.time(timed.first, timed.last, timed.i);
        assert_eq!(answer, Ok(due), "{timed:?}");
        far += u64::from(due.values()[2] > u64::from(u32::MAX));
    }
    say(format!(
        "without jitter {far} late by more than {}",
        u32::MAX
    ));
    assert!(far > times(300), "{far}");
}

/// The map in files of both editions and in a session.
#[test]
fn maps_are_as_before() {
    let mut rng = rng(371);
    let (mut maps, mut none) = (0, 0);
    for _ in 0..times(3_000) {
        let entries = draw(&mut rng, 8);
        let levels = rng.byte(1, 8);
        let due = punctual::map(&entries, levels);
        let found = map_entries(&entries, levels).map(|map| map.levels);
        assert_eq!(found, due, "{entries:?}");
        let node = cases::node(levels, &entries);
        let mut answers = vec![None; 3];
        for (answer, file) in answers
            .iter_mut()
            .zip([cases::file(node.clone()), cases::second_file(node)])
        {
            let mut buffer = vec![0; entries.len()];
            *answer = ffi::map(&file, 7, &mut buffer).ok().map(|_| buffer);
        }
        let session = Session::holding(usize::from(levels), &entries).expect("a good node");
        let mut buffer = vec![0; entries.len()];
        let answer = Proved::of(&words_of(&session)).map(&mut buffer);
        answers[2] = answer.ok().map(|_| buffer);
        assert!(answers.iter().all(|answer| *answer == due), "{entries:?}");
        match due {
            Some(_) => maps += 1,
            None => none += 1,
        }
    }
    assert!(maps > times(700) && none > times(700), "{maps} {none}");
}

/// The text that the library lists.
fn listed(file: &[u8]) -> String {
    let mut text = vec![0; MOST_TEXT];
    let length = ffi::list(file, &mut text).expect("the text fits");
    String::from_utf8(text[..length].to_vec()).expect("a listing is text")
}

/// The listing of a plan without J, in both editions.
#[test]
fn listings_are_as_before() {
    let mut rng = rng(372);
    for _ in 0..times(800) {
        let plan = match rng.below(3) {
            0 => plans::wide(&mut rng),
            1 => plans::tight(&mut rng),
            _ => plans::small(&mut rng),
        };
        let first = without_jitter(plan);
        let second = Plan::second(first.nodes.clone());
        let [first, second] = [first, second].map(|plan| encode(&plan).unwrap());
        let due = punctual::list(&first);
        for file in [&first, &second] {
            assert_eq!(list(file), due);
            assert_eq!(listed(file), due);
        }
    }
}

/// The check of any bytes that do not open as the second edition.
fn assert_checked(file: &[u8]) -> u64 {
    if edition_of(file) == Some(Edition::Second) {
        return 0;
    }
    let due = punctual::check(file);
    assert_eq!(check(file), due, "{file:?}");
    assert_eq!(ffi::check(file), due, "{file:?}");
    if let Err(refusal) = due {
        assert_eq!(listed(file), format!("{refusal}\n"));
    }
    1
}

#[test]
fn checks_are_as_before() {
    let mut rng = rng(373);
    let [mut damaged, mut mutated, mut changed] = [0; 3];
    for _ in 0..times(300) {
        for aim in AIMS.into_iter().filter(|&aim| aim != Aim::Jitter) {
            let plan = without_jitter(plans::filled(&mut rng));
            let other = rng.pick(&[aim, Aim::Kind, Aim::Ticks, Aim::Length]);
            damaged += assert_checked(&damage(&mut rng, &plan, &[aim, other]).file);
            damaged += assert_checked(&encode(&plan).unwrap());
        }
    }
    for _ in 0..times(20_000) {
        let [one, other] = [(); 2].map(|()| encode(&plans::small(&mut rng)).unwrap());
        mutated += assert_checked(&mutate(&mut rng, &one, &other));
    }
    for (_, file) in byte_changes(&cases::file(cases::p())) {
        changed += assert_checked(&file);
    }
    say(format!(
        "files without J: {damaged} damaged, {mutated} mutated, {changed} with a byte changed"
    ));
    // Each by itself: one that draws none is not made up for by the others.
    assert!(damaged > times(5_000), "{damaged}");
    assert!(mutated > times(9_000), "{mutated}");
    assert!(changed > 19_000, "{changed}");
}

/// Writes in the first edition, and compares the answer and the whole buffer.
fn assert_written(
    tally: &mut Tally,
    rows: &[Row],
    entries: &[Entry],
    room: usize,
) -> Result<usize, Refusal> {
    let mut due_buffer = known(room);
    let due = tally.note(punctual::write(rows, entries, &mut due_buffer));
    let mut buffer = known(room);
    let answer = write(1, rows, entries, &mut buffer);
    assert_eq!(answer, due, "{room} bytes: {rows:?} {entries:?}");
    assert_eq!(buffer, due_buffer, "{rows:?} {entries:?}");
    let mut buffer = known(room);
    let (row_words, words) = (words::of_rows(rows), words::of_entries(entries));
    let answer = ffi::write(1, &row_words, &words, &mut buffer);
    assert_eq!(answer, due, "{room} bytes: {rows:?} {entries:?}");
    assert_eq!(buffer, due_buffer, "{rows:?} {entries:?}");
    due
}

/// Good plans in buffers of each length.
#[test]
fn files_are_written_as_before() {
    let (mut rng, mut tally) = (rng(374), Tally::default());
    let longest = plans::longest_in(&mut rng, Edition::First);
    let drawn = (0..times(500)).map(|_| without_jitter(plans::any(&mut rng)));
    for plan in drawn.chain([longest]) {
        let (rows, entries) = (plan.rows(), plan.entries());
        let due = encode(&plan).expect("a good plan").len();
        for room in rooms(due) {
            let answer = assert_written(&mut tally, &rows, &entries, room);
            assert_eq!(answer.is_ok(), due <= room);
        }
    }
    say(format!("good plans written as before: {tally}"));
    assert!(tally.accepted() >= times(1_000), "{tally}");
    assert!(tally.met(10) >= times(1_000), "{tally}");
}

/// Plans with one or two faults, of all kinds that there were before.
#[test]
fn the_writer_refuses_as_before() {
    let (mut rng, mut tally) = (rng(375), Tally::default());
    let later = [PartAim::Edition, PartAim::Jitter];
    let aims = PART_AIMS.into_iter().filter(|aim| !later.contains(aim));
    for one in aims.clone() {
        let pairs = aims.clone().map(|other| vec![one, other]);
        for faults in pairs.chain([vec![one]]) {
            for _ in 0..times(60) {
                let plan = without_jitter(plans::filled(&mut rng));
                let parts = damage_parts(&mut rng, &plan, &faults);
                assert_eq!(parts.edition, 1);
                let answer = assert_written(&mut tally, &parts.rows, &parts.entries, parts.room);
                assert_eq!(answer, Err(parts.due), "{faults:?} in {plan:?}");
            }
        }
    }
    say(format!("the writer's earlier faults: {tally}"));
    for (number, least) in [(3, 650), (4, 550), (6, 430), (7, 250), (8, 220), (10, 100)] {
        assert!(tally.met(number) > times(least), "{number}: {tally}");
    }
}

/// The entries of a session: none, a few, or nearly or just as many as fit.
fn draw_held(rng: &mut Rng) -> Vec<Entry> {
    let many = rng.pick(&[62, 63, 64, 64]);
    match rng.below(4) {
        0 => Vec::new(),
        1 => entries::light(rng, many),
        _ => draw(rng, 10),
    }
}

/// An entry without J, in half of the draws with one or two faults.
fn draw_entry(rng: &mut Rng) -> Entry {
    let mut entry = draw(rng, 3)[0];
    match rng.below(8) {
        0 => break_kind(rng, &mut entry),
        1 => break_ticks(rng, &mut entry),
        2 => {
            break_kind(rng, &mut entry);
            break_ticks(rng, &mut entry);
        }
        3 => {
            break_ticks(rng, &mut entry);
            break_ticks(rng, &mut entry);
        }
        _ => {}
    }
    entry
}

/// Makes the change in both implementations, and compares the answer and what
/// the session then holds.
fn assert_changed(tally: &mut Tally, held: &[Entry], op: &Op, due: Result<Vec<Entry>, Refusal>) {
    let words = |entries: &[Entry]| {
        let session = Session::holding(9, entries).expect("the entries are good");
        words_of(&session)
    };
    let mut both = Both::of(&words(held));
    let answer = both.step(tally, op, 0);
    let refused = due.as_ref().err().copied();
    assert_eq!(answer.err(), refused, "{op:?} on {held:?}");
    let after = due.unwrap_or_else(|_| held.to_vec());
    assert_eq!(*both.words(), words(&after), "{op:?} on {held:?}");
}

/// Inserts and replacements, at good positions and at others, of good entries
/// and of others.
#[test]
fn session_changes_are_as_before() {
    let mut rng = rng(376);
    let [mut inserts, mut replacements] = [(); 2].map(|()| Tally::default());
    for _ in 0..times(8_000) {
        let (held, entry) = (draw_held(&mut rng), draw_entry(&mut rng));
        let inside = rng.count(0, held.len());
        let outside = held.len() + 1;
        let at = rng.pick(&[inside, inside, inside, held.len(), outside, usize::MAX]);
        let entry = match rng.below(4) {
            0 => Entry {
                number: held_number(&mut rng, &held).unwrap_or(0),
                ..entry
            },
            1 => Entry {
                number: held.get(at).map_or(0, |replaced| replaced.number),
                ..entry
            },
            _ => Entry {
                number: free(&mut rng, &held),
                ..entry
            },
        };
        let due = punctual::inserted(&held, at, entry);
        assert_changed(&mut inserts, &held, &Op::Insert(at, entry), due);
        let due = punctual::replaced(&held, at, entry);
        assert_changed(&mut replacements, &held, &Op::Replace(at, entry), due);
    }
    say(format!("inserts without J: {inserts}"));
    say(format!("replacements without J: {replacements}"));
    for (number, least) in [(12, 1_700), (13, 400), (7, 750), (8, 750), (16, 250)] {
        assert!(inserts.met(number) > times(least), "{number}: {inserts}");
    }
    for (number, least) in [(12, 3_700), (7, 370), (8, 370), (16, 100)] {
        let met = replacements.met(number);
        assert!(met > times(least), "{number}: {replacements}");
    }
    assert!(inserts.accepted() > times(1_500), "{inserts}");
    assert!(replacements.accepted() > times(800), "{replacements}");
}
