//! The completion time test has the properties that docs/SPEC.md states.

use oracle::gen::entries;
use oracle::gen::jitter::Jitter;
use oracle::model::Entry;
use oracle::options::{rng, times};
use oracle::punctual;
use oracle::rng::Rng;
use oracle::timing::{
    completion, completion_in_group, demand, initial_time, limit, rounds_bound, Timing,
};

fn draw(rng: &mut Rng) -> Vec<Entry> {
    let count = rng.count(1, 9);
    let jitter = Jitter::half_zero(rng);
    let entries = match rng.below(3) {
        0 => entries::tiny(rng, count),
        1 => entries::scattered(rng, count),
        _ => return entries::wide(rng, count.max(2), jitter),
    };
    jitter.put(rng, entries)
}

/// Levels that never fall, but may begin above 1 and may skip.
fn draw_levels(rng: &mut Rng, count: usize) -> Vec<u8> {
    let mut levels: Vec<u8> = (0..count).map(|_| rng.byte(1, 64)).collect();
    if rng.chance(1, 2) {
        levels.iter_mut().for_each(|level| *level = *level % 3 + 1);
    }
    levels.sort();
    levels
}

#[test]
fn completion_time_is_the_least_whose_demand_fits() {
    let mut rng = rng(50);
    let (mut on_time, mut late) = (0, 0);
    for _ in 0..times(8_000) {
        let entries = draw(&mut rng);
        let levels = draw_levels(&mut rng, entries.len());
        for (i, entry) in entries.iter().enumerate() {
            let least = (1..=limit(entry)).find(|&t| demand(&entries, &levels, i, t) <= t);
            match completion(&entries, &levels, i) {
                Timing::OnTime { time, .. } => {
                    assert_eq!(least, Some(time));
                    assert!(time + entry.j <= entry.d);
                    on_time += 1;
                }
                Timing::Late { .. } => {
                    assert_eq!(least, None);
                    late += 1;
                }
            }
        }
    }
    assert!(on_time > times(2_000) && late > times(2_000));
}

#[test]
fn rounds_count_evaluations_and_keep_the_bound() {
    let mut rng = rng(51);
    let (mut highest, mut above) = (0, 0);
    for _ in 0..times(5_000) {
        let count = rng.count(1, 16);
        let entries = match rng.below(2) {
            0 => {
                let jitter = Jitter::half_zero(&mut rng);
                let entries = entries::realistic(&mut rng, count);
                jitter.put(&mut rng, entries)
            }
            _ => draw(&mut rng),
        };
        let levels = draw_levels(&mut rng, entries.len());
        for i in 0..entries.len() {
            let rounds = completion(&entries, &levels, i).rounds();
            assert_eq!(rounds, evaluations(&entries, &levels, i));
            assert!(rounds <= rounds_bound(&entries, &levels, i));
            highest = highest.max(rounds);
            above += u64::from(rounds > punctual::rounds_bound(&entries, &levels, i));
        }
    }
    assert!(highest > 10, "{highest}");
    // The bound without J is too low.
    assert!(above >= times(5), "{above}");
}

/// The bound takes J of the other entries, and is met.
#[test]
fn the_bound_counts_jitter() {
    let entries = [
        Entry::task(1, 1, 10, 10).jittered(3),
        Entry::task(2, 1, 10, 10).jittered(9),
        Entry::task(3, 1, 12, 10).jittered(2),
    ];
    // 1 + (⌈13 / 10⌉ - 1) + (⌈19 / 10⌉ - 1), whatever its own J.
    assert_eq!(rounds_bound(&entries, &[1, 1, 1], 2), 3);
    assert_eq!(rounds_bound(&entries, &[1, 2, 3], 2), 3);
    assert_eq!(rounds_bound(&entries, &[1, 2, 3], 1), 2);
    assert_eq!(rounds_bound(&entries, &[1, 2, 3], 0), 1);
    let late = [
        Entry::task(1, 1, 10, 10).jittered(9),
        Entry::task(2, 2, 10, 10),
    ];
    let met = Timing::OnTime { time: 4, rounds: 2 };
    assert_eq!(completion(&late, &[1, 2], 1), met);
    assert_eq!(rounds_bound(&late, &[1, 2], 1), 2);
}

/// How often the demand is evaluated.
fn evaluations(entries: &[Entry], levels: &[u8], i: usize) -> u64 {
    let first = initial_time(entries, levels, i);
    let times = std::iter::successors(Some(first), |&t| {
        let next = demand(entries, levels, i, t);
        (next != t).then_some(next)
    });
    times.take_while(|&t| t <= limit(&entries[i])).count() as u64
}

#[test]
fn no_rounds_if_the_initial_time_exceeds_the_deadline() {
    let entries = [Entry::task(1, 3, 9, 4), Entry::task(2, 3, 9, 6)];
    let late = Timing::Late {
        rounds: 0,
        overrun: 2,
    };
    assert_eq!(completion(&entries, &[1, 1], 0), late);
    let met = Timing::OnTime { time: 6, rounds: 1 };
    assert_eq!(completion(&entries, &[1, 1], 1), met);
}

#[test]
fn less_urgent_levels_add_nothing() {
    let entries = [Entry::task(1, 3, 9, 4), Entry::task(2, 9, 9, 9)];
    let met = Timing::OnTime { time: 3, rounds: 1 };
    assert_eq!(completion(&entries, &[1, 2], 0), met);
}

#[test]
fn only_the_order_of_levels_counts() {
    let mut rng = rng(52);
    for _ in 0..times(2_000) {
        let entries = draw(&mut rng);
        let levels = draw_levels(&mut rng, entries.len());
        for i in 0..entries.len() {
            let same = |&j: &usize| levels[j] == levels[i];
            let first = (0..entries.len()).find(same).unwrap();
            let last = (0..entries.len()).rfind(same).unwrap();
            assert_eq!(
                completion_in_group(&entries, first, last, i),
                completion(&entries, &levels, i)
            );
        }
    }
}

#[test]
fn largest_numbers() {
    const TOP: u64 = 1_000_000_000;
    let full = Entry::task(1, TOP, TOP, TOP).calling(15).blocked(TOP);
    let all = [full; 64];
    for i in [0, 63] {
        assert_eq!(initial_time(&all, &[1; 64], i), 65 * TOP);
        let late = Timing::Late {
            rounds: 0,
            overrun: 64 * TOP,
        };
        assert_eq!(completion(&all, &[1; 64], i), late);
    }
    let alone = Entry::task(1, TOP, TOP, TOP);
    let met = Timing::OnTime {
        time: TOP,
        rounds: 1,
    };
    assert_eq!(completion(&[alone], &[64], 0), met);
}
