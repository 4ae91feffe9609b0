//! By how much an entry is late: the worked figures, and what the overrun says,
//! in the second implementation.

use crate::say;
use crate::starred::{late, on_time};
use oracle::cases::{self, jittered, node};
use oracle::gen::overruns::{
    any, crowded, heavy, largest, on_time_above, unhurried, Timed, LARGEST,
};
use oracle::model::{Entry, Node, MAX_TICKS};
use oracle::options::{rng, times};
use oracle::timing::{completion, initial_time, limit, overrun, Timing};

/// C/T/D above C/T/D, on a level each.
fn two(first: [u64; 3], second: [u64; 3]) -> Node {
    let task = |number, [c, t, d]: [u64; 3]| Entry::task(number, c, t, d);
    node(2, &[task(1, first), task(2, second)])
}

/// Every figure that was worked out: a node, the first and the last of a group,
/// the timed entry, and its timing.
pub fn worked() -> Vec<(&'static str, Timed, Timing)> {
    let of = |node: Node, [first, last, i]: [usize; 3]| Timed {
        entries: node.entries,
        first,
        last,
        i,
    };
    let third = jittered(cases::p(), 2, 13);
    vec![
        ("P on one level", of(cases::f(), [0, 2, 0]), late(0, 18)),
        ("R under 1, 2, 2", of(cases::r(), [1, 2, 2]), late(1, 1)),
        ("S, its third alone", of(cases::s(), [2, 2, 2]), late(1, 3)),
        ("S on one level", of(cases::s(), [0, 2, 0]), late(0, 28)),
        ("H, its third alone", of(cases::h(), [2, 2, 2]), late(1, 2)),
        ("H under 1, 2, 2", of(cases::h(), [1, 2, 2]), late(1, 2)),
        ("P with J 13 on its third", of(third, [1, 2, 2]), late(1, 1)),
        (
            "P with J 12 on its third",
            of(jittered(cases::p(), 2, 12), [1, 2, 2]),
            on_time(138, 2),
        ),
        (
            "1/2/2 above 2/3/2",
            of(two([1, 2, 2], [2, 3, 2]), [1, 1, 1]),
            late(0, 1),
        ),
        (
            "1/2/2 above 2/3/3, one tick more",
            of(two([1, 2, 2], [2, 3, 3]), [1, 1, 1]),
            late(1, 1),
        ),
        (
            "2/3/3 above 1/4/4",
            of(two([2, 3, 3], [1, 4, 4]), [1, 1, 1]),
            on_time(3, 1),
        ),
    ]
}

#[test]
fn worked_figures() {
    for (name, timed, due) in worked() {
        assert_eq!(timed.timing(), due, "{name}");
    }
}

/// A demand above the limit alone does not make an entry late.
#[test]
fn on_time_with_a_demand_above_the_limit() {
    let entries = two([2, 3, 3], [1, 4, 4]).entries;
    let timed = Timed {
        entries,
        first: 1,
        last: 1,
        i: 1,
    };
    assert_eq!((limit(timed.own()), timed.demand(4)), (4, 5));
    assert_eq!(timed.timing(), on_time(3, 1));
    let mut rng = rng(384);
    for _ in 0..times(500) {
        let timed = on_time_above(&mut rng);
        assert!(beyond_the_limit(&timed) > 0, "{timed:?}");
        assert!(timed.timing().is_on_time(), "{timed:?}");
    }
}

/// How often an entry is released in `t` ticks, each release counted.
fn releases(entry: &Entry, t: u64) -> u64 {
    let starts = (0..).map(|period| period * entry.t);
    starts.take_while(|&start| start < t + entry.j).count() as u64
}

/// What must run by D - J beyond D - J, run by run.
fn beyond_the_limit(timed: &Timed) -> i64 {
    let own = timed.own();
    let limit = own.d - own.j;
    let mut ticks = own.c + own.b;
    for other in &timed.entries[..timed.first] {
        ticks += other.c * releases(other, limit);
    }
    for j in (timed.first..=timed.last).filter(|&j| j != timed.i) {
        let other = &timed.entries[j];
        let mut runs = releases(other, limit);
        if runs > u64::from(own.r) + 1 {
            runs = u64::from(own.r) + 1;
        }
        ticks += other.c * runs;
    }
    ticks as i64 - limit as i64
}

/// The overrun is what must run by the limit beyond the limit. It is above 0 for
/// a late entry, and no round. If nothing is beyond the limit, the entry is on
/// time; the converse does not hold.
#[test]
fn the_overrun_is_what_runs_beyond_the_limit() {
    let mut rng = rng(380);
    let (mut all, mut above, mut at_start, mut jittered) = ([0; 2], 0, 0, 0);
    for _ in 0..times(20_000) {
        let timed = any(&mut rng);
        // Each release is counted, so not too many of them.
        let far = |e: &Entry| (timed.own().d + e.j) / e.t > 10_000;
        if timed.entries[..=timed.last].iter().any(far) {
            continue;
        }
        let beyond = beyond_the_limit(&timed);
        match timed.timing() {
            Timing::OnTime { .. } => {
                all[0] += 1;
                above += u64::from(beyond > 0);
            }
            Timing::Late { rounds, overrun } => {
                assert!(beyond > 0, "{timed:?}");
                assert_eq!(overrun, beyond as u64, "{timed:?}");
                assert_eq!(rounds, evaluations(&timed), "{timed:?}");
                all[1] += 1;
                at_start += u64::from(rounds == 0);
                jittered += u64::from(timed.own().j > 0);
            }
        }
    }
    let [on_time, late] = all;
    say(format!(
        "{on_time} on time, {above} of them with a demand above the limit; \
         {late} late, {at_start} of them in 0 rounds, {jittered} with J"
    ));
    assert!(on_time > times(5_000) && late > times(4_000));
    assert!(above > times(80), "{above}");
    assert!(at_start > times(1_000) && late - at_start > times(400));
    assert!(jittered > times(1_000), "{jittered}");
}

/// How often the test evaluates the demand.
fn evaluations(timed: &Timed) -> u64 {
    let levels = timed.levels();
    let first = initial_time(&timed.entries, &levels, timed.i);
    let times = std::iter::successors(Some(first), |&t| {
        let next = timed.demand(t);
        (next != t).then_some(next)
    });
    times.take_while(|&t| t <= limit(timed.own())).count() as u64
}

/// A limit a tick before the completion time is missed by one tick, in one round
/// less; a limit at it is kept.
#[test]
fn a_tick_before_the_completion_time() {
    let mut rng = rng(381);
    let (mut missed, mut most) = (0, 0);
    for _ in 0..times(5_000) {
        let (timed, time, rounds) = unhurried(&mut rng);
        let kept = Timing::OnTime { time, rounds };
        assert_eq!(timed.with_limit(time).timing(), kept, "{timed:?}");
        if time > timed.own().c {
            let due = late(rounds - 1, 1);
            assert_eq!(timed.with_limit(time - 1).timing(), due, "{timed:?}");
            missed += 1;
            most = most.max(rounds - 1);
        }
    }
    say(format!(
        "{missed} late by one tick, after {most} rounds at most"
    ));
    assert!(missed > times(3_000) && most > 10, "{missed} {most}");
}

/// A deadline that is longer by less than the overrun is missed too; one that is
/// longer by the overrun may be met or missed.
#[test]
fn a_deadline_longer_by_the_overrun() {
    let mut rng = rng(382);
    let (mut met, mut missed, mut shorter) = (0, 0, 0);
    for _ in 0..times(8_000) {
        let timed = any(&mut rng);
        let Timing::Late { overrun, .. } = timed.timing() else {
            continue;
        };
        let before = limit(timed.own());
        if timed.own().d + overrun > MAX_TICKS.min(1_000_000) {
            continue;
        }
        match timed.with_limit(before + overrun).timing() {
            Timing::OnTime { time, .. } => {
                assert_eq!(time, before + overrun, "{timed:?}");
                met += 1;
            }
            Timing::Late { .. } => missed += 1,
        }
        if overrun > 1 {
            let less = before + rng.range(1, overrun - 1);
            assert!(!timed.with_limit(less).timing().is_on_time(), "{timed:?}");
            shorter += 1;
        }
    }
    say(format!(
        "with a deadline longer by the overrun {met} on time and {missed} late, {shorter} by less"
    ));
    assert!(met > times(500) && missed > times(300), "{met} {missed}");
    assert!(shorter > times(500), "{shorter}");
}

/// The three values of both answers.
#[test]
fn values_for_a_caller_in_c() {
    assert_eq!(on_time(138, 2).values(), [138, 2, 0]);
    assert_eq!(late(0, 18).values(), [0, 0, 18]);
    let far = 1 << 33;
    assert_eq!(late(3, far).values(), [0, 3, far]);
}

/// 64 entries that fill their periods, on one level, and what no overrun
/// exceeds.
#[test]
fn the_largest_overruns() {
    let all = [Entry::task(1, MAX_TICKS, MAX_TICKS, MAX_TICKS); 64];
    for i in [0, 31, 63] {
        let due = late(0, 63 * MAX_TICKS);
        assert_eq!(completion(&all, &[1; 64], i), due);
        assert_eq!(overrun(&all, &[1; 64], i), 63 * MAX_TICKS);
    }
    assert_eq!(LARGEST, 126_999_999_874);
    for by_jitter in [false, true] {
        for first in [0, 20, 63] {
            let timed = largest(by_jitter, first);
            assert_eq!(timed.timing(), late(0, LARGEST));
        }
    }
    let mut rng = rng(383);
    let mut highest = 0;
    for _ in 0..times(2_000) {
        for timed in [heavy(&mut rng), crowded(&mut rng)] {
            if let Timing::Late { overrun, .. } = timed.timing() {
                assert!((1..=LARGEST).contains(&overrun), "{timed:?}");
                highest = highest.max(overrun);
            }
        }
    }
    say(format!("highest drawn overrun {highest}"));
    assert!(highest > 1 << 35, "{highest}");
}
