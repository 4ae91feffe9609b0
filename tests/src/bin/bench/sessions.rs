//! Sessions: changes in the middle, the completion time test alone, also of late
//! entries, level counts, and what is asked of the store.

use crate::measure::{Row, Table};
use crate::planner::{Entry, Plain, Planner, Proved, Tuned};
use crate::rows;
use crate::stations::{mapped_entries, one_node, Starts};
use oracle::ffi::session::Session;
use oracle::gen::entries;
use oracle::lent::{words_of, NO_STORE};
use oracle::model;
use oracle::rng::Rng;
use oracle::timing::Timing as Timed;
use oracle::timing::{completion_in_group, initial_time, limit};
use oracle::words::entry_words;
use std::hint::black_box;

type Draw = fn(&mut Rng, usize) -> Vec<model::Entry>;

/// All rows without jitter; returns what [`asking`] does.
pub fn rows(table: &mut Table) -> Option<String> {
    let mut rng = Rng::new(8);
    for count in [8, 32, 63] {
        table.row(&Changes::new(&mut rng, count));
    }
    timings(table, &mut rng, Starts::Punctual);
    late_timings(table, &mut Rng::new(12), Starts::Punctual);
    mapped_changes(table, &mut Rng::new(15), Starts::Punctual);
    exceeding_changes(table, &mut Rng::new(17), Starts::Punctual);
    asking(table, &mut rng, Starts::Punctual)
}

/// The same with entries that start late.
pub fn late_rows(table: &mut Table) -> Option<String> {
    let mut rng = Rng::new(10);
    timings(table, &mut rng, Starts::Late);
    late_timings(table, &mut Rng::new(13), Starts::Late);
    mapped_changes(table, &mut Rng::new(16), Starts::Late);
    exceeding_changes(table, &mut Rng::new(18), Starts::Late);
    asking(table, &mut rng, Starts::Late)
}

/// Changes of sessions that have a map before and after, and level counts.
fn mapped_changes(table: &mut Table, rng: &mut Rng, starts: Starts) {
    for count in [8, 16, 32, 63] {
        table.row(&Changes::mapped(rng, starts, count));
    }
    for set in [Set::Enough, Set::TooFew] {
        for count in [8, 64] {
            table.row(&LevelCounts::new(rng, starts, count, set));
        }
    }
}

/// Changes of sessions whose map needs more levels than they have, before and
/// after: what is stored is that there is none.
fn exceeding_changes(table: &mut Table, rng: &mut Rng, starts: Starts) {
    for levels in [Levels::OneLess, Levels::One] {
        for count in [8, 16, 32, 63] {
            table.row(&Changes::exceeding(rng, starts, count, levels));
        }
    }
}

/// Asking for the map and for times, and the checks of the lent session alone.
/// Returns how the time beyond the checks compares with mapping the same 64
/// entries from a file beyond the checks of that file.
fn asking(table: &mut Table, rng: &mut Rng, starts: Starts) -> Option<String> {
    let mut ratio = None;
    for count in [8, 16, 32, 64] {
        let draw = |_| mapped_entries(rng, starts, count, 64);
        let nodes: Vec<Vec<model::Entry>> = (0..16).map(draw).collect();
        let asked = [What::Map, What::Time, What::NoRoom, What::Outside];
        let [map, time, no_room, outside] =
            asked.map(|what| table.row(&Asking::new(&nodes, starts, what)));
        if count == 64 {
            let files: Vec<Vec<u8>> = nodes.iter().map(|node| one_node(node, 64)).collect();
            let name = format!("map the same nodes of {count} entries{}", starts.name());
            let whole = table.row(&rows::Mapping {
                name,
                files: files.clone(),
            });
            let what = &format!("a node of {count} entries{}", starts.name());
            let check = table.row(&rows::Checking {
                file: &files[0],
                what,
            });
            let afresh = whole.zip(check).map(|(whole, check)| whole - check);
            let beyond = [map.zip(no_room), time.zip(outside)];
            ratio = told(beyond, afresh, starts);
        }
    }
    ratio
}

/// How much of mapping afresh it is to ask for the map and for a time, each beyond
/// the checks.
fn told(beyond: [Option<(f64, f64)>; 2], afresh: Option<f64>, starts: Starts) -> Option<String> {
    let afresh = afresh?;
    let [map, time] = beyond.map(|both| both.map(|(whole, checks)| (whole - checks) / afresh));
    let (map, time, late) = (map?, time?, starts.name());
    Some(format!(
        "asking a session of 64 entries{late}, of mapping it afresh, both beyond the checks: \
         {map:.3} for the map, {time:.3} for a time, goal 0.05 or less"
    ))
}

/// Timing late entries, whose overrun is wanted too.
fn late_timings(table: &mut Table, rng: &mut Rng, starts: Starts) {
    for late in [Late::AtTheStart, Late::AfterRounds] {
        for count in [8, 32, 64] {
            table.row(&LateTiming::new(rng, count, starts, late));
        }
    }
}

fn timings(table: &mut Table, rng: &mut Rng, starts: Starts) {
    let draws: [(&str, Draw); 2] = [("mixed", entries::mixed), ("usual", entries::realistic)];
    for (periods, draw) in draws {
        for count in [8, 32, 64] {
            let draw = |rng: &mut Rng| starts.of(draw(rng, count));
            table.row(&Timing::new(rng, count, periods, starts, draw));
        }
    }
}

fn session(levels: usize, entries: &[model::Entry]) -> Session {
    let held = oracle::session::Session::holding(levels, entries);
    Session::of(&words_of(&held.expect("generated entries are good")))
}

/// How many levels a session has whose map needs more.
#[derive(Clone, Copy, PartialEq, Eq)]
enum Levels {
    /// One less than the map needs.
    OneLess,
    /// One: a search on so many levels ends after the first group.
    One,
}

/// An insert and a remove in the middle, which leave each session as it was.
struct Changes {
    sessions: Vec<Session>,
    entry: Entry,
    count: usize,
    name: String,
}

impl Changes {
    /// Of one session with mixed periods, whose map and times are as they come.
    fn new(rng: &mut Rng, count: usize) -> Changes {
        let entry = model::Entry::task(99, 5, 1_000, 900);
        let name = format!("insert into or remove from the middle of a session of {count} entries");
        Changes::of(vec![session(8, &entries::mixed(rng, count))], &entry, name)
    }

    /// Of several sessions that have a map before and after.
    fn mapped(rng: &mut Rng, starts: Starts, count: usize) -> Changes {
        let late = starts.name();
        let name =
            format!("insert into or remove from a session of {count} entries{late}, with a map");
        Changes::drawn(rng, starts, count, name, Some)
    }

    /// Of several sessions with fewer levels than their map needs.
    fn exceeding(rng: &mut Rng, starts: Starts, count: usize, levels: Levels) -> Changes {
        let late = starts.name();
        let exceeding = match levels {
            Levels::OneLess => "whose map needs more levels than it has",
            Levels::One => "with one level, whose map needs more",
        };
        let name =
            format!("insert into or remove from a session of {count} entries {exceeding}{late}");
        let row = Changes::drawn(rng, starts, count, name, |held| {
            let levels = match levels {
                Levels::OneLess => held.used - 1,
                Levels::One => 1,
            };
            (1..held.used)
                .contains(&levels)
                .then(|| without_map(held, levels))
        });
        for session in row.changed::<Proved>().as_flattened() {
            assert_eq!(session.store(), NO_STORE);
        }
        row
    }

    /// Of 8 sessions that are made out of ones with 64 levels and a map before and
    /// after.
    fn drawn(
        rng: &mut Rng,
        starts: Starts,
        count: usize,
        name: String,
        make: impl Fn(Session) -> Option<Session>,
    ) -> Changes {
        let entry = model::Entry::task(999, 1, 1_000_000, 1_000_000);
        let mut sessions = Vec::new();
        while sessions.len() < 8 {
            let held = session(64, &mapped_entries(rng, starts, count, 64));
            let mut between = held.clone();
            assert!(Plain::insert(&mut between, count / 2, &entry_words(&entry)));
            if between.mapped == 1 {
                sessions.extend(make(held));
            }
        }
        Changes::of(sessions, &entry, name)
    }

    fn of(sessions: Vec<Session>, entry: &model::Entry, name: String) -> Changes {
        let row = Changes {
            count: sessions[0].count as usize,
            entry: entry_words(entry),
            sessions,
            name,
        };
        let proved = row.changed::<Proved>();
        for ([_, after], before) in proved.iter().zip(&row.sessions) {
            assert_eq!(after, before);
        }
        assert_eq!(row.changed::<Tuned>(), proved);
        assert_eq!(row.changed::<Plain>(), proved);
        row
    }

    /// Each session after the insert, and after the remove.
    fn changed<P: Planner>(&self) -> Vec<[Session; 2]> {
        let changed = |before: &Session| {
            let mut session = before.clone();
            assert!(P::insert(&mut session, self.count / 2, &self.entry));
            let between = session.clone();
            assert!(P::remove(&mut session, self.count / 2));
            [between, session]
        };
        self.sessions.iter().map(changed).collect()
    }
}

/// The session with fewer levels than its map needs.
fn without_map(session: Session, levels: u32) -> Session {
    let mut words = Session { levels, ..session }.memory();
    NO_STORE.put(&mut words);
    Session::of(&words)
}

impl Row for Changes {
    type Lent = Vec<(Session, [bool; 2])>;

    fn name(&self) -> String {
        self.name.clone()
    }

    fn parts(&self) -> usize {
        2 * self.sessions.len()
    }

    fn lent(&self) -> Self::Lent {
        let unchanged = |session: &Session| (session.clone(), [false; 2]);
        self.sessions.iter().map(unchanged).collect()
    }

    fn call<P: Planner>(&self, lent: &mut Self::Lent) {
        let middle = self.count / 2;
        for (session, changed) in lent {
            changed[0] = P::insert(session, black_box(middle), &self.entry);
            changed[1] = P::remove(session, black_box(middle));
        }
    }
}

/// Times the last entry, in groups that start at the first entry, in the
/// middle, and at the last entry itself.
struct Timing {
    sessions: Vec<Session>,
    count: usize,
    periods: &'static str,
    starts: Starts,
}

impl Timing {
    fn new(
        rng: &mut Rng,
        count: usize,
        periods: &'static str,
        starts: Starts,
        draw: impl Fn(&mut Rng) -> Vec<model::Entry>,
    ) -> Timing {
        let row = Timing {
            sessions: (0..16).map(|_| session(8, &draw(rng))).collect(),
            count,
            periods,
            starts,
        };
        let mut times = row.lent();
        row.call::<Proved>(&mut times);
        let all = times.as_flattened().iter().flatten();
        let on_time = all.filter(|timing| timing.is_on_time()).count();
        // Only with jitter and usual periods are a few of them late.
        let late = match (periods, starts) {
            ("usual", Starts::Late) => 8,
            _ => 0,
        };
        assert!(on_time + late >= 48, "{on_time} of 48 are on time");
        row
    }
}

impl Row for Timing {
    type Lent = Vec<[Option<Timed>; 3]>;

    fn name(&self) -> String {
        let (count, periods, late) = (self.count, self.periods, self.starts.name());
        format!("time the last of {count} entries with {periods} periods in a session{late}")
    }

    fn parts(&self) -> usize {
        self.sessions.len() * 3
    }

    fn lent(&self) -> Self::Lent {
        vec![[None; 3]; self.sessions.len()]
    }

    fn call<P: Planner>(&self, times: &mut Self::Lent) {
        let last = self.count - 1;
        let firsts = [0, self.count / 2, last];
        for (session, times) in self.sessions.iter().zip(times) {
            for (first, time) in firsts.into_iter().zip(times) {
                *time = P::time(session, black_box(first), last, last);
            }
        }
    }
}

/// When an entry is seen to be late.
#[derive(Clone, Copy, PartialEq, Eq)]
enum Late {
    /// The test already starts beyond its limit.
    AtTheStart,
    /// Its limit is a tick before its completion time.
    AfterRounds,
}

/// Times the last entry, which is late, in a group that starts at the first
/// entry, in the middle, or at the last entry itself.
struct LateTiming {
    sessions: Vec<(Session, usize)>,
    count: usize,
    starts: Starts,
    late: Late,
    /// The rounds of all these tests.
    rounds: u64,
}

impl LateTiming {
    fn new(rng: &mut Rng, count: usize, starts: Starts, late: Late) -> LateTiming {
        let (mut sessions, mut rounds) = (Vec::new(), 0);
        while sessions.len() < 48 {
            let first = [0, count / 2, count - 1][sessions.len() % 3];
            let mut entries = starts.of(entries::mixed(rng, count));
            if let Some(made) = late.make(&mut entries, first) {
                sessions.push((session(8, &entries), first));
                rounds += made;
            }
        }
        LateTiming {
            sessions,
            count,
            starts,
            late,
            rounds,
        }
    }
}

impl Late {
    /// Makes the last entry late, if that is possible, and returns its rounds.
    fn make(self, entries: &mut [model::Entry], first: usize) -> Option<u64> {
        let last = entries.len() - 1;
        let own = entries[last];
        let missed = match self {
            Late::AtTheStart => {
                let levels = vec![1; entries.len()];
                let starts_at = initial_time(entries, &levels, last);
                (starts_at - 1).min(limit(&own))
            }
            Late::AfterRounds => match completion_in_group(entries, first, last, last) {
                Timed::OnTime { time, rounds: 2.. } => time - 1,
                _ => return None,
            },
        };
        entries[last].d = own.j + missed.max(own.c);
        match completion_in_group(entries, first, last, last) {
            Timed::Late { rounds, .. } if (rounds > 0) == (self == Late::AfterRounds) => {
                Some(rounds)
            }
            _ => None,
        }
    }
}

impl Row for LateTiming {
    type Lent = Vec<Option<Timed>>;

    fn name(&self) -> String {
        let (count, late) = (self.count, self.starts.name());
        let when = match self.late {
            Late::AtTheStart => "at the start".to_string(),
            Late::AfterRounds => {
                let each = self.rounds as f64 / self.sessions.len() as f64;
                format!("after {each:.1} rounds")
            }
        };
        format!("time the last of {count} entries, late {when}, in a session{late}")
    }

    fn parts(&self) -> usize {
        self.sessions.len()
    }

    fn lent(&self) -> Self::Lent {
        vec![None; self.sessions.len()]
    }

    fn call<P: Planner>(&self, times: &mut Self::Lent) {
        let last = self.count - 1;
        for ((session, first), time) in self.sessions.iter().zip(times) {
            *time = P::time(session, black_box(*first), last, last);
        }
    }
}

/// What is asked of a session.
#[derive(Clone, Copy, PartialEq, Eq)]
enum What {
    /// The map.
    Map,
    /// The time of the middle entry under it.
    Time,
    /// The map in a buffer that is too short: only the session is checked.
    NoRoom,
    /// The time of an entry outside the list: only the session is checked.
    Outside,
}

/// Asks several sessions, because they differ in cost.
struct Asking {
    sessions: Vec<Session>,
    count: usize,
    starts: Starts,
    what: What,
}

impl Asking {
    fn new(nodes: &[Vec<model::Entry>], starts: Starts, what: What) -> Asking {
        Asking {
            sessions: nodes.iter().map(|node| session(64, node)).collect(),
            count: nodes[0].len(),
            starts,
            what,
        }
    }
}

impl Row for Asking {
    type Lent = Vec<(Option<usize>, [u8; 64])>;

    fn name(&self) -> String {
        let (count, late) = (self.count, self.starts.name());
        let what = match self.what {
            What::Map => "for its map",
            What::Time => "for a time under its map",
            What::NoRoom => "for its map, refused as 10",
            What::Outside => "for a time under its map, refused as 12",
        };
        format!("ask a session of {count} entries {what}{late}")
    }

    fn parts(&self) -> usize {
        self.sessions.len()
    }

    fn lent(&self) -> Self::Lent {
        vec![(None, [0; 64]); self.sessions.len()]
    }

    fn call<P: Planner>(&self, lent: &mut Self::Lent) {
        for (session, (answer, levels)) in self.sessions.iter().zip(lent) {
            let (session, count) = (black_box(session), self.count);
            *answer = match self.what {
                What::Map => P::map_session(session, levels),
                What::NoRoom => P::map_session(session, &mut levels[..count - 1]),
                What::Time => P::map_time(session, count / 2).map(|time| time as usize),
                What::Outside => P::map_time(session, count).map(|time| time as usize),
            };
        }
    }
}

/// The level count that is set first, before all 64 are set again.
#[derive(Clone, Copy, PartialEq, Eq)]
enum Set {
    /// As many as the map needs: it stays.
    Enough,
    /// One, which is too few: the map is lost, and searched for again.
    TooFew,
}

/// Sets the level count of several sessions with 64 levels, and sets it back.
struct LevelCounts {
    sessions: Vec<(Session, u8)>,
    starts: Starts,
    set: Set,
}

impl LevelCounts {
    /// Of sessions whose map needs more than one level.
    fn new(rng: &mut Rng, starts: Starts, count: usize, set: Set) -> LevelCounts {
        let mut sessions = Vec::new();
        while sessions.len() < 8 {
            let held = session(64, &mapped_entries(rng, starts, count, 64));
            let first = match set {
                Set::Enough => held.used as u8,
                Set::TooFew => 1,
            };
            if held.used > 1 {
                sessions.push((held, first));
            }
        }
        let row = LevelCounts {
            sessions,
            starts,
            set,
        };
        row.assert_set::<Proved>();
        row.assert_set::<Tuned>();
        row.assert_set::<Plain>();
        row
    }

    /// Asserts that the first count leaves or takes the map, and that the second
    /// leaves each session as it was.
    fn assert_set<P: Planner>(&self) {
        for (before, first) in &self.sessions {
            let mut session = before.clone();
            assert!(P::set_levels(&mut session, *first));
            let due = match self.set {
                Set::Enough => before.store(),
                Set::TooFew => NO_STORE,
            };
            assert_eq!(session.store(), due);
            assert!(P::set_levels(&mut session, 64));
            assert_eq!(session, *before);
        }
    }
}

impl Row for LevelCounts {
    type Lent = Vec<(Session, [bool; 2])>;

    fn name(&self) -> String {
        let (count, late) = (self.sessions[0].0.count, self.starts.name());
        let set = match self.set {
            Set::Enough => "keeping its map",
            Set::TooFew => "losing and regaining its map",
        };
        format!("set the level count of a session of {count} entries, {set}{late}")
    }

    fn parts(&self) -> usize {
        2 * self.sessions.len()
    }

    fn lent(&self) -> Self::Lent {
        let unchanged = |(session, _): &(Session, u8)| (session.clone(), [false; 2]);
        self.sessions.iter().map(unchanged).collect()
    }

    fn call<P: Planner>(&self, lent: &mut Self::Lent) {
        for ((_, first), (session, changed)) in self.sessions.iter().zip(lent) {
            changed[0] = P::set_levels(session, black_box(*first));
            changed[1] = P::set_levels(session, black_box(64));
        }
    }
}
