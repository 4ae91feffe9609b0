//! One session in both implementations. After each operation the answer, all
//! 516 words and every lent buffer are compared.

use super::rooms;
use crate::ffi;
use crate::file::encode;
use crate::gen::buffers::known;
use crate::lent::{self, Store, Words};
use crate::map::Map;
use crate::model::{Node, Plan};
use crate::refusal::{Refusal, BUFFER, NO_MAP, POSITION};
use crate::sequences::Sequence;
use crate::session::{Op, Reply, Session};
use crate::tally::Tally;
use crate::timing::Timing;
use crate::words::entry_words;

/// The same session in the proved library and in the second implementation.
#[derive(Clone, Debug)]
pub struct Both {
    proved: ffi::session::Session,
    due: Words,
}

impl Both {
    /// Both sessions in this memory.
    pub fn of(words: &Words) -> Both {
        Both {
            proved: ffi::session::Session::of(words),
            due: *words,
        }
    }

    /// The words, which are the same in both.
    pub fn words(&self) -> &Words {
        &self.due
    }

    /// The session that the words hold, or the refusal of these words.
    pub fn session(&self) -> Result<Session, Refusal> {
        lent::session_in(&self.due)
    }

    /// Makes one operation; a map is lent `room` bytes. A change leaves what is
    /// worked out afresh, unless it goes by a forged store.
    pub fn step(&mut self, tally: &mut Tally, op: &Op, room: usize) -> Result<Reply, Refusal> {
        let op = &callable(op);
        let (before, mut due_buffer, mut buffer) = (self.due, known(room), known(room));
        let due = tally.note(lent::apply(&mut self.due, op, &mut due_buffer));
        match &due {
            Ok(Reply::Mapped(used)) => tally.map(*used),
            Ok(Reply::Timed(timing)) => tally.timed(timing),
            _ => {}
        }
        match op {
            Op::MapTime(_) => tally.map_time(&due),
            Op::SetLevels(_) if due.is_ok() => {
                tally.set_levels(has_map(&before), has_map(&self.due));
            }
            _ => {}
        }
        let answer = proved(&mut self.proved, op, &mut buffer);
        let lent = || format!("{op:?}, {room} bytes, on {before:?}");
        assert_eq!(answer, due, "{}", lent());
        assert_eq!(self.proved.memory(), self.due, "{}", lent());
        assert_eq!(buffer, due_buffer, "{}", lent());
        if due == Ok(Reply::Changed) {
            let right = lent::is_right(&self.due);
            assert!(right || is_forged(op, &before), "{}", lent());
        }
        due
    }

    /// What the session answers if everything is worked out afresh from its
    /// entries and its level count; `None` for memory whose store is not that of
    /// its node, which answers what the store says.
    fn afresh(&self) -> Option<Afresh> {
        let session = self.session().ok()?;
        lent::is_right(&self.due).then(|| Afresh {
            found: session.map_and_times(),
            session,
        })
    }

    /// Asks for the map in buffers of each length of [`rooms`]. The map of a
    /// session must be the one worked out afresh, and that of the same node in a
    /// file of the second edition, and of the first where every J is 0.
    pub fn map(&mut self, tally: &mut Tally) {
        let afresh = self.afresh();
        self.ask_map(tally, afresh.as_ref());
    }

    /// Asks twice for the map and for every entry's time under it, which must be
    /// those worked out afresh. Returns whether the session has a map.
    pub fn ask(&mut self, tally: &mut Tally) -> bool {
        let (afresh, before) = (self.afresh(), self.due);
        for _ in 0..2 {
            self.ask_map(tally, afresh.as_ref());
            self.ask_times(tally, afresh.as_ref());
        }
        if let Some(afresh) = &afresh {
            self.time_in_groups(afresh);
        }
        assert_eq!(self.due, before, "asking changes nothing");
        afresh.is_some_and(|afresh| afresh.found.is_some())
    }

    fn ask_map(&mut self, tally: &mut Tally, afresh: Option<&Afresh>) {
        for room in rooms(self.count()) {
            let answer = self.step(tally, &Op::Map, room);
            let Some(afresh) = afresh else {
                continue;
            };
            let (mut mine, mut due) = (known(room), known(room));
            assert_eq!(answer, afresh.map(&mut due), "{:?}", self.due);
            let used = self.proved.map(&mut mine);
            assert_eq!(used.map(|used| Reply::Mapped(used as u8)), answer);
            assert_eq!(mine, due, "{:?}", self.due);
            for file in files_of(&afresh.session) {
                let mut from_file = known(room);
                assert_eq!(ffi::map(&file, 7, &mut from_file), used);
                assert_eq!(mine, from_file, "{:?}", self.due);
            }
        }
    }

    /// The time of every entry, and of positions outside the list.
    fn ask_times(&mut self, tally: &mut Tally, afresh: Option<&Afresh>) {
        let count = self.count();
        for position in (0..=count).chain([count + 1, 64, 1 << 32, usize::MAX]) {
            let answer = self.step(tally, &Op::MapTime(position), 0);
            if let Some(afresh) = afresh {
                assert_eq!(answer, afresh.time(position), "{:?}", self.due);
            }
        }
    }

    /// The time of each entry under the map is that of timing it in its group.
    fn time_in_groups(&self, afresh: &Afresh) {
        let Some((Map { levels, .. }, times)) = &afresh.found else {
            return;
        };
        for (i, (level, due)) in levels.iter().zip(times).enumerate() {
            let same = |other: &u8| other == level;
            let first = levels.iter().position(same).expect("it is its own");
            let last = levels.iter().rposition(same).expect("it is its own");
            match self.proved.time(first, last, i) {
                Ok(Timing::OnTime { time, .. }) => assert_eq!(time, *due, "{:?}", self.due),
                other => panic!("{other:?}: {:?}", self.due),
            }
        }
    }

    /// How many entries the session has; 3 if there is none.
    fn count(&self) -> usize {
        self.session().map_or(3, |held| held.entries().len())
    }
}

/// The answers of a session that are worked out afresh.
struct Afresh {
    session: Session,
    found: Option<(Map, Vec<u64>)>,
}

impl Afresh {
    fn map(&self, buffer: &mut [u8]) -> Result<Reply, Refusal> {
        let target = buffer.get_mut(..self.session.entries().len());
        let target = target.ok_or(Refusal::plain(BUFFER))?;
        let (map, _) = self.found.as_ref().ok_or(Refusal::plain(NO_MAP))?;
        target.copy_from_slice(&map.levels);
        Ok(Reply::Mapped(map.used))
    }

    fn time(&self, position: usize) -> Result<Reply, Refusal> {
        if position >= self.session.entries().len() {
            return Err(Refusal::plain(POSITION));
        }
        let (_, times) = self.found.as_ref().ok_or(Refusal::plain(NO_MAP))?;
        Ok(Reply::MapTime(times[position]))
    }
}

/// Makes a sequence of operations; a short list is mapped after each.
pub fn sequence(tally: &mut Tally, sequence: &Sequence) {
    let mut both = Both::of(&sequence.start);
    for op in &sequence.ops {
        let _ = both.step(tally, op, 64);
        if both.session().is_ok_and(|held| held.entries().len() <= 8) {
            both.map(tally);
        }
    }
}

/// Whether the operation goes by a store that is not that of the node.
fn is_forged(op: &Op, before: &Words) -> bool {
    matches!(op, Op::SetLevels(_)) && !lent::is_right(before)
}

/// Whether the words of a session say that it has a map.
fn has_map(words: &Words) -> bool {
    Store::within(words).has_map(words[0] as u8)
}

/// The C functions take a level count as a byte.
fn callable(op: &Op) -> Op {
    match *op {
        Op::Open(levels) => Op::Open(levels.min(255)),
        Op::SetLevels(levels) => Op::SetLevels(levels.min(255)),
        other => other,
    }
}

/// Makes the operation by its C function.
fn proved(
    session: &mut ffi::session::Session,
    op: &Op,
    buffer: &mut [u8],
) -> Result<Reply, Refusal> {
    match *op {
        Op::Open(levels) => session.open(levels as u8)?,
        Op::SetLevels(levels) => session.set_levels(levels as u8)?,
        Op::Insert(position, entry) => session.insert(position, &entry_words(&entry))?,
        Op::Remove(position) => session.remove(position)?,
        Op::Replace(position, entry) => session.replace(position, &entry_words(&entry))?,
        Op::Map => {
            return session
                .map(buffer)
                .map(|used| Reply::Mapped(u8::try_from(used).expect("at most 64 levels")))
        }
        Op::Time(first, last, i) => return session.time(first, last, i).map(Reply::Timed),
        Op::MapTime(i) => return session.map_time(i).map(Reply::MapTime),
    }
    Ok(Reply::Changed)
}

/// The files of a plan with the session's node, which has number 7, in each
/// edition that has room for it.
fn files_of(session: &Session) -> Vec<Vec<u8>> {
    let node = Node {
        number: 7,
        levels: session.levels(),
        entries: session.entries().to_vec(),
    };
    let (second, least) = (Plan::second(vec![node.clone()]), Plan::of(vec![node]));
    let plans = if least == second {
        vec![second]
    } else {
        vec![second, least]
    };
    let file = |plan| encode(plan).expect("a session holds a good node");
    plans.iter().map(file).collect()
}
