//! A session in lent memory: its level count, its entry count, six words for
//! each of 64 entries, and the store. Every word beyond the last entry is zero.
//!
//! The store says what the map of the node is, on the session's own level count:
//! whether there is one, how many levels it uses, and the level and the
//! completion time of each entry under it. If there is none, every word of the
//! store is zero.
//!
//! Memory from elsewhere may hold anything. Every operation except opening
//! first checks it as a node of a file: 4, then 7, 8 and 14 entry by entry, then
//! 16, with the place. No check looks at the store: the map and the times under
//! it are what the store says, right or not.

use crate::model::{Entry, MAX_ENTRIES};
use crate::refusal::{Refusal, BUFFER, NO_MAP, POSITION, ROW};
use crate::session::{Op, Reply, Session};
use crate::words::{entry_of, entry_words, ENTRY_WORDS};
use std::cell::RefCell;
use std::collections::HashMap;

/// Where the store begins, behind the counts and the entries.
pub const STORE_AT: usize = 2 + MAX_ENTRIES * ENTRY_WORDS;

/// How many words the store has.
pub const STORE_WORDS: usize = 2 + 2 * MAX_ENTRIES;

/// How many words a session has.
pub const SESSION_WORDS: usize = STORE_AT + STORE_WORDS;

/// The words of a session.
pub type Words = [u32; SESSION_WORDS];

/// The store of a session.
#[derive(Clone, Copy, Debug, PartialEq, Eq)]
pub struct Store {
    /// 1 if there is a map.
    pub mapped: u32,
    /// The levels that it uses.
    pub used: u32,
    /// The level of each entry.
    pub map: [u32; MAX_ENTRIES],
    /// The completion time of each entry.
    pub times: [u32; MAX_ENTRIES],
}

/// The store of a node without a map.
pub const NO_STORE: Store = Store {
    mapped: 0,
    used: 0,
    map: [0; MAX_ENTRIES],
    times: [0; MAX_ENTRIES],
};

impl Store {
    /// The store of these entries on so many levels, worked out from them.
    pub fn of(entries: &[Entry], levels: u8) -> Store {
        let session = Session::holding(levels.into(), entries).expect("a session holds these");
        let Some((map, times)) = session.map_and_times() else {
            return NO_STORE;
        };
        let mut store = Store {
            mapped: 1,
            used: u32::from(map.used),
            ..NO_STORE
        };
        for (i, (level, time)) in map.levels.iter().zip(times).enumerate() {
            store.map[i] = u32::from(*level);
            store.times[i] = u32::try_from(time).expect("a deadline is below 2^32");
        }
        store
    }

    /// The store in the words of a session.
    pub fn within(words: &Words) -> Store {
        let [mapped, used, rest @ ..] = &words[STORE_AT..] else {
            unreachable!("a session has more words");
        };
        let (map, times) = rest.split_at(MAX_ENTRIES);
        Store {
            mapped: *mapped,
            used: *used,
            map: map.try_into().expect("a word for each entry"),
            times: times.try_into().expect("a word for each entry"),
        }
    }

    /// Puts the store into the words of a session.
    pub fn put(&self, words: &mut Words) {
        let all = [&[self.mapped, self.used][..], &self.map, &self.times];
        words[STORE_AT..].copy_from_slice(&all.concat());
    }

    /// Whether it says that there is a map with at most this many levels.
    pub fn has_map(&self, levels: u8) -> bool {
        self.mapped == 1 && self.used <= u32::from(levels)
    }

    /// Fills one byte per entry with the map of a session's entries, and returns
    /// the levels used. Checks 10, 11.
    fn map_into(&self, session: &Session, buffer: &mut [u8]) -> Result<u8, Refusal> {
        let Some(target) = buffer.get_mut(..session.entries().len()) else {
            return Err(Refusal::plain(BUFFER));
        };
        if !self.has_map(session.levels()) {
            return Err(Refusal::plain(NO_MAP));
        }
        for (byte, level) in target.iter_mut().zip(self.map) {
            *byte = (level % 256) as u8;
        }
        Ok(self.used as u8)
    }

    /// The completion time of the entry at a position. Checks 12, 11.
    fn time_of(&self, session: &Session, position: usize) -> Result<u64, Refusal> {
        if position >= session.entries().len() {
            return Err(Refusal::plain(POSITION));
        }
        if !self.has_map(session.levels()) {
            return Err(Refusal::plain(NO_MAP));
        }
        Ok(u64::from(self.times[position]))
    }
}

/// Most nodes whose stores are kept at a time.
const MOST_KEPT: usize = 1_000;

thread_local! {
    /// Stores that were worked out, because the tests often come back to a node.
    static KEPT: RefCell<HashMap<(u8, Vec<Entry>), Store>> = RefCell::default();
}

/// The store of these entries on so many levels; that of a node which was met
/// lately, with any numbers, is not worked out again.
pub fn store_of(entries: &[Entry], levels: u8) -> Store {
    let unnumbered = |entry: &Entry| Entry {
        number: 0,
        ..*entry
    };
    let list: Vec<Entry> = entries.iter().map(unnumbered).collect();
    KEPT.with_borrow_mut(|kept| {
        if kept.len() == MOST_KEPT {
            kept.clear();
        }
        *kept
            .entry((levels, list))
            .or_insert_with(|| Store::of(entries, levels))
    })
}

/// The words of an open session.
pub fn words_of(session: &Session) -> Words {
    words_with(session, &store_of(session.entries(), session.levels()))
}

/// The words of a session with this store, right or not.
pub fn words_with(session: &Session, store: &Store) -> Words {
    let mut words = [0; SESSION_WORDS];
    words[0] = u32::from(session.levels());
    words[1] = session.entries().len() as u32;
    let slots = words[2..STORE_AT].chunks_exact_mut(ENTRY_WORDS);
    for (slot, entry) in slots.zip(session.entries()) {
        slot.copy_from_slice(&entry_words(entry));
    }
    store.put(&mut words);
    words
}

/// The session that the words hold, or the refusal of these words.
pub fn session_in(words: &Words) -> Result<Session, Refusal> {
    let (levels, count) = (words[0] as usize, words[1] as usize);
    if count > MAX_ENTRIES {
        return Err(Refusal::at_row(ROW, 0));
    }
    let slots = words[2..STORE_AT].as_chunks().0;
    let entries: Vec<Entry> = slots[..count].iter().map(entry_of).collect();
    Session::holding(levels, &entries)
}

/// Whether the words hold a session, and its store is that of its node.
pub fn is_right(words: &Words) -> bool {
    session_in(words)
        .is_ok_and(|session| Store::within(words) == store_of(session.entries(), session.levels()))
}

/// The store once the level count was set to that of the session; it was
/// `before`, and the lent store may be any. A map that needs no more levels
/// stays. A node without one has none on fewer levels either, so it is mapped
/// only on more.
fn with_levels(lent: Store, before: u8, session: &Session) -> Store {
    let levels = session.levels();
    if lent.has_map(levels) {
        lent
    } else if levels <= before {
        NO_STORE
    } else {
        store_of(session.entries(), levels)
    }
}

/// Makes any operation on lent words. An accepted change leaves the words of
/// the changed session; but setting the level count may leave the store as it was
/// lent. All other calls leave the words as they were, and the map and the times
/// under it come from the store.
pub fn apply(words: &mut Words, op: &Op, buffer: &mut [u8]) -> Result<Reply, Refusal> {
    let mut session = match op {
        Op::Open(levels) => Session::open(*levels)?,
        _ => session_in(words)?,
    };
    let (lent, before) = (Store::within(words), session.levels());
    let reply = match *op {
        Op::Map => Reply::Mapped(lent.map_into(&session, buffer)?),
        Op::MapTime(position) => Reply::MapTime(lent.time_of(&session, position)?),
        _ => session.apply(op, buffer)?,
    };
    if reply == Reply::Changed {
        *words = match op {
            Op::SetLevels(_) => words_with(&session, &with_levels(lent, before, &session)),
            _ => words_of(&session),
        };
    }
    Ok(reply)
}
