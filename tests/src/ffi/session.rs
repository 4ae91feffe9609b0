//! The session's C functions.

use super::{answer, one, Values, UNSET};
use crate::lent::{Store, Words, SESSION_WORDS, STORE_AT};
use crate::model::MAX_ENTRIES;
use crate::refusal::Refusal;
use crate::timing::Timing;
use crate::words::ENTRY_WORDS;

/// `maiplur_session` of include/maiplur.h.
#[repr(C)]
#[derive(Clone, Debug, PartialEq, Eq)]
pub struct Session {
    /// Level count.
    pub levels: u32,
    /// Entry count.
    pub count: u32,
    /// Six words per entry.
    pub words: [u32; MAX_ENTRIES * ENTRY_WORDS],
    /// 1 if the node has a map.
    pub mapped: u32,
    /// The levels that it uses.
    pub used: u32,
    /// The level of each entry.
    pub map: [u32; MAX_ENTRIES],
    /// The completion time of each entry.
    pub times: [u32; MAX_ENTRIES],
}

extern "C" {
    fn maiplur_session_open(session: *mut Session, levels: u8, values: *mut Values) -> u32;
    fn maiplur_session_set_levels(session: *mut Session, levels: u8, values: *mut Values) -> u32;
    fn maiplur_session_insert(
        session: *mut Session,
        position: usize,
        entry: *const [u32; ENTRY_WORDS],
        values: *mut Values,
    ) -> u32;
    fn maiplur_session_remove(session: *mut Session, position: usize, values: *mut Values) -> u32;
    fn maiplur_session_replace(
        session: *mut Session,
        position: usize,
        entry: *const [u32; ENTRY_WORDS],
        values: *mut Values,
    ) -> u32;
    fn maiplur_session_time(
        session: *const Session,
        first: usize,
        last: usize,
        i: usize,
        values: *mut Values,
    ) -> u32;
    fn maiplur_session_map(
        session: *const Session,
        levels: *mut u8,
        level_count: usize,
        values: *mut Values,
    ) -> u32;
    fn maiplur_session_map_time(session: *const Session, i: usize, values: *mut Values) -> u32;
}

impl Session {
    /// The session in any memory.
    pub fn of(words: &Words) -> Session {
        let store = Store::within(words);
        Session {
            levels: words[0],
            count: words[1],
            words: words[2..STORE_AT].try_into().expect("six words per entry"),
            mapped: store.mapped,
            used: store.used,
            map: store.map,
            times: store.times,
        }
    }

    /// Its memory, all 516 words.
    pub fn memory(&self) -> Words {
        let mut words = [0; SESSION_WORDS];
        words[0] = self.levels;
        words[1] = self.count;
        words[2..STORE_AT].copy_from_slice(&self.words);
        self.store().put(&mut words);
        words
    }

    /// Its store.
    pub fn store(&self) -> Store {
        Store {
            mapped: self.mapped,
            used: self.used,
            map: self.map,
            times: self.times,
        }
    }

    /// Opens the session, whatever it held.
    pub fn open(&mut self, levels: u8) -> Result<(), Refusal> {
        let mut values = [UNSET; 3];
        // SAFETY: the struct has C's layout, and the pointers come from borrows that live through the call.
        let number = unsafe { maiplur_session_open(self, levels, &mut values) };
        nothing(number, values)
    }

    /// Sets the level count.
    pub fn set_levels(&mut self, levels: u8) -> Result<(), Refusal> {
        let mut values = [UNSET; 3];
        // SAFETY: as above.
        let number = unsafe { maiplur_session_set_levels(self, levels, &mut values) };
        nothing(number, values)
    }

    /// Inserts before a position, or appends.
    pub fn insert(&mut self, position: usize, entry: &[u32; ENTRY_WORDS]) -> Result<(), Refusal> {
        let mut values = [UNSET; 3];
        // SAFETY: as above.
        let number = unsafe { maiplur_session_insert(self, position, entry, &mut values) };
        nothing(number, values)
    }

    /// Removes the entry at a position.
    pub fn remove(&mut self, position: usize) -> Result<(), Refusal> {
        let mut values = [UNSET; 3];
        // SAFETY: as above.
        let number = unsafe { maiplur_session_remove(self, position, &mut values) };
        nothing(number, values)
    }

    /// Replaces the entry at a position.
    pub fn replace(&mut self, position: usize, entry: &[u32; ENTRY_WORDS]) -> Result<(), Refusal> {
        let mut values = [UNSET; 3];
        // SAFETY: as above.
        let number = unsafe { maiplur_session_replace(self, position, entry, &mut values) };
        nothing(number, values)
    }

    /// Times the entry at `i` in the group from `first` to `last`.
    pub fn time(&self, first: usize, last: usize, i: usize) -> Result<Timing, Refusal> {
        let mut values = [UNSET; 3];
        let number = self.time_into(first, last, i, &mut values);
        let [time, rounds, overrun] = answer(number, values)?.map(|value| value as u64);
        Ok(match (time, overrun) {
            (0, 0) => panic!("the overrun of a late entry is above 0"),
            (0, _) => Timing::Late { rounds, overrun },
            (_, 0) => Timing::OnTime { time, rounds },
            _ => panic!("an entry on time has no overrun, but {overrun} is given"),
        })
    }

    /// The same into lent values; returns the number of the refusal, or 0.
    pub fn time_into(&self, first: usize, last: usize, i: usize, values: &mut Values) -> u32 {
        // SAFETY: as above; the session is only read.
        unsafe { maiplur_session_time(self, first, last, i, values) }
    }

    /// Copies the stored map, and returns the levels used.
    pub fn map(&self, levels: &mut [u8]) -> Result<usize, Refusal> {
        let mut values = [UNSET; 3];
        // SAFETY: as above; what is written is borrowed mutably, so nothing overlaps.
        let number =
            unsafe { maiplur_session_map(self, levels.as_mut_ptr(), levels.len(), &mut values) };
        one(answer(number, values)?)
    }

    /// The stored completion time of the entry at `i` under the map.
    pub fn map_time(&self, i: usize) -> Result<u64, Refusal> {
        let mut values = [UNSET; 3];
        let number = self.map_time_into(i, &mut values);
        Ok(one(answer(number, values)?)? as u64)
    }

    /// The same into lent values; returns the number of the refusal, or 0.
    pub fn map_time_into(&self, i: usize, values: &mut Values) -> u32 {
        // SAFETY: as above; the session is only read.
        unsafe { maiplur_session_map_time(self, i, values) }
    }
}

/// A change returns no values.
fn nothing(number: u32, values: Values) -> Result<(), Refusal> {
    let given = answer(number, values)?;
    assert_eq!(given, [0; 3], "a change gives nothing");
    Ok(())
}
