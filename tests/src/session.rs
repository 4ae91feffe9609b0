//! The session: one node, changed step by step.

use crate::limits::{check_entry, check_levels, check_number, check_numbers};
use crate::map::{map_entries, map_into, Map};
use crate::model::{Entry, MAX_ENTRIES};
use crate::refusal::{Refusal, FULL, NO_MAP, POSITION, ROW};
use crate::timing::{completion, completion_in_group, Timing};

/// The open session.
#[derive(Clone, Debug, PartialEq, Eq)]
pub struct Session {
    levels: u8,
    entries: Vec<Entry>,
}

/// One operation on a session.
#[derive(Clone, Copy, Debug, PartialEq, Eq)]
pub enum Op {
    /// Open again with a level count, whatever the session holds.
    Open(usize),
    /// Insert the entry before the position.
    Insert(usize, Entry),
    /// Remove the entry at the position.
    Remove(usize),
    /// Replace the entry at the position.
    Replace(usize, Entry),
    /// Set the level count.
    SetLevels(usize),
    /// Map into the lent buffer.
    Map,
    /// Time an entry in a group: first, last and entry position.
    Time(usize, usize, usize),
    /// The completion time of an entry under the map.
    MapTime(usize),
}

/// The answer of an operation that wasn't refused.
#[derive(Clone, Copy, Debug, PartialEq, Eq)]
pub enum Reply {
    /// The contents were changed.
    Changed,
    /// The node was mapped, with this many levels used.
    Mapped(u8),
    /// The entry was timed.
    Timed(Timing),
    /// The completion time of the entry under the map.
    MapTime(u64),
}

impl Session {
    /// An empty session. Checks 4.
    pub fn open(levels: usize) -> Result<Session, Refusal> {
        check_levels(levels)?;
        Ok(Session {
            levels: levels as u8,
            entries: Vec::new(),
        })
    }

    /// A session that holds a node, which is checked as a node of a file: 4,
    /// then 7, 8 and 14 entry by entry, then 16.
    pub fn holding(levels: usize, entries: &[Entry]) -> Result<Session, Refusal> {
        let mut session = Session::open(levels)?;
        if entries.len() > MAX_ENTRIES {
            return Err(Refusal::at_row(ROW, 0));
        }
        for (position, entry) in entries.iter().enumerate() {
            check_entry(entry, 0, position)?;
        }
        check_numbers(entries, 0)?;
        session.entries = entries.to_vec();
        Ok(session)
    }

    /// The level count.
    pub fn levels(&self) -> u8 {
        self.levels
    }

    /// The entries, most urgent first.
    pub fn entries(&self) -> &[Entry] {
        &self.entries
    }

    /// Inserts before `position`, or appends. Checks 12, 13, 7, 8, 14,
    /// 16.
    pub fn insert(&mut self, position: usize, entry: Entry) -> Result<(), Refusal> {
        if position > self.entries.len() {
            return Err(Refusal::plain(POSITION));
        }
        if self.entries.len() == MAX_ENTRIES {
            return Err(Refusal::plain(FULL));
        }
        check_entry(&entry, 0, position)?;
        check_number(&entry, &self.entries, position)?;
        self.entries.insert(position, entry);
        Ok(())
    }

    /// Removes the entry at `position`. Checks 12.
    pub fn remove(&mut self, position: usize) -> Result<(), Refusal> {
        self.check_position(position)?;
        self.entries.remove(position);
        Ok(())
    }

    /// Replaces the entry at `position`, whose own number the new one may have.
    /// Checks 12, 7, 8, 14, 16.
    pub fn replace(&mut self, position: usize, entry: Entry) -> Result<(), Refusal> {
        self.check_position(position)?;
        check_entry(&entry, 0, position)?;
        let mut others = self.entries.clone();
        others.remove(position);
        check_number(&entry, &others, position)?;
        self.entries[position] = entry;
        Ok(())
    }

    /// Sets the level count. Checks 4.
    pub fn set_levels(&mut self, levels: usize) -> Result<(), Refusal> {
        check_levels(levels)?;
        self.levels = levels as u8;
        Ok(())
    }

    /// Maps into a lent buffer and returns the levels used. Checks 10, 11.
    pub fn map(&self, buffer: &mut [u8]) -> Result<u8, Refusal> {
        map_into(&self.entries, self.levels, buffer)
    }

    /// Times `entry` in the group `first..=last`. Checks 12.
    pub fn time(&self, first: usize, last: usize, entry: usize) -> Result<Timing, Refusal> {
        if first <= entry && entry <= last && last < self.entries.len() {
            Ok(completion_in_group(&self.entries, first, last, entry))
        } else {
            Err(Refusal::plain(POSITION))
        }
    }

    /// The completion time of the entry at `position` under the map. Checks 12,
    /// 11.
    pub fn map_time(&self, position: usize) -> Result<u64, Refusal> {
        self.check_position(position)?;
        let (_, times) = self.map_and_times().ok_or(Refusal::plain(NO_MAP))?;
        Ok(times[position])
    }

    /// The map, and every entry's completion time under it, worked out from the
    /// entries and the level count.
    pub fn map_and_times(&self) -> Option<(Map, Vec<u64>)> {
        let map = map_entries(&self.entries, self.levels)?;
        let times = (0..self.entries.len())
            .map(|i| match completion(&self.entries, &map.levels, i) {
                Timing::OnTime { time, .. } => time,
                Timing::Late { .. } => unreachable!("no entry of a passing map is late"),
            })
            .collect();
        Some((map, times))
    }

    /// Any operation; only `Op::Map` looks at the buffer.
    pub fn apply(&mut self, op: &Op, buffer: &mut [u8]) -> Result<Reply, Refusal> {
        match *op {
            Op::Open(levels) => *self = Session::open(levels)?,
            Op::Insert(position, entry) => self.insert(position, entry)?,
            Op::Remove(position) => self.remove(position)?,
            Op::Replace(position, entry) => self.replace(position, entry)?,
            Op::SetLevels(levels) => self.set_levels(levels)?,
            Op::Map => return self.map(buffer).map(Reply::Mapped),
            Op::Time(first, last, entry) => {
                return self.time(first, last, entry).map(Reply::Timed);
            }
            Op::MapTime(position) => return self.map_time(position).map(Reply::MapTime),
        }
        Ok(Reply::Changed)
    }

    fn check_position(&self, position: usize) -> Result<(), Refusal> {
        if position < self.entries.len() {
            Ok(())
        } else {
            Err(Refusal::plain(POSITION))
        }
    }
}
