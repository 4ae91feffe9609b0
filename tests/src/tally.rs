//! Counts of a run: how often each refusal number came, how many maps and
//! timings, and how many nodes were left out for their cost.

use crate::refusal::{Refusal, NO_MAP, NUMBERS, POSITION};
use crate::timing::Timing;
use std::fmt;

/// Counts of accepted and refused calls.
#[derive(Clone, Debug, Default, PartialEq, Eq)]
pub struct Tally {
    accepted: u64,
    refused: [u64; NUMBERS as usize],
    maps: u64,
    on_time: u64,
    late: u64,
    /// Late by more than 32 bits hold.
    far: u64,
    map_times: MapTimes,
    level_counts: LevelCounts,
    nodes: u64,
    left_out: u64,
}

/// Counts of times asked for under the map.
#[derive(Clone, Debug, Default, PartialEq, Eq)]
struct MapTimes {
    asked: u64,
    answered: u64,
    /// Refused as 11.
    none: u64,
    /// Refused as 12.
    outside: u64,
}

/// Counts of level counts that were set.
#[derive(Clone, Debug, Default, PartialEq, Eq)]
struct LevelCounts {
    /// With a map before and after.
    kept: u64,
    lost: u64,
    regained: u64,
    /// Without a map before and after.
    without: u64,
}

impl Tally {
    /// Counts one answer and returns it.
    pub fn note<T>(&mut self, answer: Result<T, Refusal>) -> Result<T, Refusal> {
        match &answer {
            Ok(_) => self.accepted += 1,
            Err(refusal) => self.refused[usize::from(refusal.number) - 1] += 1,
        }
        answer
    }

    /// Counts a map that uses `used` levels; the map of an empty node does not
    /// count.
    pub fn map(&mut self, used: u8) {
        self.maps += u64::from(used > 0);
    }

    /// Counts the timing of an entry.
    pub fn timed(&mut self, timing: &Timing) {
        match *timing {
            Timing::OnTime { .. } => self.on_time += 1,
            Timing::Late { overrun, .. } => {
                self.late += 1;
                self.far += u64::from(overrun > u64::from(u32::MAX));
            }
        }
    }

    /// Counts the answer to a question for an entry's time under the map.
    pub fn map_time<T>(&mut self, answer: &Result<T, Refusal>) {
        let counts = &mut self.map_times;
        counts.asked += 1;
        match answer.as_ref().map_err(|refusal| refusal.number) {
            Ok(_) => counts.answered += 1,
            Err(NO_MAP) => counts.none += 1,
            Err(POSITION) => counts.outside += 1,
            Err(_) => {}
        }
    }

    /// Counts a level count that was set; `had` and `has` say whether the session
    /// had a map before, and has one after.
    pub fn set_levels(&mut self, had: bool, has: bool) {
        let counts = &mut self.level_counts;
        match (had, has) {
            (true, true) => counts.kept += 1,
            (true, false) => counts.lost += 1,
            (false, true) => counts.regained += 1,
            (false, false) => counts.without += 1,
        }
    }

    /// Counts one good node; `done` says whether it was mapped, or left out for
    /// its cost.
    pub fn node(&mut self, done: bool) {
        self.nodes += 1;
        self.left_out += u64::from(!done);
    }

    /// How often a call was refused with this number.
    pub fn met(&self, number: u8) -> u64 {
        self.refused[usize::from(number) - 1]
    }

    /// How often a call was accepted.
    pub fn accepted(&self) -> u64 {
        self.accepted
    }

    /// Asserts that at least `maps` calls gave a map, and at least `none` did
    /// not.
    pub fn assert_maps(&self, maps: u64, none: u64) {
        assert!(self.maps >= maps && self.met(NO_MAP) >= none, "{self}");
    }

    /// Asserts that at least so many entries were timed as on time, as late, and
    /// as late by more than 32 bits hold.
    pub fn assert_timed(&self, on_time: u64, late: u64, far: u64) {
        assert!(
            self.on_time >= on_time && self.late >= late && self.far >= far,
            "{self}"
        );
    }

    /// Asserts that at least so many questions for an entry's time under the map
    /// were answered, refused as 11, and refused as 12.
    pub fn assert_map_times(&self, answered: u64, none: u64, outside: u64) {
        let met = &self.map_times;
        assert!(
            met.answered >= answered && met.none >= none && met.outside >= outside,
            "{self}"
        );
    }

    /// Asserts that at least so many level counts were set that kept a map, that
    /// lost one, that gave one, and without a map before and after.
    pub fn assert_level_counts(&self, least: [u64; 4]) {
        let counts = &self.level_counts;
        let met = [counts.kept, counts.lost, counts.regained, counts.without];
        assert!(
            met.iter().zip(least).all(|(met, least)| *met >= least),
            "{self}"
        );
    }

    /// Asserts that at most one node in `whole` was left out for its cost.
    pub fn assert_few_left_out(&self, whole: u64) {
        assert!(
            self.nodes > 0 && self.left_out * whole <= self.nodes,
            "{self}"
        );
    }

    /// Asserts that no node was left out for its cost.
    pub fn assert_none_left_out(&self) {
        assert!(self.nodes > 0 && self.left_out == 0, "{self}");
    }
}

impl fmt::Display for Tally {
    fn fmt(&self, f: &mut fmt::Formatter<'_>) -> fmt::Result {
        write!(f, "accepted {}", self.accepted)?;
        for number in (1..=NUMBERS).filter(|&number| self.met(number) > 0) {
            write!(f, ", refused {number}: {}", self.met(number))?;
        }
        if self.maps > 0 {
            write!(f, "; {} maps", self.maps)?;
        }
        if self.on_time + self.late > 0 {
            let Tally {
                on_time, late, far, ..
            } = self;
            write!(f, "; {on_time} on time, {late} late")?;
            if *far > 0 {
                write!(f, ", {far} of them by more than {}", u32::MAX)?;
            }
        }
        if self.map_times.asked > 0 {
            let MapTimes {
                asked,
                answered,
                none,
                outside,
            } = self.map_times;
            write!(
                f,
                "; {asked} times under the map asked for: {answered} given, "
            )?;
            write!(f, "{none} refused as 11, {outside} as 12")?;
        }
        let LevelCounts {
            kept,
            lost,
            regained,
            without,
        } = self.level_counts;
        let set = kept + lost + regained + without;
        if set > 0 {
            write!(f, "; {set} level counts set: {kept} kept a map, ")?;
            write!(f, "{lost} lost one, {regained} gave one, {without} neither")?;
        }
        if self.nodes > 0 {
            let (left_out, nodes) = (self.left_out, self.nodes);
            write!(f, "; {left_out} of {nodes} nodes left out for their cost")?;
        }
        Ok(())
    }
}
