//! The completion time test of an entry, and a faster decision whether the
//! entry is on time, which makes rounds only if nothing cheaper decides.

use super::entry::Entry;
use crate::timing::Timing;

/// A utilisation of 1; utilisations are in units of 2^-34.
const FULL_UTILISATION: u64 = 1 << 34;

/// The sum of C over these entries.
pub fn runs_of(entries: &[impl Entry]) -> u64 {
    entries.iter().map(|entry| u64::from(entry.wcet())).sum()
}

/// What an entry on a more urgent level runs in `t` ticks. The first period
/// needs no division.
fn higher_level_interference(entry: &impl Entry, t: u32) -> u64 {
    let (wcet, period) = (u64::from(entry.wcet()), entry.period());
    let late = t + entry.jitter();
    if late <= period {
        return wcet;
    }
    wcet * u64::from((late + (period - 1)) / period)
}

/// What an entry on the same level as the tested one runs in `t` ticks; `calls`
/// is that of the tested entry. Once `calls` periods are past, the count is at
/// its limit and needs no division.
fn same_level_interference(entry: &impl Entry, calls: u32, t: u32) -> u64 {
    if u64::from(entry.period()) * u64::from(calls) < u64::from(t + entry.jitter()) {
        return u64::from(entry.wcet()) * u64::from(calls + 1);
    }
    higher_level_interference(entry, t)
}

/// An entry in its group, with the entries that its demand counts.
pub struct Test<'a, E> {
    own: &'a E,
    /// The time at which the test starts: B of the entry plus C of every entry.
    initial_time: u64,
    /// The entries on more urgent levels.
    urgent: &'a [E],
    /// The other entries on its level.
    before: &'a [E],
    after: &'a [E],
}

impl<'a, E: Entry> Test<'a, E> {
    /// The entry at `i`, in the group from `first` to the last of these
    /// entries; `runs` is the sum of C over all of them.
    pub fn new(entries: &'a [E], first: usize, i: usize, runs: u64) -> Test<'a, E> {
        let (earlier, later) = entries.split_at(i);
        let (urgent, before) = earlier.split_at(first);
        let (own, after) = later.split_first().expect("the entry is in the list");
        Test {
            own,
            initial_time: u64::from(own.blocking()) + runs,
            urgent,
            before,
            after,
        }
    }

    /// The test, with its rounds, and with the overrun of a late entry.
    pub fn completion(&self) -> Timing {
        let limit = u64::from(self.own.limit());
        let mut t = self.initial_time;
        let mut rounds = 0;
        while t <= limit {
            let next = self.demand(t as u32);
            rounds += 1;
            if next == t {
                return Timing::OnTime { time: t, rounds };
            }
            t = next;
        }
        let overrun = self.demand(self.own.limit()) - limit;
        Timing::Late { rounds, overrun }
    }

    /// The completion time of an entry that is on time, without its rounds;
    /// `known` is at most that time. It is the initial time or the known one if
    /// the demand is met there; else rounds that begin as late as the utilisation
    /// allows find it.
    pub fn time_from(&self, known: u64) -> u64 {
        let early = self.initial_time.max(known);
        let next = self.demand(early as u32);
        if next <= early {
            return early;
        }
        let mut t = next.max(self.completion_bound());
        loop {
            let next = self.demand(t as u32);
            if next <= t {
                return t;
            }
            t = next;
        }
    }

    /// Whether the entry ends by its limit. The initial time decides, or the
    /// demand at the limit, or else rounds that begin as late as the
    /// utilisation allows.
    pub fn is_on_time(&self) -> bool {
        let limit = self.own.limit();
        if self.initial_time > u64::from(limit) {
            return false;
        }
        self.demand(limit) <= u64::from(limit) || self.is_met_from(self.completion_bound())
    }

    /// The demand at `t`.
    fn demand(&self, t: u32) -> u64 {
        let calls = self.own.calls();
        let mut sum = u64::from(self.own.wcet()) + u64::from(self.own.blocking());
        for entry in self.urgent {
            sum += higher_level_interference(entry, t);
        }
        for entry in self.before {
            sum += same_level_interference(entry, calls, t);
        }
        for entry in self.after {
            sum += same_level_interference(entry, calls, t);
        }
        sum
    }

    /// A time before which the demand is not met: the initial time, or a later
    /// one if the utilisation of the more urgent entries that are released
    /// again before the limit shows it. What they run for their jitter is cut
    /// where it already misses the limit, before it passes 64 bits.
    fn completion_bound(&self) -> u64 {
        let limit = self.own.limit();
        let most = FULL_UTILISATION * u64::from(limit);
        let (mut utilisation, mut runs, mut jitter) = (0, 0, 0);
        for entry in self.urgent {
            if limit + entry.jitter() > entry.period() {
                let part = FULL_UTILISATION * u64::from(entry.wcet()) / u64::from(entry.period());
                utilisation += part;
                runs += u64::from(entry.wcet());
                jitter += (part * u64::from(entry.jitter())).min(most - jitter);
            }
        }
        let once = FULL_UTILISATION * (self.initial_time - runs);
        if utilisation >= FULL_UTILISATION || jitter > most - once {
            return u64::from(limit) + 1;
        }
        let by_utilisation = (once + jitter).div_ceil(FULL_UTILISATION - utilisation);
        by_utilisation.max(self.initial_time)
    }

    /// Whether the demand is met by the limit, by rounds from `t`; it must not
    /// be met before `t`.
    fn is_met_from(&self, mut t: u64) -> bool {
        let limit = u64::from(self.own.limit());
        while t <= limit {
            let next = self.demand(t as u32);
            if next <= t {
                return true;
            }
            t = next;
        }
        false
    }
}
