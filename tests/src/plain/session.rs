//! The session in plain Rust: the lent memory is checked as the proved
//! functions check it, and changed in place. After every change the node is
//! mapped, and if there is a map, every entry is timed under it. Who asks for the
//! map or a time has it worked out again, as one would without a store.

use super::{completion, demand, entry_holds, map_entries, Entry, Marks, MOST};
use crate::ffi::session::Session;
use crate::timing::Timing;
use crate::words::ENTRY_WORDS;

/// The entry that six words hold.
pub(super) fn entry(words: &[u32; ENTRY_WORDS]) -> Entry {
    let [low, high, kind, r] = words[0].to_le_bytes();
    Entry {
        number: u16::from_le_bytes([low, high]),
        kind,
        r: u32::from(r),
        c: words[1],
        t: words[2],
        d: words[3],
        b: words[4],
        j: words[5],
    }
}

/// The number of the entry in six words.
pub(super) fn number(words: &[u32; ENTRY_WORDS]) -> u16 {
    words[0] as u16
}

/// How many entries a sound session has.
fn count_of(session: &Session) -> Option<usize> {
    let count = session.count as usize;
    if !(1..=64).contains(&session.levels) || count > MOST {
        return None;
    }
    let entries = &session.words.as_chunks().0[..count];
    let sound = entries.iter().all(|words| entry_holds(&entry(words)));
    (sound && Marks::<1024>::new().differ(1, entries, number)).then_some(count)
}

/// Inserts an entry, and returns whether it did.
#[inline(never)]
pub fn insert(session: &mut Session, position: usize, words: &[u32; ENTRY_WORDS]) -> bool {
    let Some(count) = count_of(session) else {
        return false;
    };
    if position > count || count == MOST || !entry_holds(&entry(words)) {
        return false;
    }
    let entries = session.words.as_chunks_mut().0;
    if entries[..count].iter().any(|e| number(e) == number(words)) {
        return false;
    }
    entries.copy_within(position..count, position + 1);
    entries[position] = *words;
    entries[count + 1..].fill([0; ENTRY_WORDS]);
    session.count += 1;
    store(session);
    true
}

/// Removes an entry, and returns whether it did.
#[inline(never)]
pub fn remove(session: &mut Session, position: usize) -> bool {
    let Some(count) = count_of(session) else {
        return false;
    };
    if position >= count {
        return false;
    }
    let entries: &mut [[u32; ENTRY_WORDS]] = session.words.as_chunks_mut().0;
    entries.copy_within(position + 1..count, position);
    entries[count - 1..].fill([0; ENTRY_WORDS]);
    session.count -= 1;
    store(session);
    true
}

/// Replaces an entry, and returns whether it did.
#[inline(never)]
pub fn replace(session: &mut Session, position: usize, words: &[u32; ENTRY_WORDS]) -> bool {
    let Some(count) = count_of(session) else {
        return false;
    };
    if position >= count || !entry_holds(&entry(words)) {
        return false;
    }
    let entries = session.words.as_chunks_mut().0;
    let mut others = (0..count).filter(|&at| at != position);
    if others.any(|at| number(&entries[at]) == number(words)) {
        return false;
    }
    entries[position] = *words;
    entries[count..].fill([0; ENTRY_WORDS]);
    store(session);
    true
}

/// Sets the level count, and returns whether it did.
#[inline(never)]
pub fn set_levels(session: &mut Session, levels: u8) -> bool {
    let Some(count) = count_of(session) else {
        return false;
    };
    if !(1..=64).contains(&levels) {
        return false;
    }
    session.levels = u32::from(levels);
    session.words[count * ENTRY_WORDS..].fill(0);
    store(session);
    true
}

/// Stores the map of the node, and the times under it.
fn store(session: &mut Session) {
    let count = session.count as usize;
    let entries = &load(session, count)[..count];
    (session.mapped, session.used) = (0, 0);
    session.map.fill(0);
    session.times.fill(0);
    if let Some((map, used)) = map_entries(entries, session.levels as u8) {
        (session.mapped, session.used) = (1, u32::from(used));
        for i in 0..count {
            session.map[i] = u32::from(map[i]);
            session.times[i] = time_under(entries, &map[..count], i);
        }
    }
}

/// The completion time of an entry under a map that passes.
fn time_under(entries: &[Entry], map: &[u8], i: usize) -> u32 {
    let same = |level: &u8| *level == map[i];
    let first = map.iter().position(same).expect("its own level");
    let last = map.iter().rposition(same).expect("its own level");
    match completion(entries, first, last, i) {
        Ok((time, _)) => time,
        Err(_) => unreachable!("no entry of a map is late"),
    }
}

/// Times an entry in a group. Only for a late one is the overrun computed.
#[inline(never)]
pub fn time(session: &Session, first: usize, last: usize, i: usize) -> Option<Timing> {
    let count = count_of(session)?;
    if first > i || i > last || last >= count {
        return None;
    }
    let entries = &load(session, last + 1)[..=last];
    Some(match completion(entries, first, last, i) {
        Ok((time, rounds)) => Timing::OnTime {
            time: u64::from(time),
            rounds: u64::from(rounds),
        },
        Err(rounds) => {
            let limit = entries[i].d - entries[i].j;
            Timing::Late {
                rounds: u64::from(rounds),
                overrun: demand(entries, first, last, i, limit) - u64::from(limit),
            }
        }
    })
}

/// Maps the node, and returns the levels used.
#[inline(never)]
pub fn map(session: &Session, levels: &mut [u8]) -> Option<usize> {
    let count = count_of(session)?;
    let target = levels.get_mut(..count)?;
    let entries = load(session, count);
    let (map, used) = map_entries(&entries[..count], session.levels as u8)?;
    target.copy_from_slice(&map[..count]);
    Some(usize::from(used))
}

/// The time of an entry under the map, which is worked out for it.
#[inline(never)]
pub fn map_time(session: &Session, i: usize) -> Option<u64> {
    let count = count_of(session)?;
    if i >= count {
        return None;
    }
    let entries = &load(session, count)[..count];
    let (map, _) = map_entries(entries, session.levels as u8)?;
    Some(u64::from(time_under(entries, &map[..count], i)))
}

/// The first `count` entries of a session.
fn load(session: &Session, count: usize) -> [Entry; MOST] {
    let mut entries = [Entry::default(); MOST];
    for (target, words) in entries[..count].iter_mut().zip(session.words.as_chunks().0) {
        *target = entry(words);
    }
    entries
}
