//! Random changes to files, for the fuzz run.

use crate::file::{
    contents_end, edition_of, entry_length, FIRST_ENTRY, HEAD_BYTES, ROW_BYTES, SECOND_ENTRY,
};
use crate::model::Edition;
use crate::rng::Rng;

/// Numbers near the limits of some field.
const TELLING: [u32; 14] = [
    0,
    1,
    2,
    3,
    15,
    16,
    32,
    33,
    64,
    65,
    255,
    999_999_999,
    1_000_000_000,
    1_000_000_001,
];

/// The file after a few changes, in half of the draws with corrected offsets
/// and length.
pub fn mutate(rng: &mut Rng, file: &[u8], other: &[u8]) -> Vec<u8> {
    let mut file = file.to_vec();
    for _ in 0..rng.range(1, 3) {
        change(rng, &mut file, other);
    }
    if rng.chance(1, 2) {
        lay_out(&mut file);
    }
    file
}

fn change(rng: &mut Rng, file: &mut Vec<u8>, other: &[u8]) {
    if file.is_empty() {
        file.extend_from_slice(other);
        return;
    }
    let at = rng.index(file.len());
    match rng.below(13) {
        0 => file[at] = rng.word() as u8,
        1 => file[at] ^= 1 << rng.below(8),
        2 => file[at] = rng.pick(&TELLING) as u8,
        3 => put_word(file, at / 4 * 4, rng.pick(&TELLING)),
        4 => put_word(file, at / 4 * 4, rng.below(200) as u32),
        5 => file.truncate(at),
        6 => {
            let more = rng.count(1, SECOND_ENTRY);
            file.resize(file.len() + more, 0);
        }
        7 => change_edition(file),
        8 => change_jitter(rng, file),
        9 => clear_jitter(file),
        10 | 11 => repeat_number(rng, file),
        _ => take_over(rng, file, other),
    }
}

/// Exchanges the opening bytes of the two editions.
fn change_edition(file: &mut [u8]) {
    if let Some(byte) = file.get_mut(3) {
        *byte = match *byte {
            0x31 => 0x32,
            _ => 0x31,
        };
    }
}

/// Sets J of an entry of the second edition to D - C, a tick more or less, or
/// one tick.
fn change_jitter(rng: &mut Rng, file: &mut [u8]) {
    let entries = second_entries(file);
    if entries.is_empty() {
        return;
    }
    let at = rng.index(entries.len());
    let words = entries[at].as_chunks_mut::<4>().0;
    let [c, d] = [1, 3].map(|field| u32::from_le_bytes(words[field]));
    let most = d.wrapping_sub(c);
    let j = rng.pick(&[most, most.wrapping_add(1), most.wrapping_sub(1), 1]);
    words[5] = j.to_le_bytes();
}

/// Sets every J of the second edition to 0.
fn clear_jitter(file: &mut [u8]) {
    for entry in second_entries(file) {
        entry[FIRST_ENTRY..].fill(0);
    }
}

/// The entries of a file of the second edition; of another, none.
fn second_entries(file: &mut [u8]) -> &mut [[u8; SECOND_ENTRY]] {
    if file.len() < HEAD_BYTES || edition_of(file) != Some(Edition::Second) {
        return &mut [];
    }
    let bodies = contents_end(usize::from(file[4])).min(file.len());
    file[bodies..].as_chunks_mut().0
}

/// Gives an entry the number of one of the three before it, which may be one of
/// another node.
fn repeat_number(rng: &mut Rng, file: &mut [u8]) {
    let Some(edition) = edition_of(file).filter(|_| file.len() >= HEAD_BYTES) else {
        return;
    };
    let (bodies, length) = (contents_end(usize::from(file[4])), entry_length(edition));
    let count = file.len().saturating_sub(bodies) / length;
    if count > 1 {
        let to = rng.count(1, count - 1);
        let from = bodies + (to - rng.count(1, to.min(3))) * length;
        file.copy_within(from..from + 2, bodies + to * length);
    }
}

fn put_word(file: &mut [u8], at: usize, value: u32) {
    for (target, byte) in file[at..].iter_mut().zip(value.to_le_bytes()) {
        *target = byte;
    }
}

/// Copies 4 bytes, or as many as a row or an entry has, from the other file.
fn take_over(rng: &mut Rng, file: &mut [u8], other: &[u8]) {
    if other.is_empty() {
        return;
    }
    let length = rng.pick(&[4, ROW_BYTES, FIRST_ENTRY, SECOND_ENTRY]);
    let (to, from) = (rng.index(file.len()), rng.index(other.len()));
    for (target, byte) in file[to..].iter_mut().zip(&other[from..]).take(length) {
        *target = *byte;
    }
}

/// Makes the offsets and the length fit the counts and the edition, so that more
/// of the changed files pass the checks of the contents.
fn lay_out(file: &mut Vec<u8>) {
    if file.len() < HEAD_BYTES || file.len() < contents_end(usize::from(file[4])) {
        return;
    }
    let nodes = usize::from(file[4]);
    let length = entry_length(edition_of(file).unwrap_or(Edition::First));
    let mut offset = contents_end(nodes);
    for index in 0..nodes {
        let at = contents_end(index);
        put_word(file, at + 4, offset as u32);
        offset += usize::from(file[at + 3].min(64)) * length;
    }
    // Bytes of 1 are a good entry if its J is 0; the numbers must differ.
    file.truncate(offset);
    let bodies = contents_end(nodes);
    let missing = (file.len()..offset).map(|at| ((at - bodies) / length, (at - bodies) % length));
    file.extend(missing.map(|(entry, at)| match at {
        0 => entry as u8,
        1 => 0x80 | (entry >> 8) as u8,
        _ => u8::from(at < FIRST_ENTRY),
    }));
}
