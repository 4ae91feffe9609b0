//! Files from one edition into the other.

use super::{check, edition, entry, Entry};

/// Converts a file of the first edition into one of the second, with every J 0,
/// and returns its length.
#[inline(never)]
pub fn convert_forward(file: &[u8], out: &mut [u8]) -> Option<usize> {
    if !check(file) || edition(file)? != (20, 1) {
        return None;
    }
    convert::<20, 24>(file, b"LMP2", out)
}

/// Converts a file of the second edition into one of the first, unless an entry
/// has J, and returns its length.
#[inline(never)]
pub fn convert_back(file: &[u8], out: &mut [u8]) -> Option<usize> {
    if !check(file) || edition(file)? != (24, 2) {
        return None;
    }
    let bodies = &file[8 + usize::from(file[4]) * 8..];
    let mut entries = bodies.as_chunks::<24>().0.iter().map(entry);
    if entries.any(|entry| entry.j > 0) {
        return None;
    }
    convert::<24, 20>(file, b"LMP1", out)
}

/// Writes the nodes of an accepted file, with entries of M bytes, with this
/// opening and entries of N bytes.
fn convert<const M: usize, const N: usize>(
    file: &[u8],
    opening: &[u8; 4],
    out: &mut [u8],
) -> Option<usize> {
    let contents = 8 + usize::from(file[4]) * 8;
    let (rows, entries) = (&file[8..contents], file[contents..].as_chunks::<M>().0);
    let out = out.get_mut(..contents + entries.len() * N)?;
    out[..4].copy_from_slice(opening);
    out[4..8].copy_from_slice(&file[4..8]);
    let mut offset = contents as u32;
    let targets = out[8..contents].as_chunks_mut::<8>().0;
    for (target, row) in targets.iter_mut().zip(rows.as_chunks::<8>().0) {
        target[..4].copy_from_slice(&row[..4]);
        target[4..].copy_from_slice(&offset.to_le_bytes());
        offset += u32::from(row[3]) * N as u32;
    }
    let targets = out[contents..].as_chunks_mut::<N>().0;
    for (target, bytes) in targets.iter_mut().zip(entries) {
        put_entry(target, &entry(bytes));
    }
    Some(out.len())
}

/// Writes an entry; in 20 bytes there is no room for J.
fn put_entry<const N: usize>(target: &mut [u8; N], entry: &Entry) {
    target[..2].copy_from_slice(&entry.number.to_le_bytes());
    target[2] = entry.kind;
    target[3] = entry.r as u8;
    target[4..8].copy_from_slice(&entry.c.to_le_bytes());
    target[8..12].copy_from_slice(&entry.t.to_le_bytes());
    target[12..16].copy_from_slice(&entry.d.to_le_bytes());
    target[16..20].copy_from_slice(&entry.b.to_le_bytes());
    if N == 24 {
        target[20..24].copy_from_slice(&entry.j.to_le_bytes());
    }
}
