//! Lent buffers with known contents.

use crate::rng::Rng;

/// Bytes that differ from their neighbours, to show what a call has changed.
pub fn known(length: usize) -> Vec<u8> {
    (0..length).map(|at| at as u8 ^ 0xA5).collect()
}

/// Bytes of any contents.
pub fn random(rng: &mut Rng, length: usize) -> Vec<u8> {
    let words = (0..length.div_ceil(8)).map(|_| rng.word().to_le_bytes());
    let mut bytes = words.collect::<Vec<[u8; 8]>>().as_flattened().to_vec();
    bytes.truncate(length);
    bytes
}

/// A length for a buffer that needs `needed` bytes: exact, longer or short.
pub fn room(rng: &mut Rng, needed: usize) -> usize {
    rng.pick(&[needed, needed, needed + 3, needed.saturating_sub(1), 0])
}
