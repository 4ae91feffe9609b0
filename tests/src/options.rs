//! The size and the seed of a run.
//!
//! Without these variables a run is always the same. `MAIPLUR_SEED` sets
//! another seed, and `MAIPLUR_SCALE` multiplies the number of generated plans.
//! `MAIPLUR_SECONDS` is the time of a fuzz run.

use crate::rng::Rng;

/// A random number generator for one part of the run; parts have different
/// numbers.
pub fn rng(part: u64) -> Rng {
    let mut seeds = Rng::new(setting("MAIPLUR_SEED", 1));
    Rng::new(seeds.word() ^ part)
}

/// How often to do what the fixed run does `fixed` times.
pub fn times(fixed: u64) -> u64 {
    fixed * setting("MAIPLUR_SCALE", 1)
}

/// The number in an environment variable, or `unset` if the variable is not
/// set.
pub fn setting(name: &str, unset: u64) -> u64 {
    match std::env::var(name) {
        Ok(text) => text
            .parse()
            .unwrap_or_else(|_| panic!("{name} is a number")),
        Err(_) => unset,
    }
}
