//! Compares the library with the second implementation on random inputs, for a
//! given time.
//!
//! `MAIPLUR_SECONDS` sets the time, `MAIPLUR_SEED` the seed. A file or a
//! sequence of session operations on which the implementations differ goes to
//! tests/corpus, and from then on the tests try it too.

use oracle::corpus;
use oracle::fuzz::{Difference, Fuzz};
use oracle::options;
use std::time::{Duration, Instant};
use std::{fs, process};

fn main() {
    let until = Instant::now() + Duration::from_secs(options::setting("MAIPLUR_SECONDS", 10));
    let mut fuzz = Fuzz::new(options::rng(250));
    while Instant::now() < until {
        if let Err(difference) = fuzz.step() {
            report(&difference);
        }
    }
    println!("{fuzz}");
}

fn report(Difference { end, contents }: &Difference) -> ! {
    let sum = contents.iter().fold(0_u64, |sum, &byte| {
        sum.wrapping_mul(0x100_0000_01B3) ^ u64::from(byte)
    });
    let path = corpus::found().join(format!("{sum:016x}.{end}"));
    fs::create_dir_all(corpus::found()).expect("tests/ can be written");
    fs::write(&path, contents).expect("tests/corpus can be written");
    eprintln!("a difference: {}", path.display());
    process::exit(1);
}
