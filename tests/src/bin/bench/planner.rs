//! The three planners that are measured, with the same calls.

use oracle::ffi;
use oracle::ffi::session::Session;
use oracle::model::Edition;
use oracle::plain;
use oracle::timing::Timing;
use oracle::tuned;
use oracle::words::ENTRY_WORDS;

/// An entry in words.
pub type Entry = [u32; ENTRY_WORDS];

/// One of the three planners. A refused call answers `false` or `None`.
pub trait Planner {
    fn check(file: &[u8]) -> bool;
    /// How many rows and entries, and the edition.
    fn read(file: &[u8], rows: &mut [u32], words: &mut [u32]) -> Option<(usize, usize, u32)>;
    fn write(edition: u32, rows: &[u32], words: &[u32], file: &mut [u8]) -> Option<usize>;
    /// Converts a file out of this edition into the other.
    fn convert(from: Edition, file: &[u8], out: &mut [u8]) -> Option<usize>;
    fn map(file: &[u8], number: u16, levels: &mut [u8]) -> Option<usize>;
    fn list(file: &[u8], text: &mut [u8]) -> Option<usize>;
    fn insert(session: &mut Session, position: usize, entry: &Entry) -> bool;
    fn remove(session: &mut Session, position: usize) -> bool;
    fn set_levels(session: &mut Session, levels: u8) -> bool;
    fn time(session: &Session, first: usize, last: usize, i: usize) -> Option<Timing>;
    fn map_session(session: &Session, levels: &mut [u8]) -> Option<usize>;
    fn map_time(session: &Session, i: usize) -> Option<u64>;
}

/// The proved library.
pub struct Proved;

impl Planner for Proved {
    fn check(file: &[u8]) -> bool {
        ffi::check(file).is_ok()
    }

    fn read(file: &[u8], rows: &mut [u32], words: &mut [u32]) -> Option<(usize, usize, u32)> {
        ffi::read(file, rows, words).ok().map(numbered)
    }

    fn write(edition: u32, rows: &[u32], words: &[u32], file: &mut [u8]) -> Option<usize> {
        ffi::write(edition, rows, words, file).ok()
    }

    fn convert(from: Edition, file: &[u8], out: &mut [u8]) -> Option<usize> {
        match from {
            Edition::First => ffi::convert_forward(file, out).ok(),
            Edition::Second => ffi::convert_back(file, out).ok(),
        }
    }

    fn map(file: &[u8], number: u16, levels: &mut [u8]) -> Option<usize> {
        ffi::map(file, number, levels).ok()
    }

    fn list(file: &[u8], text: &mut [u8]) -> Option<usize> {
        ffi::list(file, text).ok()
    }

    fn insert(session: &mut Session, position: usize, entry: &Entry) -> bool {
        session.insert(position, entry).is_ok()
    }

    fn remove(session: &mut Session, position: usize) -> bool {
        session.remove(position).is_ok()
    }

    fn set_levels(session: &mut Session, levels: u8) -> bool {
        session.set_levels(levels).is_ok()
    }

    fn time(session: &Session, first: usize, last: usize, i: usize) -> Option<Timing> {
        session.time(first, last, i).ok()
    }

    fn map_session(session: &Session, levels: &mut [u8]) -> Option<usize> {
        session.map(levels).ok()
    }

    fn map_time(session: &Session, i: usize) -> Option<u64> {
        session.map_time(i).ok()
    }
}

/// Rust tuned by hand, with the decisions of the proved library.
pub struct Tuned;

impl Planner for Tuned {
    fn check(file: &[u8]) -> bool {
        tuned::check(file).is_ok()
    }

    fn read(file: &[u8], rows: &mut [u32], words: &mut [u32]) -> Option<(usize, usize, u32)> {
        tuned::read(file, rows, words).ok().map(numbered)
    }

    fn write(edition: u32, rows: &[u32], words: &[u32], file: &mut [u8]) -> Option<usize> {
        tuned::write(edition, rows, words, file).ok()
    }

    fn convert(from: Edition, file: &[u8], out: &mut [u8]) -> Option<usize> {
        match from {
            Edition::First => tuned::convert_forward(file, out).ok(),
            Edition::Second => tuned::convert_back(file, out).ok(),
        }
    }

    fn map(file: &[u8], number: u16, levels: &mut [u8]) -> Option<usize> {
        tuned::map(file, number, levels).ok()
    }

    fn list(file: &[u8], text: &mut [u8]) -> Option<usize> {
        tuned::list(file, text).ok()
    }

    fn insert(session: &mut Session, position: usize, entry: &Entry) -> bool {
        tuned::session::insert(session, position, entry).is_ok()
    }

    fn remove(session: &mut Session, position: usize) -> bool {
        tuned::session::remove(session, position).is_ok()
    }

    fn set_levels(session: &mut Session, levels: u8) -> bool {
        tuned::session::set_levels(session, levels).is_ok()
    }

    fn time(session: &Session, first: usize, last: usize, i: usize) -> Option<Timing> {
        tuned::session::time(session, first, last, i).ok()
    }

    fn map_session(session: &Session, levels: &mut [u8]) -> Option<usize> {
        tuned::session::map(session, levels).ok()
    }

    fn map_time(session: &Session, i: usize) -> Option<u64> {
        tuned::session::map_time(session, i).ok()
    }
}

/// Plain Rust, which makes every round.
pub struct Plain;

impl Planner for Plain {
    fn check(file: &[u8]) -> bool {
        plain::check(file)
    }

    fn read(file: &[u8], rows: &mut [u32], words: &mut [u32]) -> Option<(usize, usize, u32)> {
        plain::read(file, rows, words)
    }

    fn write(edition: u32, rows: &[u32], words: &[u32], file: &mut [u8]) -> Option<usize> {
        plain::write(edition, rows, words, file)
    }

    fn convert(from: Edition, file: &[u8], out: &mut [u8]) -> Option<usize> {
        match from {
            Edition::First => plain::convert_forward(file, out),
            Edition::Second => plain::convert_back(file, out),
        }
    }

    fn map(file: &[u8], number: u16, levels: &mut [u8]) -> Option<usize> {
        plain::map(file, number, levels)
    }

    fn list(file: &[u8], text: &mut [u8]) -> Option<usize> {
        plain::list(file, text)
    }

    fn insert(session: &mut Session, position: usize, entry: &Entry) -> bool {
        plain::session::insert(session, position, entry)
    }

    fn remove(session: &mut Session, position: usize) -> bool {
        plain::session::remove(session, position)
    }

    fn set_levels(session: &mut Session, levels: u8) -> bool {
        plain::session::set_levels(session, levels)
    }

    fn time(session: &Session, first: usize, last: usize, i: usize) -> Option<Timing> {
        plain::session::time(session, first, last, i)
    }

    fn map_session(session: &Session, levels: &mut [u8]) -> Option<usize> {
        plain::session::map(session, levels)
    }

    fn map_time(session: &Session, i: usize) -> Option<u64> {
        plain::session::map_time(session, i)
    }
}

/// What was read, with the number of the edition.
fn numbered((rows, entries, edition): (usize, usize, Edition)) -> (usize, usize, u32) {
    (rows, entries, edition.number())
}
