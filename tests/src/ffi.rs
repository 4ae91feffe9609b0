//! The proved library, called through its C functions.
//!
//! Each function here wraps one of include/maiplur.h, and returns a refusal in
//! the form of the second implementation.

pub mod session;

use crate::model::Edition;
use crate::refusal::{Refusal, NUMBERS};

/// What a call leaves besides its number.
pub type Values = [usize; 3];

/// The contents of `values` before a call; each call overwrites them.
const UNSET: usize = usize::MAX;

extern "C" {
    fn maiplur_check(file: *const u8, file_length: usize, values: *mut Values) -> u32;
    fn maiplur_read(
        file: *const u8,
        file_length: usize,
        rows: *mut u32,
        row_count: usize,
        entries: *mut u32,
        word_count: usize,
        values: *mut Values,
    ) -> u32;
    fn maiplur_write(
        edition: u32,
        rows: *const u32,
        row_count: usize,
        entries: *const u32,
        word_count: usize,
        file: *mut u8,
        file_length: usize,
        values: *mut Values,
    ) -> u32;
    fn maiplur_map(
        file: *const u8,
        file_length: usize,
        number: u16,
        levels: *mut u8,
        level_count: usize,
        values: *mut Values,
    ) -> u32;
    fn maiplur_list(
        file: *const u8,
        file_length: usize,
        text: *mut u8,
        text_length: usize,
        values: *mut Values,
    ) -> u32;
    fn maiplur_convert_forward(
        file: *const u8,
        file_length: usize,
        out: *mut u8,
        out_length: usize,
        values: *mut Values,
    ) -> u32;
    fn maiplur_convert_back(
        file: *const u8,
        file_length: usize,
        out: *mut u8,
        out_length: usize,
        values: *mut Values,
    ) -> u32;
}

/// Accepts a plan file, or refuses it.
pub fn check(file: &[u8]) -> Result<(), Refusal> {
    let mut values = [UNSET; 3];
    // SAFETY: the pointers come from a slice and an array that live through the call.
    let number = unsafe { maiplur_check(file.as_ptr(), file.len(), &mut values) };
    let given = answer(number, values)?;
    assert_eq!(given, [0; 3], "a check gives nothing");
    Ok(())
}

/// Reads a file into words, and returns how many rows and entries, and the
/// edition.
pub fn read(
    file: &[u8],
    rows: &mut [u32],
    entries: &mut [u32],
) -> Result<(usize, usize, Edition), Refusal> {
    let mut values = [UNSET; 3];
    // SAFETY: as above; what is written is borrowed mutably, so nothing overlaps.
    let number = unsafe {
        maiplur_read(
            file.as_ptr(),
            file.len(),
            rows.as_mut_ptr(),
            rows.len(),
            entries.as_mut_ptr(),
            entries.len(),
            &mut values,
        )
    };
    let [rows, entries, number] = answer(number, values)?;
    let edition = Edition::numbered(number as u32).expect("an edition has the number");
    Ok((rows, entries, edition))
}

/// Writes words as a file of the edition with this number, and returns its
/// length.
pub fn write(
    edition: u32,
    rows: &[u32],
    entries: &[u32],
    file: &mut [u8],
) -> Result<usize, Refusal> {
    let mut values = [UNSET; 3];
    // SAFETY: as above.
    let number = unsafe {
        maiplur_write(
            edition,
            rows.as_ptr(),
            rows.len(),
            entries.as_ptr(),
            entries.len(),
            file.as_mut_ptr(),
            file.len(),
            &mut values,
        )
    };
    one(answer(number, values)?)
}

/// Maps the node with this number, and returns the levels used.
pub fn map(file: &[u8], number: u16, levels: &mut [u8]) -> Result<usize, Refusal> {
    let mut values = [UNSET; 3];
    // SAFETY: as above.
    let number = unsafe {
        maiplur_map(
            file.as_ptr(),
            file.len(),
            number,
            levels.as_mut_ptr(),
            levels.len(),
            &mut values,
        )
    };
    one(answer(number, values)?)
}

/// Lists a file, and returns the text's length.
pub fn list(file: &[u8], text: &mut [u8]) -> Result<usize, Refusal> {
    let mut values = [UNSET; 3];
    // SAFETY: as above.
    let number = unsafe {
        maiplur_list(
            file.as_ptr(),
            file.len(),
            text.as_mut_ptr(),
            text.len(),
            &mut values,
        )
    };
    one(answer(number, values)?)
}

/// Converts a first-edition file into the second edition, and returns the new
/// length.
pub fn convert_forward(file: &[u8], out: &mut [u8]) -> Result<usize, Refusal> {
    let mut values = [UNSET; 3];
    // SAFETY: as above.
    let number = unsafe {
        maiplur_convert_forward(
            file.as_ptr(),
            file.len(),
            out.as_mut_ptr(),
            out.len(),
            &mut values,
        )
    };
    one(answer(number, values)?)
}

/// Converts a second-edition file without J into the first edition, and returns
/// the new length.
pub fn convert_back(file: &[u8], out: &mut [u8]) -> Result<usize, Refusal> {
    let mut values = [UNSET; 3];
    // SAFETY: as above.
    let number = unsafe {
        maiplur_convert_back(
            file.as_ptr(),
            file.len(),
            out.as_mut_ptr(),
            out.len(),
            &mut values,
        )
    };
    one(answer(number, values)?)
}

/// The values if nothing is refused. A refusal has two places, and the third
/// value is 0.
fn answer(number: u32, values: Values) -> Result<Values, Refusal> {
    assert!(number <= u32::from(NUMBERS), "no refusal has {number}");
    if number == 0 {
        return Ok(values);
    }
    let [row, entry, third] = values;
    assert_eq!(third, 0, "a refusal has two places");
    Err(Refusal::at_entry(number as u8, row, entry))
}

/// The first value; the others must be 0.
fn one([first, rest @ ..]: Values) -> Result<usize, Refusal> {
    assert_eq!(rest, [0; 2], "one value is given");
    Ok(first)
}
