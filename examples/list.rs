//! Lists the plan file on standard input, from Rust.
//!
//! rustc --edition 2021 examples/list.rs -L target/staticlib -l static=planner_c && ./list < plan

use std::io::{self, Read, Write};

extern "C" {
    fn maiplur_list(
        file: *const u8,
        file_length: usize,
        text: *mut u8,
        text_length: usize,
        values: *mut [usize; 3],
    ) -> u32;
}

/// As MAIPLUR_MOST_TEXT of include/maiplur.h.
const MOST_TEXT: usize = 115_625;

/// The listing of a plan file, or the line that it is refused with.
fn listing(file: &[u8]) -> Vec<u8> {
    let mut text = vec![0; MOST_TEXT];
    let mut values = [0; 3];
    // SAFETY: the pointers come from slices and an array that live through the call, and nothing overlaps.
    let refused = unsafe {
        maiplur_list(
            file.as_ptr(),
            file.len(),
            text.as_mut_ptr(),
            text.len(),
            &mut values,
        )
    };
    assert_eq!(refused, 0, "every listing fits");
    text.truncate(values[0]);
    text
}

fn main() -> io::Result<()> {
    let mut file = Vec::new();
    io::stdin().read_to_end(&mut file)?;
    io::stdout().write_all(&listing(&file))
}
