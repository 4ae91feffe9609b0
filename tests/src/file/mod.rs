//! The plan file: checking, reading and writing, and conversion between the
//! editions.

mod check;
mod convert;
mod layout;
mod read;
mod write;

pub use check::check;
pub use convert::{convert, convert_back, convert_forward};
pub use layout::{
    body_end, contents_end, edition_of, entry_at, entry_length, longest, opening_bytes, row_at,
    FIRST_ENTRY, HEAD_BYTES, ROW_BYTES, SECOND_ENTRY,
};
pub use read::{decode, read};
pub use write::{check_parts, encode, entry_bytes, write};
