//! The same work in Rust tuned by hand, with the decisions of the proved
//! library. So a comparison shows only the cost of the language and its proofs.
//!
//! It answers every input as the library does, including the places of refusals
//! and the lent buffers; tests/tuned.rs compares it with the second
//! implementation. It reads entries in place, in the bytes of a file or in the
//! words of a session, and copies only what it must.

mod convert;
mod entry;
mod file;
mod listing;
mod map;
pub mod session;
mod text;
mod timing;

pub use convert::{convert_back, convert_forward};
pub use file::{check, read, write};
pub use listing::list;
pub use map::map;
