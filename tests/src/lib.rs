//! A second implementation of the planner, to compare the proved one with.
//!
//! It follows docs/SPEC.md and takes nothing from the proved code. It computes
//! each answer in the plainest way: agreement with that text matters here,
//! speed does not. Its functions take numbers and byte slices.
//!
//! - [`mod@file`], [`map`], [`listing`], [`carrying`] and [`session`] implement
//!   that text, on top of [`timing`]. [`assignments`] lists assignments to check
//!   maps with, and [`lent`] keeps a session in lent memory. [`punctual`] is
//!   what all of it was while no entry started late.
//! - [`cases`] has the cases of that text, and [`gen`] generates others.
//!   [`options`] sets the seed and the size of a run.
//! - [`ffi`] calls the proved library, and [`words`] has the form in which it
//!   takes plans. [`compare`] compares its answers with those of this
//!   implementation, and [`fuzz`] does so on random files and sequences of
//!   operations. [`tuned`] and [`plain`] are what its speed is compared with.

#![deny(unsafe_code)]
#![warn(missing_docs)]

pub mod assignments;
pub mod carrying;
pub mod cases;
pub mod compare;
pub mod corpus;
#[allow(unsafe_code)]
pub mod ffi;
pub mod file;
pub mod fuzz;
pub mod gen;
pub mod lent;
pub mod limits;
pub mod listing;
pub mod map;
pub mod model;
pub mod mutate;
pub mod options;
pub mod plain;
pub mod programs;
pub mod punctual;
pub mod refusal;
pub mod rng;
pub mod sequences;
pub mod session;
pub mod tally;
pub mod timing;
pub mod tuned;
pub mod words;
