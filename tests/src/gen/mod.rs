//! Generated nodes, plans, damaged files and sequences of session operations.

pub mod blocks;
pub mod budget;
pub mod buffers;
pub mod damage;
pub mod entries;
pub mod extremes;
pub mod faults;
pub mod jitter;
pub mod just_late;
pub mod lent;
pub mod listings;
pub mod numbers;
pub mod odd;
pub mod ops;
pub mod overruns;
pub mod parts;
pub mod places;
pub mod plans;
pub mod sessions;
pub mod unchecked;
