//! The rules of loop scheduling a second time, in plain safe Rust. It was written from the scope
//! alone, without a look at the proved code, so that the two can be held against each other.
#![forbid(unsafe_code)]

pub mod cycles;
pub mod entry;
pub mod floor;
pub mod listing;
pub mod machine;
pub mod record;
pub mod refusal;
pub mod rules;
pub mod schedule;
