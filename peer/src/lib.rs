//! A second implementation of the trading core, in plain Rust, written from docs/ alone.

pub mod blocks;
pub mod book;
pub mod day;
pub mod messages;
pub mod policies;
pub mod random;
pub mod report;
pub mod tally;
