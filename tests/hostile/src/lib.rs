//! Stores made to keep judging busy, and a second judging that counts.
//!
//! - [`stores`]: the builders; [`recipe`]: their families, with numbers as input;
//! - [`quick`], [`notes`], [`reach`], [`judge`]: the judging of the proved crates once more, loop
//!   by loop, with a count of the pages that it reads;
//! - [`measure`]: processor time, ways to do one thing in turn;
//! - [`bound`]: what the counts stay below; [`search`]: hill climbing for more.

pub mod bound;
pub mod judge;
pub mod measure;
pub mod notes;
pub mod quick;
pub mod ranges;
pub mod reach;
pub mod recipe;
pub mod search;
pub mod stores;
