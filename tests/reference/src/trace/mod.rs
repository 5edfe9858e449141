//! A line for every call, and an answer line for each: a way to hold any
//! program to any other.
//!
//! - [`line`]: what a line says;
//! - [`session`]: the lent bytes and the list, and the answers to lines by any
//!   [`crate::engine::Engine`];
//! - [`hash`]: FNV-1a, by which an answer names the bytes;
//! - [`seeds`]: lines from a seed, by a [`writer`].

pub mod hash;
pub mod line;
pub mod seeds;
pub mod session;
pub mod writer;
