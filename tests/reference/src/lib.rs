//! The store of document 01, written a second time.
//!
//! This program and the proved one share nothing but the document. It may copy
//! pages, allocate and sort; where a shorter way and a plainer way differ it
//! takes the plainer. Read it in this order:
//!
//! - [`bits`], [`layout`], [`store`]: where each number stands in the bytes, by
//!   the limits of an [`edition`];
//! - [`check`]: when a store is sound, a module for each rule;
//! - [`walk`]: lookups and ranges on a sound store; [`reading`]: the same on any
//!   bytes, judged as they go; [`update`] over a [`draft`]: the page rules;
//!   [`mod@abandon`]; [`mod@difference`]; [`mod@life`]; [`returning`];
//!   [`convert`]: from edition 1 to edition 2; [`mod@prune`]; [`mod@state`];
//! - [`unjudged`]: the calls on a store known to be sound, and [`calls`]: the
//!   calls as the console has them, on any bytes; [`named`]: named settings and
//!   the viewer above them;
//! - [`console`]: the line language.
//!
//! The rest makes and judges work for two programs run side by side:
//!
//! - [`engine`]: a call, its answer, and the shape of a program that answers;
//!   [`beside`]: two of them on the same history, compared byte for byte;
//! - [`model`]: the settings of each version as a plain ordered map;
//! - [`history`], [`lines`]: calls and console input from a seed;
//! - [`foreign`], [`pruned`], [`tall`]: sound stores that no history makes;
//! - [`damage`]: unsound stores, with the rule that each one breaks;
//!   [`wild`]: stores that keep rules 1 and 2 alone;
//! - [`samples`]: sound stores of all these shapes from a seed;
//! - [`trace`]: a line for each call, to hold any program to any other.

#![forbid(unsafe_code)]

pub mod abandon;
pub mod beside;
pub mod bits;
pub mod calls;
pub mod check;
pub mod console;
pub mod convert;
pub mod damage;
pub mod difference;
pub mod draft;
pub mod edition;
pub mod engine;
pub mod foreign;
pub mod history;
pub mod image;
pub mod layout;
pub mod life;
pub mod lines;
pub mod model;
pub mod named;
pub mod number;
pub mod prune;
pub mod pruned;
pub mod reading;
pub mod returning;
pub mod rng;
pub mod samples;
pub mod state;
pub mod store;
pub mod tall;
pub mod trace;
pub mod unjudged;
pub mod update;
pub mod walk;
pub mod wild;
