//! A store's bytes read as docs/FORMAT.md has them, without judging: for what the
//! library does not tell. Nothing here decides what a store says.

pub mod bits;
pub mod page;

pub use page::{Entry, Page, Span};
