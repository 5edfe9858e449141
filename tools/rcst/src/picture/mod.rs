//! A store's picture, as SVG. It reads the bytes as docs/FORMAT.md has them.

mod axes;
mod events;
pub mod leaves;
mod regions;
mod svg;
pub mod tree;
