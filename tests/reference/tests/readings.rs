//! The cases of `cases/readings.rs` by this program. `tests/host` has the same cases
//! made by both programs.

mod common;

#[path = "cases/readings.rs"]
mod readings;

use reference::calls;
