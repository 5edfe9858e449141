//! The cases of `cases/prune.rs` by this program. `tests/host` has the same cases
//! made by both programs.

mod common;

#[path = "cases/prune.rs"]
mod prune;

use reference::calls;
