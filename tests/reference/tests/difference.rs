//! The cases of `cases/difference.rs` by this program. `tests/host` has the same cases
//! made by both programs.

mod common;

#[path = "cases/difference.rs"]
mod difference;

use reference::calls;
