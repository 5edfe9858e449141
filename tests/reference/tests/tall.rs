//! The cases of `cases/tall.rs` by this program. `tests/host` has the same cases
//! made by both programs.

mod common;

#[path = "cases/tall.rs"]
mod tall;

use reference::calls;
