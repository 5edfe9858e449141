//! The cases of `cases/empty_release.rs` by this program. `tests/host` has the same cases
//! made by both programs.

mod common;

#[path = "cases/empty_release.rs"]
mod empty_release;

use reference::calls;
