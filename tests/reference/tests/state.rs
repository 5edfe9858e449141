//! The cases of `cases/state.rs` by this program. `tests/host` has the same cases
//! made by both programs.

mod common;

#[path = "cases/state.rs"]
mod state;

use reference::calls;
