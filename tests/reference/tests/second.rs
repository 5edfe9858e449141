//! The cases of `cases/second.rs` by this program. `tests/host` has the same
//! cases made by both programs.

mod common;

#[path = "cases/second.rs"]
mod second;

use reference::calls;
