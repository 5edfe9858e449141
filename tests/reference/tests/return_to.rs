//! The cases of `cases/return_to.rs` by this program. `tests/host` has the same
//! cases made by both programs.

mod common;

#[path = "cases/return_to.rs"]
mod return_to;

use reference::calls;
