//! The cases of `cases/life.rs` by this program. `tests/host` has the same cases
//! made by both programs.

mod common;

#[path = "cases/life.rs"]
mod life;

use reference::calls;
