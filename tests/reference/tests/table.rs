//! The cases of `cases/table.rs` by this program. `tests/host` has the same cases
//! made by both programs.

mod common;

#[path = "cases/table.rs"]
mod table;

use reference::calls;
