//! The cases of `cases/visits.rs` by this program. `tests/host` has the same cases
//! made by both programs.

mod common;

#[path = "cases/visits.rs"]
mod visits;

use reference::calls;
