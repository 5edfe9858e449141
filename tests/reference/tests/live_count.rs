//! The cases of `cases/live_count.rs` by this program. `tests/host` has the same
//! cases made by both programs.

mod common;

#[path = "cases/live_count.rs"]
mod live_count;

use reference::calls;
