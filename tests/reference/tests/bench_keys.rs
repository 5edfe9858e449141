//! The cases of `cases/bench_keys.rs` by this program. `tests/host` has the same cases
//! made by both programs.

mod common;

#[path = "cases/bench_keys.rs"]
mod bench_keys;

use reference::calls;
