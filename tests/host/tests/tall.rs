//! Updates that run from the leaf to a root of level 2 to 7, by both
//! programs: the cases of `tests/reference`, every call compared.

#[path = "common/mod.rs"]
mod beside;

#[path = "../../reference/tests/common/mod.rs"]
mod common;

#[path = "../../reference/tests/cases/tall.rs"]
mod tall;

use beside::calls;
