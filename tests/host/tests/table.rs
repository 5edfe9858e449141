//! Document 01's own examples: the fresh bytes, P1 to P12, and "Also run", by both
//! programs: the cases of `tests/reference`, every call compared.

#[path = "common/mod.rs"]
mod beside;

#[path = "../../reference/tests/common/mod.rs"]
mod common;

#[path = "../../reference/tests/cases/table.rs"]
mod table;

use beside::calls;
