//! The open points of document 01, each by the number of its reading, by both
//! programs: the cases of `tests/reference`, every call compared.

#[path = "common/mod.rs"]
mod beside;

#[path = "../../reference/tests/common/mod.rs"]
mod common;

#[path = "../../reference/tests/cases/readings.rs"]
mod readings;

use beside::calls;
