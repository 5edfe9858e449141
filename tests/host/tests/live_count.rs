//! The live count of edition 2 by both programs: the cases of `tests/reference`,
//! every call compared.

#[path = "common/mod.rs"]
mod beside;

#[path = "../../reference/tests/common/mod.rs"]
mod common;

#[path = "../../reference/tests/cases/live_count.rs"]
mod live_count;

use beside::calls;
