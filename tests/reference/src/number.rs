//! The numbers the console gets back: document 01's table and the rows that
//! document 02 adds, by name.

pub const DONE: u32 = 0;
pub const LENGTH: u32 = 1;
pub const FOUR_BYTES: u32 = 2;
pub const EDITION: u32 = 3;
pub const UNSOUND: u32 = 4;
pub const ARGUMENT: u32 = 5;
pub const VERSION: u32 = 6;
pub const NONE_OPEN: u32 = 7;
pub const ALREADY_OPEN: u32 = 8;
pub const VERSIONS_USED_UP: u32 = 9;
pub const KEY_ALIVE: u32 = 10;
pub const KEY_NOT_ALIVE: u32 = 11;
pub const NO_FREE_PAGE: u32 = 12;
pub const NO_FREE_SLOT: u32 = 13;
pub const LIST_TOO_SHORT: u32 = 14;
pub const NOTHING_CHANGED: u32 = 15;
