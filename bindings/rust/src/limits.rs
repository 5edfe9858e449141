//! The library's version, and the format's limits: those of `include/rcst.h`.

pub const LIBRARY_MAJOR: u32 = 2;
pub const LIBRARY_MINOR: u32 = 0;
/// Of a page in edition 1, and in edition 2.
pub const PAGE_BYTES: usize = 256;
pub const SECOND_PAGE_BYTES: usize = 512;
pub const FEWEST_PAGES: usize = 6;
pub const MOST_PAGES: usize = 4096;
pub const HIGHEST_KEY: u32 = 16_777_215;
/// Keys above it belong to the test bench: insert refuses them.
pub const HIGHEST_INSERT_KEY: u32 = 16_776_959;
pub const HIGHEST_VERSION: u32 = 1_048_574;
/// The most pages that a lookup visits.
pub const MOST_LEVELS: usize = 7;
/// The end of a stretch that is still alive.
pub const ALIVE: u32 = 1_048_575;
/// How many numbers an item of the plain engine takes: key, start, end, value.
pub const PLAIN_ITEM_NUMBERS: usize = 4;
/// The longest list that it is lent.
pub const PLAIN_MOST_NUMBERS: u64 = 17_179_869_180;
/// The stack that a call finds enough.
pub const STACK_BYTES: usize = 1_572_864;
