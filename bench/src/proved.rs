//! The proved code, as safe functions over its C interface.
//!
//! None of the libraries has a precondition. The calls are the binding's; what this
//! file answers for is that its own declarations are those of `crates/gauge` and
//! `crates/morning`, and that a slice is passed as its own pointer and length.

use reference::layout::HIGHEST_KEY;

pub use rcst::{
    abandon, check, commit, delete, difference, fresh_second, insert, life, lookup, open, prune,
    return_to,
};

mod c {
    extern "C" {
        pub fn gauge_fields(
            bytes: *const u8,
            length: usize,
            at: usize,
            width: usize,
            count: usize,
        ) -> u64;
        pub fn gauge_entries(page: *const u8, length: usize, count: usize) -> u64;
        pub fn gauge_fill(
            page: *mut u8,
            length: usize,
            version: u32,
            key: u32,
            value: u32,
            count: usize,
        ) -> u32;
        pub fn morning_lookups(
            store: *const u8,
            length: usize,
            from: u32,
            step: u32,
            count: u32,
            version: u32,
        ) -> u64;
    }
}

/// The sum of `count` fields of `width` bits, the first at bit `at`, 96 bits
/// from one to the next.
pub fn fields(bytes: &[u8], at: usize, width: usize, count: usize) -> u64 {
    unsafe { c::gauge_fields(bytes.as_ptr(), bytes.len(), at, width, count) }
}

/// The sum of all fields of the first `count` entries of a page.
pub fn entries(page: &[u8], count: usize) -> u64 {
    unsafe { c::gauge_entries(page.as_ptr(), page.len(), count) }
}

/// Makes the page a leaf of `version` with `count` entries of one key and
/// value; whether that was done.
pub fn fill(page: &mut [u8], version: u32, key: u32, value: u32, count: usize) -> bool {
    unsafe { c::gauge_fill(page.as_mut_ptr(), page.len(), version, key, value, count) == 1 }
}

/// The number and the count of settings with any key at a version, which go to
/// the list.
pub fn range(store: &[u8], version: u32, list: &mut [u32]) -> (u32, usize) {
    range_from(store, (0, HIGHEST_KEY), version, list)
}

/// The same with the keys from one to another.
pub fn range_from(
    store: &[u8],
    (low, high): (u32, u32),
    version: u32,
    list: &mut [u32],
) -> (u32, usize) {
    rcst::range(store, low, high, version, list)
}

/// The sum, modulo 2^32, of what `count` lookups find, after one judging: of the
/// key `from` and of every `step`th behind it.
pub fn lookups(store: &[u8], from: u32, step: u32, count: u32, version: u32) -> u64 {
    unsafe { c::morning_lookups(store.as_ptr(), store.len(), from, step, count, version) }
}
