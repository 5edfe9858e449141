//! Sound or not, the way the crate `quick` finds it: model/specs/Quick, the same
//! loops over the same bytes, with a budget of pages that `under` may read. Nothing
//! is kept but the sums, and they stand on the stack.

pub mod read;
mod routers;
pub mod rules;
mod stretch;
pub mod sums;

use read::Reading;
use reference::layout::PAGE_BYTES;

/// How many pages `under` may read in a store of so many pages.
pub fn budget(pages: usize) -> u32 {
    16 * pages as u32 + 1024
}

/// Rules 4 to 6, where rules 1 to 3 hold; none where nothing of `left` is left.
pub fn quick<R: Reading>(store: &[u8], left: &mut u32) -> Option<bool> {
    if !led::<R>(store) {
        return Some(false);
    }
    let fine = routers::pages_fine::<R>(store, left);
    (*left > 0).then_some(fine)
}

/// Whether rules 4 to 6 are found to hold with something of `left` left, given what
/// `led` says.
pub fn surely<R: Reading>(store: &[u8], fit: bool, left: &mut u32) -> bool {
    fit && routers::pages_fine::<R>(store, left) && *left > 0
}

/// What leads to each page: the sums, and the slots.
pub fn led<R: Reading>(store: &[u8]) -> bool {
    sums::spans_met::<R>(store) && sums::slots_fine::<R>(store)
}

pub(crate) fn part(store: &[u8], number: usize) -> &[u8] {
    &store[number * PAGE_BYTES..][..PAGE_BYTES]
}

/// The numbers of the pages behind the directory.
pub(crate) fn numbers(store: &[u8]) -> std::ops::Range<usize> {
    5..store.len() / PAGE_BYTES
}
