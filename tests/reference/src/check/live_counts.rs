//! Rule 8: a page's live count is right (2026-09).

use crate::edition::Edition;
use crate::store;

/// On every used page, reached or not. Edition 1 has no such count.
pub fn hold(bytes: &[u8]) -> bool {
    let Some(live_count) = Edition::of(bytes).live_count else {
        return true;
    };
    store::page_numbers(bytes).all(|number| {
        let told = live_count.get(store::page_bytes(bytes, number));
        told == store::page(bytes, number).live_at_last()
    })
}
