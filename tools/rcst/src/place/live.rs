//! Rule 8, in edition 2: the number of entries alive that a page's front has.

use crate::plain::page::{pages, FREE};

pub fn wrong(store: &[u8]) -> Option<String> {
    pages(store).iter().find_map(|(number, page)| {
        let alive = page.entries.iter().filter(|entry| entry.span.is_alive());
        let alive = alive.count();
        let wrong = page.level != FREE && page.live != alive;
        wrong.then(|| {
            format!(
                "page {number}: live count {}, and {alive} are alive",
                page.live
            )
        })
    })
}
