//! Rule 7: a page that starts at the open version holds only alive entries that
//! start there.

use crate::plain::page::{header, pages, FREE};

pub fn wrong(store: &[u8]) -> Option<String> {
    let header = header(store);
    let open = header.open.then(|| header.last())?;
    let mut young = pages(store).into_iter();
    young.find_map(|(number, page)| {
        if page.level == FREE || page.span.start != open {
            return None;
        }
        let mut entries = page.entries.iter().enumerate();
        let old = entries.find(|(_, entry)| entry.span.start != open || !entry.span.is_alive());
        old.map(|(place, entry)| {
            format!(
                "page {number}, entry {place} (key {}): not from the open version, {open}, on",
                entry.key
            )
        })
    })
}
