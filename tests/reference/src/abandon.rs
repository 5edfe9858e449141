//! Taking back the open update.

use crate::layout::{Entry, Page, Span};
use crate::store;

/// Abandons the open update: pages that start at the open version are freed;
/// elsewhere entries that start there go, and ends equal to it become alive
/// again; its slot and the flag are cleared.
pub fn abandon(bytes: &mut [u8]) {
    let mut header = store::header(bytes);
    let open = header.last();
    for number in store::page_numbers(bytes) {
        let page = store::page(bytes, number);
        if !page.is_free() {
            store::write_page(bytes, number, &without_version(page, open));
        }
    }
    if store::slot(bytes, header.roots - 1).version == open {
        header.roots -= 1;
        store::slot_bytes_mut(bytes, header.roots).fill(0);
    }
    header.open = false;
    store::write_header(bytes, header);
}

fn without_version(page: Page, open: u32) -> Page {
    if page.span.start == open {
        return Page::free();
    }
    let kept = page.entries.into_iter().filter(|e| e.span.start != open);
    let entries = kept.map(|entry| Entry {
        span: reopened(entry.span, open),
        ..entry
    });
    Page::new(page.level, reopened(page.span, open), entries.collect())
}

fn reopened(span: Span, open: u32) -> Span {
    if span.end == open {
        Span::alive_from(span.start)
    } else {
        span
    }
}
