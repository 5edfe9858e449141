//! Rule 3: spans in spans, levels one lower, no slot that leads to a free page. A
//! router that ended at or before the oldest version is skipped.

use crate::plain::page::{header, page, pages, slots, FREE, LEAF};
use crate::plain::{Entry, Page, Span};

fn told(span: Span) -> String {
    match span.is_alive() {
        true => format!("{} and alive", span.start),
        false => format!("{} to {}", span.start, span.end),
    }
}

pub fn wrong(store: &[u8]) -> Option<String> {
    let mut slots = slots(store).enumerate();
    let free = slots.find(|(_, (_, number))| page(store, *number).level == FREE);
    if let Some((place, (_, number))) = free {
        return Some(format!("slot {place}: page {number}, which is free"));
    }
    let oldest = header(store).oldest;
    pages(store).iter().find_map(|(number, page)| {
        let skipped = |entry: &Entry| page.level > LEAF && entry.span.is_expired(oldest);
        let entries = page.entries.iter().enumerate();
        let mut entries = entries.filter(|(_, entry)| !skipped(entry));
        entries.find_map(|(place, entry)| {
            let words = one(store, page, entry)?;
            Some(format!(
                "page {number}, entry {place} (key {}): {words}",
                entry.key
            ))
        })
    })
}

fn one(store: &[u8], above: &Page, entry: &Entry) -> Option<String> {
    if !entry.span.lies_in(above.span) {
        return Some(format!(
            "its span, {}, leaves the page's, {}",
            told(entry.span),
            told(above.span)
        ));
    }
    if above.level <= LEAF {
        return None;
    }
    let child = page(store, entry.value as usize);
    if child.level + 1 != above.level {
        return Some(format!(
            "leads to page {} of level {}, from level {}",
            entry.value, child.level, above.level
        ));
    }
    let leaves = !entry.span.lies_in(child.span);
    leaves.then(|| {
        format!(
            "its span, {}, leaves that of page {}, {}",
            told(entry.span),
            entry.value,
            told(child.span)
        )
    })
}
