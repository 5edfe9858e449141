//! Rule 1 in the pages behind the directory.

use rcst::limits::ALIVE;

use crate::plain::bits::first_set;
use crate::plain::page::{bytes, count, header, page, shape, Shape, FIRST, FREE, LEAF};
use crate::plain::{Entry, Page, Span};

pub fn wrong(store: &[u8]) -> Option<String> {
    let last = header(store).last();
    (FIRST..count(store)).find_map(|number| {
        let page = page(store, number);
        front(bytes(store, number), shape(store), &page, last)
            .or_else(|| listed(store, &page, last))
            .map(|words| format!("page {number}{words}"))
    })
}

/// A span that is not one, if it is not.
fn span(span: Span, last: u32) -> Option<String> {
    let Span { start, end } = span;
    if start > last {
        Some(format!("starts at version {start}, above the last, {last}"))
    } else if end > last && end != ALIVE {
        Some(format!("ends at version {end}, above the last, {last}"))
    } else if start >= end {
        Some(format!("has an empty span, {start} to {end}"))
    } else {
        None
    }
}

fn front(bytes: &[u8], shape: &Shape, page: &Page, last: u32) -> Option<String> {
    let end = 8 * shape.page_bytes;
    if page.level == FREE {
        let bit = first_set(bytes, 0, end)?;
        return Some(format!(": free, and bit {bit} is set (byte {})", bit / 8));
    }
    if page.level > 7 {
        return Some(format!(": level {}", page.level));
    }
    if page.count > shape.most_entries {
        return Some(format!(": entry count {}", page.count));
    }
    if let Some(words) = span(page.span, last) {
        return Some(format!(" {words}"));
    }
    let behind = 128 + 96 * page.count;
    let front = 44 + shape.count_width + shape.live_width;
    let bit = first_set(bytes, front, 128).or_else(|| first_set(bytes, behind, end))?;
    Some(format!(
        ": bit {bit} is set (byte {}), which no field covers",
        bit / 8
    ))
}

fn listed(store: &[u8], page: &Page, last: u32) -> Option<String> {
    (0..page.entries.len()).find_map(|place| {
        let entry = page.entries[place];
        let before = place.checked_sub(1).map(|place| page.entries[place]);
        one(store, page.level, &entry, last)
            .or_else(|| order(before, &entry))
            .map(|words| format!(", entry {place} (key {}): {words}", entry.key))
    })
}

fn one(store: &[u8], level: u32, entry: &Entry, last: u32) -> Option<String> {
    let leads = (FIRST..count(store)).contains(&(entry.value as usize));
    if let Some(words) = span(entry.span, last) {
        Some(words)
    } else if level == LEAF && entry.span.start == 0 {
        Some("starts at version 0, which is empty".into())
    } else if level > LEAF && !leads {
        Some(format!("leads to page {}, which is none", entry.value))
    } else {
        None
    }
}

fn order(before: Option<Entry>, entry: &Entry) -> Option<String> {
    let before = before?;
    let rises = (before.key, before.span.start) < (entry.key, entry.span.start);
    let words = || {
        format!(
            "stands behind key {} from version {}",
            before.key, before.span.start
        )
    };
    (!rises).then(words)
}
