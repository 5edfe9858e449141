//! Rule 1: sizes, levels, counts, zero bits, order and header fields.
//!
//! Tested on the bytes themselves, since a page with a count above the
//! edition's cannot be read into a value.

use crate::bits::zero_from;
use crate::edition::Edition;
use crate::layout::{
    at, page_span, Entry, Header, Slot, Span, ALIVE, ENTRY_BYTES, FIRST_PAGE, FREE, HIGHEST_LEVEL,
    HIGHEST_VERSION, LEAF, PAGE_HEAD_BYTES,
};
use crate::store;

pub fn hold(bytes: &[u8]) -> bool {
    front_holds(bytes) && store::page_numbers(bytes).all(|number| page_holds(bytes, number))
}

/// The header and the slots, used and unused.
pub fn front_holds(bytes: &[u8]) -> bool {
    let slots = Edition::of(bytes).slots;
    header_holds(bytes) && (0..slots).all(|index| slot_holds(bytes, index))
}

fn header_holds(bytes: &[u8]) -> bool {
    let header = store::header(bytes);
    // While open, last is current plus 1, so this is also "current is at most
    // 1,048,573 while open".
    header.page_count == store::page_count(bytes)
        && header.last() <= HIGHEST_VERSION
        && header.roots <= header.edition.slots
        && header.oldest <= header.current
        && zero_from(store::page_bytes(bytes, 0), header.edition.header_end())
}

fn slot_holds(bytes: &[u8], index: u32) -> bool {
    let header = store::header(bytes);
    let slot = store::slot_bytes(bytes, index);
    if index < header.roots {
        is_page_number(Slot::read(slot).root, header)
    } else {
        zero_from(slot, 0)
    }
}

/// A page by itself, and the header's last version and page count.
pub fn page_holds(bytes: &[u8], number: u32) -> bool {
    let header = store::header(bytes);
    let page = store::page_bytes(bytes, number);
    let level = at::LEVEL.get(page);
    if level == FREE {
        return zero_from(page, 0);
    }
    let edition = header.edition;
    let count = edition.entry_count.get(page) as usize;
    level <= HIGHEST_LEVEL
        && count <= edition.most_entries
        && zero_from(&page[..PAGE_HEAD_BYTES], edition.head_end())
        // In edition 2 sixteen bytes more stand behind the entries.
        && zero_from(&page[PAGE_HEAD_BYTES + count * ENTRY_BYTES..], 0)
        && span_holds(page_span(edition, page), header)
        && entries_hold(page, level, header)
}

/// Wants an entry count that the edition allows.
fn entries_hold(page: &[u8], level: u32, header: Header) -> bool {
    let count = header.edition.entry_count.get(page) as usize;
    let places = page[PAGE_HEAD_BYTES..].chunks_exact(ENTRY_BYTES);
    let mut before = None;
    places.take(count).map(Entry::read).all(|entry| {
        // "By key, then start, no two alike in both": strictly rising.
        let in_order = before < Some(entry.order());
        before = Some(entry.order());
        in_order && entry_holds(entry, level, header)
    })
}

fn entry_holds(entry: Entry, level: u32, header: Header) -> bool {
    let own = if level == LEAF {
        entry.span.start >= 1
    } else {
        is_page_number(entry.value, header)
    };
    own && span_holds(entry.span, header)
}

fn span_holds(span: Span, header: Header) -> bool {
    let last = header.last();
    span.start <= last && (span.end <= last || span.end == ALIVE) && !span.is_empty()
}

fn is_page_number(number: u32, header: Header) -> bool {
    (FIRST_PAGE..header.page_count).contains(&number)
}
