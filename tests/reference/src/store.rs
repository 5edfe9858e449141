//! Where header, slots and pages stand in the bytes of a store.

use crate::edition::Edition;
use crate::layout::{at, Header, Page, Slot, Span, FIRST_PAGE, LEAF, SLOT_BYTES};

pub fn page_bytes(store: &[u8], number: u32) -> &[u8] {
    let size = Edition::of(store).page_bytes;
    &store[number as usize * size..][..size]
}

pub fn page_bytes_mut(store: &mut [u8], number: u32) -> &mut [u8] {
    let size = Edition::of(store).page_bytes;
    &mut store[number as usize * size..][..size]
}

/// Slots stand from page 1 on.
fn slot_at(store: &[u8], index: u32) -> usize {
    Edition::of(store).page_bytes + index as usize * SLOT_BYTES
}

pub fn slot_bytes(store: &[u8], index: u32) -> &[u8] {
    &store[slot_at(store, index)..][..SLOT_BYTES]
}

pub fn slot_bytes_mut(store: &mut [u8], index: u32) -> &mut [u8] {
    let at = slot_at(store, index);
    &mut store[at..][..SLOT_BYTES]
}

pub fn header(store: &[u8]) -> Header {
    Header::read(store)
}

pub fn write_header(store: &mut [u8], header: Header) {
    header.write(store);
}

pub fn slot(store: &[u8], index: u32) -> Slot {
    Slot::read(slot_bytes(store, index))
}

pub fn write_slot(store: &mut [u8], index: u32, slot: Slot) {
    slot.write(slot_bytes_mut(store, index));
}

pub fn page(store: &[u8], number: u32) -> Page {
    Page::read(Edition::of(store), page_bytes(store, number))
}

pub fn write_page(store: &mut [u8], number: u32, page: &Page) {
    page.write(Edition::of(store), page_bytes_mut(store, number));
}

pub fn level(store: &[u8], number: u32) -> u32 {
    at::LEVEL.get(page_bytes(store, number))
}

/// How many whole pages the lent bytes are.
pub fn page_count(store: &[u8]) -> u32 {
    (store.len() / Edition::of(store).page_bytes) as u32
}

/// The numbers of the pages behind the directory.
pub fn page_numbers(store: &[u8]) -> std::ops::Range<u32> {
    FIRST_PAGE..page_count(store)
}

/// Writes a fresh store over `store`, whose length must fit: version 0 is
/// empty, so its root is a leaf without entries that starts at 0.
pub fn write_fresh(edition: &'static Edition, store: &mut [u8]) {
    store.fill(0);
    let header = Header {
        page_count: (store.len() / edition.page_bytes) as u32,
        roots: 1,
        ..Header::uncounted(edition, 0, false)
    };
    write_header(store, header);
    let first = Slot {
        version: 0,
        root: FIRST_PAGE,
    };
    write_slot(store, 0, first);
    let root = Page::new(LEAF, Span::alive_from(0), Vec::new());
    write_page(store, FIRST_PAGE, &root);
}
