//! Damage to rule 1: bits, levels, counts, order, and spans by themselves.

use super::{on_values, some_between, some_entry, some_free_page, some_page, OnBytes};
use crate::bits::Field;
use crate::edition::Edition;
use crate::image::Image;
use crate::layout::{at, Page, Span, ALIVE, ENTRY_BYTES, HIGHEST_VERSION, LEAF, PAGE_HEAD_BYTES};
use crate::rng::Rng;
use crate::store;

pub const KINDS: &[(&str, OnBytes)] = &[
    ("a spare bit of the header", header_bit),
    ("a bit of an unused slot", slot_bit),
    ("a spare bit of a page head", head_bit),
    ("a bit of an unused entry", unused_entry_bit),
    ("a bit of a free page", free_page_bit),
    ("the page count", page_count),
    ("more roots than slots", too_many_roots),
    ("a current version that cannot be", current_too_high),
    ("an oldest version above current", oldest_too_high),
    ("a level above 7", level_too_high),
    ("a count above the edition's", count_too_high),
    ("a count one too high", count_one_more),
    ("a slot's page number", slot_page_number),
    ("a router's page number", router_page_number),
    ("two entries exchanged", entries_exchanged),
    ("two entries alike", entries_alike),
    ("an entry's start above last", entry_start_too_high),
    ("an entry's end above last", entry_end_too_high),
    ("an entry's span empty", entry_span_empty),
    ("a leaf entry from version 0", leaf_entry_from_0),
    ("a page's start above last", page_start_too_high),
    ("a page's end above last", page_end_too_high),
    ("a page's span empty", page_span_empty),
];

fn set_some_bit(bytes: &mut [u8], rng: &mut Rng, from: usize) -> bool {
    let bit = rng.between(from as u32, bytes.len() as u32 * 8 - 1);
    Field::new(bit as usize, 1).set(bytes, 1);
    true
}

fn header_bit(bytes: &mut [u8], rng: &mut Rng) -> bool {
    let used = Edition::of(bytes).header_end();
    set_some_bit(store::page_bytes_mut(bytes, 0), rng, used)
}

fn slot_bit(bytes: &mut [u8], rng: &mut Rng) -> bool {
    let roots = store::header(bytes).roots;
    match some_between(rng, roots, Edition::of(bytes).slots - 1) {
        Some(index) => set_some_bit(store::slot_bytes_mut(bytes, index), rng, 0),
        None => false,
    }
}

fn head_bit(bytes: &mut [u8], rng: &mut Rng) -> bool {
    match some_page(&Image::read(bytes), rng, |_| true) {
        Some(number) => {
            let used = Edition::of(bytes).head_end();
            let head = &mut store::page_bytes_mut(bytes, number)[..PAGE_HEAD_BYTES];
            set_some_bit(head, rng, used)
        }
        None => false,
    }
}

/// A page that is not full.
fn some_page_with_room(image: &Image, rng: &mut Rng) -> Option<u32> {
    let most = image.edition().most_entries;
    some_page(image, rng, |page: &Page| page.entries.len() < most)
}

/// In edition 2 a bit of the sixteen bytes behind the entries too.
fn unused_entry_bit(bytes: &mut [u8], rng: &mut Rng) -> bool {
    let image = Image::read(bytes);
    let Some(number) = some_page_with_room(&image, rng) else {
        return false;
    };
    let used = PAGE_HEAD_BYTES + image.page(number).entries.len() * ENTRY_BYTES;
    set_some_bit(store::page_bytes_mut(bytes, number), rng, used * 8)
}

/// Any bit: a free page with only its level set has a span that is empty.
fn free_page_bit(bytes: &mut [u8], rng: &mut Rng) -> bool {
    match some_free_page(&Image::read(bytes), rng) {
        Some(number) => set_some_bit(store::page_bytes_mut(bytes, number), rng, 0),
        None => false,
    }
}

fn page_count(bytes: &mut [u8], rng: &mut Rng) -> bool {
    let own = at::PAGE_COUNT.get(bytes);
    let other = rng.between(0, at::PAGE_COUNT.highest());
    at::PAGE_COUNT.set(bytes, other);
    other != own
}

fn too_many_roots(bytes: &mut [u8], rng: &mut Rng) -> bool {
    let edition = Edition::of(bytes);
    let roots = rng.between(edition.slots + 1, edition.root_count.highest());
    edition.root_count.set(bytes, roots);
    true
}

fn current_too_high(bytes: &mut [u8], _: &mut Rng) -> bool {
    let open = store::header(bytes).open;
    let highest = HIGHEST_VERSION - u32::from(open);
    at::CURRENT.set(bytes, highest + 1);
    true
}

fn oldest_too_high(bytes: &mut [u8], rng: &mut Rng) -> bool {
    let Some(oldest) = Edition::of(bytes).oldest else {
        return false;
    };
    let current = store::header(bytes).current;
    let above = match rng.below(2) {
        0 => current + 1,
        _ => rng.between(current + 1, oldest.highest()),
    };
    oldest.set(bytes, above);
    true
}

fn level_too_high(bytes: &mut [u8], rng: &mut Rng) -> bool {
    let level = rng.between(8, 15);
    set_in_some_page(bytes, rng, at::LEVEL, level)
}

fn count_too_high(bytes: &mut [u8], rng: &mut Rng) -> bool {
    let Edition {
        entry_count,
        most_entries,
        ..
    } = *Edition::of(bytes);
    let count = rng.between(most_entries as u32 + 1, entry_count.highest());
    set_in_some_page(bytes, rng, entry_count, count)
}

fn set_in_some_page(bytes: &mut [u8], rng: &mut Rng, field: Field, number: u32) -> bool {
    let page = some_page(&Image::read(bytes), rng, |_| true);
    if let Some(page) = page {
        field.set(store::page_bytes_mut(bytes, page), number);
    }
    page.is_some()
}

/// The all-zero entry that then counts has an empty span.
fn count_one_more(bytes: &mut [u8], rng: &mut Rng) -> bool {
    let image = Image::read(bytes);
    let Some(number) = some_page_with_room(&image, rng) else {
        return false;
    };
    let more = image.page(number).entries.len() as u32 + 1;
    let entry_count = image.edition().entry_count;
    entry_count.set(store::page_bytes_mut(bytes, number), more);
    true
}

/// 0 to 4, or the page count and above.
fn no_page_number(bytes: &[u8], rng: &mut Rng, highest: u32) -> u32 {
    let count = store::header(bytes).page_count;
    match some_between(rng, count, highest) {
        Some(above) if rng.once_in(2) => above,
        _ => rng.below(5),
    }
}

fn slot_page_number(bytes: &mut [u8], rng: &mut Rng) -> bool {
    let index = rng.below(store::header(bytes).roots);
    let number = no_page_number(bytes, rng, at::SLOT_ROOT.highest());
    at::SLOT_ROOT.set(store::slot_bytes_mut(bytes, index), number);
    true
}

fn router_page_number(bytes: &mut [u8], rng: &mut Rng) -> bool {
    let number = no_page_number(bytes, rng, u32::MAX);
    on_values(bytes, rng, |image, rng| {
        let router = some_entry(image, rng, |place| place.page_in(image).is_index())?;
        router.entry_mut(image).value = number;
        Some(())
    })
}

fn entries_exchanged(bytes: &mut [u8], rng: &mut Rng) -> bool {
    on_values(bytes, rng, |image, rng| {
        let place = some_entry(image, rng, |place| place.index > 0)?;
        let other = rng.below(place.index as u32) as usize;
        image.page_mut(place.page).entries.swap(place.index, other);
        Some(())
    })
}

fn entries_alike(bytes: &mut [u8], rng: &mut Rng) -> bool {
    on_values(bytes, rng, |image, rng| {
        let place = some_entry(image, rng, |place| place.index > 0)?;
        let before = place.before(image)?;
        let entry = place.entry_mut(image);
        entry.key = before.key;
        entry.span.start = before.span.start;
        Some(())
    })
}

fn start_too_high(image: &Image, rng: &mut Rng, span: &mut Span) -> Option<()> {
    // Behind last and before the end if that is alive: not empty as well.
    span.start = some_between(rng, image.header.last() + 1, ALIVE)?;
    Some(())
}

fn end_too_high(image: &Image, rng: &mut Rng, span: &mut Span) -> Option<()> {
    span.end = some_between(rng, image.header.last() + 1, HIGHEST_VERSION)?;
    Some(())
}

fn empty(_: &Image, rng: &mut Rng, span: &mut Span) -> Option<()> {
    span.end = rng.between(0, span.start);
    Some(())
}

type SpanChange = fn(&Image, &mut Rng, &mut Span) -> Option<()>;

fn some_entry_span(bytes: &mut [u8], rng: &mut Rng, change: SpanChange) -> bool {
    on_values(bytes, rng, |image, rng| {
        let place = some_entry(image, rng, |_| true)?;
        let mut span = place.entry(image).span;
        change(image, rng, &mut span)?;
        place.entry_mut(image).span = span;
        Some(())
    })
}

fn some_page_span(bytes: &mut [u8], rng: &mut Rng, change: SpanChange) -> bool {
    on_values(bytes, rng, |image, rng| {
        let number = some_page(image, rng, |_| true)?;
        let mut span = image.page(number).span;
        change(image, rng, &mut span)?;
        image.page_mut(number).span = span;
        Some(())
    })
}

fn entry_start_too_high(bytes: &mut [u8], rng: &mut Rng) -> bool {
    some_entry_span(bytes, rng, start_too_high)
}

fn entry_end_too_high(bytes: &mut [u8], rng: &mut Rng) -> bool {
    some_entry_span(bytes, rng, end_too_high)
}

fn entry_span_empty(bytes: &mut [u8], rng: &mut Rng) -> bool {
    some_entry_span(bytes, rng, empty)
}

fn page_start_too_high(bytes: &mut [u8], rng: &mut Rng) -> bool {
    some_page_span(bytes, rng, start_too_high)
}

fn page_end_too_high(bytes: &mut [u8], rng: &mut Rng) -> bool {
    some_page_span(bytes, rng, end_too_high)
}

fn page_span_empty(bytes: &mut [u8], rng: &mut Rng) -> bool {
    some_page_span(bytes, rng, empty)
}

fn leaf_entry_from_0(bytes: &mut [u8], rng: &mut Rng) -> bool {
    on_values(bytes, rng, |image, rng| {
        let place = some_entry(image, rng, |place| place.page_in(image).level == LEAF)?;
        place.entry_mut(image).span.start = 0;
        Some(())
    })
}
