//! Damage to pruned stores around what has ended by the oldest version: what the
//! rules still ask of it, and of the oldest version itself. Edition 1 has none.

use super::{some_between, some_entry, some_free_page, some_page, OnValues, Place};
use crate::image::Image;
use crate::layout::{Entry, Page, Span, FIRST_PAGE, HIGHEST_KEY, LEAF};
use crate::rng::Rng;

pub const BREAK_1: &[(&str, OnValues)] = &[
    ("an ended router to no page", to_no_page),
    ("an ended router's span empty", span_empty),
];

pub const BREAK_2: &[(&str, OnValues)] =
    &[("an oldest version below the first slot's", below_first_slot)];

pub const BREAK_3: &[(&str, OnValues)] = &[
    ("an oldest version below a router's end", below_routers_end),
    ("an ended router that ends later", ends_later),
    ("an ended setting outside its page", setting_outside),
];

pub const BREAK_6: &[(&str, OnValues)] = &[("an ended page at the oldest version", page_at_oldest)];

pub const BREAK_7: &[(&str, OnValues)] = &[("an ended router in an active page", in_active_page)];

/// A router that rule 3 skips.
fn some_ended_router(image: &Image, rng: &mut Rng, fits: impl Fn(Place) -> bool) -> Option<Place> {
    some_entry(image, rng, |place| {
        place.page_in(image).is_index() && place.has_expired(image) && fits(place)
    })
}

/// Whether the child is free, of a wrong level, or begins behind the router: such
/// a router breaks rule 3 wherever it is not skipped.
fn leads_astray(image: &Image, place: Place) -> bool {
    let (router, page) = (place.entry(image), place.page_in(image));
    let child = image.page(router.value);
    child.level + 1 != page.level || child.span.start > router.span.start
}

fn to_no_page(image: &mut Image, rng: &mut Rng) -> Option<()> {
    let place = some_ended_router(image, rng, |_| true)?;
    let count = FIRST_PAGE + image.pages.len() as u32;
    place.entry_mut(image).value = match rng.below(3) {
        0 => rng.below(FIRST_PAGE),
        1 => count,
        _ => rng.between(count, u32::MAX),
    };
    Some(())
}

fn span_empty(image: &mut Image, rng: &mut Rng) -> Option<()> {
    let place = some_ended_router(image, rng, |_| true)?;
    let start = place.entry(image).span.start;
    place.entry_mut(image).span.end = rng.between(0, start);
    Some(())
}

fn below_first_slot(image: &mut Image, rng: &mut Rng) -> Option<()> {
    let highest = image.slots[0].version.checked_sub(1)?;
    image.header.oldest = rng.between(0, highest);
    Some(())
}

/// Not below the first slot, and the others stay above it.
fn below_routers_end(image: &mut Image, rng: &mut Rng) -> Option<()> {
    let first = image.slots[0].version;
    let place = some_ended_router(image, rng, |place| {
        place.entry(image).span.end > first && leads_astray(image, place)
    })?;
    let end = place.entry(image).span.end;
    image.header.oldest = some_between(rng, first, end - 1)?;
    Some(())
}

fn ends_later(image: &mut Image, rng: &mut Rng) -> Option<()> {
    let oldest = image.header.oldest;
    let place = some_ended_router(image, rng, |place| {
        place.page_in(image).span.end > oldest && leads_astray(image, place)
    })?;
    place.entry_mut(image).span.end = place.page_in(image).span.end;
    Some(())
}

/// Its whole span lies before its page's, and it is the first of its key: the
/// order stays.
fn setting_outside(image: &mut Image, rng: &mut Rng) -> Option<()> {
    let oldest = image.header.oldest;
    let place = some_entry(image, rng, |place| {
        let (page, key) = (place.page_in(image), place.entry(image).key);
        let first = place.before(image).is_none_or(|before| before.key < key);
        page.level == LEAF && (2..=oldest).contains(&page.span.start) && first
    })?;
    let end = place.page_in(image).span.start;
    let start = rng.between(1, end - 1);
    place.entry_mut(image).span = Span { start, end };
    Some(())
}

/// It ends right behind the oldest version, and nothing reaches it there.
fn page_at_oldest(image: &mut Image, rng: &mut Rng) -> Option<()> {
    let oldest = image.header.oldest;
    let number = some_free_page(image, rng)?;
    if oldest == 0 || oldest == image.header.last() {
        return None;
    }
    let span = Span {
        start: rng.between(0, oldest),
        end: oldest + 1,
    };
    *image.page_mut(number) = Page::new(rng.between(LEAF, 4), span, Vec::new());
    Some(())
}

fn in_active_page(image: &mut Image, rng: &mut Rng) -> Option<()> {
    let (last, most) = (image.header.last(), image.edition().most_entries);
    let number = some_page(image, rng, |page| {
        page.is_index() && page.span.start == last && page.entries.len() < most
    })?;
    if !image.header.open {
        return None;
    }
    let end = some_between(rng, 1, image.header.oldest)?;
    let router = Entry {
        key: rng.between(0, HIGHEST_KEY),
        span: Span {
            start: rng.below(end),
            end,
        },
        value: FIRST_PAGE + rng.below(image.pages.len() as u32),
    };
    let entries = &mut image.page_mut(number).entries;
    entries.push(router);
    entries.sort_by_key(Entry::order);
    Some(())
}
