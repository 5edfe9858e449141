//! Damage to rule 3: spans against spans, levels, slots to free pages.

use super::{some_between, some_entry, some_free_page, some_page, some_router, OnValues};
use crate::image::Image;
use crate::layout::{Page, ALIVE, HIGHEST_LEVEL, LEAF};
use crate::rng::Rng;

pub const KINDS: &[(&str, OnValues)] = &[
    ("a slot to a free page", slot_to_free),
    ("a router to a free page", router_to_free),
    ("a router to a page of another level", router_to_other_level),
    ("an index page one level up", level_up),
    ("an entry that starts before its page", entry_before_page),
    ("an entry that ends behind its page", entry_behind_page),
    ("a router that outlives its child", router_outlives_child),
];

fn slot_to_free(image: &mut Image, rng: &mut Rng) -> Option<()> {
    let free = some_free_page(image, rng)?;
    let index = rng.below(image.slots.len() as u32) as usize;
    image.slots[index].root = free;
    Some(())
}

fn router_to_free(image: &mut Image, rng: &mut Rng) -> Option<()> {
    let free = some_free_page(image, rng)?;
    some_router(image, rng, |_| true)?.entry_mut(image).value = free;
    Some(())
}

fn router_to_other_level(image: &mut Image, rng: &mut Rng) -> Option<()> {
    let router = some_router(image, rng, |_| true)?;
    let level = router.page_in(image).level;
    let other = some_page(image, rng, |page| page.level + 1 != level)?;
    router.entry_mut(image).value = other;
    Some(())
}

/// A page that keeps entries which are not skipped: its children are then two
/// levels lower.
fn level_up(image: &mut Image, rng: &mut Rng) -> Option<()> {
    let oldest = image.header.oldest;
    let number = some_page(image, rng, |page| {
        let mut routers = page.entries.iter();
        page.is_index()
            && page.level < HIGHEST_LEVEL
            && routers.any(|router| router.span.end > oldest)
    })?;
    image.page_mut(number).level += 1;
    Some(())
}

/// The first entry of its key may start earlier without falling out of order;
/// a leaf's not at 0, which would be rule 1.
fn entry_before_page(image: &mut Image, rng: &mut Rng) -> Option<()> {
    let earliest = |page: &Page| u32::from(page.level == LEAF);
    let place = some_entry(image, rng, |place| {
        let page = place.page_in(image);
        let before = place.before(image);
        let skipped = page.is_index() && place.has_expired(image);
        before.is_none_or(|before| before.key < place.entry(image).key)
            && earliest(page) < page.span.start
            && !skipped
    })?;
    let page = place.page_in(image);
    let start = some_between(rng, earliest(page), page.span.start - 1)?;
    place.entry_mut(image).span.start = start;
    Some(())
}

fn entry_behind_page(image: &mut Image, rng: &mut Rng) -> Option<()> {
    let oldest = image.header.oldest;
    let place = some_entry(image, rng, |place| {
        let end = place.page_in(image).span.end;
        end != ALIVE && end >= oldest
    })?;
    let end = place.page_in(image).span.end;
    let later = some_between(rng, end + 1, image.header.last());
    place.entry_mut(image).span.end = later.filter(|_| rng.once_in(2)).unwrap_or(ALIVE);
    Some(())
}

fn router_outlives_child(image: &mut Image, rng: &mut Rng) -> Option<()> {
    let place = some_router(image, rng, |place| {
        let child = image.page(place.entry(image).value);
        child.span.end < place.page_in(image).span.end
    })?;
    let end = place.page_in(image).span.end;
    place.entry_mut(image).span.end = end;
    Some(())
}
