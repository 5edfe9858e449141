//! Damage to rule 6: pages reached where they are not in use, or not reached
//! where they are.

use super::{is_first_somewhere, root_outside_span, some_between, some_free_page, some_page};
use super::{some_router, OnValues, Place};
use crate::draft::end_live;
use crate::image::Image;
use crate::layout::{Entry, Page, Slot, Span, ABOVE_ALL_KEYS, ALIVE, HIGHEST_LEVEL, LEAF};
use crate::rng::Rng;

pub const KINDS: &[(&str, OnValues)] = &[
    ("a leaf root read outside its span", leaf_root_outside_span),
    ("a page that ends later", ends_later),
    ("a page that starts earlier", starts_earlier),
    ("a leaf root that ends too early", root_ends_early),
    ("a used page that nothing reaches", stray_page),
    ("a router lost where enough are left", router_lost),
    ("a slot that comes too late", slot_too_late),
];

fn leaf_root_outside_span(image: &mut Image, rng: &mut Rng) -> Option<()> {
    root_outside_span(image, rng, false)
}

fn ends_later(image: &mut Image, rng: &mut Rng) -> Option<()> {
    let number = some_page(image, rng, |page| page.span.end != ALIVE)?;
    let end = image.page(number).span.end.max(image.header.oldest);
    let later = some_between(rng, end + 1, image.header.last());
    image.page_mut(number).span.end = later.filter(|_| rng.once_in(2)).unwrap_or(ALIVE);
    Some(())
}

fn starts_earlier(image: &mut Image, rng: &mut Rng) -> Option<()> {
    let oldest = image.header.oldest;
    let number = some_page(image, rng, |page| page.span.start > oldest)?;
    let start = image.page(number).span.start;
    image.page_mut(number).span.start = rng.below(start);
    Some(())
}

/// The leaf root of last ends there, with all its settings, and is still its
/// root.
fn root_ends_early(image: &mut Image, _: &mut Rng) -> Option<()> {
    let last = image.header.last();
    let root = image.root(last);
    let page = image.page_mut(root);
    if page.is_index() || page.span.start == last {
        return None;
    }
    end_live(&mut page.entries, last, |_| true);
    page.span.end = last;
    Some(())
}

/// What would break rules 4 and 5 on a reached page is rule 6 on this one.
fn stray_page(image: &mut Image, rng: &mut Rng) -> Option<()> {
    let number = some_free_page(image, rng)?;
    let start = rng.between(0, image.header.last());
    let span = Span::alive_from(start);
    let level = rng.between(LEAF, HIGHEST_LEVEL);
    let key = rng.below(ABOVE_ALL_KEYS);
    let settings = [Entry {
        key,
        span: Span::alive_from(start.max(1)),
        value: 0,
    }];
    let has_one = level == LEAF && start >= 1 && rng.once_in(2);
    let entries = if has_one {
        settings.to_vec()
    } else {
        Vec::new()
    };
    *image.page_mut(number) = Page::new(level, span, entries);
    Some(())
}

fn router_lost(image: &mut Image, rng: &mut Rng) -> Option<()> {
    let versions = image.turning_points();
    let enough = |place: Place| {
        let span = place.entry(image).span;
        let own = versions.iter().filter(|version| span.contains(**version));
        own.copied().all(|version| {
            let is_root = image.root(version) == place.page;
            let fewest = if is_root {
                2
            } else {
                image.edition().fewest_live
            };
            place.page_in(image).live(version).count() > fewest
        })
    };
    let place = some_router(image, rng, |place| {
        enough(place) && !is_first_somewhere(image, place)
    })?;
    image.page_mut(place.page).entries.remove(place.index);
    Some(())
}

/// Between the slot's old version and its new one the leaf root before it is
/// read, which has ended.
fn slot_too_late(image: &mut Image, rng: &mut Rng) -> Option<()> {
    let index = some_between(rng, 1, image.slots.len() as u32 - 1)? as usize;
    let Slot { version, root } = image.slots[index];
    let before = image.page(image.slots[index - 1].root);
    if before.is_index() || before.span.end > version {
        return None;
    }
    let next = image.slots.get(index + 1).map(|slot| slot.version);
    let highest = next.map_or(image.header.last(), |next| next - 1);
    let version = some_between(rng, version + 1, highest)?;
    image.slots[index] = Slot { version, root };
    Some(())
}
