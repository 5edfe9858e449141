//! Damage to rule 4: keys against bounds, and keys that stand twice.

use super::{is_first_somewhere, some_between, some_entry, some_leaf_met, some_router};
use super::{OnValues, Place};
use crate::image::Image;
use crate::layout::{ABOVE_ALL_KEYS, LEAF};
use crate::rng::Rng;

pub const KINDS: &[(&str, OnValues)] = &[
    ("a setting at or above its bound", key_too_high),
    ("a setting below its page's low key", key_too_low),
    ("a first router with another low key", first_router_moved),
    (
        "a first router that ends too early",
        first_router_ends_early,
    ),
    ("a low key above a key of its page", low_key_too_high),
    (
        "a dead setting that lives on beside its next life",
        lives_on,
    ),
    ("two live settings of one key", key_twice),
];

/// The last entry of a page may get a higher key without falling out of
/// order, the first a lower one.
fn key_too_high(image: &mut Image, rng: &mut Rng) -> Option<()> {
    let met = some_leaf_met(image, rng)?;
    let last = image.page_mut(met.leaf).entries.last_mut()?;
    let high = some_between(rng, met.above, ABOVE_ALL_KEYS - 1)?;
    last.key = high;
    last.span.contains(met.version).then_some(())
}

fn key_too_low(image: &mut Image, rng: &mut Rng) -> Option<()> {
    let met = some_leaf_met(image, rng)?;
    let first = image.page_mut(met.leaf).entries.first_mut()?;
    first.key = some_between(rng, 0, met.low.checked_sub(1)?)?;
    first.span.contains(met.version).then_some(())
}

/// Another key for an entry that keeps it in its place in the order.
fn other_key(image: &Image, rng: &mut Rng, place: Place) -> Option<u32> {
    let key = place.entry(image).key;
    let lowest = place.before(image).map_or(0, |before| before.key + 1);
    let above = place.behind(image).map_or(ABOVE_ALL_KEYS, |next| next.key);
    let other = some_between(rng, lowest, above.checked_sub(1)?)?;
    (other != key).then_some(other)
}

fn first_router_moved(image: &mut Image, rng: &mut Rng) -> Option<()> {
    let place = some_router(image, rng, |place| is_first_somewhere(image, place))?;
    let key = other_key(image, rng, place)?;
    place.entry_mut(image).key = key;
    Some(())
}

/// At last the second router becomes the first, whose low key is another.
fn first_router_ends_early(image: &mut Image, rng: &mut Rng) -> Option<()> {
    let last = image.header.last();
    let place = some_router(image, rng, |place| {
        let router = place.entry(image);
        let first = place.page_in(image).live(last).next();
        first == Some(&router) && router.span.start < last
    })?;
    place.entry_mut(image).span.end = last;
    Some(())
}

/// A router's low key rises above the lowest key of its leaf.
fn low_key_too_high(image: &mut Image, rng: &mut Rng) -> Option<()> {
    let place = some_router(image, rng, |place| place.page_in(image).level == LEAF + 1)?;
    let router = place.entry(image);
    let child = image.page(router.value);
    let from = router.span.start.max(image.header.oldest);
    let lowest = child.live(from).map(|entry| entry.key).min()?;
    let above = place.behind(image).map_or(ABOVE_ALL_KEYS, |next| next.key);
    let key = some_between(rng, lowest + 1, above.checked_sub(1)?)?;
    place.entry_mut(image).key = key;
    Some(())
}

/// A page is reached at every version of its span from the oldest on, so also
/// where the two lives meet. Only the later end changes: order and lower rules
/// stay.
fn lives_on(image: &mut Image, rng: &mut Rng) -> Option<()> {
    let oldest = image.header.oldest;
    let place = some_entry(image, rng, |place| {
        let key = place.entry(image).key;
        let next_life = place.behind(image);
        place.page_in(image).level == LEAF
            && next_life.is_some_and(|next| next.key == key && next.span.end > oldest)
    })?;
    let end = place.page_in(image).span.end;
    place.entry_mut(image).span.end = end;
    Some(())
}

/// Two entries beside each other that are alive at once, the first of them
/// the older: the second may take the first one's key and stay in order.
fn key_twice(image: &mut Image, rng: &mut Rng) -> Option<()> {
    let oldest = image.header.oldest;
    let place = some_entry(image, rng, |place| {
        let entry = place.entry(image);
        let at_once = entry.span.start.max(oldest);
        let older = place.before(image).is_some_and(|before| {
            before.key < entry.key
                && before.span.start < entry.span.start
                && before.span.contains(at_once)
                && entry.span.contains(at_once)
        });
        older && place.page_in(image).level == LEAF
    })?;
    let before = place.before(image)?;
    place.entry_mut(image).key = before.key;
    Some(())
}
