//! Changes that a sound store bears and no page rule makes.
//!
//! Any sound store may be lent, also one that no history from fresh leads to.
//! Each change here is made at the open version of a sound store and leaves
//! it sound; settings may change with it.

use std::collections::BTreeSet;

use crate::draft::end_live;
use crate::image::Image;
use crate::layout::{Entry, Header, Page, Slot, Span, HIGHEST_KEY, HIGHEST_LEVEL, LEAF};
use crate::rng::Rng;
use crate::store;

/// Changes a sound store that takes such a change; gives whether the one at hand
/// found a place.
pub type Change = fn(&mut Image, &mut Rng) -> bool;

pub const CHANGES: [(&str, Change); 5] = [
    ("the open slot repeats the root", repeat_root),
    ("a router is renewed", renew_router),
    ("a page gets another low key", move_low_key),
    ("a root becomes a child", root_to_child),
    ("a child becomes the root", child_to_root),
];

/// Makes one of the changes, chosen at random, and gives its name.
pub fn unsettle(bytes: &mut Vec<u8>, rng: &mut Rng) -> Option<&'static str> {
    one_of(&CHANGES, bytes, |image| image.header.open, rng)
}

/// Makes one of `changes`, chosen at random, on a store that takes it, and gives its
/// name.
pub fn one_of(
    changes: &[(&'static str, Change)],
    bytes: &mut Vec<u8>,
    takes: fn(&Image) -> bool,
    rng: &mut Rng,
) -> Option<&'static str> {
    let (name, change) = rng.pick(changes)?;
    let mut image = Image::read(bytes);
    if !takes(&image) || !change(&mut image, rng) {
        return None;
    }
    *bytes = image.write();
    Some(name)
}

/// Raises the current version to `current`. Nothing starts or ends between,
/// so a sound store stays sound; what belonged to an open update then belongs
/// to an older version.
pub fn raise_current(bytes: &mut [u8], current: u32) {
    let header = store::header(bytes);
    if current > header.current {
        store::write_header(bytes, Header { current, ..header });
    }
}

/// A slot at the open version for the root that is there already: "slots that
/// repeat a root", "an open slot that names an inactive root".
fn repeat_root(image: &mut Image, _: &mut Rng) -> bool {
    let open = image.header.last();
    let has_slot = image.slots.iter().any(|slot| slot.version == open);
    let root = image.root(open);
    !has_slot && set_root(image, root)
}

fn set_root(image: &mut Image, root: u32) -> bool {
    let version = image.header.last();
    if image
        .slots
        .last()
        .is_some_and(|slot| slot.version == version)
    {
        image.slots.pop();
    }
    let fits = image.slots.len() < image.edition().slots as usize;
    if fits {
        image.slots.push(Slot { version, root });
    }
    fits
}

fn has_room_for_root(image: &Image) -> bool {
    let open = image.header.last();
    image.slots.len() < image.edition().slots as usize
        || image.slots.last().is_some_and(|s| s.version == open)
}

/// The pages reached at the open version below and with `top`.
fn reached(image: &Image, top: u32) -> BTreeSet<u32> {
    let open = image.header.last();
    let mut met = BTreeSet::new();
    let mut waiting = vec![top];
    while let Some(number) = waiting.pop() {
        let page = image.page(number);
        if page.is_index() {
            waiting.extend(page.live(open).map(|router| router.value));
        }
        met.insert(number);
    }
    met
}

fn some_reached_index_page(image: &Image, rng: &mut Rng) -> Option<u32> {
    let root = image.root(image.header.last());
    let mut pages: Vec<u32> = reached(image, root).into_iter().collect();
    pages.retain(|number| image.page(*number).is_index());
    rng.pick(&pages).copied()
}

/// Ends the live entry with key `old` and adds one with key `new` and the same
/// value. Wants room for one entry.
fn rekey(page: &mut Page, old: u32, new: u32, open: u32) {
    let entry = page.live(open).find(|entry| entry.key == old).copied();
    if let Some(entry) = entry {
        end_live(&mut page.entries, open, |key| key == old);
        page.entries.push(Entry {
            key: new,
            span: Span::alive_from(open),
            ..entry
        });
        page.entries.sort_by_key(Entry::order);
    }
}

/// A router ends and begins again with the same low key and child.
fn renew_router(image: &mut Image, rng: &mut Rng) -> bool {
    let open = image.header.last();
    let Some(number) = some_reached_index_page(image, rng) else {
        return false;
    };
    let most = image.edition().most_entries;
    let page = image.page_mut(number);
    let older: Vec<u32> = page
        .live(open)
        .filter(|router| router.span.start < open)
        .map(|router| router.key)
        .collect();
    match rng.pick(&older) {
        Some(key) if page.entries.len() < most => {
            rekey(page, *key, *key, open);
            true
        }
        _ => false,
    }
}

/// "Low keys of a page that differ from version to version": a router other
/// than its page's first gets another low key, and so do the first routers
/// below it.
fn move_low_key(image: &mut Image, rng: &mut Rng) -> bool {
    let open = image.header.last();
    let Some(number) = some_reached_index_page(image, rng) else {
        return false;
    };
    let live: Vec<Entry> = image.page(number).live(open).copied().collect();
    if live.len() < 2 {
        return false;
    }
    let index = rng.between(1, live.len() as u32 - 1) as usize;
    let lowest = keys_below(image, live[index - 1].value)
        .max()
        .map(|k| k + 1);
    let highest = keys_below(image, live[index].value).min();
    let (Some(lowest), Some(highest)) = (lowest, highest) else {
        return false;
    };
    let old = live[index].key;
    let new = rng.between(lowest, highest);
    let chain = first_pages(image, number, live[index].value);
    let full = |page: &u32| image.page(*page).entries.len() >= image.edition().most_entries;
    if new == old || chain.iter().any(full) {
        return false;
    }
    for page in chain {
        rekey(image.page_mut(page), old, new, open);
    }
    true
}

/// `parent`, then the index pages from `child` down by first routers: those
/// whose live routers share the low key of `child`.
fn first_pages(image: &Image, parent: u32, child: u32) -> Vec<u32> {
    let open = image.header.last();
    let mut chain = vec![parent];
    let mut number = child;
    while image.page(number).is_index() {
        chain.push(number);
        number = match image.page(number).live(open).next() {
            Some(first) => first.value,
            None => break,
        };
    }
    chain
}

/// The keys of the settings alive at the open version below `top`.
fn keys_below(image: &Image, top: u32) -> impl Iterator<Item = u32> + '_ {
    let open = image.header.last();
    let pages = reached(image, top).into_iter();
    pages
        .map(|number| image.page(number))
        .filter(|page| !page.is_index())
        .flat_map(move |page| page.live(open).map(|entry| entry.key))
}

/// "A page that is a root at some versions and a child at others": the root,
/// as it is, becomes the first child of a new root; the second child is new.
fn root_to_child(image: &mut Image, _: &mut Rng) -> bool {
    let open = image.header.last();
    let fewest = image.edition().fewest_live;
    let root = image.root(open);
    let level = image.page(root).level;
    let filled = image.page(root).live(open).count() >= fewest;
    let low = keys_below(image, root).max().map_or(1, |key| key + 1);
    let leaves = fewest.pow(level - LEAF) as u32;
    let keys_left = (HIGHEST_KEY + 1).saturating_sub(low) / fewest as u32 >= leaves;
    let free = image.numbered().filter(|(_, page)| page.is_free());
    // Less than twice the leaves is enough for them and the pages above.
    let pages_left = free.count() > 2 * leaves as usize;
    let fits = filled && keys_left && pages_left && has_room_for_root(image);
    if !fits || level == HIGHEST_LEVEL {
        return false;
    }
    let mut next_key = low;
    let second = new_subtree(image, level, &mut next_key);
    let above = new_page(image, level + 1, &[(0, root), (low, second)]);
    set_root(image, above)
}

/// A page of `level` with the fewest entries and all below it, keys from
/// `next_key` on.
fn new_subtree(image: &mut Image, level: u32, next_key: &mut u32) -> u32 {
    let mut pairs = Vec::new();
    for _ in 0..image.edition().fewest_live {
        let low = *next_key;
        if level == LEAF {
            pairs.push((low, low));
            *next_key += 1;
        } else {
            pairs.push((low, new_subtree(image, level - 1, next_key)));
        }
    }
    new_page(image, level, &pairs)
}

/// Takes the highest free page, unlike the page rules, which take the lowest.
fn new_page(image: &mut Image, level: u32, pairs: &[(u32, u32)]) -> u32 {
    let span = Span::alive_from(image.header.last());
    let entry = |&(key, value): &(u32, u32)| Entry { key, span, value };
    let entries = pairs.iter().map(entry).collect();
    let free = image.numbered().filter(|(_, page)| page.is_free()).last();
    let number = free.expect("free pages were counted").0;
    *image.page_mut(number) = Page::new(level, span, entries);
    number
}

/// The root's first child, as it is, becomes the root; all else goes.
fn child_to_root(image: &mut Image, _: &mut Rng) -> bool {
    let open = image.header.last();
    let root = image.root(open);
    let first = image.page(root).live(open).next().copied();
    let Some(first) = first.filter(|_| image.page(root).is_index()) else {
        return false;
    };
    if !has_room_for_root(image) {
        return false;
    }
    let kept = reached(image, first.value);
    for number in reached(image, root).difference(&kept) {
        retire(image.page_mut(*number), open);
    }
    set_root(image, first.value)
}

fn retire(page: &mut Page, open: u32) {
    if page.span.start == open {
        *page = Page::free();
    } else {
        end_live(&mut page.entries, open, |_| true);
        page.span.end = open;
    }
}
