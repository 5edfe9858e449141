//! Stores that keep rules 1 and 2 and nothing else: what a lookup or a range
//! judges as it goes holds, and where its walk leads nobody has ordered.

use std::collections::BTreeMap;

use crate::edition::{Edition, FIRST};
use crate::image::Image;
use crate::layout::{
    Entry, Header, Page, Slot, Span, ALIVE, FIRST_PAGE, HIGHEST_KEY, HIGHEST_LEVEL, LEAF,
};
use crate::rng::Rng;

/// The highest key of most, so that keys meet.
const KEYS: u32 = 60;

pub fn wild_store(rng: &mut Rng) -> Vec<u8> {
    wild_store_of(&FIRST, rng)
}

pub fn wild_store_of(edition: &'static Edition, rng: &mut Rng) -> Vec<u8> {
    let last = rng.between(1, 9);
    let open = rng.once_in(3);
    let levels: Vec<u32> = (0..rng.between(1, 40)).map(|_| some_level(rng)).collect();
    let most = edition.most_entries as u32;
    let pages = levels
        .iter()
        .map(|level| page(*level, &levels, most, last, rng));
    let mut image = Image {
        header: Header::uncounted(edition, last - u32::from(open), open),
        slots: Vec::new(),
        pages: pages.collect(),
    };
    if edition.oldest.is_some() && rng.once_in(2) {
        image.header.oldest = rng.between(0, image.header.current);
    }
    // One slot at or below the oldest version, and any behind it.
    let oldest = image.header.oldest;
    for version in oldest..=last {
        if version == oldest || rng.once_in(3) {
            let root = FIRST_PAGE + highest(&levels, rng);
            image.slots.push(Slot { version, root });
        }
    }
    image.slots[0].version = rng.between(0, oldest);
    image.write()
}

fn some_level(rng: &mut Rng) -> u32 {
    match rng.below(12) {
        0 => 0,
        1..=4 => LEAF,
        5..=7 => 2,
        8 | 9 => 3,
        10 => 4,
        _ => rng.between(2, HIGHEST_LEVEL),
    }
}

/// Mostly the index of a page with many levels below it.
fn highest(levels: &[u32], rng: &mut Rng) -> u32 {
    let any = || rng.below(levels.len() as u32);
    let picks: Vec<u32> = std::iter::repeat_with(any).take(3).collect();
    let pick = picks
        .into_iter()
        .max_by_key(|index| levels[*index as usize]);
    pick.unwrap_or(0)
}

/// A page of this level with entries of all sorts; its routers lead mostly to
/// pages one level lower.
fn page(level: u32, levels: &[u32], most: u32, last: u32, rng: &mut Rng) -> Page {
    if level == 0 {
        return Page::free();
    }
    let below: Vec<u32> = (0..levels.len() as u32)
        .filter(|index| levels[*index as usize] + 1 == level)
        .collect();
    let fewest = if level == LEAF { 1 } else { 0 };
    // Low levels may be wide; the walk through high ones has to end.
    let most = if level <= 3 { most } else { 6 };
    let mut entries = BTreeMap::new();
    for index in 0..rng.between(1, most) {
        let key = match rng.below(12) {
            _ if index == 0 && level > LEAF => rng.below(2) * rng.below(3),
            0 => rng.between(0, HIGHEST_KEY),
            1 => 0,
            _ => rng.below(KEYS),
        };
        let span = span(fewest, last, rng);
        let value = match rng.pick(&below) {
            _ if level == LEAF => rng.word(),
            Some(child) if !rng.once_in(40) => FIRST_PAGE + child,
            _ => FIRST_PAGE + rng.below(levels.len() as u32),
        };
        entries.insert((key, span.start), Entry { key, span, value });
    }
    Page::new(level, span(0, last, rng), entries.into_values().collect())
}

/// Any span that rule 1 allows, mostly a long one.
fn span(fewest: u32, last: u32, rng: &mut Rng) -> Span {
    let start = match rng.below(3) {
        0 => rng.between(fewest, last),
        _ => fewest.max(rng.below(2)),
    };
    let end = match rng.below(4) {
        0 if start < last => rng.between(start + 1, last),
        _ => ALIVE,
    };
    Span { start, end }
}
