//! Tall stores, built directly: sound, of a given level, and filled so that
//! the next update runs from the leaf to the root.
//!
//! A history reaches level 4 only after thousands of updates. Here one path,
//! the spine, gets the entries asked for, and every page beside it the fewest
//! that rule 5 allows.

use crate::edition::{Edition, FIRST};
use crate::image::Image;
use crate::layout::{Entry, Header, Page, Slot, Span, ALIVE, FIRST_PAGE, LEAF, MOST_PAGES};

/// How a page of the spine is filled: `live` and `dead` entries, together at
/// most as many as a page holds. The dead ones are earlier lives of its first entry.
#[derive(Clone, Copy, Debug, PartialEq, Eq)]
pub struct Fill {
    pub live: usize,
    pub dead: usize,
}

impl Fill {
    pub const fn new(live: usize, dead: usize) -> Fill {
        Fill { live, dead }
    }
}

/// Which child of a spine page goes on with the spine.
#[derive(Clone, Copy, Debug, PartialEq, Eq)]
pub enum Spine {
    First,
    Middle,
    Last,
}

/// A built store and the keys of its spine's leaf.
pub struct Tall {
    pub store: Vec<u8>,
    pub spine_keys: Vec<u32>,
}

/// Keys of neighbouring settings lie this far apart, so that any leaf takes
/// new keys between its own.
pub const GAP: u32 = 100;

struct Builder<'a> {
    image: Image,
    fills: &'a [Fill],
    spine: Spine,
    next_key: u32,
    spine_keys: Vec<u32>,
}

/// A store of edition 1 whose root has level `fills.len()`; `fills` are the
/// spine's, the leaf first. The pages in use are followed by `free` free ones.
/// None if that is more than 4,096 pages.
pub fn tall(fills: &[Fill], spine: Spine, free: usize) -> Option<Tall> {
    tall_of(&FIRST, fills, spine, free)
}

/// The same of any edition.
pub fn tall_of(
    edition: &'static Edition,
    fills: &[Fill],
    spine: Spine,
    free: usize,
) -> Option<Tall> {
    let dead = fills.iter().map(|fill| fill.dead).max()?;
    let mut builder = Builder {
        image: only_version_0(edition, dead as u32 + 1),
        fills,
        spine,
        next_key: 0,
        spine_keys: Vec::new(),
    };
    let (root, _) = builder.subtree(fills.len(), true)?;
    let mut image = builder.image;
    image.slots.push(Slot { version: 1, root });
    image.pages.extend((0..free).map(|_| Page::free()));
    let fits = FIRST_PAGE as usize + image.pages.len() <= MOST_PAGES;
    fits.then(|| Tall {
        store: image.write(),
        spine_keys: builder.spine_keys,
    })
}

/// Version 0 is empty: page 5, a leaf root that ends at 1.
fn only_version_0(edition: &'static Edition, current: u32) -> Image {
    let empty = Page::new(LEAF, Span { start: 0, end: 1 }, Vec::new());
    Image {
        header: Header::uncounted(edition, current, false),
        slots: vec![Slot {
            version: 0,
            root: FIRST_PAGE,
        }],
        pages: vec![empty],
    }
}

impl Builder<'_> {
    /// Builds a page of `level` and all below it; gives its number and low
    /// key. The leftmost low key of the store is 0.
    fn subtree(&mut self, level: usize, on_spine: bool) -> Option<(u32, u32)> {
        let edition = self.image.edition();
        let fill = match on_spine {
            true => self.fills[level - 1],
            false => Fill::new(edition.fewest_live, 0),
        };
        if fill.live + fill.dead > edition.most_entries || self.image.pages.len() > MOST_PAGES {
            return None;
        }
        let low = self.next_key;
        let entries = if level == LEAF as usize {
            self.settings(fill, on_spine)
        } else {
            self.routers(level, fill, on_spine)?
        };
        let page = Page::new(level as u32, Span::alive_from(1), entries);
        self.image.pages.push(page);
        let number = FIRST_PAGE + self.image.pages.len() as u32 - 1;
        Some((number, low))
    }

    fn settings(&mut self, fill: Fill, on_spine: bool) -> Vec<Entry> {
        let first = self.next_key;
        let keys = (0..fill.live as u32).map(|index| first + index * GAP);
        self.next_key += fill.live as u32 * GAP;
        if on_spine {
            self.spine_keys = keys.clone().collect();
        }
        with_dead(fill.dead, keys.map(|key| (key, key ^ 0xFFFF)).collect())
    }

    fn routers(&mut self, level: usize, fill: Fill, on_spine: bool) -> Option<Vec<Entry>> {
        let spine_child = match self.spine {
            Spine::First => 0,
            Spine::Middle => fill.live / 2,
            Spine::Last => fill.live - 1,
        };
        let mut routers = Vec::new();
        for index in 0..fill.live {
            let child_on_spine = on_spine && index == spine_child;
            let (child, low) = self.subtree(level - 1, child_on_spine)?;
            routers.push((low, child));
        }
        Some(with_dead(fill.dead, routers))
    }
}

/// Entries that start at 1 and are alive, the first after `dead` earlier lives
/// of one version each.
fn with_dead(dead: usize, pairs: Vec<(u32, u32)>) -> Vec<Entry> {
    let entry = |(key, value), start, end| Entry {
        key,
        span: Span { start, end },
        value,
    };
    let first = pairs[0];
    let lives = 1..=dead as u32;
    let earlier = lives.map(|start| entry(first, start, start + 1));
    let newest = entry(first, dead as u32 + 1, ALIVE);
    let others = pairs[1..].iter().map(|pair| entry(*pair, 1, ALIVE));
    earlier.chain([newest]).chain(others).collect()
}
