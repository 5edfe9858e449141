//! Rule 4: the keys of each reached page lie in its bounds.

use crate::image::Image;
use crate::layout::{Entry, ABOVE_ALL_KEYS, MOST_PAGES};

/// Whether the walk from the root of `version` finds rule 4 kept.
///
/// Several routers may name one child, yet the walk stays short. While the
/// rule has held so far, the bounds of the pages met on one level are
/// disjoint, so a page with a live key is met a second time only to break the
/// rule there, before the walk goes below it. A page without live entries has
/// nothing to test and nothing below it. So no page with live routers is
/// passed twice, and there are at most as many steps as routers. Levels fall
/// by one (rule 3): the depth is at most 7.
pub fn hold(image: &Image, version: u32) -> bool {
    let mut walk = Walk {
        image,
        version,
        empty: [false; MOST_PAGES],
    };
    let bounds = Bounds {
        low: 0,
        above: ABOVE_ALL_KEYS,
    };
    walk.holds_from(image.root(version), bounds)
}

/// A page's low key, and "the next one's": the bound its keys stay below.
#[derive(Clone, Copy)]
struct Bounds {
    low: u32,
    above: u32,
}

struct Walk<'a> {
    image: &'a Image,
    version: u32,
    /// The pages found without live entries. A store may name one of them by
    /// every router it has.
    empty: [bool; MOST_PAGES],
}

impl Walk<'_> {
    fn holds_from(&mut self, number: u32, bounds: Bounds) -> bool {
        if self.empty[number as usize] {
            return true;
        }
        let page = self.image.page(number);
        if !keys_hold(page.live(self.version), bounds) {
            return false;
        }
        let mut live = page.live(self.version).peekable();
        let Some(first) = live.peek() else {
            // An index page without live routers is rule 5's matter.
            self.empty[number as usize] = true;
            return true;
        };
        if !page.is_index() {
            return true;
        }
        if first.key != bounds.low {
            return false;
        }
        while let Some(router) = live.next() {
            let below = Bounds {
                low: router.key,
                above: live.peek().map_or(bounds.above, |next| next.key),
            };
            if !self.holds_from(router.value, below) {
                return false;
            }
        }
        true
    }
}

/// The live keys stand within the bounds, none twice. They come in key order,
/// so a key that stands twice stands twice in a row.
fn keys_hold<'a>(live: impl Iterator<Item = &'a Entry>, bounds: Bounds) -> bool {
    let mut before = None;
    for entry in live {
        if entry.key < bounds.low || entry.key >= bounds.above || before == Some(entry.key) {
            return false;
        }
        before = Some(entry.key);
    }
    true
}
