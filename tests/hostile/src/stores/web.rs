//! Pages of a level stand at low keys evenly apart, the same on each level. Some
//! routers of a page stay, the first of them to the page of its own low key; others
//! start one after another, as numbers and a seed say, to pages with higher low keys.
//! So each router leads to a page that fits it; whether all that stands at one version
//! fits together is another matter.

use std::collections::BTreeMap;

use reference::layout::{Span, ALIVE, LEAF};
use reference::rng::Rng;

use super::entry;
use super::sketch::Sketch;

#[derive(Clone, Copy)]
pub struct Web {
    pub seed: u32,
    /// The root's level, and the most pages of each level below it.
    pub depth: u32,
    pub wide: u32,
    /// Most entries of a page, and how many of them stay.
    pub fan: u32,
    pub staying: u32,
    /// Versions from an entry's start to the next one's, and how long it lives.
    pub stagger: u32,
    pub life: u32,
    /// How many times as far apart the pages stand to which a page leads one level
    /// up.
    pub step: u32,
    /// Of so many routers one leads to any page with a higher low key.
    pub astray: u32,
}

impl Web {
    /// The versions at which the root stands, enough for the last entry's life.
    fn whole(self) -> Span {
        let end = 2 + self.life + self.stagger * self.fan * self.depth;
        Span { start: 1, end }
    }

    /// When an entry lives, by its place in a page of that level.
    fn span(self, level: u32, place: u32) -> Span {
        let whole = self.whole();
        if place < self.staying {
            return whole;
        }
        let late = self.stagger * (place + self.fan * (self.depth - level));
        let start = whole.start + late;
        let end = whole.end.min(start + self.life);
        Span { start, end }
    }
}

/// The low keys of two pages of a level lie this far apart.
const APART: u32 = 32;

/// The pages of a level, each by its place among them.
type Row = BTreeMap<u32, u32>;

pub fn web(numbers: Web) -> Option<Vec<u8>> {
    let mut sketch = Sketch::new();
    let mut rng = Rng::new(numbers.seed.into());
    let whole = numbers.whole();
    sketch.nothing_from(0);
    let root = sketch.page(numbers.depth, Vec::new());
    sketch.root(whole.start, root);
    sketch.nothing_from(whole.end);
    let mut row = Row::from([(0, root)]);
    for level in (LEAF..=numbers.depth).rev() {
        let mut below = Row::new();
        for own in row {
            fill(&mut sketch, &mut rng, numbers, level, own, &mut below);
        }
        row = below;
    }
    sketch.store(ALIVE - 1)
}

/// The entries of the page at a place, none of them twice. A page of the level below is made
/// when a router first leads to it.
fn fill(
    sketch: &mut Sketch,
    rng: &mut Rng,
    numbers: Web,
    level: u32,
    (own, page): (u32, u32),
    below: &mut Row,
) {
    let fewest = numbers.staying.min(numbers.fan);
    let mut orders = Vec::new();
    for place in 0..rng.between(fewest, numbers.fan) {
        let (key, value) = match level {
            LEAF => (APART * own + place, 7),
            _ => {
                let led = target(rng, numbers, level, own, place);
                let more = || sketch.page(level - 1, Vec::new());
                (APART * led, *below.entry(led).or_insert_with(more))
            }
        };
        let router = entry(key, numbers.span(level, place), value);
        if !orders.contains(&router.order()) {
            orders.push(router.order());
            sketch.router(page, router);
        }
    }
}

/// Which page a router leads to, by its place among those of the level below.
fn target(rng: &mut Rng, numbers: Web, level: u32, own: u32, place: u32) -> u32 {
    let due =
        own.saturating_add(place.saturating_mul(numbers.step.saturating_pow(level - LEAF - 1)));
    match numbers.astray > 0 && place > 0 && rng.once_in(numbers.astray) {
        true => rng.between(own, own.max(numbers.wide - 1)),
        false if due < numbers.wide => due,
        false => own,
    }
}
