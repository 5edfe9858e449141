//! Routers that start one after another in key order, so that each of them comes
//! last for a while and none is passed over, and all of a page to one page below:
//! as many ways down as a power of them.

use reference::layout::{Entry, Span, ALIVE, LEAF};

use super::entry;
use super::sketch::Sketch;

#[derive(Clone, Copy)]
pub struct Storm {
    /// Roots one after another, each with pages of its own.
    pub groups: u32,
    /// Pages under a root, beside one another.
    pub units: u32,
    /// Routers of a unit, beside as few as may be that stay, and of a page under it.
    pub pairs: u32,
    pub fan: u32,
    /// Levels under the units.
    pub depth: u32,
    /// Versions from a router's start to the next one's.
    pub stagger: u32,
    /// Versions at which all of them are alive.
    pub width: u32,
}

/// The one that uses up any budget, in few pages.
pub const SMALL: Storm = Storm {
    groups: 1,
    units: 20,
    pairs: 16,
    fan: 20,
    depth: 5,
    stagger: 1,
    width: 2000,
};

/// The storm from a version on; the version behind it.
pub fn storm(sketch: &mut Sketch, storm: Storm, from: u32) -> u32 {
    let stages = storm.units + storm.pairs + storm.fan * storm.depth;
    let long = storm.stagger * stages + storm.width;
    for group in 0..storm.groups {
        let start = from + long * group;
        let end = start + long;
        one_group(sketch, storm, Span { start, end });
    }
    from + long * storm.groups
}

fn one_group(sketch: &mut Sketch, storm: Storm, span: Span) {
    let levels = storm.depth + 1;
    let root = sketch.page(levels + 1, Vec::new());
    sketch.root(span.start, root);
    let empty = sketch.page(storm.depth, Vec::new());
    let mut first = span.start + storm.stagger * storm.units;
    let top = sketch.len() as u32 + storm.units;
    for unit in 0..storm.units {
        let low = unit << 19;
        // the root's first and last router are there from its first version on
        let late = storm.stagger * (unit % (storm.units - 1).max(1));
        let alive = Span {
            start: span.start + late,
            ..span
        };
        let staying = (0..sketch.fewest()).map(|key| entry(low + key, alive, empty));
        let more = routers(storm, storm.pairs, low + 8, first, span.end, top);
        let page = sketch.page(levels, staying.chain(more).collect());
        sketch.router(root, entry(low, alive, page));
    }
    first += storm.stagger * storm.pairs;
    for level in (LEAF..=storm.depth).rev() {
        let below = sketch.len() as u32 + 1;
        let own = routers(storm, storm.fan, 8, first.max(1), span.end, below);
        sketch.page(level, own.collect());
        first += storm.stagger * storm.fan;
    }
}

fn routers(
    storm: Storm,
    count: u32,
    key: u32,
    first: u32,
    end: u32,
    value: u32,
) -> impl Iterator<Item = Entry> {
    (0..count).map(move |place| {
        let start = first + storm.stagger * place;
        entry(key + place, Span { start, end }, value)
    })
}

/// The storm alone.
pub fn alone(mut sketch: Sketch, numbers: Storm) -> Option<Vec<u8>> {
    let behind = storm(&mut sketch, numbers, 0);
    sketch.nothing_from(behind);
    sketch.store(ALIVE - 1)
}

/// A small storm behind another store, with its pages before the other's: judging
/// meets it first, a walk through time last.
pub fn behind(store: &[u8]) -> Option<Vec<u8>> {
    let mut sketch = Sketch::new();
    let last = reference::store::header(store).last();
    let end = storm(&mut sketch, SMALL, last + 1);
    sketch.before(store);
    sketch.nothing_from(end);
    sketch.store(ALIVE - 1)
}
