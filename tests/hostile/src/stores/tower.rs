//! Leaves in which something starts or ends at a version of its own, under as many
//! levels as there are: each time the notes of a whole way down are made again.

use reference::layout::{Entry, Span, ALIVE, LEAF, MOST_ENTRIES};

use super::entry;
use super::sketch::Sketch;

#[derive(Clone, Copy)]
pub struct Tower {
    pub leaves: u32,
    /// Settings of a leaf that stay, and lives of one more.
    pub staying: u32,
    pub lives: u32,
    /// Most routers of a page of level 2, and of one above; where few pages are left, one
    /// page leads to one.
    pub fan: u32,
    pub above: u32,
    /// The root's level.
    pub height: u32,
}

/// Of all that stays.
const ALL: Span = Span::alive_from(1);

impl Tower {
    /// The version behind the last one at which something ends.
    fn behind(self) -> u32 {
        1 + 2 * self.lives * self.leaves
    }

    /// Whether the leaves find room in a store, their entries in a leaf, and all versions
    /// below the mark of what stays.
    fn fits(self) -> bool {
        Sketch::new().has_room(self.leaves)
            && (self.staying + self.lives) as usize <= MOST_ENTRIES
            && self.behind() < ALIVE
    }

    /// The settings of a leaf from its low key on: those that stay, then the lives of one more,
    /// between two of which each other leaf has one of its own.
    fn settings(self, leaf: u32, low: u32) -> Vec<Entry> {
        let staying = (0..self.staying).map(|key| entry(low + key, ALL, 7));
        let lives = (0..self.lives).map(|life| {
            let start = 1 + 2 * (life * self.leaves + leaf);
            let end = start + 1;
            entry(low + self.staying, Span { start, end }, 7)
        });
        staying.chain(lives).collect()
    }
}

pub fn tower(numbers: Tower) -> Option<Vec<u8>> {
    if !numbers.fits() {
        return None;
    }
    let mut sketch = Sketch::new();
    sketch.nothing_from(0);
    let mut row: Vec<(u32, u32)> = Vec::new();
    for leaf in 0..numbers.leaves {
        let low = 32 * leaf;
        row.push((low, sketch.page(LEAF, numbers.settings(leaf, low))));
    }
    for level in LEAF + 1..=numbers.height {
        let above_leaves = level == LEAF + 1;
        let fan = if above_leaves {
            numbers.fan
        } else {
            numbers.above
        };
        row = over(&mut sketch, level, fan, &row);
    }
    if row.len() > 1 || numbers.height == LEAF {
        return None;
    }
    stand(&mut sketch, numbers.height, row[0].1);
    sketch.store(numbers.behind())
}

/// Pages of `level` over these, each with so many routers or what is left.
fn over(sketch: &mut Sketch, level: u32, fan: u32, row: &[(u32, u32)]) -> Vec<(u32, u32)> {
    let parts = row.chunks(fan as usize);
    parts
        .map(|own| {
            let routers = own.iter().map(|(low, page)| entry(*low, ALL, *page));
            (own[0].0, sketch.page(level, routers.collect()))
        })
        .collect()
}

/// This page as the root from version 1 on. A root has two live routers: where it has one, it
/// gets another to an empty page.
fn stand(sketch: &mut Sketch, height: u32, root: u32) {
    if sketch.count(root) == 1 {
        let beside = sketch.page(height - 1, Vec::new());
        sketch.router(root, entry(1 << 23, ALL, beside));
    }
    sketch.root(1, root);
}
