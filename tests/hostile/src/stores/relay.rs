//! Trees that take turns over shared leaves, and at every version before the last ones
//! rules 4 and 5 hold: judging has to go through all turns. In each round something
//! starts or ends in a leaf of each column, and then each tree is reached for a version.
//! That pages show something while they are not reached is made up for at the end, where
//! twenty routers at once lead to each tree: so the spans add up.

use reference::layout::{Entry, Span, ALIVE, LEAF};

use super::entry;
use super::sketch::Sketch;

#[derive(Clone, Copy)]
pub struct Relay {
    /// One after another, each with trees and leaves of its own.
    pub groups: u32,
    pub trees: u32,
    /// Pages of level 2 of a tree, one over each column of leaves.
    pub wide: u32,
    /// Leaves of a column, and lives of one setting of a leaf, beside those that stay.
    pub leaves: u32,
    pub lives: u32,
}

/// The low keys of two leaves lie this far apart.
const APART: u32 = 32;
/// Those of the pages that stay lie from here on.
const STAYING: u32 = 1 << 23;

impl Relay {
    fn rounds(self) -> u32 {
        2 * self.leaves * self.lives
    }

    fn long(self) -> u32 {
        self.rounds() * self.trees
    }

    fn group(self, number: u32) -> Span {
        let start = 1 + number * self.long();
        let end = start + self.long();
        Span { start, end }
    }

    fn fits(self, sketch: &Sketch) -> bool {
        let (many, fewest) = (sketch.most(), sketch.fewest());
        let turning = self.long() * self.groups / (many - fewest + 1);
        let own = self.groups * (self.trees * (self.wide + 3) + self.wide * self.leaves);
        let inside = self.groups.max(2) * self.long() < ALIVE / 4;
        let entries = self.lives + fewest <= many && self.trees <= many * (many - 1);
        entries && inside && sketch.has_room(own + turning + turning / (many - 1) + 180)
    }
}

pub fn relay(mut sketch: Sketch, numbers: Relay) -> Option<Vec<u8>> {
    if !numbers.fits(&sketch) {
        return None;
    }
    sketch.nothing_from(0);
    let mut tops = Vec::new();
    for group in 0..numbers.groups {
        tops.push(trees(&mut sketch, numbers, numbers.group(group)));
    }
    turned(&mut sketch, numbers, &tops);
    let mut late = numbers.group(numbers.groups).start;
    for (group, tops) in (0..).zip(&tops) {
        let owed = late - numbers.group(group).start - numbers.rounds().min(late - 1);
        let end = late + owed.div_ceil(sketch.most() - 1) + 1;
        made_up(&mut sketch, tops, Span { start: late, end });
        late = end;
    }
    sketch.nothing_from(late);
    sketch.store(late)
}

/// The tops of a group's trees, which stand on level 3.
fn trees(sketch: &mut Sketch, numbers: Relay, span: Span) -> Vec<u32> {
    let mut columns = Vec::new();
    for column in 0..numbers.wide {
        let row: Vec<(u32, u32)> = (0..numbers.leaves)
            .map(|place| leaf(sketch, numbers, span, column, place))
            .collect();
        columns.push(row);
    }
    (0..numbers.trees)
        .map(|_| {
            let below = columns.iter().map(|row| over(sketch, LEAF + 1, row, span));
            let below: Vec<(u32, u32)> = below.collect();
            over(sketch, LEAF + 2, &below, span).1
        })
        .collect()
}

/// Its setting with lives starts in every other round that is its own, and ends in the
/// next.
fn leaf(sketch: &mut Sketch, numbers: Relay, span: Span, column: u32, place: u32) -> (u32, u32) {
    let low = APART * (column * numbers.leaves + place);
    let fewest = sketch.fewest();
    let staying = (low..low + fewest).map(|key| entry(key, span, 7));
    let lives = (0..numbers.lives).map(|life| {
        let round = 2 * (life * numbers.leaves + place);
        let start = span.start + round * numbers.trees;
        let end = start + numbers.trees;
        entry(low + fewest, Span { start, end }, 7)
    });
    (low, sketch.page(LEAF, staying.chain(lives).collect()))
}

/// The pages of level 4 whose routers turn, beside others that stay, and the roots.
fn turned(sketch: &mut Sketch, numbers: Relay, tops: &[Vec<u32>]) {
    let fewest = sketch.fewest() as usize;
    let all = Span {
        start: 1,
        end: numbers.group(numbers.groups).start,
    };
    let mut low = STAYING;
    let beside: Vec<(u32, u32)> = (1..fewest)
        .map(|_| staying(sketch, LEAF + 2, &mut low, all))
        .collect();
    let last = staying(sketch, LEAF + 3, &mut low, all);
    let mut turns: Vec<Entry> = Vec::new();
    for tops in tops {
        for _ in 0..numbers.rounds() {
            for top in tops {
                let start = 1 + turns.len() as u32;
                let end = start + 1;
                turns.push(entry(0, Span { start, end }, *top));
            }
        }
    }
    let mut pages: Vec<Entry> = Vec::new();
    for own in turns.chunks(sketch.most() as usize + 1 - fewest) {
        let span = around(own);
        let others = beside.iter().map(|(key, page)| entry(*key, span, *page));
        let routers = own.iter().copied().chain(others).collect();
        pages.push(entry(0, span, sketch.page(LEAF + 3, routers)));
    }
    for own in pages.chunks(sketch.most() as usize - 1) {
        let span = around(own);
        let routers = own.iter().copied().chain([entry(last.0, span, last.1)]);
        let root = sketch.page(LEAF + 4, routers.collect());
        sketch.root(span.start, root);
    }
}

fn around(routers: &[Entry]) -> Span {
    Span {
        start: routers[0].span.start,
        end: routers[routers.len() - 1].span.end,
    }
}

/// A page with as few entries as may be and all below it.
fn staying(sketch: &mut Sketch, level: u32, low: &mut u32, span: Span) -> (u32, u32) {
    let first = *low;
    let entries: Vec<Entry> = (0..sketch.fewest())
        .map(|_| match level {
            LEAF => {
                *low += 1;
                entry(*low - 1, span, 7)
            }
            _ => {
                let (key, page) = staying(sketch, level - 1, low, span);
                entry(key, span, page)
            }
        })
        .collect();
    (first, sketch.page(level, entries))
}

/// A root under which as many routers as there may be lead to each of these pages.
fn made_up(sketch: &mut Sketch, tops: &[u32], span: Span) {
    let many = sketch.most();
    let pages: Vec<u32> = tops
        .iter()
        .map(|top| {
            let routers = (0..many).map(|key| entry(key, span, *top));
            sketch.page(LEAF + 3, routers.collect())
        })
        .collect();
    let mut routers = Vec::new();
    for own in pages.chunks(many as usize) {
        let below = (0..).zip(own).map(|(key, page)| entry(key, span, *page));
        let page = sketch.page(LEAF + 4, below.collect());
        routers.push(entry(routers.len() as u32, span, page));
    }
    let beside = sketch.page(LEAF + 4, Vec::new());
    routers.push(entry(STAYING, span, beside));
    let root = sketch.page(LEAF + 5, routers);
    sketch.root(span.start, root);
}

fn over(sketch: &mut Sketch, level: u32, below: &[(u32, u32)], span: Span) -> (u32, u32) {
    let routers = below.iter().map(|(low, page)| entry(*low, span, *page));
    (below[0].0, sketch.page(level, routers.collect()))
}
