//! Trees that take turns over shared pages, as in `turns`, but the index pages of
//! level 3 and 4 are shared too, no two trees need take the same of them, and a start
//! may come between any two turns. What starts does so in leaves that show nothing else,
//! to which all columns lead, while no tree is reached.

use reference::layout::{Entry, Span, ALIVE, HIGHEST_LEVEL, LEAF};

use super::entry;
use super::sketch::Sketch;

#[derive(Clone, Copy)]
pub struct Pool {
    /// The trees, and the pages of the lowest level that a tree has for itself.
    pub trees: u32,
    pub wide: u32,
    /// Columns of shared pages, one under each of those pages; trees take different
    /// ones as far as they go.
    pub columns: u32,
    /// The highest level of a shared page.
    pub shared: u32,
    /// Routers of a page from level 3 up to the first that is not shared.
    pub fan: u32,
    /// Leaves to which a page of level 2 leads, and starts in each of them.
    pub leaves: u32,
    pub lives: u32,
    /// Turns from a start to the next one.
    pub every: u32,
    /// The level of the pages whose routers turn.
    pub turning: u32,
}

/// The low keys of two pages of level 2 lie this far apart.
const APART: u32 = 64;

impl Pool {
    /// Pages of level 2 of a column, each of which leads to leaves of its own in
    /// versions of its own.
    fn eras(self) -> u32 {
        self.fan.pow(self.shared - LEAF)
    }

    fn starts(self) -> u32 {
        self.eras() * self.leaves * self.lives
    }

    /// The version of a start; turns follow.
    fn at(self, start: u32) -> u32 {
        1 + start * (self.every + 1)
    }

    fn all(self) -> Span {
        Span {
            start: self.at(0),
            end: self.at(self.starts()),
        }
    }

    fn fits(self, sketch: &Sketch) -> bool {
        let many = u64::from(sketch.most());
        let [trees, wide, columns, fan] =
            [self.trees, self.wide, self.columns, self.fan].map(u64::from);
        let starts = u64::from(self.starts());
        let own = trees * (wide + wide / many + 2);
        let shared = columns * (1..self.shared).map(|level| fan.pow(level)).sum::<u64>();
        let turning = starts * u64::from(self.every) / many;
        let pages = own + shared + starts / u64::from(self.lives) + turning + turning / many;
        self.wide <= self.columns
            && self.shared + 1 < self.turning
            && columns * u64::from(self.eras() * APART) < 1 << 23
            && starts * u64::from(self.every + 1) < u64::from(ALIVE / 2)
            && sketch.has_room(pages as u32)
    }
}

/// None if it does not fit, or if a tree has more than one page right below the turning
/// ones.
pub fn pool(mut sketch: Sketch, numbers: Pool) -> Option<Vec<u8>> {
    if !numbers.fits(&sketch) {
        return None;
    }
    sketch.nothing_from(0);
    let columns = columns(&mut sketch, numbers);
    let trees: Option<Vec<u32>> = (0..numbers.trees)
        .map(|tree| top(&mut sketch, numbers, &columns, tree))
        .collect();
    turned(&mut sketch, numbers, &trees?);
    sketch.nothing_from(numbers.all().end);
    sketch.store(ALIVE - 1)
}

/// The low keys and numbers of each column's highest pages.
fn columns(sketch: &mut Sketch, numbers: Pool) -> Vec<Vec<(u32, u32)>> {
    let leaves: Vec<Vec<u32>> = (0..numbers.eras())
        .map(|era| {
            let leaf = |place| leaf(sketch, numbers, era, place);
            (0..numbers.leaves).map(leaf).collect()
        })
        .collect();
    let mut columns = Vec::new();
    for column in 0..numbers.columns {
        let mut row: Vec<(u32, u32)> = Vec::new();
        for (era, leaves) in (0..).zip(&leaves) {
            let low = APART * (column * numbers.eras() + era);
            let first = era * numbers.leaves * numbers.lives;
            let span = Span {
                start: numbers.at(first),
                end: numbers.at(first + numbers.leaves * numbers.lives),
            };
            let routers = (low..).zip(leaves);
            let routers = routers.map(|(key, leaf)| entry(key, span, *leaf));
            row.push((low, sketch.page(LEAF + 1, routers.collect())));
        }
        for level in LEAF + 2..=numbers.shared {
            row = over(sketch, level, &row, numbers.fan, numbers.all());
        }
        columns.push(row);
    }
    columns
}

/// A leaf of an era, with one start in each round over the era's leaves.
fn leaf(sketch: &mut Sketch, numbers: Pool, era: u32, place: u32) -> u32 {
    let lives = (0..numbers.lives).map(|life| {
        let round = era * numbers.lives + life;
        let start = numbers.at(round * numbers.leaves + place);
        let end = start + 1;
        entry(1, Span { start, end }, 7)
    });
    sketch.page(LEAF, lives.collect())
}

/// A tree over its columns, the first of which all trees have, so that its low key is 0.
fn top(sketch: &mut Sketch, numbers: Pool, columns: &[Vec<(u32, u32)>], tree: u32) -> Option<u32> {
    let others = numbers.wide - 1;
    let among = (numbers.columns - 1).max(1);
    let mut own: Vec<u32> = (0..others)
        .map(|place| 1 + (tree * others + place) % among)
        .collect();
    own.push(0);
    own.sort_unstable();
    let mut row: Vec<(u32, u32)> = Vec::new();
    for column in own {
        let below = &columns[column as usize];
        row.extend(over(
            sketch,
            numbers.shared + 1,
            below,
            numbers.fan,
            numbers.all(),
        ));
    }
    for level in numbers.shared + 2..numbers.turning {
        row = over(sketch, level, &row, sketch.most(), numbers.all());
    }
    (row.len() == 1).then(|| row[0].1)
}

/// The tops in turn, each for a version, none at that of a start; the pages above.
fn turned(sketch: &mut Sketch, numbers: Pool, tops: &[u32]) {
    let mut turns = tops.iter().cycle();
    let mut routers: Vec<Entry> = Vec::new();
    for start in 0..numbers.starts() {
        let first = numbers.at(start) + 1;
        for version in first..first + numbers.every {
            let top = *turns.next().expect("a tree");
            let end = version + 1;
            let start = version;
            routers.push(entry(0, Span { start, end }, top));
        }
    }
    for level in numbers.turning..HIGHEST_LEVEL {
        let parts = routers.chunks(sketch.most() as usize).map(<[_]>::to_vec);
        let parts: Vec<Vec<Entry>> = parts.collect();
        routers = parts
            .into_iter()
            .map(|own| {
                let start = own[0].span.start;
                let end = own[own.len() - 1].span.end;
                entry(0, Span { start, end }, sketch.page(level, own))
            })
            .collect();
    }
    for own in routers.chunks(sketch.most() as usize) {
        let root = sketch.page(HIGHEST_LEVEL, own.to_vec());
        sketch.root(own[0].span.start, root);
    }
}

/// The pages of a level over these, at most so many under each.
fn over(
    sketch: &mut Sketch,
    level: u32,
    below: &[(u32, u32)],
    fan: u32,
    span: Span,
) -> Vec<(u32, u32)> {
    let parts = below.chunks(fan as usize);
    parts
        .map(|own| {
            let routers = own.iter().map(|(low, page)| entry(*low, span, *page));
            (own[0].0, sketch.page(level, routers.collect()))
        })
        .collect()
}
