//! Trees that take turns over the same pages below. A leaf without a live entry may
//! be led to by any number of routers, and what will start in it ends the notes of
//! all pages above, in each of the trees. It starts while none is reached.

use reference::layout::{Entry, Span, ALIVE, LEAF};

use super::entry;
use super::sketch::Sketch;
use super::storm::{storm, SMALL};

#[derive(Clone, Copy)]
pub struct Turns {
    /// The trees that take turns.
    pub trees: u32,
    /// Pages of level 3 of a tree, whose notes all end at one start.
    pub wide: u32,
    /// Routers of each of them, to pages of level 2 that all trees share.
    pub fan: u32,
    /// Leaves to which a page of level 2 leads, and starts in each of them.
    pub leaves: u32,
    pub lives: u32,
    /// So many routers to each tree's top before it shows anything, so that the
    /// spans add up; they do if these are more than the trees.
    pub extra: u32,
}

/// The low keys of two pages of level 2 lie this far apart.
const APART: u32 = 64;

impl Turns {
    /// In each of them one leaf starts, and then each tree is reached.
    fn rounds(self) -> u32 {
        self.fan * self.leaves * self.lives
    }

    /// All rounds.
    fn long(self) -> u32 {
        self.rounds() * (self.trees + 1)
    }

    /// For how long the extra routers of one tree stand.
    fn early(self) -> u32 {
        match self.extra.checked_sub(self.trees) {
            Some(more) if more > 0 => self.long() / more + 1,
            _ => 0,
        }
    }

    fn behind(self, from: u32) -> u32 {
        from + self.early() * self.trees + self.long()
    }

    /// The pages of at most so many entries, and a few more.
    fn pages(self, many: u32) -> u32 {
        let tree = self.wide + self.wide.div_ceil(many) + 2;
        let turning = (self.rounds() * self.trees).div_ceil(many);
        self.fan * (self.leaves + self.wide)
            + self.trees * tree
            + turning
            + turning / (many - 1)
            + 4
    }
}

/// The turns, and a storm behind them or nothing.
pub fn turns(mut sketch: Sketch, numbers: Turns, stormy: bool) -> Option<Vec<u8>> {
    let (behind, many) = (numbers.behind(1), sketch.most());
    let room = numbers.wide <= many * many && sketch.has_room(numbers.pages(many));
    if behind >= ALIVE / 2 || !room {
        return None;
    }
    let end = match stormy {
        true => storm(&mut sketch, SMALL, behind),
        false => behind,
    };
    sketch.nothing_from(0);
    let roots = trees(&mut sketch, numbers, behind - numbers.long());
    let reached = reached(&mut sketch, numbers, &roots);
    under_roots(&mut sketch, &reached);
    sketch.nothing_from(end);
    sketch.store(ALIVE - 1)
}

/// The first version of a round: a start, and no tree is reached.
fn round(numbers: Turns, begin: u32, number: u32) -> u32 {
    begin + number * (numbers.trees + 1)
}

/// The trees' tops, each alive from version `begin` on.
fn trees(sketch: &mut Sketch, numbers: Turns, begin: u32) -> Vec<u32> {
    let mut shared = vec![Vec::new(); numbers.wide as usize];
    for place in 0..numbers.fan {
        let first = place * numbers.leaves * numbers.lives;
        let era = Span {
            start: round(numbers, begin, first),
            end: round(numbers, begin, first + numbers.leaves * numbers.lives),
        };
        let leaves: Vec<u32> = (0..numbers.leaves)
            .map(|leaf| {
                let number = |life| first + leaf + life * numbers.leaves;
                let starts = (0..numbers.lives).map(|life| round(numbers, begin, number(life)));
                let lives = starts.map(|start| entry(1, versions(start, 1), 7));
                sketch.page(LEAF, lives.collect())
            })
            .collect();
        for (page, own) in (0..).zip(&mut shared) {
            let low = APART * (page * numbers.fan + place);
            let routers = (low..).zip(&leaves);
            let routers = routers.map(|(key, leaf)| entry(key, era, *leaf));
            own.push((low, sketch.page(LEAF + 1, routers.collect())));
        }
    }
    let all = versions(begin, numbers.long());
    let mut tops = Vec::new();
    for _ in 0..numbers.trees {
        let mut row: Vec<(u32, u32)> = Vec::new();
        for own in &shared {
            row.push(over(sketch, LEAF + 2, own, all));
        }
        for level in LEAF + 3..=LEAF + 4 {
            let parts = row.chunks(sketch.most() as usize);
            row = parts.map(|own| over(sketch, level, own, all)).collect();
        }
        tops.push(row[0].1);
    }
    tops
}

/// The pages of level 6, one after another: the tops in turn, and at the first
/// version of a round none.
fn reached(sketch: &mut Sketch, numbers: Turns, tops: &[u32]) -> Vec<(Span, u32)> {
    let early = numbers.early();
    let mut pages = Vec::new();
    let mut start = 1;
    if early > 0 {
        for top in tops {
            let span = versions(start, early);
            let routers = (0..numbers.extra).map(|key| entry(key, span, *top));
            pages.push((span, sketch.page(LEAF + 5, routers.collect())));
            start += early;
        }
    }
    let mut routers: Vec<Entry> = Vec::new();
    for number in 0..numbers.rounds() {
        let first = round(numbers, start, number) + 1;
        let turns = (first..).zip(tops);
        routers.extend(turns.map(|(version, top)| entry(0, versions(version, 1), *top)));
    }
    for own in routers.chunks(sketch.most() as usize) {
        let end = own[own.len() - 1].span.end;
        pages.push((Span { start, end }, sketch.page(LEAF + 5, own.to_vec())));
        start = end;
    }
    pages
}

/// A root has two live routers at every version.
fn under_roots(sketch: &mut Sketch, pages: &[(Span, u32)]) {
    let beside = sketch.page(LEAF + 5, Vec::new());
    for own in pages.chunks(sketch.most() as usize - 1) {
        let (start, end) = (own[0].0.start, own[own.len() - 1].0.end);
        let routers = own.iter().map(|(span, page)| entry(0, *span, *page));
        let last = entry(1 << 23, Span { start, end }, beside);
        let root = sketch.page(LEAF + 6, routers.chain([last]).collect());
        sketch.root(start, root);
    }
}

fn versions(start: u32, count: u32) -> Span {
    let end = start + count;
    Span { start, end }
}

fn over(sketch: &mut Sketch, level: u32, below: &[(u32, u32)], span: Span) -> (u32, u32) {
    let routers = below.iter().map(|(low, page)| entry(*low, span, *page));
    (below[0].0, sketch.page(level, routers.collect()))
}
