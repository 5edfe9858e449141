//! A range's walk the way the crate `near` does it, loop by loop, with a count of the
//! pages that it visits: judged within a budget, and where that is used up by a table.
//! Wants a store whose header, slots and pages hold rule 1.

use reference::image::Image;
use reference::layout::{Entry, Page, FIRST_PAGE, LEAF};

#[derive(Clone, Copy)]
pub struct Asked {
    pub low: u32,
    pub high: u32,
    pub version: u32,
}

/// Pages visited.
#[derive(Clone, Copy, Debug, Default, PartialEq, Eq)]
pub struct Work {
    /// By the judging within the budget.
    pub judged: u64,
    /// On the ways down that fill the table; 0 where the budget was enough.
    pub gone: u64,
    /// By the writing.
    pub written: u64,
}

/// What a range gives: the number, the count and the list's front.
pub type Answer = (u32, u64, Vec<u32>);

pub fn range(store: &[u8], asked: Asked, room: usize) -> (Answer, Work) {
    let image = Image::read(store);
    let mut walk = Walk {
        left: FIRST_PAGE as usize + image.pages.len(),
        table: Vec::new(),
        work: Work::default(),
        list: Vec::new(),
        image: &image,
        asked,
    };
    let answer = walk.answer(room);
    (answer, walk.work)
}

/// At most so many pages are gone down to fill the table: each router a page a level,
/// and once more from the root.
pub fn most_gone(store: &[u8], version: u32) -> u64 {
    let image = Image::read(store);
    let top = image.page(image.root(version)).level;
    let pages = image.pages.iter();
    let index = pages.filter(|page| LEAF < page.level && page.level <= top);
    let ways = index.map(|page| u64::from(page.level - 1) * page.entries.len() as u64);
    u64::from(top) + ways.sum::<u64>()
}

/// At most so many are visited to write so many settings: a router that is followed
/// leads to one of them, and brings a page a level.
pub fn most_written(count: u64) -> u64 {
    7 + 6 * 6 * count
}

struct Walk<'a> {
    image: &'a Image,
    asked: Asked,
    left: usize,
    table: Vec<u64>,
    work: Work,
    list: Vec<u32>,
}

impl Walk<'_> {
    fn answer(&mut self, room: usize) -> Answer {
        let (root, low) = (self.image.root(self.asked.version), self.asked.low);
        let level = self.image.page(root).level;
        let judged = self.right(root, level, low);
        if judged.is_none() {
            self.fill(level);
        }
        let count = match judged {
            Some(false) => return (4, 0, Vec::new()),
            Some(true) => self.count(root, level, low),
            None => match self.down(root, level, low) {
                0 => return (4, 0, Vec::new()),
                told => told - 1,
            },
        };
        if (room as u64) < 2 * count {
            return (14, count, Vec::new());
        }
        self.write(root, level, low);
        (0, count, std::mem::take(&mut self.list))
    }

    /// The page, if it has this level.
    fn page(&self, number: u32, level: u32) -> Option<&Page> {
        let page = self
            .image
            .pages
            .get(number.checked_sub(FIRST_PAGE)? as usize)?;
        (page.level == level).then_some(page)
    }

    fn follows(&self, router: &Entry) -> bool {
        router.span.contains(self.asked.version) && router.key <= self.asked.high
    }

    /// The last router alive at or below a key, and the place behind it.
    fn own(&self, page: &Page, at: u32) -> Option<(u32, usize)> {
        let upto = page.entries.partition_point(|router| router.key <= at);
        let alive = |router: &&Entry| router.span.contains(self.asked.version);
        let own = page.entries[..upto].iter().rev().find(alive)?;
        Some((own.value, upto))
    }

    fn later(&self, page: &Page, from: usize) -> Vec<Entry> {
        let rest = page.entries[from..].iter();
        rest.filter(|router| self.follows(router))
            .copied()
            .collect()
    }

    fn found(&self, page: &Page) -> Vec<Entry> {
        let mut found = self.later(page, 0);
        found.retain(|setting| self.asked.low <= setting.key);
        found
    }

    /// None where the budget is used up.
    fn right(&mut self, number: u32, level: u32, at: u32) -> Option<bool> {
        if self.left == 0 {
            return None;
        }
        self.left -= 1;
        self.work.judged += 1;
        let Some(page) = self.page(number, level) else {
            return self.told(false);
        };
        if level == LEAF {
            return self.told(true);
        }
        let Some((own, behind)) = self.own(page, at) else {
            return self.told(false);
        };
        let later = self.later(page, behind);
        if !self.right(own, level - 1, at)? {
            return Some(false);
        }
        for router in later {
            if !self.right(router.value, level - 1, router.key)? {
                return Some(false);
            }
        }
        self.told(true)
    }

    /// An answer is one where something is left still.
    fn told(&self, right: bool) -> Option<bool> {
        (self.left > 0).then_some(right)
    }

    fn count(&self, number: u32, level: u32, at: u32) -> u64 {
        let page = self.page(number, level).expect("a page that was judged");
        if level == LEAF {
            return self.found(page).len() as u64;
        }
        let (own, behind) = self.own(page, at).expect("a router that was judged");
        let later = self.later(page, behind);
        let rest = later
            .iter()
            .map(|router| self.count(router.value, level - 1, router.key));
        self.count(own, level - 1, at) + rest.sum::<u64>()
    }

    fn place(&self, number: u32, place: usize) -> usize {
        number as usize * (self.image.edition().most_entries + 1) + place
    }

    /// From the lowest level up, and in each page from its last router on.
    fn fill(&mut self, top: u32) {
        let numbers = FIRST_PAGE..FIRST_PAGE + self.image.pages.len() as u32;
        self.table = vec![0; self.place(numbers.end, 0)];
        for level in LEAF + 1..=top {
            for number in numbers.clone() {
                let Some(page) = self.page(number, level) else {
                    continue;
                };
                let entries = page.entries.clone();
                let mut rest = 1;
                let behind = self.place(number, entries.len());
                self.table[behind] = rest;
                for (place, router) in entries.iter().enumerate().rev() {
                    if self.follows(router) {
                        rest = joined(rest, self.down(router.value, level - 1, router.key));
                    }
                    let own = self.place(number, place);
                    self.table[own] = rest;
                }
            }
        }
    }

    /// 0 for a walk that is wrong, else one more than the settings that it finds.
    fn down(&mut self, number: u32, level: u32, at: u32) -> u64 {
        let (mut sum, mut number) = (1, number);
        for level in (LEAF + 1..=level).rev() {
            self.work.gone += 1;
            let Some(page) = self.page(number, level) else {
                return 0;
            };
            let Some((own, behind)) = self.own(page, at) else {
                return 0;
            };
            sum = joined(sum, self.table[self.place(number, behind)]);
            number = own;
        }
        self.work.gone += 1;
        match self.page(number, LEAF) {
            None => 0,
            Some(leaf) => joined(sum, 1 + self.found(leaf).len() as u64),
        }
    }

    fn write(&mut self, number: u32, level: u32, at: u32) {
        self.work.written += 1;
        let page = self.page(number, level).expect("a page that was judged");
        if level == LEAF {
            let found = self.found(page);
            let numbers = found.iter().flat_map(|own| [own.key, own.value]);
            self.list.extend(numbers);
            return;
        }
        let (own, behind) = self.own(page, at).expect("a router that was judged");
        let entries = page.entries.clone();
        self.write(own, level - 1, at);
        for place in behind..entries.len() {
            let some = self.table.is_empty()
                || self.table[self.place(number, place)]
                    != self.table[self.place(number, place + 1)];
            if some && self.follows(&entries[place]) {
                self.write(entries[place].value, level - 1, entries[place].key);
            }
        }
    }
}

/// Two walks, one after the other.
fn joined(first: u64, second: u64) -> u64 {
    match (first, second) {
        (0, _) | (_, 0) => 0,
        _ => first - 1 + second,
    }
}
