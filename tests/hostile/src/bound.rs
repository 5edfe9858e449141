//! What bounds the notes, said of a store before it is walked: the points of
//! docs/CHECK-COST.md.

use reference::edition::Edition;
use reference::image::Image;
use reference::layout::{Page, ALIVE, FIRST_PAGE, HIGHEST_LEVEL, LEAF};

use crate::notes::Work;

#[derive(Clone, Copy, Debug)]
pub struct Bound {
    /// Pages in use, slots, and the starts and ends of entries that a walk may meet.
    pub pages: u64,
    pub slots: u64,
    pub changes: u64,
    /// Of any store: a note ends only by a start or an end at or below its page, and
    /// each of these versions ends it once; a root is visited once more for its slot.
    pub any: u64,
    /// Of any store, argued: judging's pass, in proportion to the store, and check's.
    pub judging: u64,
    pub check: u64,
    /// Most entries of a page.
    pub entries: u64,
}

/// What the argument counts, level by level.
struct Levels {
    pages: [u64; 8],
    /// Entries, and their starts and ends.
    entries: [u64; 8],
    changes: [u64; 8],
    /// Of the pages that routers of a level lead to, once for each router: starts and
    /// ends, and ends alone.
    led: [u64; 8],
    led_ends: [u64; 8],
}

fn ends(page: &Page) -> u64 {
    let ended = page.entries.iter().filter(|entry| entry.span.end < ALIVE);
    ended.count() as u64
}

fn changes(page: &Page) -> u64 {
    page.entries.len() as u64 + ends(page)
}

impl Levels {
    fn of(image: &Image) -> Levels {
        let mut levels = Levels {
            pages: [0; 8],
            entries: [0; 8],
            changes: [0; 8],
            led: [0; 8],
            led_ends: [0; 8],
        };
        for (_, page) in image.used() {
            let level = page.level as usize;
            levels.pages[level] += 1;
            levels.entries[level] += page.entries.len() as u64;
            levels.changes[level] += changes(page);
            if page.is_index() {
                for router in &page.entries {
                    let below = image.page(router.value);
                    levels.led[level] += changes(below);
                    levels.led_ends[level] += ends(below);
                }
            }
        }
        levels
    }

    /// Visits of pages of a level that come back, where each takes one of so many pairs.
    fn back(&self, level: usize, slots: u64, pairs: u64) -> f64 {
        let turns = slots + self.entries[level + 1..].iter().sum::<u64>();
        (2.0 * self.pages[level] as f64 * turns as f64 * pairs as f64).sqrt()
    }

    fn check(&self, slots: u64) -> u64 {
        let back = |level| {
            let shown: u64 = self.changes[1..level - 1].iter().sum();
            let empty: u64 = self.led_ends[2..level].iter().sum();
            self.back(level, slots, shown + empty)
        };
        let right_below: u64 = self.led.iter().sum();
        right_below + (3..=6).map(back).sum::<f64>() as u64
    }
}

impl Bound {
    /// Wants a store in which rules 1 to 3 hold.
    pub fn of(store: &[u8]) -> Bound {
        let image = Image::read(store);
        let mut ends: Vec<u64> = image.pages.iter().map(changes).collect();
        let changes: u64 = ends.iter().sum();
        let slots = image.slots.len() as u64;
        let steps = changes + slots + 1;
        for level in LEAF + 1..=HIGHEST_LEVEL {
            for (place, page) in image.pages.iter().enumerate() {
                if page.level == level {
                    let below = page.entries.iter();
                    let below = below.map(|router| ends[(router.value - FIRST_PAGE) as usize]);
                    ends[place] = (ends[place] + below.sum::<u64>()).min(steps);
                }
            }
        }
        let levels = Levels::of(&image);
        let pages = image.used().count() as u64;
        let once = 7 * changes + 2 * pages + slots;
        Bound {
            pages,
            slots,
            changes,
            any: pages + slots + ends.iter().sum::<u64>(),
            judging: once,
            check: once + levels.check(slots),
            entries: image.edition().most_entries as u64,
        }
    }

    /// Whether that much work is within what is said of any store.
    fn holds(self, work: Work) -> bool {
        work.steps <= self.changes + self.slots + 1
            && work.notes <= self.any
            && work.looks <= self.entries * work.notes
    }

    pub fn holds_judging(self, work: Work) -> bool {
        self.holds(work) && work.notes <= self.judging
    }

    pub fn holds_check(self, work: Work) -> bool {
        self.holds(work) && work.notes <= self.check
    }
}

/// The same of any store of so many pages behind the directory: judging and check.
pub fn most(edition: &Edition, pages: u64) -> (u64, u64) {
    let [pages, slots] = [pages as f64, f64::from(edition.slots)];
    let entries = edition.most_entries as f64;
    let changes = 2.0 * entries;
    let judging = (7.0 * changes + 2.0) * pages + slots;
    // levels 3 to 6, and what a visit may take there
    let (levels, pairs) = (4.0, entries * entries + changes);
    let by_routers = (2.0 * entries * pairs * levels * 5.0 / 49.0).sqrt() * pages * pages.sqrt();
    let by_slots = (2.0 * slots * pairs * levels * 3.0 / 7.0).sqrt() * pages;
    let check = judging + entries * changes * pages + by_routers + by_slots;
    (judging as u64, check as u64)
}
