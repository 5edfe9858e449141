//! Pages that `under` reads where nothing bounds it, in sound stores: what the budget
//! rests on.

use hostile::judge::judged;
use hostile::quick::read::Loads;
use hostile::stores;
use reference::engine::{Answer, Call};
use reference::foreign::unsettle;
use reference::history::{History, KINDS};
use reference::layout::{MOST_PAGES, PAGE_BYTES};
use reference::rng::Rng;
use reference::samples::sound_store;
use reference::tall::{tall, Fill, Spine};
use reference::{number, unjudged};

/// The most reads for a page of all stores of a kind.
#[derive(Default)]
struct Most {
    stores: u32,
    reads: u32,
    pages: usize,
}

impl Most {
    fn a_page(&self) -> f64 {
        f64::from(self.reads) / self.pages.max(1) as f64
    }

    fn see(&mut self, store: &[u8]) {
        let pages = store.len() / PAGE_BYTES;
        let (number, taken) = judged::<Loads>(store, u32::MAX);
        assert_eq!(number, number::DONE);
        self.stores += 1;
        if f64::from(taken.under) / pages as f64 > self.a_page() {
            self.reads = taken.under;
            self.pages = pages;
        }
    }

    fn row(&self, name: &str) {
        println!(
            "| {name} | {} | {} | {} | {:.2} |",
            self.stores,
            self.pages,
            self.reads,
            self.a_page()
        );
    }
}

fn main() {
    println!("| sound stores | so many | pages of the one with the most reads a page | its reads | a page |");
    println!("|---|---|---|---|---|");
    foreign();
    for pages in [16, 64, 256, 1024, 4096] {
        let mut most = Most::default();
        for versions in [1, 4, 16, 64, 256, 1024] {
            for updates in [4, 10, 30] {
                most.see(&stores::grown_by(pages, versions, updates * pages));
            }
        }
        most.row(&format!("grown, {pages} pages"));
    }
    let mut most = Most::default();
    (0..3000).for_each(|seed| most.see(&sound_store(seed)));
    most.row("samples: small histories, unsettled, tall, near the last version");
    for kind in KINDS {
        let mut most = Most::default();
        for pages in [12, 40, 120, 400] {
            for seed in 0..6 {
                let mut store = vec![0; pages * PAGE_BYTES];
                let mut history = History::new(seed, kind, pages);
                for call in 0..40 * pages {
                    step(&mut history, &mut store);
                    if call % (10 * pages) == 0 && call > 0 {
                        most.see(&store);
                    }
                }
                most.see(&store);
            }
        }
        most.row(&format!("histories, {kind:?}"));
    }
    hot_pages();
}

/// One call of the history that changes the store; others are left out.
fn step(history: &mut History, store: &mut [u8]) {
    let call = history.next_call();
    let number = match call {
        Call::Fresh => reference::calls::fresh(store),
        Call::Open => unjudged::open(store),
        Call::Commit => unjudged::commit(store),
        Call::Abandon => unjudged::abandon(store),
        Call::Insert(key, value) => unjudged::insert(store, key, value),
        Call::Delete(key) => unjudged::delete(store, key),
        _ => return,
    };
    history.observe(call, &Answer::of(number));
}

/// A tall store whose way to one leaf has sixteen live entries a page, and five of
/// that leaf's settings put again at every version: a new leaf each time, a new page
/// above it each fifth time, and so on up.
fn hot_pages() {
    for level in 2..=6 {
        let mut most = Most::default();
        for spine in [Spine::First, Spine::Middle, Spine::Last] {
            for (live, root) in [(16, 2), (16, 16), (12, 12), (8, 8)] {
                let mut fills = vec![Fill::new(live, 0); level];
                fills[level - 1] = Fill::new(root, 0);
                if level > 4 {
                    fills[3..].fill(Fill::new(4, 0));
                }
                let Some(built) = tall(&fills, spine, 0) else {
                    continue;
                };
                let used = built.store.len() / PAGE_BYTES;
                for free in [used / 4, used, 4 * used, MOST_PAGES - used] {
                    let free = free.min(MOST_PAGES - used);
                    let Some(built) = tall(&fills, spine, free) else {
                        continue;
                    };
                    let mut store = built.store;
                    put_again(&mut store, &built.spine_keys);
                    most.see(&store);
                }
            }
        }
        most.row(&format!("one hot leaf, level {level}"));
    }
}

fn put_again(store: &mut [u8], keys: &[u32]) {
    for version in 0.. {
        if unjudged::open(store) != number::DONE {
            return;
        }
        for key in keys.iter().cycle().skip(5 * version % keys.len()).take(5) {
            let deleted = unjudged::delete(store, *key);
            if deleted != number::DONE || unjudged::insert(store, *key, 1) != number::DONE {
                // no page or no slot is left
                unjudged::abandon(store);
                return;
            }
        }
        unjudged::commit(store);
    }
}

fn foreign() {
    let mut most = Most::default();
    for pages in [64, 256, 1024] {
        for seed in 0..4 {
            let mut rng = Rng::new(seed);
            let mut store = stores::grown_by(pages, 8, 3 * pages);
            for _ in 0..pages / 2 {
                if unjudged::open(&mut store) != number::DONE {
                    break;
                }
                for _ in 0..rng.below(4) {
                    unsettle(&mut store, &mut rng);
                }
                unjudged::commit(&mut store);
            }
            most.see(&store);
        }
    }
    most.row("grown, then unsettled at many versions");
}
