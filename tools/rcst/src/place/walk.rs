//! Rules 4, 5 and 6: what the walk of each version finds.
//!
//! Only the oldest version is walked, and later ones at which something starts or
//! ends; between two of them nothing changes. Bytes can be made on which even these walks do not end in a
//! lifetime, so they have a budget, and where it is used up nothing is found.

use std::collections::BTreeSet;

use rcst::limits::HIGHEST_KEY;

use crate::plain::page::{self, FREE, LEAF};
use crate::plain::{Entry, Page};

const BUDGET: usize = 20_000_000;

/// A page that a walk comes to, with the keys that it is there for: from low up to,
/// not including, high.
struct Reached<'a> {
    number: usize,
    page: &'a Page,
    low: u32,
    high: u32,
    is_root: bool,
}

struct Walks<'a> {
    store: &'a [u8],
    pages: Vec<Page>,
    versions: BTreeSet<u32>,
    budget: usize,
}

impl<'a> Walks<'a> {
    fn of(store: &'a [u8]) -> Walks<'a> {
        let pages: Vec<Page> = (0..page::count(store))
            .map(|number| page::page(store, number))
            .collect();
        let header = page::header(store);
        let kept = header.oldest..=header.last();
        let mut versions: BTreeSet<u32> = page::slots(store).map(|(version, _)| version).collect();
        for page in &pages[page::FIRST..] {
            let spans = page
                .entries
                .iter()
                .map(|entry| entry.span)
                .chain([page.span]);
            versions.extend(spans.flat_map(|span| [span.start, span.end]));
        }
        versions.insert(header.oldest);
        versions.retain(|version| kept.contains(version));
        Walks {
            store,
            pages,
            versions,
            budget: BUDGET,
        }
    }

    /// The first thing that `look` finds at a version, from the root down.
    fn at(
        &mut self,
        version: u32,
        mut look: impl FnMut(&Reached) -> Option<String>,
    ) -> Option<String> {
        let root = page::root(self.store, version)?;
        let mut waiting = vec![(root, 0, HIGHEST_KEY + 1)];
        while let Some((number, low, high)) = waiting.pop() {
            self.budget = self.budget.checked_sub(1)?;
            let page = self.pages.get(number)?;
            let reached = Reached {
                number,
                page,
                low,
                high,
                is_root: number == root,
            };
            if let Some(words) = look(&reached) {
                return Some(words);
            }
            if page.level > LEAF {
                let live: Vec<&Entry> = page.alive_at(version).collect();
                for (place, router) in live.iter().enumerate().rev() {
                    let next = live.get(place + 1).map_or(high, |next| next.key);
                    waiting.push((router.value as usize, router.key, next));
                }
            }
        }
        None
    }
}

/// The first version and page at which rule 4 or 5 is broken.
pub fn wrong(store: &[u8], rule: u32) -> Option<String> {
    let fewest = page::shape(store).fewest_live;
    let mut walks = Walks::of(store);
    for version in walks.versions.clone() {
        let found = walks.at(version, |reached| {
            let live: Vec<&Entry> = reached.page.alive_at(version).collect();
            match rule {
                4 => bounds(reached, &live),
                _ => few(reached, live.len(), fewest),
            }
            .map(|words| format!("version {version}, page {}{words}", reached.number))
        });
        if found.is_some() || walks.budget == 0 {
            return found;
        }
    }
    None
}

fn bounds(reached: &Reached, live: &[&Entry]) -> Option<String> {
    let (low, high) = (reached.low, reached.high);
    let first = live.first().map(|entry| entry.key);
    if reached.page.level > LEAF && first.is_some_and(|first| first != low) {
        return Some(format!(
            ": its first low key is {}, and its own {low}",
            first?
        ));
    }
    let outside = live.iter().find(|entry| !(low..high).contains(&entry.key));
    if let Some(entry) = outside {
        return Some(format!(
            ": key {} lies outside {low} to {}",
            entry.key,
            high - 1
        ));
    }
    let twice = live.windows(2).find(|two| two[0].key == two[1].key);
    twice.map(|two| format!(": key {} is alive twice", two[0].key))
}

fn few(reached: &Reached, live: usize, fewest: usize) -> Option<String> {
    let fewest = match (reached.is_root, reached.page.level) {
        (false, _) => fewest,
        (true, LEAF) => 0,
        (true, _) => 2,
    };
    (live < fewest).then(|| format!(": {live} entries alive, and at least {fewest} are due"))
}

/// The first version and page at which rule 6 is broken.
pub fn unreached(store: &[u8]) -> Option<String> {
    let mut walks = Walks::of(store);
    for version in walks.versions.clone() {
        let mut marks = vec![false; walks.pages.len()];
        let found = walks.at(version, |reached| {
            marks[reached.number] = true;
            let within = reached.page.span.holds(version);
            (!within).then(|| {
                format!(
                    "version {version}, page {}: reached outside its span",
                    reached.number
                )
            })
        });
        walks.budget = walks.budget.saturating_sub(walks.pages.len());
        if found.is_some() || walks.budget == 0 {
            return found;
        }
        let missed = (page::FIRST..walks.pages.len()).find(|number| {
            let page = &walks.pages[*number];
            page.level != FREE && page.span.holds(version) && !marks[*number]
        });
        if let Some(number) = missed {
            return Some(format!(
                "version {version}, page {number}: in its span, and not reached"
            ));
        }
    }
    None
}
