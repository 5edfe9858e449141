//! "Lookups judge only what they read" (2026-04).
//!
//! By now the header and all slots are known to keep rules 1 and 2. Each page
//! is judged as the walk meets it: by rule 1, with the header's last version and
//! page count, and by its level. Nothing else is asked of it: not whether spans
//! lie in spans, whether the page is alive at the version, whether keys lie in
//! bounds, how many entries live.

use std::collections::HashMap;
use std::rc::Rc;

use crate::check::page_holds;
use crate::layout::{Entry, Page};
use crate::{store, walk};

/// What the walk met is not as it must be: number 4.
#[derive(Clone, Copy, Debug, PartialEq, Eq)]
pub struct Unsound;

/// "A page on their own walk", which is not free.
fn met(bytes: &[u8], number: u32) -> Result<Page, Unsound> {
    if !page_holds(bytes, number) {
        return Err(Unsound);
    }
    let page = store::page(bytes, number);
    match page.is_free() {
        true => Err(Unsound),
        false => Ok(page),
    }
}

/// The place of "the last such router": alive, and at or below the key.
fn last_at_or_below(live: &[Entry], key: u32) -> Result<usize, Unsound> {
    let place = live.iter().rposition(|router| router.key <= key);
    place.ok_or(Unsound)
}

fn live(page: &Page, version: u32) -> Vec<Entry> {
    page.live(version).copied().collect()
}

/// The value of `key` at `version`: "by the first with its key".
pub fn lookup(bytes: &[u8], key: u32, version: u32) -> Result<Option<u32>, Unsound> {
    let mut page = met(bytes, walk::root(bytes, version))?;
    while page.is_index() {
        let live = live(&page, version);
        let router = live[last_at_or_below(&live, key)?];
        let child = met(bytes, router.value)?;
        if child.level + 1 != page.level {
            return Err(Unsound);
        }
        page = child;
    }
    let found = live(&page, version).into_iter().find(|e| e.key == key);
    Ok(found.map(|entry| entry.value))
}

/// A page and the key that it must cover: on the first path the range's low
/// key, below a later router that router's own.
type Place = (u32, u32);

/// The walk of a range.
///
/// On crafted bytes a page may be met as often as 20^6 times. What is found
/// below a place depends on nothing but the place, so each is judged and
/// counted once. There are few: each later router makes one, and from each
/// of them a first path goes down.
pub struct Range<'a> {
    bytes: &'a [u8],
    low: u32,
    high: u32,
    version: u32,
    pages: HashMap<u32, Result<Rc<Page>, Unsound>>,
    counts: HashMap<Place, u64>,
    /// How many settings the walk finds.
    pub count: u64,
}

/// Judges and counts all of the walk.
pub fn range(bytes: &[u8], low: u32, high: u32, version: u32) -> Result<Range<'_>, Unsound> {
    let mut range = Range {
        bytes,
        low,
        high,
        version,
        pages: HashMap::new(),
        counts: HashMap::new(),
        count: 0,
    };
    range.count = range.count_from(range.root())?;
    Ok(range)
}

impl Range<'_> {
    fn root(&self) -> Place {
        (walk::root(self.bytes, self.version), self.low)
    }

    fn page(&mut self, number: u32) -> Result<Rc<Page>, Unsound> {
        let bytes = self.bytes;
        let page = self.pages.entry(number);
        page.or_insert_with(|| met(bytes, number).map(Rc::new))
            .clone()
    }

    /// The places that are followed from an index page that must cover `key`,
    /// in walk order.
    fn followed(&self, page: &Page, key: u32) -> Result<Vec<Place>, Unsound> {
        let live = live(page, self.version);
        let first = last_at_or_below(&live, key)?;
        let later = live[first + 1..].iter();
        let later = later.filter(|router| router.key <= self.high);
        let places = later.map(|router| (router.value, router.key));
        Ok([(live[first].value, key)]
            .into_iter()
            .chain(places)
            .collect())
    }

    /// The settings of a leaf that lie in the range.
    fn settings_of(&self, leaf: &Page) -> Vec<(u32, u32)> {
        let live = live(leaf, self.version).into_iter();
        live.filter(|entry| (self.low..=self.high).contains(&entry.key))
            .map(|entry| (entry.key, entry.value))
            .collect()
    }

    fn count_from(&mut self, place: Place) -> Result<u64, Unsound> {
        let page = self.page(place.0)?;
        if !page.is_index() {
            return Ok(self.settings_of(&page).len() as u64);
        }
        if let Some(count) = self.counts.get(&place) {
            return Ok(*count);
        }
        let mut count = 0;
        for child in self.followed(&page, place.1)? {
            if self.page(child.0)?.level + 1 != page.level {
                return Err(Unsound);
            }
            count += self.count_from(child)?;
        }
        self.counts.insert(place, count);
        Ok(count)
    }

    /// The settings, as they come in the walk. Takes time with their number.
    pub fn settings(&mut self) -> Vec<(u32, u32)> {
        let mut settings = Vec::new();
        self.collect(self.root(), &mut settings);
        settings
    }

    /// Of a walk that was counted, so that nothing here is unsound; where
    /// nothing was found it does not go again.
    fn collect(&mut self, place: Place, settings: &mut Vec<(u32, u32)>) {
        if self.count_from(place) == Ok(0) {
            return;
        }
        let Ok(page) = self.page(place.0) else {
            return;
        };
        if !page.is_index() {
            return settings.extend(self.settings_of(&page));
        }
        for child in self.followed(&page, place.1).unwrap_or_default() {
            self.collect(child, settings);
        }
    }
}
