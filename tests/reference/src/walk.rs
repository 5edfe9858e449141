//! Lookups and ranges: walking a sound store at one version.

use crate::layout::{Entry, Page, ABOVE_ALL_KEYS, HIGHEST_KEY};
use crate::model::Settings;
use crate::store;

/// "The root of v is the last slot at or below v."
pub fn root(bytes: &[u8], version: u32) -> u32 {
    store::slot(bytes, slot_index(bytes, version)).root
}

/// The place of that slot.
pub fn slot_index(bytes: &[u8], version: u32) -> u32 {
    let roots = store::header(bytes).roots;
    (0..roots)
        .take_while(|index| store::slot(bytes, *index).version <= version)
        .last()
        .expect("a sound directory begins at or below the oldest version")
}

/// A page met on the way down, and its low key there.
#[derive(Clone, Copy, Debug, PartialEq, Eq)]
pub struct Step {
    pub page: u32,
    pub low: u32,
}

/// The pages from the root of `version` down to the leaf whose bounds hold
/// `key`.
pub fn path(bytes: &[u8], key: u32, version: u32) -> Vec<Step> {
    let mut step = Step {
        page: root(bytes, version),
        low: 0,
    };
    let mut path = vec![step];
    loop {
        let page = store::page(bytes, step.page);
        if !page.is_index() {
            return path;
        }
        let router = router_for(&page, key, version);
        step = Step {
            page: router.value,
            low: router.key,
        };
        path.push(step);
    }
}

/// The live router whose child's bounds hold `key`: the last at or below it.
fn router_for(page: &Page, key: u32, version: u32) -> Entry {
    *page
        .live(version)
        .take_while(|router| router.key <= key)
        .last()
        .expect("the first router's low key is the page's, at or below the key")
}

/// The value of `key` at `version`, if it is alive then.
pub fn lookup(bytes: &[u8], key: u32, version: u32) -> Option<u32> {
    let path = path(bytes, key, version);
    let leaf = store::page(bytes, path[path.len() - 1].page);
    let found = leaf.live(version).find(|entry| entry.key == key);
    found.map(|entry| entry.value)
}

/// The settings alive at `version` with keys from `low` to `high`, both
/// included, in key order.
pub fn range(bytes: &[u8], low: u32, high: u32, version: u32) -> Vec<(u32, u32)> {
    let mut settings = Vec::new();
    range_from(
        bytes,
        root(bytes, version),
        low,
        high,
        version,
        &mut settings,
    );
    settings
}

/// All settings alive at `version`.
pub fn settings(bytes: &[u8], version: u32) -> Settings {
    range(bytes, 0, HIGHEST_KEY, version).into_iter().collect()
}

fn range_from(
    bytes: &[u8],
    number: u32,
    low: u32,
    high: u32,
    version: u32,
    settings: &mut Vec<(u32, u32)>,
) {
    let page = store::page(bytes, number);
    let mut live = page.live(version).peekable();
    while let Some(entry) = live.next() {
        if !page.is_index() {
            if (low..=high).contains(&entry.key) {
                settings.push((entry.key, entry.value));
            }
            continue;
        }
        // The child's keys lie from its low key up to the next router's.
        let above = live.peek().map_or(ABOVE_ALL_KEYS, |next| next.key);
        if entry.key <= high && low < above {
            range_from(bytes, entry.value, low, high, version, settings);
        }
    }
}
