//! For which keys a leaf page is there.

use std::collections::BTreeMap;

use rcst::limits::HIGHEST_KEY;

use crate::plain::page::{header, pages, slots, LEAF};
use crate::plain::{Entry, Page, Span};

/// A leaf page in the picture: its keys from low up to, not including, high.
pub struct Region {
    pub number: usize,
    pub span: Span,
    pub low: u32,
    pub high: u32,
}

/// The leaf pages of a sound store. A page keeps its keys for life, so any router to
/// it tells them: its low key, and the next low key alive with it, or its page's own end.
/// Routers that ended at or before the oldest version lead to pages that may be gone.
pub fn regions(store: &[u8]) -> Vec<Region> {
    let oldest = header(store).oldest;
    let pages: BTreeMap<usize, Page> = pages(store).into_iter().collect();
    let mut keys: BTreeMap<usize, (u32, u32)> = BTreeMap::new();
    let mut waiting: Vec<usize> = Vec::new();
    for (_, root) in slots(store) {
        keys.insert(root, (0, HIGHEST_KEY + 1));
        waiting.push(root);
    }
    while let Some(number) = waiting.pop() {
        let (page, high) = (&pages[&number], keys[&number].1);
        if page.level == LEAF {
            continue;
        }
        let kept = |router: &&Entry| !router.span.is_expired(oldest);
        for router in page.entries.iter().filter(kept) {
            let next = page
                .alive_at(router.span.start.max(oldest))
                .find(|next| next.key > router.key);
            let bounds = (router.key, next.map_or(high, |next| next.key));
            if keys.insert(router.value as usize, bounds).is_none() {
                waiting.push(router.value as usize);
            }
        }
    }
    let leaves = keys
        .into_iter()
        .filter(|(number, _)| pages[number].level == LEAF);
    let region = |(number, (low, high))| Region {
        number,
        span: pages[&number].span,
        low,
        high,
    };
    leaves.map(region).collect()
}
