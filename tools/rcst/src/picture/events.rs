//! When settings get values, and when they end.

use std::collections::BTreeMap;

use crate::plain::page::{header, pages, LEAF};
use crate::plain::Entry;

/// What happens to a key at a version.
#[derive(Clone, Copy, Debug, PartialEq, Eq)]
pub enum Event {
    Set,
    Ended,
}

/// The events of each key, oldest first. A page that is copied cuts an entry in two,
/// which is no event: the second starts where the first ends, with the same value.
/// What ended at or before the oldest version is not there.
pub fn events(store: &[u8]) -> BTreeMap<u32, Vec<(u32, Event)>> {
    let oldest = header(store).oldest;
    let mut entries: BTreeMap<u32, Vec<Entry>> = BTreeMap::new();
    for (_, page) in pages(store).iter().filter(|(_, page)| page.level == LEAF) {
        let kept = |entry: &&Entry| !entry.span.is_expired(oldest);
        for entry in page.entries.iter().filter(kept) {
            entries.entry(entry.key).or_default().push(*entry);
        }
    }
    entries
        .into_iter()
        .map(|(key, entries)| (key, of_one(entries)))
        .collect()
}

fn of_one(mut entries: Vec<Entry>) -> Vec<(u32, Event)> {
    entries.sort_by_key(|entry| entry.span.start);
    let mut events = Vec::new();
    for (place, entry) in entries.iter().enumerate() {
        let before = place.checked_sub(1).map(|place| entries[place]);
        let goes_on = |one: &Entry, next: &Entry| one.span.end == next.span.start;
        let copied = before.is_some_and(|one| goes_on(&one, entry) && one.value == entry.value);
        if !copied {
            events.push((entry.span.start, Event::Set));
        }
        let next = entries.get(place + 1);
        if !entry.span.is_alive() && !next.is_some_and(|next| goes_on(entry, next)) {
            events.push((entry.span.end, Event::Ended));
        }
    }
    events
}
