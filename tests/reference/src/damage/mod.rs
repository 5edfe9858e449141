//! Damage to sound stores, each kind with the lowest rule that it breaks.
//!
//! Which rule breaks is known from how the damage is done, not by asking the
//! program's own judging: each kind says why the lower rules still hold where
//! that is not plain. A kind that finds no place in a store leaves it alone.
//!
//! Rules 2 to 6 speak of the versions from the oldest on, so a kind looks for a
//! place that shows there: an entry or a page that outlives the oldest version.
//! What has ended by then is damaged in `expired`.

mod bounds;
mod directory;
mod expired;
mod fields;
mod fill;
mod live_counts;
mod reach;
mod spans;
pub mod tamper;

use crate::image::Image;
use crate::layout::{Entry, Page, ABOVE_ALL_KEYS};
use crate::rng::Rng;

/// Damages the bytes of a sound store; false if it found no place.
type OnBytes = fn(&mut [u8], &mut Rng) -> bool;

/// Damages a sound store read into values; `None` if it found no place, and
/// what it changed before that does not count.
type OnValues = fn(&mut Image, &mut Rng) -> Option<()>;

/// A kind of damage and the lowest rule that it breaks.
pub struct Damage {
    pub rule: u32,
    pub name: &'static str,
    make: Make,
}

#[derive(Clone, Copy)]
enum Make {
    OnBytes(OnBytes),
    OnValues(OnValues),
}

impl Damage {
    /// Damages a sound store; false, and no change, if it found no place.
    pub fn make(&self, bytes: &mut [u8], rng: &mut Rng) -> bool {
        match self.make {
            Make::OnBytes(make) => make(bytes, rng),
            Make::OnValues(make) => on_values(bytes, rng, make),
        }
    }
}

/// Every kind of damage, by rule.
pub fn kinds() -> Vec<Damage> {
    let on_bytes = [
        (1, fields::KINDS),
        (2, directory::KINDS),
        (8, live_counts::KINDS),
    ];
    let on_values = [
        (3, spans::KINDS),
        (4, bounds::KINDS),
        (5, fill::KINDS),
        (6, reach::KINDS),
        (1, expired::BREAK_1),
        (2, expired::BREAK_2),
        (3, expired::BREAK_3),
        (6, expired::BREAK_6),
        (7, expired::BREAK_7),
    ];
    let mut all = Vec::new();
    for (rule, kinds) in on_bytes {
        all.extend(kinds.iter().map(|&(name, make)| Damage {
            rule,
            name,
            make: Make::OnBytes(make),
        }));
    }
    for (rule, kinds) in on_values {
        all.extend(kinds.iter().map(|&(name, make)| Damage {
            rule,
            name,
            make: Make::OnValues(make),
        }));
    }
    all
}

fn on_values(
    bytes: &mut [u8],
    rng: &mut Rng,
    change: impl FnOnce(&mut Image, &mut Rng) -> Option<()>,
) -> bool {
    let mut image = Image::read(bytes);
    let found = change(&mut image, rng).is_some();
    if found {
        bytes.copy_from_slice(&image.write());
    }
    found
}

/// An entry's place: its page's number and its index there.
#[derive(Clone, Copy)]
struct Place {
    page: u32,
    index: usize,
}

impl Place {
    fn page_in(self, image: &Image) -> &Page {
        image.page(self.page)
    }

    fn entry(self, image: &Image) -> Entry {
        self.page_in(image).entries[self.index]
    }

    fn entry_mut(self, image: &mut Image) -> &mut Entry {
        &mut image.page_mut(self.page).entries[self.index]
    }

    /// Whether the entry ended at or before the oldest version.
    fn has_expired(self, image: &Image) -> bool {
        self.entry(image).span.end <= image.header.oldest
    }

    /// The entry that stands before this one in its page.
    fn before(self, image: &Image) -> Option<Entry> {
        let entries = &self.page_in(image).entries;
        self.index.checked_sub(1).map(|index| entries[index])
    }

    fn behind(self, image: &Image) -> Option<Entry> {
        self.page_in(image).entries.get(self.index + 1).copied()
    }
}

/// Some entry that `fits`.
fn some_entry(image: &Image, rng: &mut Rng, fits: impl Fn(Place) -> bool) -> Option<Place> {
    let mut places = Vec::new();
    for (page, content) in image.used() {
        let own = (0..content.entries.len()).map(|index| Place { page, index });
        places.extend(own.filter(|place| fits(*place)));
    }
    rng.pick(&places).copied()
}

/// Some used page that `fits`.
fn some_page(image: &Image, rng: &mut Rng, fits: impl Fn(&Page) -> bool) -> Option<u32> {
    let used = image.used().filter(|(_, page)| fits(page));
    let numbers: Vec<u32> = used.map(|(number, _)| number).collect();
    rng.pick(&numbers).copied()
}

fn some_free_page(image: &Image, rng: &mut Rng) -> Option<u32> {
    let free = image.numbered().filter(|(_, page)| page.is_free());
    let numbers: Vec<u32> = free.map(|(number, _)| number).collect();
    rng.pick(&numbers).copied()
}

/// A number from `low` to `high`, both included, if there is any.
fn some_between(rng: &mut Rng, low: u32, high: u32) -> Option<u32> {
    (low <= high).then(|| rng.between(low, high))
}

/// A router that has not ended by the oldest version.
fn some_router(image: &Image, rng: &mut Rng, fits: impl Fn(Place) -> bool) -> Option<Place> {
    some_entry(image, rng, |place| {
        place.page_in(image).is_index() && !place.has_expired(image) && fits(place)
    })
}

/// A leaf met at a version, and its bounds there.
struct Met {
    leaf: u32,
    low: u32,
    above: u32,
    version: u32,
}

/// A random way down at a random version.
fn some_leaf_met(image: &Image, rng: &mut Rng) -> Option<Met> {
    let version = *rng.pick(&image.turning_points())?;
    Some(some_leaf_met_at(image, rng, version))
}

fn some_leaf_met_at(image: &Image, rng: &mut Rng, version: u32) -> Met {
    let mut met = Met {
        leaf: image.root(version),
        low: 0,
        above: ABOVE_ALL_KEYS,
        version,
    };
    while image.page(met.leaf).is_index() {
        let live: Vec<Entry> = image.page(met.leaf).live(version).copied().collect();
        let index = rng.below(live.len() as u32) as usize;
        met.leaf = live[index].value;
        met.low = live[index].key;
        met.above = live.get(index + 1).map_or(met.above, |next| next.key);
    }
    met
}

/// Whether this router is the first live one of its page at some version.
fn is_first_somewhere(image: &Image, place: Place) -> bool {
    let page = place.page_in(image);
    let router = place.entry(image);
    let versions = image.turning_points().into_iter();
    versions
        .filter(|version| router.span.contains(*version))
        .any(|version| page.live(version).next() == Some(&router))
}

/// A slot gets a root that is not alive at any version it is the root of: the
/// walk there finds no live entries. For an index root that is rule 5, for a
/// leaf root rule 6.
fn root_outside_span(image: &mut Image, rng: &mut Rng, index: bool) -> Option<()> {
    let slot = rng.below(image.slots.len() as u32) as usize;
    let from = image.slots[slot].version.max(image.header.oldest);
    let next = image.slots.get(slot + 1).map(|next| next.version);
    let to = next.unwrap_or(image.header.last() + 1);
    let root = some_page(image, rng, |page| {
        page.is_index() == index && (page.span.end <= from || page.span.start >= to)
    })?;
    image.slots[slot].root = root;
    Some(())
}
