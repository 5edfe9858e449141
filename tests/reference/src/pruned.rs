//! Changes that a pruned store bears and no call makes.
//!
//! What has ended by the oldest version is asked for little: rule 3 skips routers
//! there, "their pages may be free or used again", and rules 4 to 6 speak of
//! the versions from the oldest on. Each change leaves a sound store sound and
//! every version that can be read as it was.

use crate::foreign::{one_of, Change};
use crate::image::Image;
use crate::layout::{Entry, Page, Span, FIRST_PAGE, HIGHEST_KEY, LEAF};
use crate::rng::Rng;

pub const CHANGES: [(&str, Change); 8] = [
    ("an ended router leads elsewhere", lead_elsewhere),
    ("an ended router has another span", move_span),
    ("an ended router more", add_router),
    ("an ended router less", lose_router),
    ("an ended page still there", keep_page),
    ("an ended life more, over others of its key", add_life),
    ("a first slot of an older version", age_slot),
    ("a page of an older version", age_page),
];

/// Makes one of the changes, chosen at random, and gives its name.
pub fn unsettle(bytes: &mut Vec<u8>, rng: &mut Rng) -> Option<&'static str> {
    one_of(&CHANGES, bytes, |image| image.header.oldest > 0, rng)
}

/// A span that ends by the oldest version.
fn ended_span(image: &Image, rng: &mut Rng) -> Span {
    let end = rng.between(1, image.header.oldest);
    let start = rng.below(end);
    Span { start, end }
}

fn any_page_number(image: &Image, rng: &mut Rng) -> u32 {
    FIRST_PAGE + rng.below(image.pages.len() as u32)
}

/// Some ended router's page and its place there.
fn some_ended_router(image: &Image, rng: &mut Rng) -> Option<(u32, usize)> {
    let oldest = image.header.oldest;
    let index_pages = image.used().filter(|(_, page)| page.is_index());
    let routers = index_pages.flat_map(|(number, page)| {
        let ended = move |index: &usize| page.entries[*index].span.end <= oldest;
        let places = (0..page.entries.len()).filter(ended);
        places.map(move |index| (number, index))
    });
    let routers: Vec<(u32, usize)> = routers.collect();
    rng.pick(&routers).copied()
}

fn lead_elsewhere(image: &mut Image, rng: &mut Rng) -> bool {
    let Some((number, index)) = some_ended_router(image, rng) else {
        return false;
    };
    let value = any_page_number(image, rng);
    image.page_mut(number).entries[index].value = value;
    true
}

/// Outside its page's span too.
fn move_span(image: &mut Image, rng: &mut Rng) -> bool {
    let Some((number, index)) = some_ended_router(image, rng) else {
        return false;
    };
    let mut router = image.page_mut(number).entries.remove(index);
    router.span = ended_span(image, rng);
    put(image.page_mut(number), router)
}

/// Puts an entry where it belongs; false if there is one alike in key and start.
fn put(page: &mut Page, entry: Entry) -> bool {
    let alike = |other: &Entry| other.order() == entry.order();
    if page.entries.iter().any(alike) {
        return false;
    }
    page.entries.push(entry);
    page.entries.sort_by_key(Entry::order);
    true
}

/// Some used page with room that fits.
fn some_page(image: &Image, rng: &mut Rng, fits: impl Fn(&Page) -> bool) -> Option<u32> {
    let most = image.edition().most_entries;
    let used = image.used();
    let fitting = used.filter(|(_, page)| page.entries.len() < most && fits(page));
    let numbers: Vec<u32> = fitting.map(|(number, _)| number).collect();
    rng.pick(&numbers).copied()
}

/// Mostly of a key that the page has. Not in a page that starts at the open
/// version: that is rule 7.
fn add_router(image: &mut Image, rng: &mut Rng) -> bool {
    let newest = image.header.current + 1;
    let fits = |page: &Page| page.is_index() && page.span.start < newest;
    let Some(number) = some_page(image, rng, fits) else {
        return false;
    };
    let keys: Vec<u32> = image.page(number).entries.iter().map(|e| e.key).collect();
    let key = match rng.pick(&keys) {
        Some(key) if !rng.once_in(3) => *key,
        _ => rng.between(0, HIGHEST_KEY),
    };
    let router = Entry {
        key,
        span: ended_span(image, rng),
        value: any_page_number(image, rng),
    };
    put(image.page_mut(number), router)
}

fn lose_router(image: &mut Image, rng: &mut Rng) -> bool {
    let Some((number, index)) = some_ended_router(image, rng) else {
        return false;
    };
    image.page_mut(number).entries.remove(index);
    true
}

/// A page that a prune would have freed, with whatever it may hold.
fn keep_page(image: &mut Image, rng: &mut Rng) -> bool {
    let free = image.numbered().filter(|(_, page)| page.is_free());
    let free: Vec<u32> = free.map(|(number, _)| number).collect();
    let Some(number) = rng.pick(&free).copied() else {
        return false;
    };
    let level = rng.between(LEAF, 4);
    let mut page = Page::new(level, ended_span(image, rng), Vec::new());
    for _ in 0..rng.below(12) {
        let key = rng.below(400);
        if level > LEAF {
            let span = ended_span(image, rng);
            let value = any_page_number(image, rng);
            put(&mut page, Entry { key, span, value });
        } else if page.span.end > 1 {
            let start = rng.between(page.span.start.max(1), page.span.end - 1);
            let end = rng.between(start + 1, page.span.end);
            let (span, value) = (Span { start, end }, rng.word());
            put(&mut page, Entry { key, span, value });
        }
    }
    *image.page_mut(number) = page;
    true
}

/// In a leaf, of a key that it has; the spans may overlap below the oldest.
fn add_life(image: &mut Image, rng: &mut Rng) -> bool {
    let oldest = image.header.oldest;
    let fits = |page: &Page| page.level == LEAF && page.span.start.max(1) < oldest;
    let Some(number) = some_page(image, rng, fits) else {
        return false;
    };
    let page = image.page_mut(number);
    let highest = oldest.min(page.span.end);
    let start = page.span.start.max(1);
    let Some(entry) = rng.pick(&page.entries).copied() else {
        return false;
    };
    if start >= highest {
        return false;
    }
    let start = rng.between(start, highest - 1);
    let end = rng.between(start + 1, highest);
    put(
        page,
        Entry {
            span: Span { start, end },
            ..entry
        },
    )
}

fn age_slot(image: &mut Image, rng: &mut Rng) -> bool {
    let version = image.slots[0].version;
    image.slots[0].version = rng.between(0, version);
    version > 0
}

/// One that starts at or before the oldest.
fn age_page(image: &mut Image, rng: &mut Rng) -> bool {
    let oldest = image.header.oldest;
    let Some(number) = some_page(image, rng, |page| page.span.start <= oldest) else {
        return false;
    };
    let page = image.page_mut(number);
    page.span.start = rng.between(0, page.span.start);
    true
}
