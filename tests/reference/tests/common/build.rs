//! Stores put together page by page, for what no short history leads to.

use super::{entry, value_of};
use reference::edition::{Edition, FIRST};
use reference::image::Image;
use reference::layout::{Entry, Header, Page, Slot, Span, ALIVE};

/// A store of edition 1 of which page 5 is the empty root of version 0; `pages`
/// are those from 6 on.
pub fn image(current: u32, open: bool, slots: &[(u32, u32)], pages: Vec<Page>) -> Image {
    image_of(&FIRST, current, open, slots, pages)
}

/// The same of any edition.
pub fn image_of(
    edition: &'static Edition,
    current: u32,
    open: bool,
    slots: &[(u32, u32)],
    pages: Vec<Page>,
) -> Image {
    let slot = |&(version, root): &(u32, u32)| Slot { version, root };
    let empty = Page::new(1, Span { start: 0, end: 1 }, Vec::new());
    Image {
        header: Header::uncounted(edition, current, open),
        slots: [(0, 5)].iter().chain(slots).map(slot).collect(),
        pages: [empty].into_iter().chain(pages).collect(),
    }
}

/// A leaf whose entries live as long as it does.
pub fn leaf(start: u32, end: u32, keys: impl IntoIterator<Item = u32>) -> Page {
    let keys = keys.into_iter();
    let entries = keys.map(|key| entry(key, start, end, value_of(key)));
    Page::new(1, Span { start, end }, entries.collect())
}

/// An index page of level 2 whose routers live as long as it does.
pub fn index(start: u32, end: u32, routers: &[(u32, u32)]) -> Page {
    let routers = routers.iter();
    let entries = routers.map(|(low, page)| entry(*low, start, end, *page));
    Page::new(2, Span { start, end }, entries.collect())
}

/// Pages 6, 7 and 8: leaves under the index page 9, from version 1 on; 10 is free.
pub fn three_under_a_root() -> Vec<Page> {
    vec![
        leaf(1, ALIVE, [10, 20, 30, 40]),
        leaf(1, ALIVE, [100, 110, 120, 130]),
        leaf(1, ALIVE, [200, 210, 220, 230]),
        index(1, ALIVE, &[(0, 6), (100, 7), (200, 8)]),
        Page::free(),
    ]
}

/// `page` with `more` entries besides.
pub fn with(mut page: Page, more: impl IntoIterator<Item = Entry>) -> Page {
    page.entries.extend(more);
    page.entries.sort_by_key(Entry::order);
    page
}

/// `page` with `dead` earlier lives, of one version each from 1 on, of its
/// first entry, which then starts behind them.
pub fn with_dead(mut page: Page, dead: u32) -> Page {
    let first = page.entries[0];
    page.entries[0].span.start = dead + 1;
    let lives = (1..=dead).map(|start| Entry {
        span: Span {
            start,
            end: start + 1,
        },
        ..first
    });
    with(page, lives)
}

pub fn free_pages(image: &mut Image, count: usize) {
    image.pages.extend((0..count).map(|_| Page::free()));
}

/// Gives the leaf `number` under `parent` an active page in its place: the
/// same live entries from the open version on, in the page `into`.
pub fn renew_leaf(image: &mut Image, parent: u32, number: u32, into: u32) {
    let open = image.header.last();
    let fresh = |entry: &Entry| Entry {
        span: Span::alive_from(open),
        ..*entry
    };
    let live: Vec<Entry> = image.page(number).live(open).map(fresh).collect();
    *image.page_mut(into) = Page::new(1, Span::alive_from(open), live);
    let old = image.page_mut(number);
    old.span.end = open;
    for entry in old.entries.iter_mut().filter(|e| e.span.end == ALIVE) {
        entry.span.end = open;
    }
    let routers = &mut image.page_mut(parent).entries;
    let router = routers.iter_mut().find(|r| r.value == number).unwrap();
    router.span.end = open;
    let renewed = Entry {
        value: into,
        span: Span::alive_from(open),
        ..*router
    };
    routers.push(renewed);
    routers.sort_by_key(Entry::order);
}
