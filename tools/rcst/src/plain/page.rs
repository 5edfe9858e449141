//! Header, slots and pages as values.

use rcst::limits::ALIVE;

use super::bits::field;

/// The first page behind the directory, in either edition.
pub const FIRST: usize = 5;
pub const FREE: u32 = 0;
pub const LEAF: u32 = 1;

/// What differs between the editions.
pub struct Shape {
    pub page_bytes: usize,
    pub slots: usize,
    pub roots_width: usize,
    /// How wide the oldest version is, in the header.
    pub oldest_width: usize,
    pub count_width: usize,
    /// How wide the number of entries alive is, in a page's front.
    pub live_width: usize,
    pub most_entries: usize,
    pub fewest_live: usize,
}

const FIRST_EDITION: Shape = Shape {
    page_bytes: 256,
    slots: 256,
    roots_width: 9,
    oldest_width: 0,
    count_width: 5,
    live_width: 0,
    most_entries: 20,
    fewest_live: 4,
};

const SECOND_EDITION: Shape = Shape {
    page_bytes: 512,
    slots: 512,
    roots_width: 10,
    oldest_width: 20,
    count_width: 6,
    live_width: 6,
    most_entries: 40,
    fewest_live: 8,
};

/// By a store's fifth byte.
pub fn shape(store: &[u8]) -> &'static Shape {
    match store[4] {
        2 => &SECOND_EDITION,
        _ => &FIRST_EDITION,
    }
}

/// From start up to, not including, end.
#[derive(Clone, Copy, Debug, PartialEq, Eq)]
pub struct Span {
    pub start: u32,
    pub end: u32,
}

impl Span {
    pub fn holds(self, version: u32) -> bool {
        self.start <= version && version < self.end
    }

    pub fn lies_in(self, other: Span) -> bool {
        other.start <= self.start && self.end <= other.end
    }

    /// Whether it ended at or before a store's oldest version.
    pub fn is_expired(self, oldest: u32) -> bool {
        self.end <= oldest
    }

    pub fn is_alive(self) -> bool {
        self.end == ALIVE
    }
}

#[derive(Clone, Copy, Debug)]
pub struct Header {
    pub pages: u32,
    pub current: u32,
    pub open: bool,
    pub roots: u32,
    pub oldest: u32,
}

impl Header {
    /// The version that can be read last.
    pub fn last(&self) -> u32 {
        self.current + u32::from(self.open)
    }
}

/// A setting, or a router: its low key, and the page that it leads to.
#[derive(Clone, Copy, Debug)]
pub struct Entry {
    pub key: u32,
    pub span: Span,
    pub value: u32,
}

#[derive(Clone, Debug)]
pub struct Page {
    pub level: u32,
    /// As the field says, also where it says more than there is room for.
    pub count: usize,
    pub span: Span,
    /// Edition 2: how many entries are alive at the last version, as the field says.
    pub live: usize,
    pub entries: Vec<Entry>,
}

impl Page {
    pub fn alive_at(&self, version: u32) -> impl Iterator<Item = &Entry> {
        let alive = move |entry: &&Entry| entry.span.holds(version);
        self.entries.iter().filter(alive)
    }
}

/// How many whole pages the bytes are.
pub fn count(store: &[u8]) -> usize {
    store.len() / shape(store).page_bytes
}

pub fn bytes(store: &[u8], number: usize) -> &[u8] {
    let page_bytes = shape(store).page_bytes;
    &store[number * page_bytes..][..page_bytes]
}

pub fn header(store: &[u8]) -> Header {
    let shape = shape(store);
    Header {
        pages: field(store, 40, 13),
        current: field(store, 53, 20),
        open: field(store, 73, 1) == 1,
        roots: field(store, 74, shape.roots_width),
        oldest: field(store, 74 + shape.roots_width, shape.oldest_width),
    }
}

/// A slot's version, and its page.
pub fn slot(store: &[u8], place: usize) -> (u32, usize) {
    let bytes = &store[shape(store).page_bytes + 4 * place..][..4];
    (field(bytes, 0, 20), field(bytes, 20, 12) as usize)
}

/// The slots that are used.
pub fn slots(store: &[u8]) -> impl DoubleEndedIterator<Item = (u32, usize)> + '_ {
    let used = (header(store).roots as usize).min(shape(store).slots);
    (0..used).map(|place| slot(store, place))
}

/// The page that a version is read from.
pub fn root(store: &[u8], version: u32) -> Option<usize> {
    let mut slots = slots(store).rev();
    let (_, page) = slots.find(|(from, _)| *from <= version)?;
    (FIRST..count(store)).contains(&page).then_some(page)
}

pub fn entry(page: &[u8], place: usize) -> Entry {
    let bytes = &page[16 + 12 * place..][..12];
    Entry {
        key: field(bytes, 0, 24),
        span: Span {
            start: field(bytes, 24, 20),
            end: field(bytes, 44, 20),
        },
        value: field(bytes, 64, 32),
    }
}

pub fn page(store: &[u8], number: usize) -> Page {
    let (bytes, shape) = (bytes(store, number), shape(store));
    let start = 4 + shape.count_width;
    let count = field(bytes, 4, shape.count_width) as usize;
    let entries = (0..count.min(shape.most_entries)).map(|place| entry(bytes, place));
    Page {
        level: field(bytes, 0, 4),
        count,
        span: Span {
            start: field(bytes, start, 20),
            end: field(bytes, start + 20, 20),
        },
        live: field(bytes, start + 40, shape.live_width) as usize,
        entries: entries.collect(),
    }
}

/// All pages behind the directory, with their numbers.
pub fn pages(store: &[u8]) -> Vec<(usize, Page)> {
    (FIRST..count(store))
        .map(|number| (number, page(store, number)))
        .collect()
}
