//! "The store, bit by bit": the fields, and the values read from them.

use crate::edition::Edition;

/// Field positions, in bits from the start of the thing they belong to. Those
/// in which the editions differ are the edition's.
pub mod at {
    use crate::bits::Field;

    pub const EDITION: Field = Field::new(32, 8);
    pub const PAGE_COUNT: Field = Field::new(40, 13);
    pub const CURRENT: Field = Field::new(53, 20);
    pub const OPEN_FLAG: Field = Field::new(73, 1);

    pub const SLOT_VERSION: Field = Field::new(0, 20);
    pub const SLOT_ROOT: Field = Field::new(20, 12);

    pub const LEVEL: Field = Field::new(0, 4);

    pub const KEY: Field = Field::new(0, 24);
    pub const ENTRY_START: Field = Field::new(24, 20);
    pub const ENTRY_END: Field = Field::new(44, 20);
    pub const VALUE: Field = Field::new(64, 32);
}

pub const FEWEST_PAGES: usize = 6;
pub const MOST_PAGES: usize = 4096;

pub const FOUR_BYTES: [u8; 4] = [0x52, 0x43, 0x53, 0x54];

/// Page 0 is the header, pages 1 to 4 the root directory.
pub const FIRST_PAGE: u32 = 5;
pub const SLOT_BYTES: usize = 4;

/// Level, entry count, start, end and zero bits make 16 bytes.
pub const PAGE_HEAD_BYTES: usize = 16;
pub const ENTRY_BYTES: usize = 12;

/// Edition 1's, for what is made in that edition alone.
pub const PAGE_BYTES: usize = 256;
pub const SLOTS: u32 = 256;
pub const MOST_ENTRIES: usize = 20;
pub const FEWEST_LIVE: usize = 4;

pub const FREE: u32 = 0;
pub const LEAF: u32 = 1;
pub const HIGHEST_LEVEL: u32 = 7;

/// The end of a span that has not ended.
pub const ALIVE: u32 = 1_048_575;
pub const HIGHEST_VERSION: u32 = 1_048_574;
pub const HIGHEST_KEY: u32 = 16_777_215;
/// Keys from here up belong to the test bench: insert refuses them.
pub const FIRST_BENCH_KEY: u32 = 16_776_960;
/// One above the highest key: the upper bound where document 01 has none.
pub const ABOVE_ALL_KEYS: u32 = HIGHEST_KEY + 1;

/// From `start` up to but not including `end`.
#[derive(Clone, Copy, Debug, PartialEq, Eq)]
pub struct Span {
    pub start: u32,
    pub end: u32,
}

impl Span {
    pub const fn alive_from(start: u32) -> Span {
        Span { start, end: ALIVE }
    }

    pub fn contains(self, version: u32) -> bool {
        self.start <= version && version < self.end
    }

    pub fn lies_in(self, other: Span) -> bool {
        other.start <= self.start && self.end <= other.end
    }

    pub fn is_empty(self) -> bool {
        self.start >= self.end
    }
}

/// In a leaf a setting; in an index page a router: `key` its low key, `value`
/// its child's page number.
#[derive(Clone, Copy, Debug, PartialEq, Eq)]
pub struct Entry {
    pub key: u32,
    pub span: Span,
    pub value: u32,
}

impl Entry {
    pub fn read(bytes: &[u8]) -> Entry {
        Entry {
            key: at::KEY.get(bytes),
            span: Span {
                start: at::ENTRY_START.get(bytes),
                end: at::ENTRY_END.get(bytes),
            },
            value: at::VALUE.get(bytes),
        }
    }

    pub fn write(&self, bytes: &mut [u8]) {
        at::KEY.set(bytes, self.key);
        at::ENTRY_START.set(bytes, self.span.start);
        at::ENTRY_END.set(bytes, self.span.end);
        at::VALUE.set(bytes, self.value);
    }

    /// What entries stand by: key, then start.
    pub fn order(&self) -> (u32, u32) {
        (self.key, self.span.start)
    }
}

/// A page from 5 up.
#[derive(Clone, Debug, PartialEq, Eq)]
pub struct Page {
    pub level: u32,
    pub span: Span,
    pub entries: Vec<Entry>,
}

impl Page {
    pub fn new(level: u32, span: Span, entries: Vec<Entry>) -> Page {
        Page {
            level,
            span,
            entries,
        }
    }

    /// A free page, which is all zero.
    pub fn free() -> Page {
        Page::new(FREE, Span { start: 0, end: 0 }, Vec::new())
    }

    /// Wants an entry count that the edition allows.
    pub fn read(edition: &Edition, bytes: &[u8]) -> Page {
        let count = edition.entry_count.get(bytes) as usize;
        let entries = bytes[PAGE_HEAD_BYTES..].chunks_exact(ENTRY_BYTES);
        Page {
            level: at::LEVEL.get(bytes),
            span: page_span(edition, bytes),
            entries: entries.take(count).map(Entry::read).collect(),
        }
    }

    pub fn write(&self, edition: &Edition, bytes: &mut [u8]) {
        bytes.fill(0);
        at::LEVEL.set(bytes, self.level);
        edition.entry_count.set(bytes, self.entries.len() as u32);
        edition.page_start.set(bytes, self.span.start);
        edition.page_end.set(bytes, self.span.end);
        if let Some(live_count) = edition.live_count {
            live_count.set(bytes, self.live_at_last());
        }
        let places = bytes[PAGE_HEAD_BYTES..].chunks_exact_mut(ENTRY_BYTES);
        for (entry, place) in self.entries.iter().zip(places) {
            entry.write(place);
        }
    }

    pub fn is_free(&self) -> bool {
        self.level == FREE
    }

    pub fn is_index(&self) -> bool {
        self.level > LEAF
    }

    /// How many entries are alive at the last version: those that have not
    /// ended, since by rule 1 no end lies above last.
    pub fn live_at_last(&self) -> u32 {
        let live = self.entries.iter().filter(|e| e.span.end == ALIVE);
        live.count() as u32
    }

    /// The entries alive at `version`, in key order.
    pub fn live(&self, version: u32) -> impl Iterator<Item = &Entry> + '_ {
        self.entries
            .iter()
            .filter(move |entry| entry.span.contains(version))
    }
}

/// The span of the page with these bytes.
pub fn page_span(edition: &Edition, bytes: &[u8]) -> Span {
    Span {
        start: edition.page_start.get(bytes),
        end: edition.page_end.get(bytes),
    }
}

/// A used slot of the root directory.
#[derive(Clone, Copy, Debug, PartialEq, Eq)]
pub struct Slot {
    pub version: u32,
    pub root: u32,
}

impl Slot {
    pub fn read(bytes: &[u8]) -> Slot {
        Slot {
            version: at::SLOT_VERSION.get(bytes),
            root: at::SLOT_ROOT.get(bytes),
        }
    }

    pub fn write(&self, bytes: &mut [u8]) {
        at::SLOT_VERSION.set(bytes, self.version);
        at::SLOT_ROOT.set(bytes, self.root);
    }
}

/// The header's fields behind the four bytes.
#[derive(Clone, Copy, Debug, PartialEq, Eq)]
pub struct Header {
    pub edition: &'static Edition,
    pub page_count: u32,
    pub current: u32,
    pub open: bool,
    pub roots: u32,
    pub oldest: u32,
}

impl Header {
    /// A header whose counts are for the one to fill in who knows them.
    pub fn uncounted(edition: &'static Edition, current: u32, open: bool) -> Header {
        Header {
            edition,
            page_count: 0,
            current,
            open,
            roots: 0,
            oldest: 0,
        }
    }

    pub fn read(bytes: &[u8]) -> Header {
        let edition = Edition::of(bytes);
        Header {
            edition,
            page_count: at::PAGE_COUNT.get(bytes),
            current: at::CURRENT.get(bytes),
            open: at::OPEN_FLAG.get(bytes) == 1,
            roots: edition.root_count.get(bytes),
            oldest: edition.oldest.map_or(0, |oldest| oldest.get(bytes)),
        }
    }

    pub fn write(&self, bytes: &mut [u8]) {
        bytes[..4].copy_from_slice(&FOUR_BYTES);
        at::EDITION.set(bytes, u32::from(self.edition.number));
        at::PAGE_COUNT.set(bytes, self.page_count);
        at::CURRENT.set(bytes, self.current);
        at::OPEN_FLAG.set(bytes, u32::from(self.open));
        self.edition.root_count.set(bytes, self.roots);
        if let Some(oldest) = self.edition.oldest {
            oldest.set(bytes, self.oldest);
        }
    }

    /// Whether a version can be read: from the oldest to last.
    pub fn can_read(&self, version: u32) -> bool {
        (self.oldest..=self.last()).contains(&version)
    }

    /// "Last": the open version if one is open, else the current one.
    pub fn last(&self) -> u32 {
        self.current + u32::from(self.open)
    }
}
