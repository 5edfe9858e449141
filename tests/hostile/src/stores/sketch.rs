//! A store as it is drawn: pages with their entries, and roots. What a page's span
//! is to be follows from what leads to it, at the end.

use reference::edition::{Edition, FIRST};
use reference::image::Image;
use reference::layout::{
    Entry, Header, Page, Slot, Span, ALIVE, FIRST_PAGE, HIGHEST_VERSION, LEAF, MOST_PAGES,
};

use super::entry;

pub struct Sketch {
    edition: &'static Edition,
    pages: Vec<(u32, Vec<Entry>)>,
    roots: Vec<Slot>,
}

impl Default for Sketch {
    fn default() -> Sketch {
        Sketch::of(&FIRST)
    }
}

impl Sketch {
    pub fn new() -> Sketch {
        Sketch::default()
    }

    pub fn of(edition: &'static Edition) -> Sketch {
        Sketch {
            edition,
            pages: Vec::new(),
            roots: Vec::new(),
        }
    }

    /// The most entries of a page, and the fewest live ones.
    pub fn most(&self) -> u32 {
        self.edition.most_entries as u32
    }

    pub fn fewest(&self) -> u32 {
        self.edition.fewest_live as u32
    }

    /// A page's number.
    pub fn page(&mut self, level: u32, entries: Vec<Entry>) -> u32 {
        assert!(entries.len() <= self.edition.most_entries);
        self.pages.push((level, entries));
        FIRST_PAGE + self.pages.len() as u32 - 1
    }

    pub fn len(&self) -> usize {
        FIRST_PAGE as usize + self.pages.len()
    }

    pub fn is_empty(&self) -> bool {
        self.pages.is_empty()
    }

    /// Whether so many pages more find room.
    pub fn has_room(&self, pages: u32) -> bool {
        self.len() + pages as usize <= MOST_PAGES
    }

    /// How many entries a page has.
    pub fn count(&self, page: u32) -> usize {
        self.pages[(page - FIRST_PAGE) as usize].1.len()
    }

    pub fn router(&mut self, page: u32, router: Entry) {
        self.pages[(page - FIRST_PAGE) as usize].1.push(router);
    }

    pub fn root(&mut self, version: u32, root: u32) {
        self.roots.push(Slot { version, root });
    }

    /// An empty leaf as the root from a version on.
    pub fn nothing_from(&mut self, version: u32) {
        let page = self.page(LEAF, Vec::new());
        self.root(version, page);
    }

    /// Another store as it is up to its last version; the version behind it.
    pub fn before(&mut self, store: &[u8]) -> u32 {
        let image = Image::read(store);
        let moved = self.pages.len() as u32;
        let behind = image.header.last() + 1;
        for page in &image.pages {
            let entries = page.entries.iter().map(|own| {
                let end = if own.span.end == ALIVE {
                    behind
                } else {
                    own.span.end
                };
                let start = own.span.start;
                let value = if page.is_index() {
                    own.value + moved
                } else {
                    own.value
                };
                entry(own.key, Span { start, end }, value)
            });
            self.pages.push((page.level, entries.collect()));
        }
        let slots = image.slots.iter().map(|slot| Slot {
            version: slot.version,
            root: slot.root + moved,
        });
        self.roots.extend(slots);
        behind
    }

    /// The store, if all finds room. A page's span is as long as those of all that
    /// lead to it together, where that can be; else it holds just what it must.
    pub fn store(mut self, current: u32) -> Option<Vec<u8>> {
        self.roots.sort_by_key(|slot| slot.version);
        let fits = self.len() <= MOST_PAGES
            && self.roots.len() <= self.edition.slots as usize
            && current <= HIGHEST_VERSION;
        if !fits {
            return None;
        }
        let spans = self.spans(current);
        let pages = self
            .pages
            .into_iter()
            .zip(spans)
            .map(|((level, mut entries), span)| {
                entries.sort_by_key(Entry::order);
                Page::new(level, span, entries)
            });
        let header = Header::uncounted(self.edition, current, false);
        let mut pages: Vec<Page> = pages.collect();
        // the fewest pages that a store has
        if pages.is_empty() {
            pages.push(Page::free());
        }
        Some(
            Image {
                header,
                slots: self.roots,
                pages,
            }
            .write(),
        )
    }

    fn spans(&self, last: u32) -> Vec<Span> {
        let mut needs = vec![Need::NOTHING; self.pages.len()];
        for (place, slot) in self.roots.iter().enumerate() {
            let next = self.roots.get(place + 1);
            let end = next.map_or(ALIVE, |next| next.version);
            let span = Span {
                start: slot.version,
                end,
            };
            needs[(slot.root - FIRST_PAGE) as usize].led(span);
        }
        for (own, (level, entries)) in self.pages.iter().enumerate() {
            for entry in entries {
                needs[own].holds(entry.span);
                if *level > LEAF {
                    needs[(entry.value - FIRST_PAGE) as usize].led(entry.span);
                }
            }
        }
        needs.into_iter().map(|need| need.span(last)).collect()
    }
}

/// What a page's span must hold, and how long it is to be.
#[derive(Clone, Copy)]
struct Need {
    start: u32,
    end: u32,
    sum: u64,
}

impl Need {
    const NOTHING: Need = Need {
        start: u32::MAX,
        end: 0,
        sum: 0,
    };

    fn holds(&mut self, span: Span) {
        self.start = self.start.min(span.start);
        self.end = self.end.max(span.end);
    }

    fn led(&mut self, span: Span) {
        self.holds(span);
        self.sum += u64::from(span.end - span.start);
    }

    fn span(self, last: u32) -> Span {
        if self.end == 0 {
            return Span {
                start: 0,
                end: ALIVE,
            };
        }
        let Need { start, end, sum } = self;
        let whole = Span { start, end };
        let sum = match u32::try_from(sum) {
            Ok(sum) if end - start <= sum => sum,
            _ => return whole,
        };
        if end == ALIVE {
            let start = ALIVE.saturating_sub(sum);
            return Span { start, end };
        }
        // as early as can be, and up to last at most
        let end = (start + sum).min(last);
        match end.checked_sub(sum) {
            Some(start) => Span { start, end },
            None => whole,
        }
    }
}
