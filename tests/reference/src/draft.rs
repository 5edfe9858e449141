//! A store with changes that have not been written yet.
//!
//! An update may be refused for lack of a page after several pages are
//! planned. It plans in a draft, and the store is written only when the whole
//! plan stands: a refused call changes no byte.

use std::collections::BTreeMap;

use crate::edition::Edition;
use crate::layout::{Entry, Header, Page, Slot, Span};
use crate::{number, store};

pub struct Draft<'a> {
    bytes: &'a [u8],
    header: Header,
    pages: BTreeMap<u32, Page>,
    new_slot: Option<(u32, Slot)>,
}

/// What a finished draft writes.
pub struct Changes {
    header: Header,
    pages: BTreeMap<u32, Page>,
    new_slot: Option<(u32, Slot)>,
}

impl<'a> Draft<'a> {
    /// Wants a sound store with an update open.
    pub fn new(bytes: &'a [u8]) -> Draft<'a> {
        Draft {
            bytes,
            header: store::header(bytes),
            pages: BTreeMap::new(),
            new_slot: None,
        }
    }

    pub fn edition(&self) -> &'static Edition {
        self.header.edition
    }

    pub fn open_version(&self) -> u32 {
        self.header.last()
    }

    pub fn page(&self, number: u32) -> Page {
        match self.pages.get(&number) {
            Some(page) => page.clone(),
            None => store::page(self.bytes, number),
        }
    }

    pub fn put(&mut self, number: u32, page: Page) {
        self.pages.insert(number, page);
    }

    /// A page is active if it starts at the open version.
    pub fn is_active(&self, number: u32) -> bool {
        self.page(number).span.start == self.open_version()
    }

    /// Makes `number` a page of `level` that starts at the open version, as
    /// do all its entries.
    pub fn fill(&mut self, number: u32, level: u32, entries: &[Entry]) {
        let span = Span::alive_from(self.open_version());
        let entries = entries.iter().map(|entry| Entry { span, ..*entry });
        self.put(number, Page::new(level, span, entries.collect()));
    }

    /// Takes the lowest free page, empty and active from now on.
    pub fn take(&mut self, level: u32) -> Result<u32, u32> {
        let number = store::page_numbers(self.bytes)
            .find(|number| self.level(*number) == 0)
            .ok_or(number::NO_FREE_PAGE)?;
        self.fill(number, level, &[]);
        Ok(number)
    }

    fn level(&self, number: u32) -> u32 {
        match self.pages.get(&number) {
            Some(page) => page.level,
            None => store::level(self.bytes, number),
        }
    }

    pub fn free(&mut self, number: u32) {
        self.put(number, Page::free());
    }

    /// Kills a page: every live entry is ended and the page's end becomes the
    /// open version. Old versions go on reading it.
    pub fn kill(&mut self, number: u32) {
        let open = self.open_version();
        let mut page = self.page(number);
        end_live(&mut page.entries, open, |_| true);
        page.span.end = open;
        self.put(number, page);
    }

    /// Frees an active page, kills an inactive one.
    pub fn retire(&mut self, number: u32) {
        if self.is_active(number) {
            self.free(number);
        } else {
            self.kill(number);
        }
    }

    /// "A new root takes the directory slot of the open version, or replaces
    /// it there." Happens at most once in an update.
    pub fn set_root(&mut self, root: u32) -> Result<(), u32> {
        let version = self.open_version();
        let newest = self.header.roots - 1;
        let index = if store::slot(self.bytes, newest).version == version {
            newest
        } else {
            newest + 1
        };
        if index == self.edition().slots {
            return Err(number::NO_FREE_SLOT);
        }
        self.header.roots = index + 1;
        self.new_slot = Some((index, Slot { version, root }));
        Ok(())
    }

    pub fn finish(self) -> Changes {
        Changes {
            header: self.header,
            pages: self.pages,
            new_slot: self.new_slot,
        }
    }
}

impl Changes {
    pub fn write(&self, bytes: &mut [u8]) {
        store::write_header(bytes, self.header);
        if let Some((index, slot)) = self.new_slot {
            store::write_slot(bytes, index, slot);
        }
        for (number, page) in &self.pages {
            store::write_page(bytes, *number, page);
        }
    }
}

/// Ends the live entries whose key `ends`: one that starts at the open version
/// is removed, since its span would be empty; of others the end becomes the
/// open version.
pub fn end_live(entries: &mut Vec<Entry>, open: u32, ends: impl Fn(u32) -> bool) {
    let ended = |entry: &Entry| entry.span.contains(open) && ends(entry.key);
    entries.retain(|entry| !(ended(entry) && entry.span.start == open));
    for entry in entries.iter_mut().filter(|entry| ended(entry)) {
        entry.span.end = open;
    }
}
