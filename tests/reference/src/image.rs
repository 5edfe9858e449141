//! A whole store read into values, and back.
//!
//! Judging reads each page many times, and the builders of stores change many
//! fields at once; both are plainer on values than on bits.

use crate::edition::Edition;
use crate::layout::{Header, Page, Slot, FIRST_PAGE};
use crate::store;

#[derive(Clone, Debug, PartialEq, Eq)]
pub struct Image {
    pub header: Header,
    pub slots: Vec<Slot>,
    /// The pages from 5 up; `page` and `page_mut` take page numbers.
    pub pages: Vec<Page>,
}

impl Image {
    pub fn edition(&self) -> &'static Edition {
        self.header.edition
    }

    /// Wants a store in which rule 1 holds.
    pub fn read(bytes: &[u8]) -> Image {
        let header = store::header(bytes);
        Image {
            header,
            slots: (0..header.roots).map(|i| store::slot(bytes, i)).collect(),
            pages: store::page_numbers(bytes)
                .map(|number| store::page(bytes, number))
                .collect(),
        }
    }

    /// The bytes of this store; the header's counts are those of `slots` and
    /// `pages`.
    pub fn write(&self) -> Vec<u8> {
        let page_count = FIRST_PAGE as usize + self.pages.len();
        let mut bytes = vec![0; page_count * self.edition().page_bytes];
        let header = Header {
            page_count: page_count as u32,
            roots: self.slots.len() as u32,
            ..self.header
        };
        store::write_header(&mut bytes, header);
        for (index, slot) in self.slots.iter().enumerate() {
            store::write_slot(&mut bytes, index as u32, *slot);
        }
        for (number, page) in self.numbered() {
            store::write_page(&mut bytes, number, page);
        }
        bytes
    }

    pub fn page(&self, number: u32) -> &Page {
        &self.pages[(number - FIRST_PAGE) as usize]
    }

    pub fn page_mut(&mut self, number: u32) -> &mut Page {
        &mut self.pages[(number - FIRST_PAGE) as usize]
    }

    /// Every page from 5 up with its number.
    pub fn numbered(&self) -> impl Iterator<Item = (u32, &Page)> + '_ {
        (FIRST_PAGE..).zip(&self.pages)
    }

    /// The pages in use with their numbers.
    pub fn used(&self) -> impl Iterator<Item = (u32, &Page)> + '_ {
        self.numbered().filter(|(_, page)| !page.is_free())
    }

    /// "The root of v is the last slot at or below v." Wants rule 2.
    pub fn root(&self, version: u32) -> u32 {
        let behind = self.slots.partition_point(|slot| slot.version <= version);
        self.slots[behind - 1].root
    }

    /// The versions from the oldest to last at which anything starts or ends,
    /// rising, the oldest among them. Between two of them no slot begins and no
    /// entry or page starts or ends, so the walk at a version is the walk at the
    /// last of these at or below it.
    pub fn turning_points(&self) -> Vec<u32> {
        let slots = self.slots.iter().map(|slot| slot.version);
        let spans = self.used().flat_map(|(_, page)| {
            let entries = page.entries.iter().map(|entry| entry.span);
            entries.chain([page.span])
        });
        let ends = spans.flat_map(|span| [span.start, span.end]);
        let oldest = self.header.oldest;
        let mut versions: Vec<u32> = slots.chain(ends).chain([oldest]).collect();
        versions.retain(|version| self.header.can_read(*version));
        versions.sort_unstable();
        versions.dedup();
        versions
    }
}
