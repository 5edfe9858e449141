//! What an edition fixes: the size of a page, what stands in it, and the page
//! rules' limits. All else is said once for both (2026-08).

use crate::bits::Field;
use crate::layout::{FEWEST_PAGES, MOST_PAGES};

#[derive(Debug, PartialEq, Eq)]
pub struct Edition {
    /// The edition byte.
    pub number: u8,
    pub page_bytes: usize,
    /// Slots of the root directory, which fill pages 1 to 4.
    pub slots: u32,
    /// In the header.
    pub root_count: Field,
    /// In the header after it: the oldest version (2026-12). Edition 1 has none,
    /// and its oldest version is 0.
    pub oldest: Option<Field>,
    /// In a page's 16 bytes, behind its level.
    pub entry_count: Field,
    pub page_start: Field,
    pub page_end: Field,
    /// The number of entries alive at the last version, right after the page's
    /// end (2026-09). Edition 1 has none.
    pub live_count: Option<Field>,
    /// 004's limits B, 4B/5 and B/5.
    pub most_entries: usize,
    pub most_gathered: usize,
    pub fewest_live: usize,
    /// A page whose wanted list is shorter than this takes its neighbour along.
    pub gathered_alone: usize,
}

pub static FIRST: Edition = Edition {
    number: 1,
    page_bytes: 256,
    slots: 256,
    root_count: Field::new(74, 9),
    oldest: None,
    entry_count: Field::new(4, 5),
    page_start: Field::new(9, 20),
    page_end: Field::new(29, 20),
    live_count: None,
    most_entries: 20,
    most_gathered: 16,
    fewest_live: 4,
    gathered_alone: 8,
};

pub static SECOND: Edition = Edition {
    number: 2,
    page_bytes: 512,
    slots: 512,
    root_count: Field::new(74, 10),
    oldest: Some(Field::new(84, 20)),
    entry_count: Field::new(4, 6),
    page_start: Field::new(10, 20),
    page_end: Field::new(30, 20),
    live_count: Some(Field::new(50, 6)),
    most_entries: 40,
    most_gathered: 32,
    fewest_live: 8,
    gathered_alone: 16,
};

pub static EDITIONS: [&Edition; 2] = [&FIRST, &SECOND];

impl Edition {
    /// The edition with this edition byte.
    pub fn named(number: u8) -> Option<&'static Edition> {
        EDITIONS
            .into_iter()
            .find(|edition| edition.number == number)
    }

    /// The edition that a store's bytes name. Bytes that name none are read as
    /// edition 1's, to be looked at by whoever damaged them.
    pub fn of(store: &[u8]) -> &'static Edition {
        let number = store.get(4).copied().unwrap_or(0);
        Edition::named(number).unwrap_or(&FIRST)
    }

    /// The bit behind the last field of the header.
    pub fn header_end(&self) -> usize {
        self.oldest.unwrap_or(self.root_count).end()
    }

    /// The bit behind the last field of a page's 16 bytes.
    pub fn head_end(&self) -> usize {
        self.live_count.unwrap_or(self.page_end).end()
    }

    /// Whether a lent length is 6 to 4,096 whole pages.
    pub fn length_fits(&self, length: usize) -> bool {
        length.is_multiple_of(self.page_bytes)
            && (FEWEST_PAGES..=MOST_PAGES).contains(&(length / self.page_bytes))
    }
}
