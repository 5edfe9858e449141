//! What a store tells of itself.

use crate::store;

/// Seven numbers, in the order in which the call gives them.
#[derive(Clone, Copy, Debug, Default, PartialEq, Eq)]
pub struct State {
    /// Header and directory among them.
    pub pages: u32,
    pub current: u32,
    /// 1 if an update is open, else 0.
    pub open: u32,
    /// Slots of the directory that are used.
    pub roots: u32,
    pub edition: u32,
    /// Pages that are free, from 5 up.
    pub free: u32,
    pub oldest: u32,
}

impl State {
    /// The numbers, in that order.
    pub fn numbers(self) -> [u32; 7] {
        let (pages, roots, free) = (self.pages, self.roots, self.free);
        let (current, open, oldest) = (self.current, self.open, self.oldest);
        [pages, current, open, roots, self.edition, free, oldest]
    }
}

/// Wants a sound store.
pub fn state(bytes: &[u8]) -> State {
    let header = store::header(bytes);
    let is_free = |number: &u32| store::page(bytes, *number).is_free();
    State {
        pages: store::page_count(bytes),
        current: header.current,
        open: u32::from(header.open),
        roots: header.roots,
        edition: u32::from(header.edition.number),
        free: store::page_numbers(bytes).filter(is_free).count() as u32,
        oldest: header.oldest,
    }
}
