//! The plain engine (2026-10), as a Rust program holds it: one list of items with
//! spans, and each call a scan of it. It answers what a store answers from which
//! the same calls are made, but for the numbers that speak of bytes and pages.

use crate::counted;

mod c {
    extern "C" {
        pub fn rcst_plain_open(state: *mut super::State) -> u32;
        pub fn rcst_plain_insert(
            items: *mut u32,
            room: usize,
            state: *mut super::State,
            key: u32,
            value: u32,
        ) -> u32;
        pub fn rcst_plain_delete(
            items: *mut u32,
            room: usize,
            state: *mut super::State,
            key: u32,
        ) -> u32;
        pub fn rcst_plain_commit(items: *const u32, room: usize, state: *mut super::State) -> u32;
        pub fn rcst_plain_abandon(items: *mut u32, room: usize, state: *mut super::State) -> u32;
        pub fn rcst_plain_return(
            items: *mut u32,
            room: usize,
            state: *mut super::State,
            version: u32,
        ) -> u32;
        pub fn rcst_plain_prune(
            items: *mut u32,
            room: usize,
            state: *mut super::State,
            version: u32,
        ) -> u32;
        pub fn rcst_plain_lookup(
            items: *const u32,
            room: usize,
            state: *const super::State,
            key: u32,
            version: u32,
            found: *mut u32,
            value: *mut u32,
        ) -> u32;
        pub fn rcst_plain_range(
            items: *const u32,
            room: usize,
            state: *const super::State,
            low: u32,
            high: u32,
            version: u32,
            list: *mut u32,
            list_room: usize,
            count: *mut usize,
        ) -> u32;
        pub fn rcst_plain_difference(
            items: *const u32,
            room: usize,
            state: *const super::State,
            old: u32,
            new: u32,
            list: *mut u32,
            list_room: usize,
            count: *mut usize,
        ) -> u32;
        pub fn rcst_plain_life(
            items: *const u32,
            room: usize,
            state: *const super::State,
            key: u32,
            list: *mut u32,
            list_room: usize,
            count: *mut usize,
        ) -> u32;
    }
}

/// What goes with the items, as the header's `struct rcst_plain_state`.
#[repr(C)]
#[derive(Clone, Copy, Debug, PartialEq, Eq)]
pub struct State {
    /// The current version.
    pub current: u32,
    /// 1 if an update is open, else 0.
    pub opened: u32,
    /// How many items the list holds.
    pub count: u32,
    /// The oldest version that is kept.
    pub oldest: u32,
    /// 1 or 2: pruning edition 1 gives 3, and nothing else asks for it.
    pub edition: u32,
}

impl State {
    /// That of no item: beside a fresh store of the edition.
    pub fn fresh(edition: u32) -> State {
        State {
            current: 0,
            opened: 0,
            count: 0,
            oldest: 0,
            edition,
        }
    }
}

/// A lent list and its state. Where the list has no room for one item for each
/// accepted insert, a return's own included, an insert or a return may give 14;
/// `resumed` goes on with a longer one.
pub struct Engine<'a> {
    items: &'a mut [u32],
    state: State,
}

impl<'a> Engine<'a> {
    /// No items: version 0, no settings, whatever stands in the list.
    pub fn new(edition: u32, items: &'a mut [u32]) -> Engine<'a> {
        Engine::resumed(items, State::fresh(edition))
    }

    /// Goes on with the items of a list. A state that is none, or of more items than
    /// the list holds, is refused with 4 by the calls.
    pub fn resumed(items: &'a mut [u32], state: State) -> Engine<'a> {
        Engine { items, state }
    }

    pub fn state(&self) -> State {
        self.state
    }

    /// The lent list: the items, and whatever stands behind them.
    pub fn items(&self) -> &[u32] {
        self.items
    }

    /// Opens an update.
    pub fn open(&mut self) -> u32 {
        unsafe { c::rcst_plain_open(&mut self.state) }
    }

    /// Inserts a setting in the open update: one item more.
    pub fn insert(&mut self, key: u32, value: u32) -> u32 {
        let (items, room) = (self.items.as_mut_ptr(), self.items.len());
        unsafe { c::rcst_plain_insert(items, room, &mut self.state, key, value) }
    }

    /// Deletes a setting in the open update.
    pub fn delete(&mut self, key: u32) -> u32 {
        let (items, room) = (self.items.as_mut_ptr(), self.items.len());
        unsafe { c::rcst_plain_delete(items, room, &mut self.state, key) }
    }

    /// Commits the open update; 15 if its settings are the current version's.
    pub fn commit(&mut self) -> u32 {
        let (items, room) = (self.items.as_ptr(), self.items.len());
        unsafe { c::rcst_plain_commit(items, room, &mut self.state) }
    }

    /// Abandons the open update.
    pub fn abandon(&mut self) -> u32 {
        let (items, room) = (self.items.as_mut_ptr(), self.items.len());
        unsafe { c::rcst_plain_abandon(items, room, &mut self.state) }
    }

    /// Makes the open version's settings those of a committed version.
    pub fn return_to(&mut self, version: u32) -> u32 {
        let (items, room) = (self.items.as_mut_ptr(), self.items.len());
        unsafe { c::rcst_plain_return(items, room, &mut self.state, version) }
    }

    /// Drops the items that ended at or before a committed version.
    pub fn prune(&mut self, version: u32) -> u32 {
        let (items, room) = (self.items.as_mut_ptr(), self.items.len());
        unsafe { c::rcst_plain_prune(items, room, &mut self.state, version) }
    }

    /// The number, whether the key is alive at the version, and its value.
    pub fn lookup(&self, key: u32, version: u32) -> (u32, bool, u32) {
        let (mut found, mut value) = (0, 0);
        let (items, room) = (self.items.as_ptr(), self.items.len());
        let number = unsafe {
            c::rcst_plain_lookup(
                items,
                room,
                &self.state,
                key,
                version,
                &mut found,
                &mut value,
            )
        };
        (number, found == 1, value)
    }

    /// The number and the count of settings found; these go to the list.
    pub fn range(&self, low: u32, high: u32, version: u32, list: &mut [u32]) -> (u32, usize) {
        let (items, room, state) = (self.items.as_ptr(), self.items.len(), &self.state);
        counted(list, |list, list_room, count| unsafe {
            c::rcst_plain_range(
                items, room, state, low, high, version, list, list_room, count,
            )
        })
    }

    /// The number and the count of differences from version `old` to version `new`;
    /// these go to the list, as [`crate::difference`] has them.
    pub fn difference(&self, old: u32, new: u32, list: &mut [u32]) -> (u32, usize) {
        let (items, room, state) = (self.items.as_ptr(), self.items.len(), &self.state);
        counted(list, |list, list_room, count| unsafe {
            c::rcst_plain_difference(items, room, state, old, new, list, list_room, count)
        })
    }

    /// The number and the count of stretches in which the key held one value; these
    /// go to the list, start, end and value each.
    pub fn life(&self, key: u32, list: &mut [u32]) -> (u32, usize) {
        let (items, room, state) = (self.items.as_ptr(), self.items.len(), &self.state);
        counted(list, |list, list_room, count| unsafe {
            c::rcst_plain_life(items, room, state, key, list, list_room, count)
        })
    }
}
