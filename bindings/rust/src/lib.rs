//! The proved settings store, for Rust: safe functions over the C interface of
//! `include/rcst.h`, which says what each call does.
//!
//! The library has no precondition: any bytes may be lent as a store, and any
//! numbers as arguments. It allocates nothing and keeps nothing, so this crate
//! needs core alone. Every function gives the call's number first: 0 is done, and
//! [`number::words`] has the words of the others.
//!
//! What this crate answers for is that its declarations are those of the header,
//! and that a slice is passed as its own pointer and length.

#![no_std]

mod c;
pub mod limits;
pub mod naming;
pub mod number;
pub mod plain;
pub mod settings;

/// Makes a fresh store of edition 1 over any bytes of a fitting length.
pub fn fresh(store: &mut [u8]) -> u32 {
    unsafe { c::rcst_fresh(store.as_mut_ptr(), store.len()) }
}

/// Makes a fresh store of edition 2 over any bytes of a fitting length.
pub fn fresh_second(store: &mut [u8]) -> u32 {
    unsafe { c::rcst_fresh_second(store.as_mut_ptr(), store.len()) }
}

/// Makes `target` a store of edition 2 whose committed versions read as those of
/// `source`, of edition 1; with 12 or 13 it is a fresh one.
pub fn convert(source: &[u8], target: &mut [u8]) -> u32 {
    unsafe {
        c::rcst_convert(
            source.as_ptr(),
            source.len(),
            target.as_mut_ptr(),
            target.len(),
        )
    }
}

/// The number and, with 4, the lowest number of a broken rule.
pub fn check(store: &[u8]) -> (u32, u32) {
    let mut rule = 0;
    let number = unsafe { c::rcst_check(store.as_ptr(), store.len(), &mut rule) };
    (number, rule)
}

/// What a store tells of itself, as the header's `struct rcst_store_state`.
#[repr(C)]
#[derive(Clone, Copy, Debug, Default, PartialEq, Eq)]
pub struct State {
    /// Pages of the store, header and directory among them.
    pub pages: u32,
    /// The current version.
    pub current: u32,
    /// 1 if an update is open, else 0.
    pub open: u32,
    /// Slots of the root directory that are used.
    pub roots: u32,
    /// 1 or 2.
    pub edition: u32,
    /// Pages that are free.
    pub free: u32,
    /// The oldest version that can be read: 0, or the one pruned to last.
    pub oldest: u32,
}

impl State {
    pub fn is_open(&self) -> bool {
        self.open == 1
    }

    /// The version that can be read last: the open one, else the current one.
    pub fn last(&self) -> u32 {
        self.current + self.open
    }
}

/// The number and, with 0, what the store tells of itself.
pub fn state(store: &[u8]) -> (u32, State) {
    let mut state = State::default();
    let number = unsafe { c::rcst_state(store.as_ptr(), store.len(), &mut state) };
    (number, state)
}

/// Opens an update.
pub fn open(store: &mut [u8]) -> u32 {
    unsafe { c::rcst_open(store.as_mut_ptr(), store.len()) }
}

/// Inserts a setting in the open update.
pub fn insert(store: &mut [u8], key: u32, value: u32) -> u32 {
    unsafe { c::rcst_insert(store.as_mut_ptr(), store.len(), key, value) }
}

/// Deletes a setting in the open update.
pub fn delete(store: &mut [u8], key: u32) -> u32 {
    unsafe { c::rcst_delete(store.as_mut_ptr(), store.len(), key) }
}

/// Commits the open update; 15 if its settings are the current version's.
pub fn commit(store: &mut [u8]) -> u32 {
    unsafe { c::rcst_commit(store.as_mut_ptr(), store.len()) }
}

/// Abandons the open update.
pub fn abandon(store: &mut [u8]) -> u32 {
    unsafe { c::rcst_abandon(store.as_mut_ptr(), store.len()) }
}

/// Makes the open version's settings those of a committed version; with 12 or
/// 13 the update is abandoned.
pub fn return_to(store: &mut [u8], version: u32) -> u32 {
    unsafe { c::rcst_return(store.as_mut_ptr(), store.len(), version) }
}

/// Makes a committed version the oldest, in a store of edition 2: frees every page
/// that ended at or before it. Versions below it give 6 from then on.
pub fn prune(store: &mut [u8], version: u32) -> u32 {
    unsafe { c::rcst_prune(store.as_mut_ptr(), store.len(), version) }
}

/// The number, whether the key is alive at the version, and its value.
pub fn lookup(store: &[u8], key: u32, version: u32) -> (u32, bool, u32) {
    let (mut found, mut value) = (0, 0);
    let number = unsafe {
        c::rcst_lookup(
            store.as_ptr(),
            store.len(),
            key,
            version,
            &mut found,
            &mut value,
        )
    };
    (number, found == 1, value)
}

/// The number and the count that a call gives which fills a list.
fn counted(
    list: &mut [u32],
    call: impl FnOnce(*mut u32, usize, *mut usize) -> u32,
) -> (u32, usize) {
    let mut count = 0;
    let number = call(list.as_mut_ptr(), list.len(), &mut count);
    (number, count)
}

/// The number and the count of settings found; these go to the list.
pub fn range(store: &[u8], low: u32, high: u32, version: u32, list: &mut [u32]) -> (u32, usize) {
    let (bytes, length) = (store.as_ptr(), store.len());
    counted(list, |list, room, count| unsafe {
        c::rcst_range(bytes, length, low, high, version, list, room, count)
    })
}

/// The number and the count of pages that a lookup visits; their numbers go to
/// the list, from the root down.
pub fn visits(store: &[u8], key: u32, version: u32, pages: &mut [u32]) -> (u32, usize) {
    let (bytes, length) = (store.as_ptr(), store.len());
    counted(pages, |pages, room, count| unsafe {
        c::rcst_visits(bytes, length, key, version, pages, room, count)
    })
}

/// The number and the count of differences from version `old` to version
/// `new`; these go to the list: key, kind (0 added, 1 removed, 2 changed), old
/// value and new value of each.
pub fn difference(store: &[u8], old: u32, new: u32, list: &mut [u32]) -> (u32, usize) {
    let (bytes, length) = (store.as_ptr(), store.len());
    counted(list, |list, room, count| unsafe {
        c::rcst_difference(bytes, length, old, new, list, room, count)
    })
}

/// The number and the count of stretches in which the key held one value;
/// these go to the list, start, end and value each.
pub fn life(store: &[u8], key: u32, list: &mut [u32]) -> (u32, usize) {
    let (bytes, length) = (store.as_ptr(), store.len());
    counted(list, |list, room, count| unsafe {
        c::rcst_life(bytes, length, key, list, room, count)
    })
}
